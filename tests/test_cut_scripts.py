"""Scripts of each kind that are cut anywhere, and come in one piece or in two, which are parted anywhere."""
import os

from . import grammar
from .fixtures import TASKS, Test, at_once, must, must_be, ran, shown

ONE_HART = b"board 1 1 10 0 0x80000000 0x0\n"

# A script of each kind, with the tasks that take a piece of it at a time.
CUT = [
    (ONE_HART + b"0 advance\n0 ecall 0x10 0\n", ("replay", "check")),
    (ONE_HART + b"at 0x80000000\nsip\nclock\ntick 3\n", ("run",)),
    (ONE_HART + b"0 advance -> entry 0x80000000 0 0\nc tick 3 -> done\n", ("check",)),
]


def in_pieces(task, *pieces):
    """Runs a task whose reads give these pieces, one each: they wait on a pipe of packets, a packet for each read."""
    reading, writing = os.pipe2(os.O_DIRECT)
    try:
        for piece in filter(None, pieces):
            os.write(writing, piece)
        os.close(writing)
        return ran([task, f"/dev/fd/{reading}"], pass_fds=[reading])
    finally:
        os.close(reading)


def in_order(printed):
    """What was printed, whatever the order of its events was."""
    return sorted(printed.splitlines())


def is_cut(kept, tasks):
    """What is left of a script is judged as the grammar judges it, in one piece and in every two."""
    for task in TASKS:
        whole, said = in_pieces(task, kept), grammar.said_of(kept, task)
        if (whole.returncode, whole.stderr) != (1 if said else 0, said) or bool(whole.stdout) == bool(said):
            raise AssertionError(f"{task} {kept!r}: status {whole.returncode}, it said {shown(whole.stderr)}, not {said!r}")
        for size in range(1, len(kept) if task in tasks else 0):
            parted = in_pieces(task, kept[:size], kept[size:])
            must_be(parted, whole.returncode, None, whole.stderr)
            must(f"{task} {kept!r}, parted after {size} bytes: it printed {shown(parted.stdout)}", in_order(parted.stdout) == in_order(whole.stdout))


class CutScripts(Test):
    def test_cut_scripts_in_every_two_pieces(self):
        """Each beginning of a script of each kind."""
        for whole, tasks in CUT:
            at_once(lambda size, whole=whole, tasks=tasks: is_cut(whole[:size], tasks), range(len(whole) + 1))
