"""Each example against what is stored of it."""
import os

from . import programs
from .fixtures import DATA, EXAMPLES, FULL, TASKS, WRONG_KIND, Test, add, many_runs, must, must_agree, must_be, must_run, ran, shown, stored

# How the examples end that don't end with status 0, with what they say, and the programs that don't end quiet.
ENDS = {"second-boot-hart.sched": (3, FULL), "real-wake.trace": (5, b"")}

ENDS_OF_PROGRAMS = {"stuck.program": "stuck"}


def example_is_run(room, name, path, place):
    """Where all orders end with the same table, that is what is stored."""
    out = must_run(room, path, ENDS_OF_PROGRAMS.get(name, "quiet"), place)
    if os.path.exists(os.path.join(DATA, f"{name}.table")):
        table = out[out.index(b"# time ") :]
        must(f"its table is {shown(table)}", table == stored(f"{name}.table"))
    if name in programs.WRONG_OF and (wrong := programs.WRONG_OF[name](out.splitlines())):
        raise AssertionError(f"{wrong}: {out.decode()}")


def names():
    """The names of all examples, and of what is stored of one: an example that lacks its output fails, and so does an output without one."""
    found = {it for it in os.listdir(EXAMPLES) if os.path.isfile(os.path.join(EXAMPLES, it))}
    for kind in (".out", ".table"):
        found |= {it[: -len(kind)] for it in os.listdir(DATA) if it.endswith(kind)}
    return sorted(found)


def is_as_stored(room, name):
    """A schedule is replayed, and what it prints is a trace that agrees; a trace is checked; a program is run; other tasks take none."""
    path = os.path.join(EXAMPLES, name)
    status, said = ENDS.get(name, (0, b""))
    own = {"sched": "replay", "trace": "check", "program": "run"}[name.rpartition(".")[2]]
    for task in TASKS:
        if task != own:
            must_be(ran([task, path]), 1, b"", WRONG_KIND)
    if own == "run":
        many_runs(room, path, lambda place: example_is_run(room, name, path, place))
    else:
        must_be(ran([own, path]), status, stored(f"{name}.out"), said)
    if own == "replay":
        must_agree(room, stored(f"{name}.out"))


class Examples(Test):
    """Each example is a test: `example NAME`."""


for name in names():
    add(Examples, f"example {name}", lambda room, name=name: is_as_stored(room, name))
