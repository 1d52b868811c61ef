"""Want of memory, and how much a run takes."""
import itertools
import os
import resource
import subprocess
import sys

from . import programs
from .fixtures import (
    BOARD, DIFFERS, ENDS_OF_RUNS, EVERY, EXAMPLES, FULL, HANG, LAST, NO_MEMORY, PROGRAM, SHORT, TASKS, TOO_LONG, TRACE, WRONG_KIND, Test, allocating, every,
    must, must_be, must_run, ran, script, shim,
)  # fmt: skip
from .test_boards import BAD_BOARDS
from .test_runs import RAN, outcome


def each_in_turn(made, room, words):
    """Each allocation of a run refused in turn, by itself and with all after it: no memory and nothing printed, or, where it can do
    without, the whole output."""
    good, sizes = allocating(made, room, words)
    must("no allocation was seen", sizes)
    for number, is_last in itertools.product(range(1, len(sizes) + 1), (False, True)):
        found, _ = allocating(made, room, words, number, **({"FROM": str(number)} if is_last else {}))
        try:
            if found.returncode == 6:
                must_be(found, 6, b"", NO_MEMORY)
            else:
                must_be(found, good.returncode, good.stdout, good.stderr)
        except AssertionError as wrong:
            later = " with all after it" if is_last else ""
            raise AssertionError(f"{words}: allocation {number} of {len(sizes)}, of {sizes[number - 1]} bytes, refused{later}: {wrong}")
    return good


# Lines with the setup that lets the board accept them, of which a million is a script.
MILLION = [
    ("replay", b"0 advance\n", b"0 sip\n"), ("replay", b"0 advance\n", b"0 load 0\n"), ("replay", b"0 advance\n", b"0 ecall 8 0\n"),
    ("replay", b"0 advance\n", b"c tick 0\n"),
    ("check", b"0 advance -> entry 0x80000000 0 0\n0 sie 2 -> done\n0 ecall 0x735049 0 1 0 -> ret 0 0\n", b"0 wfi -> done\n"),
]  # fmt: skip

# Prints the peak of memory of a run, in kibibytes: a process of its own, since a child's is never below its parent's.
PEAK = """
import os, subprocess, sys
child = subprocess.Popen(sys.argv[1:], stdout=subprocess.DEVNULL)
_, status, used = os.wait4(child.pid, 0)
print(os.waitstatus_to_exitcode(status), used.ru_maxrss)
"""


class Memory(Test):
    def test_each_allocation_refused(self):
        made, path = shim(self.room), script(self.room, every(len(EVERY.splitlines()) + 1, 79))
        must_be(each_in_turn(made, self.room, ["replay", path]), 3, None, FULL)
        off = script(self.room, b"board 2 1 9 1 0x80000000 7\n" + LAST)
        must_be(each_in_turn(made, self.room, ["replay", off]), 0, None, b"")
        must_be(each_in_turn(made, self.room, ["replay", script(self.room, BOARD + b"0 fly\n")]), 1, b"", None)
        must_be(each_in_turn(made, self.room, ["replay", os.path.join(EXAMPLES, "three-harts.program")]), 1, b"", WRONG_KIND)
        for words in (["--help"], *[[task, "--help"] for task in TASKS]):
            must_be(each_in_turn(made, self.room, words), 0, None, b"")
        must_be(each_in_turn(made, self.room, ["replay"]), 2, b"", None)

    def test_each_allocation_of_a_check_refused(self):
        made = shim(self.room)
        trace = ran(["replay", script(self.room, every(len(EVERY.splitlines()) + 1, 79))]).stdout
        must_be(each_in_turn(made, self.room, ["check", script(self.room, trace)]), 0, b"agrees %d\n" % trace.count(b" -> "), b"")
        must_be(each_in_turn(made, self.room, ["check", script(self.room, BOARD)]), 0, b"agrees 0\n", b"")
        must_be(each_in_turn(made, self.room, ["check", script(self.room, DIFFERS)]), 5, b"differs at line 3: ret 0 0x1000000\n", b"")
        must_be(each_in_turn(made, self.room, ["check", script(self.room, SHORT)]), 1, b"", WRONG_KIND)
        must_be(each_in_turn(made, self.room, ["check", script(self.room, BOARD + b"0 sip ->\n")]), 1, b"", None)

    def test_each_allocation_of_a_run_refused(self):
        """Also of allocations for a thread. Threads that run when one is refused end."""
        made = shim(self.room)
        for text, end, events in (*RAN, (programs.chain(8, stops=False).text, "quiet", None)):
            status, said = ENDS_OF_RUNS[end]
            must_be(each_in_turn(made, self.room, ["run", script(self.room, text)]), status, events and outcome(text, events, end), said)
        for text in (SHORT, TRACE, BOARD + b"0 fly\n", BAD_BOARDS[0][0]):
            must_be(each_in_turn(made, self.room, ["run", script(self.room, text)]), 1, b"", None)

    def test_each_thread_refused(self):
        """Each thread in turn, which are one for each hart and one for the clock: those that run by then end, whatever they do."""
        made = shim(self.room)
        chains = [(harts, programs.chain(harts)) for harts in (1, 2, 8, 128)]
        for harts, program in (*chains, (8, programs.fences(8)), (16, programs.sleepers(16)), (4, programs.reboots())):
            path = script(self.room, program.text)
            for number in range(1, harts + 2):
                found, _ = allocating(made, self.room, ["run", path], thread=number)
                must_be(found, 6, b"", NO_MEMORY)
            status, said = ENDS_OF_RUNS[program.end]
            must_be(allocating(made, self.room, ["run", path], thread=harts + 2)[0], status, None, said)

    def test_little_room_for_threads(self):
        """With a limit on the addresses of the process there is no memory, or there is all that was asked for."""
        path, statuses = script(self.room, programs.chain(128, stops=False).text), set()
        good = must_run(self.room, path, "quiet")
        for megabytes in (32, 64, 128, 256, 512, 768, 1024, 1536, 4096):
            limit = megabytes << 20
            found = ran(["run", path], timeout=HANG, preexec_fn=lambda: resource.setrlimit(resource.RLIMIT_AS, (limit, limit)))
            must_be(found, *((6, b"", NO_MEMORY) if found.returncode else (0, good, b"")))
            statuses.add(found.returncode)
        must(f"all of these limits end with {statuses}", statuses == {0, 6})

    def test_steps_take_no_memory(self):
        """The room for the history, at most 72 bytes an event, is the last allocation: no step of those after it takes any, or lacks it."""
        made, limit = shim(self.room), 5_003
        for steps in (10, 1_000):
            schedule = every(steps, limit)
            trace = ran(["replay", script(self.room, schedule)]).stdout
            for task, text in (("replay", schedule), ("check", trace)):
                found, sizes = allocating(made, self.room, [task, script(self.room, text)])
                must_be(found, 0, None, b"")
                must(f"{task}: the last of {len(sizes)} allocations, of {sizes[-1]} bytes, isn't the room for {limit} events", not (sizes[-1] % limit) and sizes[-1])
                must(f"an event takes {sizes[-1] // limit} bytes", sizes[-1] // limit <= 72)
                without, _ = allocating(made, self.room, [task, script(self.room, text)], FROM=str(len(sizes) + 1))
                must_be(without, 0, found.stdout, b"")

    def test_memory_of_a_million_lines(self):
        """A script of a million lines takes at most 200 bytes a line, its own bytes, its lines and the history together."""
        for task, setup, line in MILLION:
            times = 1_000_000 - setup.count(b"\n")
            path = script(self.room, b"board 1 1 1000000 0 0x80000000 0\n" + setup + line * times)
            words = [sys.executable, "-c", PEAK, PROGRAM, task, path]
            status, peak = map(int, subprocess.run(words, capture_output=True, check=True, timeout=60).stdout.split())
            must(f"{task} of a million {line!r}: status {status}, {peak * 1024 / 1_000_000:.0f} bytes a line", status == 0 and peak * 1024 <= 200 * 1_000_000)

    def test_text_is_not_kept(self):
        """A script's text isn't in memory at one time, whether its lines are short, or nothing but ends."""
        made = shim(self.room)
        for head in (b"board 1 1 9 0 0x80000000 0\n", b"no board line\n"):
            for line in (b"# a comment\n", b"\n", b"\t \r\n"):
                path = script(self.room, head + line * ((TOO_LONG - 1 - len(head)) // len(line)))
                for task in ("replay", "check"):
                    found, sizes = allocating(made, self.room, [task, path])
                    must(f"{task} of 16 MB of {line!r}: status {found.returncode}, {sum(sizes)} bytes", found.returncode == head.startswith(b"no") and sum(sizes) <= 1_000_000)
