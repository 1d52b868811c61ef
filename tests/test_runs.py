"""Runs of programs: those of one order, and those whose threads may go in many."""
import os
import random

from . import fixtures, programs
from .all_orders import Program
from .fixtures import (
    BAD_BOARD, FULL, ONE_BOARD, SHORT, TOO_LONG, TRACE, TWO_HARTS, WRONG_KIND, Test, add, at_once, many_runs, must, must_be, must_have, must_run, named, ran,
    script, shown, write,
)  # fmt: skip
from .judge import Followed, NoOrder
from .replays import printed
from .test_boards import BAD_BOARDS


def runs_of(room, program):
    """A program whose threads may go in many orders: each run ends in the same way, with these lines in its table."""
    path = script(room, program.text)
    many_runs(room, program.text.decode(), lambda place: must_have(must_run(room, path, program.end, place), *program.table))


def random_is_run(room, seed):
    """Whatever the order was: each hart did its blocks' operations in their order, each answered as the model answers it; the end is
    the one that holds, and none could have gone on."""
    program = programs.RandomProgram(seed)
    text = program.text().decode()
    record = must_run(room, write(os.path.join(room, f"{seed}.program"), text), None, seed).decode()
    model = Program(text)
    try:
        ends = Followed(model, record, program.limit).ends(model, program.limit)
    except NoOrder as wrong:
        ends = {wrong}
    must(f"the end is none of {ends}\n{text}\n{record}", any(record.endswith(f"\n# end {it}\n") for it in ends))
    os.remove(os.path.join(room, f"{seed}.program"))


def outcome(text, events, end):
    """All that a run prints whose events are these lines, each as the model answers it, with the model's table."""
    head = text.splitlines()[0]
    out = "".join(line + "\n" for line in printed("\n".join(it.partition(b" -> ")[0].decode() for it in (head, *events)))).encode()
    must(f"{events} are not the model's: {out.decode()}", out.startswith(b"".join([head, b"\n", *events, b"# time "])))
    return out + b"# end %s\n" % end.encode()


ENTRY = b"0 advance -> entry 0x80000000 0 0x0\n"
TWO_HARTS_EVENTS = b"""\
0 advance -> entry 0x80000000 0 0x0
0 ecall 0x48534d 0x0 0x1 0x80001000 0x7 0x0 0x0 0x0 -> ret 0 0x0
1 advance -> entry 0x80001000 1 0x7
1 ecall 0x48534d 0x1 0x0 0x0 0x0 0x0 0x0 0x0 -> gone
1 advance -> moved 1
""".splitlines(keepends=True)
FENCES_ITSELF = b"0 ecall 0x52464e43 0x1 0x1 0x0 0x0 0x0 0x0 0x0 -> waiting\n"
IPI_TO_ITSELF = b"0 ecall 0x735049 0x0 0x1 0x0 0x0 0x0 0x0 0x0 -> ret 0 0x0\n"
SHUTS_DOWN = b"0 ecall 0x53525354 0x0 0x0 0x0 0x0 0x0 0x0 0x0 -> gone\n"
TO_SLEEP = [b"0 advance -> moved 4\n", b"0 advance -> moved 6\n"]
SLEEPS = b"0 ecall 0x48534d 0x3 0x0 0x0 0x0 0x0 0x0 0x0 -> waiting\n"
SLEEPS_ELSEWHERE = b"0 ecall 0x48534d 0x3 0x80000000 0x80000100 0x9 0x0 0x0 0x0 -> gone\n"
WAKES = [b"0 sie 0x2 -> done\n", IPI_TO_ITSELF]
BOOT, ALONE = b"at 0x80000000\n", ONE_BOARD + b"at 0x80000000\n"
# Boards with room for one event and for two.
ONE_EVENT, TWO_EVENTS = (ONE_BOARD.replace(b" 10 ", b" %d " % limit) for limit in (1, 2))

# Programs whose events have one order, with these and the end.
RAN = [
    (TWO_HARTS, "quiet", TWO_HARTS_EVENTS),
    (ONE_BOARD, "quiet", [ENTRY]),
    (ALONE, "quiet", [ENTRY]),
    (ONE_BOARD + b"clock\n", "quiet", [ENTRY]),
    # a block that no hart enters, and a hart that enters where no block is
    (ONE_BOARD + b"at 0x80000002\nsip\n", "quiet", [ENTRY]),
    (ONE_BOARD + b"at 0x80000002\nwfi\n" + BOOT + b"sip\nat 0x7fffffff\nwfi\n", "quiet", [ENTRY, b"0 sip -> value 0x0\n"]),
    (ALONE + b"wfi\n", "stuck", [ENTRY]),
    (ALONE + b"wfi\nsip\n", "stuck", [ENTRY]),
    (ONE_EVENT + BOOT + b"sip\n", "history-full", [ENTRY]),
    # a full history is no end where nothing is refused for it
    (ONE_EVENT + BOOT, "quiet", [ENTRY]),
    (ONE_EVENT + BOOT + b"wfi\n", "stuck", [ENTRY]),
    (TWO_EVENTS + BOOT + b"ecall 0x53525354 0 0\nsip\n", "off", [ENTRY, SHUTS_DOWN]),
    (ALONE + b"ecall 0x53525354 0\n", "off", [ENTRY, SHUTS_DOWN]),
    # a fence call of the hart itself is polled, and a call that fails is done
    (
        ALONE + b"ecall 0x52464e43 1 1\necall 9 9\n", "quiet",
        [ENTRY, FENCES_ITSELF, b"0 poll -> ret 0 0x0\n", b"0 ecall 0x9 0x9 0x0 0x0 0x0 0x0 0x0 0x0 -> ret -2 0x0\n"],
    ),
    # a retentive suspend goes on in its block, and a non-retentive one begins that of its resume address
    (
        ALONE + b"sie 2\necall 0x735049 0 1\necall 0x48534d 3 0\nsip\nat 0x80000100\nfencei\n", "quiet",
        [ENTRY, *WAKES, SLEEPS, *TO_SLEEP, b"0 advance -> ret 0 0x0\n", b"0 sip -> value 0x2\n"],
    ),
    (
        ALONE + b"sie 2\necall 0x735049 0 1\necall 0x48534d 3 0x80000000 0x80000100 9\nsip\nat 0x80000100\nfencei\n", "quiet",
        [ENTRY, *WAKES, SLEEPS_ELSEWHERE, *TO_SLEEP, b"0 advance -> entry 0x80000100 0 0x9\n", b"0 fencei -> done\n"],
    ),
    # a sleep that nothing ends, with its block done or not
    (ALONE + b"ecall 0x48534d 3 0\n", "stuck", [ENTRY, SLEEPS, b"0 advance -> moved 4\n"]),
]  # fmt: skip

# Programs with a clock, with the time at their end, the lines of the hart's events in their order and those of the clock's.
CLOCKED = [
    (b"clock\ntick 3\n", 3, [ENTRY], [b"c tick 0x3 -> done\n"]),
    (b"clock\ntick 3\ntick 0\ntick 4\n", 7, [ENTRY], [b"c tick %#x -> done\n" % it for it in (3, 0, 4)]),
    # the first tick past the end of time is the last one
    (b"clock\ntick 0xfffffffffffffffe\ntick 1\ntick 0\n", 2**64 - 2, [ENTRY], [b"c tick 0xfffffffffffffffe -> done\n"]),
]


class Runs(Test):
    def test_programs_of_one_order(self):
        for text, end, events in RAN:
            found = must_run(self.room, script(self.room, text), end)
            must(f"{text!r}: it printed {found.decode()}", found == outcome(text, events, end))

    def test_programs_with_a_clock(self):
        """A hart and the clock go on side by side, each in its order, and time has gone on at the end."""
        for text, time, harts, ticks in CLOCKED:
            out = must_run(self.room, script(self.room, ONE_BOARD + text), "quiet")
            events = out.splitlines(keepends=True)[1 : 1 + len(harts) + len(ticks)]
            must(f"{text!r}: it printed {out.decode()}", out == outcome(ONE_BOARD, events, "quiet") and b"# time %016x " % time in out)
            must(f"{text!r}: its events are {events}", [it for it in events if it[:1] == b"0"] == harts and [it for it in events if it[:1] == b"c"] == ticks)
        # (the clock has one tick; harts rest long after that, until one wakes the other)
        first = b"at 0x80000000\nsie 0x2\necall 0x48534d 0 1 0x80000100 0\nwfi\nclearssip\n" + b"sip\n" * 3_000 + b"ecall 0x735049 0 0x2 0\n"
        second = b"at 0x80000100\nsie 0x2\n" + b"sip\n" * 3_000 + b"ecall 0x735049 0 0x1 0\nwfi\nclearssip\n"
        text = b"board 2 1 9000 0 0x80000000 0x0\nclock\ntick 1\n" + first + second
        for _ in range(5):
            must_run(self.room, script(self.room, text), "quiet")

    def test_programs_with_thousands_of_ticks(self):
        """The clock does each of thousands of ticks, beside a hart that does as many operations, or what there is room for."""
        for times in (99, 100, 101, 1_000, 4_097, 20_000):
            for sips in (0, times):
                limit = times + 1 + sips
                head = b"board 1 1 %d 0 0x80000000 0x0\n" % limit
                out = must_run(self.room, script(self.room, head + BOOT + b"sip\n" * sips + b"clock\n" + b"tick 2\n" * times), "quiet")
                events = out.splitlines(keepends=True)[1 : 1 + limit]
                done = events.count(b"c tick 0x2 -> done\n"), events.count(b"0 sip -> value 0x0\n")
                must(f"of {times} ticks and {sips} operations {done} were done; it ended {shown(out[-400:])}", done == (times, sips) and out == outcome(head, events, "quiet"))
        full = b"board 1 1 4000 0 0x80000000 0x0\nclock\n" + b"tick 2\n" * 5_000
        out = must_run(self.room, script(self.room, full), "history-full")
        ticked = out.count(b"c tick 0x2 -> done\n")
        must(f"a full history: {ticked} ticks; it ended {shown(out[-400:])}", ticked + out.count(ENTRY) == 4_000 and b"# time %016x events    4000 " % (2 * ticked) in out)

    @named("what isn't run")
    def test_what_isn_t_run(self):
        """Scripts of other kinds, and bad boards."""
        for text in (SHORT, TRACE, b"board 0 1 10 0 0x80000000 0\n0 sip\n"):
            must_be(ran(["run", script(self.room, text)]), 1, b"", WRONG_KIND)
        for bad, good in BAD_BOARDS:
            for rest in (b"", BOOT + b"sip\n", b"clock\ntick 3\n"):
                must_be(ran(["run", script(self.room, bad + b"\n" + rest)]), 1, b"", BAD_BOARD)
            must_be(ran(["run", script(self.room, bad + b"\nsip\n")]), 1, b"", b"sbiboard: line 2: fault 6\n")
            must_run(self.room, script(self.room, good + b"\n"), "quiet")

    def test_long_programs(self):
        """With ample memory a block of any length is done."""
        line = b"ecall 0x10 0\n"
        head = b"board 2 1 1000000 0 0x80000000 0x0\n" + BOOT
        for times in (1_000, 500_000, (TOO_LONG - 1 - len(head)) // len(line)):
            full = times > 999_999
            found = ran(["run", script(self.room, head + line * times)])
            must_be(found, 3 if full else 0, None, FULL if full else b"")
            events = min(times + 1, 1_000_000)
            must_have(found.stdout[-1_000:], b"# time 0000000000000000 events %7d power on reset none\n" % events)
            must(f"{times} calls: other lines of events", found.stdout.count(b" -> ret 0 0x1000000\n") == events - 1)

    @named("a program of 10,000 blocks")
    def test_a_program_of_10_000_blocks(self):
        """Each of 10,000 blocks is entered where its address is asked for, whatever stands before it and behind it."""
        places = list(range(10_000))
        random.Random(1).shuffle(places)
        text, addresses = programs.hops(places)
        found = must_run(self.room, script(self.room, text.encode()), "quiet").decode().splitlines()
        entries = [f"0 advance -> entry {it:#x} 0 0x0" for it in addresses]
        must("the entries are others", [it for it in found if " -> entry " in it] == entries)
        must("the last block isn't done", found.count("0 sip -> value 0x2") == 1)

    def test_runs_of_random_programs(self):
        """Eight times as many programs as runs of the others, each another one, and the same ones each time."""
        at_once(lambda seed: random_is_run(self.room, seed), range(8 * fixtures.RUNS_OF_EACH))


for name, program in programs.MANY.items():
    add(Runs, name, lambda room, program=program: runs_of(room, program))
