"""What steps cost, in instructions, and a board, in bytes: each setting of a board varied by itself.

Instructions are counted by valgrind, or by the machine's counter where there is no valgrind but perf. A count is of a
whole run: what steps cost is the difference to a run without them, so that opening a board and printing its table, which
go over its harts, its pages and its limit, are not in it. Reading and printing the steps' lines are, and are the same."""
import re
import shutil
import subprocess
from unittest import SkipTest

from .fixtures import HANG, PROGRAM, Test, allocating, must, must_be, script, shim

# How often a round of steps is made, and the instructions by which its cost may differ where only a setting differs: fewer
# than a look at each of 128 harts, 256 pages or thousands of events takes in any one of its steps.
ROUNDS, SAME = 100, 40


def counters():
    """The commands that count the instructions of what follows them, and what they say of it."""
    yield ["valgrind", "--tool=cachegrind", "--cache-sim=no", "--cachegrind-out-file=/dev/null"], rb"I +refs: +([\d,]+)"
    yield ["perf", "stat", "-x;", "-e", "instructions:u"], rb"(?m)^(\d+);"


def counter(room):
    for words, said in counters():
        if shutil.which(words[0]):
            found = subprocess.run([*words, PROGRAM, "--version"], capture_output=True, cwd=room, timeout=HANG)
            if found.returncode == 0 and re.search(said, found.stderr):
                return words, said
    raise SkipTest("neither valgrind nor perf counts instructions here")


class Measured:
    """Steps on a board, each with the reply that it must have."""

    def __init__(self, harts=2, pages=1, limit=1_000_000):
        self.head = f"board {harts} {pages} {limit} 0 0x80000000 0x0"
        self.steps = [("0 advance", "entry 0x80000000 0 0x0"), *start(1)]

    def and_then(self, steps):
        self.steps += steps
        return self

    def instructions(self, room, counting, more=()):
        """The instructions of a replay of these steps and more, which must have their replies."""
        words, said = counting
        steps = [*self.steps, *more]
        path = script(room, "".join(f"{it}\n" for it in [self.head, *[step for step, _ in steps]]).encode())
        found = subprocess.run([*words, PROGRAM, "replay", path], capture_output=True, cwd=room, timeout=4 * HANG)
        must_be(found, 0, None, None)
        replies = [it.partition(" -> ")[2] for it in found.stdout.decode().splitlines()[1 : 1 + len(steps)]]
        for (step, reply), told in zip(steps, replies, strict=True):
            must(f"{step} answers {told!r}, not {reply!r}", told == reply)
        return int(re.search(said, found.stderr)[1].replace(b",", b""))

    def cost(self, room, counting, steps, times=ROUNDS):
        """The instructions that these steps take beyond steps with the same numbers that are refused for their actor, made so many
        times after a first time: so both scripts have as many lines, and take as much room."""
        idle = self.instructions(room, counting, [*steps, *[refused(step) for step, _ in steps] * times])
        return (self.instructions(room, counting, [*steps] * (times + 1)) - idle) / times


def refused(step):
    """The same step by an actor that can't make it: the clock, or hart 1 for a tick."""
    actor, _, operation = step.partition(" ")
    return f"{'c' if actor != 'c' else 1} {operation}", "refused 2"


def start(hart):
    return [(f"0 ecall 0x48534d 0 {hart} 0x80000000", "ret 0 0x0"), (f"{hart} advance", f"entry 0x80000000 {hart} 0x0")]


# Every operation whose work the number of harts, of pages, of events and of waiting fences must not change, accepted and
# refused, in an order after which the board is as it was, but for its history and the time.
ROUND = [
    ("0 ecall 0x10 0", "ret 0 0x1000000"), ("0 ecall 0x10 3 0x735049", "ret 0 0x1"), ("0 ecall 0x9 0", "ret -2 0x0"),
    ("0 ecall 0x48534d 2 1", "ret 0 0x0"), ("0 ecall 0x48534d 0 1 0x80000000", "ret -6 0x0"), ("0 ecall 0x48534d 0 1 0x7ffffffe", "ret -5 0x0"),
    ("0 sstatus 1", "done"), ("0 ecall 0x48534d 1", "ret -1 0x0"), ("0 sstatus 0", "done"), ("0 ecall 0x53525354 0 3", "ret -3 0x0"),
    ("0 sie 0x2", "done"), ("0 wfi", "refused 3"), ("1 ecall 0x735049 0 0x1", "ret 0 0x0"), ("0 sip", "value 0x2"), ("0 wfi", "done"),
    ("0 clearssip", "done"), ("0 ecall 0x735049 0 0 0xffffffffffffffff", "ret 0 0x0"), ("0 clearssip", "done"), ("1 clearssip", "done"),
    ("0 sie 0", "done"), ("0 ecall 0x54494d45 0 0", "ret 0 0x0"), ("0 sip", "value 0x20"), ("0 ecall 0x54494d45 0 0xffffffffffffffff", "ret 0 0x0"),
    ("c tick 1", "done"), ("0 store 0x80000008 0x22", "done"), ("0 load 0x80000008", "value 0x22"), ("0 load 0", "fault 5"),
    ("0 amoadd 0x80000008 0", "value 0x22"), ("0 amoor.w 0x8000000c 0", "value 0x0"), ("0 amocas 0x80000008 0 1", "value 0x22"),
    ("0 store1 0x80000008 0x22", "done"), ("0 store2 0x80000009 0", "fault 6"), ("0 amoswap 0 1", "fault 7"),
    ("0 fetch 0x80000008", "value 0x22"), ("0 fetch 0x80000008", "value 0x22"), ("0 fencei", "done"), ("0 satp 0x8000000000080000", "done"),
    ("0 load 0x80000008", "value 0x22"), ("0 load 0x80000008", "value 0x22"), ("0 store 0x80000008 0x22", "done"), ("0 load 0x1000", "fault 13"),
    ("0 sfence 0x1000 5", "done"), ("0 sfence - -", "done"), ("0 satp 0", "done"), ("0 poll", "refused 2"), ("0 advance", "refused 2"),
    ("1 serve", "refused 3"), ("c advance", "refused 2"), ("0 ecall 0x52464e43 1 0x2", "waiting"), ("0 poll", "refused 3"), ("0 sip", "refused 2"),
    ("1 serve", "served"), ("0 poll", "ret 0 0x0"), ("0 ecall 0x52464e43 0 0x2", "waiting"), ("1 serve", "served"), ("0 poll", "ret 0 0x0"),
    ("0 ecall 0x52464e43 1 0x1 0 3 0xfffffffffffffffe", "ret -5 0x0"), ("1 sie 0x2", "done"), ("1 ecall 0x48534d 3 0", "waiting"),
    ("1 advance", "moved 4"), ("1 advance", "refused 3"), ("0 ecall 0x735049 0 0x2", "ret 0 0x0"), ("1 advance", "moved 6"),
    ("1 advance", "ret 0 0x0"), ("1 ecall 0x48534d 3 0x80000000 0x80000000 9", "gone"), ("1 advance", "moved 4"), ("1 advance", "moved 6"),
    ("1 advance", "entry 0x80000000 1 0x9"), ("1 clearssip", "done"), ("1 sie 0", "done"),
]  # fmt: skip

# An entry of a page table at 0x80000000 that maps the gigabyte of the RAM to itself.
GIGABYTE = [("0 store 0x80000010 0x200000cf", "done")]

# Tables that map sixteen pages of 4 KiB from 0x80000000 on, all to the fourth page of the RAM.
KILOBYTES = [
    ("0 store 0x80000010 0x20000401", "done"),
    ("0 store 0x80001000 0x20000801", "done"),
    *[(f"0 store {0x80002000 + 8 * it:#x} 0x20000ccf", "done") for it in range(16)],
]
SV39 = [("0 satp 0x8000000000080000", "done")]
LOAD = [("0 load 0x80003008", "value 0x0")]
LOADS = [(f"0 load {0x80000008 + 4096 * it:#x}", "value 0x0") for it in range(16)]

# The most instructions for each thing that a step goes over: an entry of a cache that is looked at, a hart that a fence asks
# (which serves it), a fence that waits where its hart stops (which is asked, and returned from), a hart at a stop and at a
# reset, and a page without a written word at a cold reboot.
EACH_ENTRY, EACH_ASKED, EACH_WAITING, EACH_AT_A_STOP, EACH_AT_A_RESET, EACH_CLEAN = 25, 340, 800, 20, 60, 20


def must_cost(what, cost, least, most):
    must(f"{what}: {cost:.0f} instructions, not from {least} to {most}", least <= cost <= most)


def fenced(harts):
    """A fence of so many harts from hart 1 on, each of which serves it, and what hart 0 is answered at last."""
    serves = [(f"{it} serve", "served") for it in range(1, harts + 1)]
    return [(f"0 ecall 0x52464e43 1 {(1 << harts) - 1:#x} 1", "waiting"), *serves, ("0 poll", "ret 0 0x0")]


def fenced_by(some):
    """The fences of some harts at hart 1, and their returns."""
    asks = [(f"{it} ecall 0x52464e43 1 0x2", "waiting") for it in some]
    return asks, [(f"{it} poll", "ret 0 0x0") for it in some]


def all_started():
    return Measured(harts=128).and_then([it for hart in range(2, 128) for it in start(hart)])


STOP = [("1 ecall 0x48534d 1", "gone"), ("1 advance", "moved 1"), *start(1)]

# The most instructions that an entry takes more among 10,000 blocks than among ten: those of two searches for its block, as
# the hart is entered, and as the end of the run is judged.
AMONG_BLOCKS = 800

# A line of each operation as it is printed, and the instructions by which one in another spelling must cost more: it is read word by
# word. (The numbers of `sstatus` have a limit of their own, so its lines are read so too.)
AMOS = [f"amo{it}{size}" for it in ("swap", "add", "and", "or", "xor", "min", "max", "minu", "maxu") for size in ("", ".w")]
PRINTED = [
    "ecall 0x10 0x0 0x0 0x0 0x0 0x0 0x0 0x0", "load 0x1000", "store 0x1000 0x1", "fetch 0x1000", "satp 0x0", "sie 0x2", "sip", "clearssip",
    "sfence - -", "sfence 0x1000 0x1", "fencei", "wfi", "poll", "serve", "advance", "tick 0x1", "amocas 0x1000 0x1 0x2",
    *[f"{it} 0x1000 0x1" for it in (*AMOS, "store1", "store2", "store4")],
]
WORD_BY_WORD = 700

# The most bytes of a board's allocations for each event of its limit, page, hart, and pair of harts, and of all else that
# a run of the program takes: its buffers and its command line.
EACH_EVENT, EACH_PAGE, EACH_HART, EACH_PAIR, ELSE = 72, 4_104, 1_408, 8, 160_000


class Costs(Test):
    def test_steps_cost_the_same_on_all_boards(self):
        """A round of every operation costs the same whatever the harts, the pages, the limit, the history and what waits are."""
        counting = counter(self.room)
        waiting = [it for hart in range(2, 128) for it in (*start(hart), (f"{hart} ecall 0x52464e43 1 0x1", "waiting"))]
        base = Measured().and_then(GIGABYTE).cost(self.room, counting, ROUND)
        for what, board in (
            ("128 harts", Measured(harts=128)),
            ("256 pages", Measured(pages=256)),
            ("room for few more events", Measured(limit=10_000)),
            ("5,000 events before", Measured().and_then([("1 ecall 0x9 0", "ret -2 0x0")] * 5_000)),
            ("126 fences that wait, of as many harts inside their calls", Measured(harts=128).and_then(waiting)),
        ):
            cost = board.and_then(GIGABYTE).cost(self.room, counting, ROUND)
            must(f"with {what} a round of {len(ROUND)} steps takes {cost:.0f} instructions, else {base:.0f}", abs(cost - base) <= SAME)

    def test_printed_lines_are_read_in_one_pass(self):
        """A line of each operation, as it is printed, costs less than with a second blank, which has it read word by word."""
        counting = counter(self.room)
        for line in PRINTED:
            actor = "1" if line.startswith("tick") else "c"
            plain, spelt = (Measured().instructions(self.room, counting, [(f"{actor}{blank}{line}", "refused 2")] * ROUNDS) for blank in (" ", "  "))
            must(f"{line}: {(spelt - plain) / ROUNDS:.0f} instructions more with a second blank", spelt - plain >= ROUNDS * WORD_BY_WORD)

    def test_a_hit_does_not_walk(self):
        """A hit costs the same whatever the level of the leaf, and at most so much for each of sixteen entries."""
        counting = counter(self.room)
        near, far = (Measured(pages=4).and_then([*tables, *SV39, *LOAD]) for tables in (GIGABYTE, KILOBYTES))
        near, far = (it.cost(self.room, counting, LOAD) for it in (near, far))
        must_cost("a hit of a leaf at level 0, beside one at level 2", far - near, -12, 12)
        full = Measured(pages=4).and_then([*KILOBYTES, *SV39, *LOADS])
        oldest, newest = (full.cost(self.room, counting, [LOADS[it]]) for it in (0, 15))
        must_cost("a hit of the newest of sixteen entries, beside the one of one", newest - far, -SAME, SAME)
        must_cost("a hit of the oldest of sixteen entries, beside the newest", oldest - newest, -SAME, 15 * EACH_ENTRY)

    def test_what_fences_cost(self):
        """A fence costs so much for each hart that it asks, and a serve the same whatever waits behind it."""
        counting, board = counter(self.room), all_started()
        one, two, many = (board.cost(self.room, counting, fenced(harts), 20) for harts in (1, 2, 62))
        must_cost("a second hart that is asked", two - one, 0, EACH_ASKED)
        must_cost("each of 62 harts that are asked", (many - one) / 61, 0, EACH_ASKED)
        costs = []
        for some in (range(126, 128), range(2, 128)):
            asks, polls = fenced_by(some)
            costs.append(board.cost(self.room, counting, asks + [("1 serve", "served")] * len(some) + polls, 10) / len(some))
        # (with their numbers of one to three digits)
        must_cost("each fence of 126 that wait at a hart, beside each of two", costs[1] - costs[0], -160, 160)

    def test_what_stops_and_resets_cost(self):
        """A stop goes over the harts and the fences that wait, a reset over the harts, and a cold one over the written lines of the RAM."""
        counting = counter(self.room)
        few, many = (Measured(harts=harts).cost(self.room, counting, STOP) for harts in (2, 128))
        must_cost("each hart at a stop", (many - few) / 126, 0, EACH_AT_A_STOP)
        costs = []
        for some in (range(2, 3), range(2, 128)):
            asks, polls = fenced_by(some)
            costs.append(all_started().cost(self.room, counting, [*asks, *STOP[:1], *polls, *STOP[1:]], 10))
        must_cost("each fence that waits at a stop", (costs[1] - costs[0]) / 125, 0, EACH_WAITING)
        for kind, each_clean in ((1, EACH_CLEAN), (2, 0)):
            reset = [(f"0 ecall 0x53525354 0 {kind}", "gone"), ("0 advance", "entry 0x80000000 0 0x0"), *start(1)]
            boards = Measured(), Measured(harts=128), Measured(pages=256)
            least, of_harts, of_pages = (it.cost(self.room, counting, reset, 20) for it in boards)
            must_cost(f"each hart at a reset of type {kind}", (of_harts - least) / 126, 0, EACH_AT_A_RESET)
            must_cost(f"255 pages at a reset of type {kind}", of_pages - least, -SAME, 255 * each_clean + SAME)

    def test_entries_among_many_blocks(self):
        """An entry costs the same whatever the number of blocks is, but for a search that takes a few looks more."""
        counting = counter(self.room)
        words, said = counting

        def instructions(blocks, limit):
            """The instructions of a run whose hart enters the last of so many blocks over and over, up to the limit."""
            lines = [f"board 1 1 {limit} 0 0x80000000 0x0"]
            lines += [f"at {0x40000000 + 2 * it:#x}" for it in range(blocks // 2)]
            lines += [f"at {0x90000000 + 2 * it:#x}" for it in range(blocks - blocks // 2 - 1)]
            lines += ["at 0x80000000", "sie 2", "ecall 0x735049 0 1", "ecall 0x48534d 3 0x80000000 0x80000000"]
            path = script(self.room, "".join(f"{it}\n" for it in lines).encode())
            found = subprocess.run([*words, PROGRAM, "run", path], capture_output=True, cwd=self.room, timeout=4 * HANG)
            must_be(found, 3, None, None)
            must(f"of {limit} events {found.stdout.count(b' -> entry ')} are entries", found.stdout.count(b" -> entry ") == limit // 6)
            return int(re.search(said, found.stderr)[1].replace(b",", b""))

        few, many = ((instructions(blocks, 6_000) - instructions(blocks, 600)) / 900 for blocks in (10, 10_000))
        must_cost("an entry among 10,000 blocks, beside one among ten", many - few, -AMONG_BLOCKS, AMONG_BLOCKS)

    def test_memory_of_a_board(self):
        """A board's allocations are bounded by its harts, pages and limit, and their number is linear in its harts."""
        made, numbers = shim(self.room), {}
        harts_alone = [(harts, 1, 1) for harts in (1, 2, 3, 31, 32, 64, 127, 128)]
        others = [(1, 1, 1_000), (1, 1, 1_000_000), (1, 2, 1), (1, 255, 1), (1, 256, 1), (100, 100, 100_000)]
        for harts, pages, limit in [*harts_alone, *others, (128, 256, 1_000_000)]:
            text = b"board %d %d %d 0 0x80000000 0\n" % (harts, pages, limit)
            found, sizes = allocating(made, self.room, ["replay", script(self.room, text)])
            must_be(found, 0, None, b"")
            most = limit * EACH_EVENT + pages * EACH_PAGE + harts * EACH_HART + harts**2 * EACH_PAIR + ELSE
            must(f"{text!r} takes {sum(sizes)} bytes, not {most} at most", sum(sizes) <= most)
            numbers[harts, pages, limit] = len(sizes)
        few, half, full = (numbers[harts, 1, 1] for harts in (32, 64, 128))
        must(f"boards of 32, 64 and 128 harts take {few}, {half} and {full} allocations", full - half == 2 * (half - few))
        must(f"the number of allocations is another one with other pages or limits: {numbers}", {numbers[1, pages, limit] for harts, pages, limit in others if harts == 1} == {numbers[1, 1, 1]})
