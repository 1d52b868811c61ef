"""What is told of each file by tables: each key below a point, each kind of line behind it, and counts of all sizes."""
import os
import re

from board_model import access_of

from . import all_orders, expected_causes, judge, random_programs, replays
from .expected_points import Case, grouped
from .fixtures import NO_MEMORY, PROGRAM, TESTER, Test, allocating, must, piping, ran, read, shim, tester, told, told_of, write
from .test_few_states import EDGES, are_all
from .test_judged_orders import explored, orders_alone, run_on_threads, tested, tried
from .test_orders import RACE, STALE

# Hart 1 loads beside two stores of hart 0, which does some more before and behind them: its records are long, and differ.
LONG = """\
board 2 4 13 0 0x80000000 0x0
at 0x80000000
sip
sip
sip
sip
ecall 0x48534d 0 1 0x80001000
store 0x80002000 1
store 0x80002000 2
sip
sip
sip
sip
at 0x80001000
load 0x80002000
ecall 0x48534d 2 9
load 0x80002000
clearssip
"""

# Conditions of it, of all kinds, of which most fail in some orders, late and early, and some hold.
OF_LONG = (
    "never 1 load -> value 0x1", "never 1 clearssip after 0 store _ 2", "each 1 load -> value 0x0", "before 0 store 0x80002000 2, 1 load", "end off",
    "never 0 sip after 1 clearssip", "some 1 load -> value 3", "some 1 load -> value 2", "never 1 ecall -> ret -3 after 0 store _ 1", "never 0 poll",
    "before 1 clearssip, 0 store 0x80002000 1", "each 0 sip -> value 0", "end quiet",
)  # fmt: skip


def case_of(room, name, text):
    write(os.path.join(room, name), text)
    return Case(name, text, all_orders.Orders(text, loads=True))


def blocks_of(lines):
    """The keys below each failing point that have a number, by the point's number."""
    found, point = {}, None
    for line in lines:
        if match := re.match(r"(?:not )?ok (\d+) - ", line):
            point = int(match[1])
        elif match := re.fullmatch(r"  (\w+): (\d+)", line):
            found.setdefault(point, {})[match[1]] = int(match[2])
    return found


# ---- schedules and traces

CUT = """\
board 2 2 9 1 0x80000000 0x5
1 advance
1 sip
1 store 0x80000000 0x1
cut
1 load 0x80000000
1 ecall 0x48534d 0 0 0x80000010 0x6
0 advance
0 load 0x80000000
cut
c tick 0x3
1 ecall 0x48534d 2 7
0 load 0x80000008
0 fetch 0x80000000
cut
1 sip
1 load 0x80000001
"""

# Conditions of it with the place, from 0, of the step at which its record fails; None: it holds; and whether they meet a step.
OF_CUT = (
    ("never 0 fetch", 10, True), ("never 1 load -> fault 4", 12, True), ("never 1 load after c tick", 12, True), ("each 1 load -> value 1", 12, True),
    ("each 0 load -> value 1", 9, True), ("before c, 0 load", 6, True), ("some 1 load 0x80000000 -> value 2", "some", True), ("some 0 fetch -> value 1", None, True),
    ("never 0 poll", None, False), ("never 1 ecall -> ret -3", 8, True), ("never 0 load after 0 serve", None, False), ("before 1 load, 0 load", None, True),
    ("some 9 sip", "some", False), ("end quiet", "end", True), ("can end", "end", True), ("never 1 advance", 0, True),
)  # fmt: skip


def below(name, place, events):
    """What stands below a point of a schedule or a trace that fails at this place."""
    if place is None:
        return []
    if place == "end":
        return ["  ---", '  reason: "only a program has an end"', "  ..."]
    around = [] if place == "some" else [f"  place: {place}", "  steps: |", *(f"    {at} {line}" for at, line in enumerate(events) if abs(at - place) <= 6)]
    return ["  ---", f'  record: "./{name}.failed"', *around, "  ..."]


def must_be_lines(name, lines, wanted):
    if lines != wanted:
        at = next((at for at, (one, other) in enumerate(zip(lines, wanted)) if one != other), min(len(lines), len(wanted)))
        raise AssertionError(f"{name}: line {at} is {lines[at : at + 2]}, and not {wanted[at : at + 2]}, of {len(lines)} and {len(wanted)}")


# ---- stale accesses


def random_steps(seed):
    """A schedule of one hart or two, of accesses through tables that are changed, mostly without a fence."""
    made = random_programs.Maker(seed)
    made.width, made.pages = 39, 2
    some, harts = made.some, made.some.choice([1, 2])
    lines = [f"board {harts} 2 1000 0 0x80000000 0", "0 advance"]
    if harts == 2:
        lines += ["0 ecall 0x48534d 0 1 0x80000000", "1 advance"]
    for _ in range(12):
        hart = some.randrange(harts)
        word = some.choice([0x80001000, 0x80001008])
        pieces = some.choice([
            *[made.remapping() + [made.used() for _ in range(some.randrange(3))]] * 2, [made.fence(), made.access()],
            ["satp 0", f"fetch {word:#x}", f"store {word:#x} {some.randrange(3)}", f"fetch {word:#x}"],
        ])  # fmt: skip
        lines += [f"{hart} {it}" for it in pieces]
    return "".join(line + "\n" for line in lines)


def stale_lines(text):
    """The lines that are stale, by the model, and why: a walk before the step gives another translation, or memory has another word."""
    before, found, causes = None, [], expected_causes.of_file(text)
    missed = {causes.lines[place] for place in causes.stale() if causes.is_missed(place)}
    for at, board, actor, op, _ in replays.steps(text):
        if board.is_stale:
            found.append(f"# line {at}: stale: {why_stale(before, board, actor, op)}{'; a fence call missed it' if at in missed else ''}")
        before = board.copy()
    return found


def why_stale(before, board, actor, op):
    hart = before.harts[actor]
    is_kept = board.used is not None and any(item[1] == board.used for item in hart.tlb)
    if is_kept and before.is_other(hart.satp, *access_of(op), board.used):
        return "a walk gives another translation"
    return "memory has another word"


# A page that may be read alone, and is then none: the store that a kept entry refuses, a walk refuses, too.
UNMAPPED = """\
board 1 4 100 0 0x80000000 0x0
0 advance
0 store 0x80000000 0x20000001
0 store 0x80000008 0x20000043
0 satp 0x8000000000080000
0 load 0x1000
0 satp 0
0 store 0x80000008 {}
0 satp 0x8000000000080000
0 store 0x1000 0x1
0 fetch 0x1000
0 load 0x1000
"""

# ---- files that can't be tested

BOUNDS = (
    ("HARTS", 0, 1, 128, "at most 128", "at least 1"), ("PAGES", 1, 1, 256, "at most 256", "at least 1"), ("LIMIT", 2, 1, 1_000_000, "at most 1000000", "at least 1"),
    ("BOOTHART", 3, 0, 1, "at most 1", None), ("ASIDLEN", 6, 0, 16, "at most 16", None),
)  # fmt: skip

# ---- few states and many orders

# More orders than 2^128 - 1 of two harts that each do 70 steps beside each other, and a load that tells nothing.
MANY_ORDERS = "board 2 1 1000 0 0x80000000 0x0\nat 0x80000000\necall 0x48534d 0 1 0x80000800\n" + "sip\n" * 70 + "at 0x80000800\nload 0x80000000\n" + "sip\n" * 70

# Orders without end, some of which end off, some quiet and some stuck.
ENDLESS = """\
board 2 1 100 0 0x80000000 0x0
at 0x80000000
ecall 0x48534d 0 1 0x80000010
{}
at 0x80000010
ecall 0x53525354 0 2 0
"""

# A hart that fences three others again and again, which have told it that they run, and serve in any order: 6 orders of each fence.
FENCES = "board 4 1 100000 0 0x80000000 0x0\nat 0x80000800\necall 0x735049 0 1 0\nat 0x80000000\nsie 0x2\n"
FENCES += "".join(f"ecall 0x48534d 0 {hart} 0x80000800\nwfi\nclearssip\n" for hart in (1, 2, 3))

# Each hart that loads is another one, and hart 0 loads in blocks of which the later one stands in front.
LOADING = """\
board 3 8 200 0 0x80000000 0x0
at 0x80002000
load 0x80003000
at 0x80001000
load 0x80003000
load 0x80004000
at 0x80000000
load 0x80003000
sie 2
ecall 0x735049 0 1 0
ecall 0x48534d 0 1 0x80001000
ecall 0x48534d 0 2 0x80001000
ecall 0x48534d 3 0x80000000 0x80002000
"""

# A program with a block that no order enters, an entry without a block, a call whose every answer is an error, and harts that wait,
# by the addresses of its blocks.
SPELLED = """\
board 3 4 200 0 {0} 0x0
at {0}
ecall 0x48534d 0 1 {1}
ecall 0x48534d 0 2 0x80003000
load 0x80002000
at {2}
sip
at {1}
ecall 0x48534d 0 9 {1}
load 0x80002000
wfi
"""
ADDRESSES = 0x80000000, 0x80001000, 0x80002000

# Files with the words of calls, of which something is told by the numbers of lines: conditions, blocks, calls, harts that wait, loads, lines
# that are refused, stale, or differ, and faults.
LINED = (
    ("a.program", "#! never _ load 0x1000 -> value 1\n#! some 0 fencei\n#! end quiet\n" + SPELLED.format(*map(hex, ADDRESSES)), (["sbiboard"], ["sbiboard", "--times", "40"], ["sbiboard explore"])),
    ("a.program", "#! never 1 load -> value 1\n#! some 1 load -> value 1\n" + LOADING, (["sbiboard"], ["sbiboard", "--times", "40"], ["sbiboard explore"])),
    ("a.program", "# !never 0\n" + RACE, (["sbiboard"],)), ("a.program", RACE + "#! nevr\n", (["sbiboard"], ["sbiboard explore"])),
    ("a.sched", STALE + "0 poll\n#! never 0 poll\n#! never 0 fetch\n", (["sbiboard"],)), ("a.sched", STALE + "0 fly\n", (["sbiboard"],)),
    ("a.trace", "board 1 1 9 0 0x80000000 0\n0 advance -> gone\n0 sip -> value 0\n\n0 sip -> value 1\n#! some 0 poll\n", (["sbiboard"],)),
)  # fmt: skip


def shifted(line, by):
    """A line that is told of a file, where so many lines stand in front of its own."""
    more = lambda found: found[1] + re.sub(r"\d+", lambda it: str(int(it[0]) + by), found[2]) + found[3]
    for pattern in (r"(\bline:? )(\d+)()", r"(\(lines )([\d, ]+)()", r"( \d+:)(\d+)(=)", r"(- a\.\w+:)(\d+)(:\d+: )", r'("\./a\.\w+\.)(\d+)(\.(?:failed|reached)")'):
        line = re.sub(pattern, more, line)
    return line


# Two harts whose stores leave one word or another one, whatever the load gives: an outcome of two states.
TWO_ENDS = """\
board 2 4 100 0 0x80000000 0x0
at 0x80000000
ecall 0x48534d 0 1 0x80001000
store 0x80002000 1
at 0x80001000
store 0x80002000 2
load {}
"""


# A hart's stale access, and behind it accesses of a hart that is inside its call, and is refused each.
REFUSED_BEHIND = """\
board 2 6 100 0 0x80000000 0
0 advance
0 ecall 0x48534d 0 1 0x80000000 0
1 advance
0 store 0x80001000 0x20000801
0 store 0x80002000 0x20000c01
0 store 0x80003008 0x200010c7
1 satp 0x8000000000080001
1 load 0x1000
0 store 0x80003008 0x200014c7
0 ecall 0x52464e43 1 0x2 0 0x1000 0x1000
1 load 0x1000
0 load 0x1000
0 store 0x1000 5
0 fetch 0x80004000
1 load 0x1000
0 amoadd 0x80003008 1
"""


class Points(Test):
    programs = (PROGRAM, TESTER)

    def test_keys_have_their_values(self):
        """Below a failing point each key has its own value: of seed 7 the failing orders, all, the first that fails, and its place, where no two are the same."""
        asked = "".join(f"#! {it}\n" for it in OF_LONG)
        case = case_of(self.room, "long.program", LONG.replace("board 2 4 13", "board 2 4 1000") + asked)
        orders = orders_alone(self.room, [case], 7, 40)
        os.remove(os.path.join(self.room, "alone-long.program"))
        blocks = blocks_of(tried(self.room, [case], orders, 7)).values()
        differing = [it for it in blocks if set(it) == {"seed", "failing", "orders", "order", "place"} and len(set(it.values())) == 5 and it["order"] > 0 and it["place"] > 9]
        must(f"no point has five different values: {blocks}", differing)
        # (a record of all orders that is longer than the limit has a limit of its own)
        case = case_of(self.room, "long.program", asked + LONG)
        explored(self.room, [case])
        must("few", tested(self.room, [case]) == 1)

    def test_keys_of_runs_on_threads_have_their_values(self):
        """So it is of runs on threads: each condition's failing runs are its own, with its own record. Of two that exclude each other each run fails one."""
        pairs = ("before 0 store 0x80002000 {}, 1 load", "before 1 load, 0 store 0x80002000 {}")
        asked = [*OF_LONG, *(it.format(value) for value in (1, 2) for it in pairs)]
        case = case_of(self.room, "long.program", LONG.replace("board 2 4 13", "board 2 4 1000") + "".join(f"#! {it}\n" for it in asked))
        orders = orders_alone(self.room, [case], 0, 60)
        os.remove(os.path.join(self.room, "alone-long.program"))
        lines = run_on_threads(self.room, [case], orders)
        blocks = blocks_of(lines)
        for first in (len(asked) + len(OF_LONG) + 1, len(asked) + len(OF_LONG) + 3):
            failing = [blocks.get(it, {"failing": 0, "runs": 60}) for it in (first, first + 1)]
            must(f"{failing}", sum(it["failing"] for it in failing) == 60 and {it["runs"] for it in failing} == {60})

    def test_schedules_and_traces_with_cuts_are_judged(self):
        """A schedule with cuts, and a trace, is judged as a whole: the place of the step that fails counts all steps, and the record has all, with the cuts."""
        answers = replays.answered(CUT)
        for name, text in (("a.sched", CUT), ("a.trace", replays.traced(CUT))):
            asked = "".join(f"#! {it}\n" for it, *_ in OF_CUT)
            status, lines = told(self.room, text + asked, name=name)
            record = ran(["replay", write(os.path.join(self.room, "steps"), CUT)]).stdout.decode()
            first = text.count("\n") + 1
            refused = [f"# line {at}: {line.partition(' -> ')[2]}" for at, line in enumerate(answers, 2) if " -> refused " in line]
            wanted = ["TAP version 13", *([f"ok 1 - {name} ({len(answers)} lines)"] if name == "a.trace" else refused)]
            points = 2 if name == "a.trace" else 1
            for at, (it, place, is_met) in enumerate(OF_CUT):
                why = judge.misfit(judge.condition(1, it), 2)
                wanted.append(f"{'ok' if place is None else 'not ok'} {points + at} - {name}: line {first + at}: {it}{f': {why}' if why else ''}")
                if why:
                    continue
                wanted += below(name, place, [line for line in answers if line != "cut -> done"])
                wanted += [f"# line {first + at}: never met: no step has this actor and operation"] * (not is_met)
            count, failed = points - 1 + len(OF_CUT), sum(place is not None for _, place, _ in OF_CUT)
            wanted += [f"1..{count}", f"# {count} points, {failed} failed", "# 1 files, 0 orders, 0 different records", "# ends: 0 off, 0 history-full, 0 quiet, 0 stuck"]
            must_be_lines(name, lines, wanted)
            kept = read(os.path.join(self.room, f"{name}.failed"))
            must(f"{name}: status {status}, the record is {kept!r}, and not {record!r}", status == 1 and kept == record)
            os.remove(os.path.join(self.room, f"{name}.failed"))

    def test_every_difference_of_a_trace_is_told(self):
        """Of a trace each line that differs is listed with both answers, 20,000 of them, and no line that agrees."""
        many = 20_000
        steps = [f"0 sip -> value {number % 7}" for number in range(many)]
        text = f"board 1 1 {many + 1} 0 0x80000000 0x0\n0 advance -> entry 0x80000000 0 0\n" + "".join(line + "\n" for line in steps)
        status, lines = told(self.room, text, name="a.trace")
        wanted = ["TAP version 13", f"not ok 1 - a.trace ({many + 1} lines)", "  ---", f"  differing: {sum(number % 7 > 0 for number in range(many))}", "  lines:"]
        for number, line in enumerate(steps):
            if number % 7:
                wanted += [f"    - line: {number + 3}", f'      wanted: "{line}"', '      got: "0 sip -> value 0x0"']
        wanted += ["  ...", "1..1", "# 1 points, 1 failed", "# 1 files, 0 orders, 0 different records", "# ends: 0 off, 0 history-full, 0 quiet, 0 stuck"]
        must(f"status {status}", status == 1)
        must_be_lines("a.trace", lines, wanted)

    def test_stale_accesses_are_those_of_the_model(self):
        """Of random schedules exactly those accesses are told as stale, and for the reason, that the model says, of lines of all numbers."""
        texts = [UNMAPPED.format(leaf) for leaf in ("0", "0x20000043", "0x200000c7", "0x20000443", "0x2000004b")] + [random_steps(seed) for seed in range(60)] + [REFUSED_BEHIND]
        seen = []
        for at, text in enumerate(texts):
            write(os.path.join(self.room, f"{at}.sched"), text)
        _, lines = told_of(self.room, *(f"{at}.sched" for at in range(len(texts))))
        told_by = {}
        for line in lines:
            if match := re.fullmatch(r"(?:not )?ok \d+ - (\d+)\.sched .*", line):
                told_by[int(match[1])] = found = []
            elif line.startswith("# line ") and ": stale: " in line:
                found.append(line)
        for at, text in enumerate(texts):
            wanted = stale_lines(text)
            must(f"{text}: told are {told_by[at]}, and stale {wanted}", told_by[at] == wanted)
            seen += wanted
        places = [int(line.split()[2].rstrip(":")) for line in seen]
        reasons = {line.partition("stale: ")[2].partition(";")[0] for line in seen}
        must(f"{len(seen)} are stale, for {reasons}", len(seen) > 100 and len(reasons) == 2 and max(places) > 50 and {it % 2 for it in places} == {0, 1})

    def test_bounds_of_boards_are_told(self):
        """Each number of the board's line is good up to its bounds, and is told with its bound beyond them."""
        for name, place, least, most, above, under in BOUNDS:
            for number in {least, least + 1, most - 1, most, most + 1, most + 2, most + 43, most + 44, most + 45, 2 * most, (1 << 63) + 1, (1 << 64) - 1} | ({least - 1} if under else set()):
                numbers = [2, 2, 9, 0, 0x80000000, 0, 16, 39]
                numbers[place] = number
                _, lines = told(self.room, f"board {' '.join(map(str, numbers))}\n", "--times", "1", name="a.sched")
                is_good = least <= number <= most
                wanted = "ok 1 - a.sched: no order ends stuck: holds in 1 orders of unknown many, seed 0" if is_good else f"not ok 1 - a.sched: bad board: {name} is {number}, {above if number > most else under}"
                must(f"{name} {number}: {lines}", lines[1] == wanted)
        _, lines = told(self.room, "board 1 2 9 1 0x80000000 0\n", name="a.sched")
        must(f"one hart: {lines}", lines[1] == "not ok 1 - a.sched: bad board: BOOTHART is 1, at most 0")

    def test_files_of_all_lengths_are_tested(self):
        """A file of 16,777,216 bytes is tested, conditions at its end and all; with a byte more it is a point that fails."""
        head, asked = "board 1 1 9 0 0x80000000 0\n0 advance\n", "#! never 0 advance\n"
        filled = head + "#" + " " * (16_777_216 - len(head) - len(asked) - 2) + "\n" + asked
        _, lines = told(self.room, filled, name="a.sched")
        must(f"{lines}", lines[1] == "not ok 1 - a.sched: line 4: never 0 advance")
        for more in ("#", "0", "#" * 70_000):
            status, lines = told(self.room, filled + more, name="a.sched")
            must(f"{lines}", status == 1 and re.fullmatch(r"not ok 1 - a\.sched: .* \(fault 8\)", lines[1]) and lines[3:5] == ["# 1 points, 1 failed", "# 1 files, 0 orders, 0 different records"])

    def test_all_files_are_counted(self):
        """The summary counts each file, also those that can't be read or tested, whatever stands before or behind them."""
        good = "board 1 1 9 0 0x80000000 0\n0 advance\n"
        for name, text in (("good.sched", good), ("fault.sched", "board\n"), ("board.sched", good.replace("board 1", "board 0")), ("asked.sched", good + "#! fly\n"), ("one.program", RACE)):
            write(os.path.join(self.room, name), text)
        names = ["good.sched", "fault.sched", "board.sched", "asked.sched", "missing.sched", "one.program"]
        for some in (names, names[::-1], names[1:3], names[1:5] * 3, ["missing.sched"]):
            for name in ("sbiboard", "sbiboard explore"):
                out = tester(self.room, "--tap", "points.tap", *some, name=name, timeout=200).stdout
                must(f"{some}: the file of the points has others", read(os.path.join(self.room, "points.tap")) == out)
                found = out.splitlines()
                summary = found[found.index(f"1..{len(some)}") :]
                failed = sum(it not in ("good.sched", "one.program") or it == "good.sched" and name != "sbiboard" for it in some)
                must(f"{some}: {summary}", summary[1] == f"# {len(some)} points, {failed} failed" and re.match(rf"# {len(some)} files(,|$)", summary[2]))

    def test_comments_begin_at_their_first_sign(self):
        """A line's comment begins at its first `#`, also where it has more of them: in names of points, in lines that differ, in those of stuck harts and of calls."""
        for comment in ("", " # it is so", " # it # is # so", "#", " ##", " ## never so # at all"):
            board = f"board 1 1 9 0 0x80000000 0{comment}\nat 0x80000000{comment}\necall 0x48534d 0 9 0x80000000{comment}\nwfi{comment}\n"
            _, lines = told(self.room, f"#! end quiet{comment}\n{board}")
            wanted = ["not ok 1 - race.program: line 1: end quiet: fails in some of all orders: 1", "    - \"hart 0: line 5 'wfi': SSIP is 0, STIP is 0, SSIE is 0, STIE is 0\"", "# line 4: each answer to 'ecall 0x48534d 0 9 0x80000000' was an error"]
            must(f"{comment!r}: {lines}", all(it in lines for it in wanted))
            _, lines = told(self.room, f"board 1 1 9 0 0x80000000 0\n0 advance -> gone{comment}\n0 sip -> value 0x0{comment}\n", name="a.trace")
            must(f"{comment!r}: {lines}", '      wanted: "0 advance -> gone"' in lines and "  differing: 1" in lines)

    def test_a_hart_that_is_through_is_not_stuck(self):
        """Of an order that ends stuck those harts alone are told that wait: none whose block is done, whatever stands behind its block."""
        waits = "at 0x80000800\nsip\nwfi\n"
        for behind in ("clock\ntick 1\n", "clock\n", "at 0x80000400\nsip\n", "at 0x80000400\n", "# nothing\n", "\n"):
            for blocks in (f"at 0x80000000\necall 0x48534d 0 1 0x80000800\n{behind}{waits}", f"{waits}at 0x80000000\necall 0x48534d 0 1 0x80000800\n{behind}", f"at 0x80000000\necall 0x48534d 0 1 0x80000800\n{waits}{behind}"):
                text = f"board 2 1 99 0 0x80000000 0\n{blocks}"
                line = text[: text.index("wfi")].count("\n") + 1
                for words in ([], ["--times", "9"]):
                    _, lines = told(self.room, text, *words)
                    told_as_stuck = [it for it in lines if it.startswith("    - ")]
                    must(f"{text}: {told_as_stuck}", told_as_stuck == [f"    - \"hart 1: line {line} 'wfi': SSIP is 0, STIP is 0, SSIE is 0, STIE is 0\""])

    def test_conditions_that_wait_of_few_states(self):
        """All orders of a program of as many states as are few are looked at, whatever its conditions wait for; each of twelve is judged."""
        # (what hart 1 loaded is no part of a state, and the first of these waits for it)
        asked = {
            "never 0 sip after 1 load -> value 1": True, "before 0 ecall, 1 load": True, "before 1 load, 0 ecall": False, "never 1 load after 0 ecall": False,
            "some 1 advance": True, "never 0 sip": True, "end quiet": True, "end off": False, "some 1 load -> value 1": True, "some 1 load -> value 2": False,
            "each 1 load -> value 0": False, "never c": True,
        }  # fmt: skip
        for _, few, _ in EDGES:
            head, start, body = few.partition("ecall 0x48534d 0 1 0x80000800\n")
            text = head + start + body.replace("load 0x80000000", "store 0x80000000 1", 1) + "".join(f"#! {it}\n" for it in asked)
            status, lines = told(self.room, text)
            points = [line.startswith("ok ") for line in lines if re.match("(not )?ok ", line)]
            must(f"status {status}, {lines}", are_all(lines) and points == list(asked.values()) and status == 1)

    def test_more_orders_than_are_counted(self):
        """Where there are 2^128 - 1 orders or more, that is said, of all orders and of an outcome; with fewer they are counted."""
        most = (1 << 128) - 1
        for text, is_more in ((MANY_ORDERS, True), (MANY_ORDERS.replace("sip\n" * 70, "sip\n" * 60), False)):
            write(os.path.join(self.room, "a.program"), text)
            lines = tester(self.room, "a.program", name="sbiboard explore", timeout=200).stdout.splitlines()
            many = f"{most} or more" if is_more else str(all_orders.Orders(text).ends["quiet"])
            orders = next(line for line in lines if line.startswith("# orders: "))
            outcome = lines[lines.index("# outcomes: 1") + 1]
            must(f"{orders}", re.fullmatch(rf"# orders: {many}, quiet {most if is_more else many}( or more)?", orders))
            must(f"{outcome}", outcome == f"#   1:{text[: text.index('load')].count(chr(10)) + 1}=0x0 quiet: 1 states, {many} orders")

    def test_ends_beside_orders_without_end(self):
        """Of orders of which some have no end it is told how the others end: off, quiet or stuck, each where some do."""
        for operation, ends in (("ecall 0x53525354 0 0 0", ["off"]), ("ecall 0x48534d 1", []), ("wfi", []), ("sie 2\necall 0x735049 0 2 0\nwfi", [])):
            text = ENDLESS.format(operation)
            wanted = [end for end in ("off", "quiet", "stuck") if end in all_orders.Orders(text).ends]
            must(f"{operation}: {wanted}", set(ends) <= set(wanted))
            case = case_of(self.room, "a.program", text)
            explored(self.room, [case])

    def test_states_and_orders_of_outcomes_are_counted(self):
        """An outcome is told with how many states orders end at that have it, and how many orders do."""
        for address, wanted in (("0x80002008", ["#   1:7=0x0 quiet: 2 states, 4 orders"]), ("0x80002000", ["#   1:7=0x1 quiet: 1 states, 1 orders", "#   1:7=0x2 quiet: 2 states, 3 orders"])):
            write(os.path.join(self.room, "a.program"), TWO_ENDS.format(address))
            lines = tester(self.room, "a.program", name="sbiboard explore", timeout=200).stdout.splitlines()
            must(f"{lines}", sorted(it for it in lines if it.startswith("#   ")) == wanted and f"# outcomes: {len(wanted)}" in lines)
        # (a load, a fetch and an AMO that fail give the number of their cause)
        pages = "satp 0x8000000000080000\n"
        reading = ("load 0x80000001", "fault-4"), ("load 0x1000", "fault-5"), ("fetch 0x80000001", "fault-0"), ("fetch 0x1000", "fault-1"), ("load 0x80000ff8", "0x0"), ("fetch 0x80000ff8", "0x0")
        walking = (pages + "load 0x1000", "fault-13"), (pages + "fetch 0x1000", "fault-12"), (pages + "amoadd 0x1000 1", "fault-15")
        changing = ("amoadd 0x80000004 1", "fault-6"), ("amoswap.w 0x1000 1", "fault-7"), ("amocas 0x80000ff8 0 1", "0x0"), ("amoor.w 0x80000ffc 1", "0x0")
        for op, wanted in reading + walking + changing:
            write(os.path.join(self.room, "a.program"), f"board 1 1 9 0 0x80000000 0\nat 0x80000000\n{op}\n")
            lines = tester(self.room, "a.program", name="sbiboard explore").stdout.splitlines()
            must(f"{op}: {lines}", f"#   0:{op.count(chr(10)) + 3}={wanted} quiet: 1 states, 1 orders" in lines)

    def test_each_hart_is_told_by_its_number(self):
        """A hart is told by its own number, up to 127: one that is stuck, one that loads, and one whose step a condition lacks."""
        for hart in (0, 1, 31, 32, 63, 64, 65, 100, 126, 127):
            for boot, others in ((hart, ""), (127 - hart, f"at 0x80000000\necall 0x48534d 0 {hart} 0x80000800\n")):
                if boot == hart and others:
                    continue
                block = "load 0x80000000\nwfi\n"
                text = f"board 128 1 99 {boot} 0x80000000 0\n{others}at {0x80000800 if others else 0x80000000:#x}\n{block}"
                load = text.count("\n") - 1
                stuck = f"    - \"hart {hart}: line {load + 1} 'wfi': SSIP is 0, STIP is 0, SSIE is 0, STIE is 0\""
                for words in ([], ["--times", "2"], ["--times", "2", "--threads"]):
                    _, lines = told(self.room, text, *words)
                    found = [it for it in lines if it.startswith("    - ")]
                    must(f"{text}: {lines}", found == [stuck] * (2 if "--threads" in words else 1))
                write(os.path.join(self.room, "a.program"), text)
                lines = tester(self.room, "a.program", name="sbiboard explore").stdout.splitlines()
                must(f"{text}: {lines}", f"#   {hart}:{load}=0x0 stuck: 1 states, 1 orders" in lines and stuck in lines)
                for words in ([], ["--times", "2"]):
                    _, lines = told(self.room, f"{text}#! never _ load 0x1000 -> value 1\n", *words)
                    must(f"{text}: {lines}", lines[1].endswith(f"; hart {hart} loads 0x80000000 (line {load})"))

    def test_each_hart_that_does_it_is_told(self):
        """Of a step that a condition lacks each hart is told that does alike, with its own lines, in their order, wherever its blocks stand."""
        asked = ("never _ load 0x80005000 -> value 1", "before 0 load 0x80005000, 1 sip", "each 1 load 0x80005000 -> value 1", "never 0 sip after _ load 0x80005000")
        case = case_of(self.room, "a.program", LOADING + "".join(f"#! {it}\n" for it in asked))
        explored(self.room, [case])
        must("few", tested(self.room, [case]) == 1)
        tried(self.room, [case], orders_alone(self.room, [case], 3), 3)
        _, lines = told_of(self.room, "a.program")
        must(f"{lines[1]}", all(it in lines[1] for it in ("hart 0 loads 0x80003000 (lines 3, 8)", "hart 1 loads 0x80003000 (line 5), 0x80004000 (line 6)", "hart 2 loads 0x80003000 (line 5), 0x80004000 (line 6)")))

    def test_counts_of_all_sizes_are_grouped(self):
        """Of few states the number of orders is told in groups of three digits, however many they are, up to the greatest that is counted."""
        sizes = set()
        for fences in (0, 1, 2, 4, 8, 12, 16, 20, 24, 28, 32):
            text = FENCES + "ecall 0x52464e43 1 0xe 0\n" * fences
            many = sum(all_orders.Orders(text).ends.values())
            _, lines = told(self.room, text)
            must(f"{fences}: {lines}, and counted {many:,}", are_all(lines) and lines[1] == f"ok 1 - race.program: no order ends stuck: holds in all orders: {grouped(many)}")
            sizes.add(len(f"{many:,}".split(",")))
        must(f"{sizes}", len(sizes) > 6 and max(sizes) > 8)

    def test_a_cut_is_told_of_any_file(self):
        """The summary says that not all orders were seen, of whichever file these are."""
        small, large = "board 1 1 9 0 0x80000000 0\nat 0x80000000\nsip\n", MANY_ORDERS.replace("sip\n" * 70, "sip\n" * 9)
        for name, text in (("small.program", small), ("large.program", large)):
            write(os.path.join(self.room, name), text)
        for files in (["small.program", "large.program"], ["large.program", "small.program"], ["small.program", "large.program", "small.program"], ["small.program"], ["small.program"] * 2):
            status, lines = told_of(self.room, "--states", "20", *files, name="sbiboard explore")
            is_cut = "large.program" in files
            must(f"{files}: {status}, {lines}", (lines[-1] == "# cut short: not all orders were seen") == is_cut and status == (8 if is_cut else 0))

    def test_an_address_is_one_however_it_is_written(self):
        """Addresses of blocks, decimal, hexadecimal or with zeros in front, are told alike: what is odd, who is stuck, what loads gave, and which lines do otherwise."""
        asked = "#! never _ load 0x1000 -> value 1\n#! end quiet\n"
        spellings = [hex, str, lambda it: f"0x{it:020X}", lambda it: f"000{it}"]
        for words, name in (([], "sbiboard"), (["--times", "40"], "sbiboard"), ([], "sbiboard explore")):
            found = []
            for spelled in spellings:
                text = SPELLED.format(*map(spelled, ADDRESSES))
                write(os.path.join(self.room, "a.program"), asked + text)
                _, lines = told_of(self.room, *words, "a.program", name=name)
                # (a call's text is as it is written)
                found.append([it.replace(spelled(ADDRESSES[1]), hex(ADDRESSES[1])) if ": each answer to " in it else it for it in lines])
            must(f"{found}", all(it == found[0] for it in found))
            odd = [it.split(":")[0] for it in found[0] if it.startswith(("# line ", "# a hart ", "    - \"hart 1"))]
            must(f"{odd}, {found[0]}", odd == ['    - "hart 1', "# line 8", "# line 11", "# a hart was entered at 0x80003000, where no block is"] and found[0][1].endswith("; hart 0 loads 0x80002000 (line 7), hart 1 loads 0x80002000 (line 12)"))

    def test_an_empty_name_is_no_folder_and_no_file(self):
        """--failed and --tap take no empty name, which would be the root's folder: nothing is tested, and nothing is written."""
        write(os.path.join(self.room, "a.program"), "#! end off\n" + RACE)
        for name in ("sbiboard", "sbiboard explore"):
            for option in ("--failed <DIR>", "--tap <FILE>"):
                for given in ([option.split()[0], ""], [option.split()[0] + "="]):
                    found = tester(self.room, *given, "a.program", name=name)
                    said = f"error: a value is required for '{option}' but none was supplied\n\nFor more information, try '--help'.\n"
                    must(f"{name} {given}: {found}", (found.returncode, found.stdout, found.stderr) == (2, "", said))
        must("something was written", os.listdir(self.room) == ["a.program"] and not os.path.exists("/a.program.1.failed"))

    def test_points_and_records_on_another_file_system(self):
        """A file of points, or of a record, may have a tested file's number on another file system: it is another file. (Here each file has one number.)"""
        made, points = shim(self.room), write(os.path.join(self.room, "points"), "older points\n")

        def run(reading):
            write(os.path.join(self.room, f"{reading}.1.failed"), "an older record\n")
            found, _ = allocating(made, self.room, ["--tap", "points", f"/dev/fd/{reading}"], pass_fds=[reading], program=TESTER, cwd=self.room, INODE="7")
            return found, read(os.path.join(self.room, f"{reading}.1.failed"))

        found, record = piping(f"#! end off\n{RACE}".encode(), 100, run)
        must(f"{found}", found.returncode == 1 and not found.stderr and read(points) == found.stdout.decode() and record.startswith("board 2 4 "))
        write(os.path.join(self.room, "race.program"), RACE)
        found, _ = allocating(made, self.room, ["--tap", "points", "race.program"], program=TESTER, cwd=self.room, INODE="7")
        must(f"{found}", found.returncode == 7 and not found.stdout)

    def test_each_thread_of_a_test_refused(self):
        """Each thread refused in turn, of runs and of orders that are tried side by side: no memory, after whole points at most, or all is told as it is, where it can do without."""
        made = shim(self.room)
        # (of one order, so that each run has the same record)
        write(os.path.join(self.room, "race.program"), "#! end quiet\nboard 1 1 9 0 0x80000000 0\nat 0x80000000\nsip\n")
        for words, is_needed in ((["--times", "3", "--jobs", "1", "--threads"], True), (["--times", "40", "--jobs", "3"], False)):
            run = lambda number: allocating(made, self.room, [*words, "race.program"], thread=number, program=TESTER, cwd=self.room)[0]
            whole, refused = run(0), 0
            must(f"{whole}", whole.returncode == 0 and not whole.stderr)
            for number in range(1, 12):
                found = run(number)
                if found.returncode == 6:
                    refused += 1
                    must(f"{words}, thread {number}: {found}", found.stderr == NO_MEMORY and whole.stdout.startswith(found.stdout))
                else:
                    must(f"{words}, thread {number}: {found}", (found.returncode, found.stdout, found.stderr) == (whole.returncode, whole.stdout, whole.stderr))
            # (a run has a thread for its hart and one for the clock)
            must(f"{words}: {refused} threads are missed", refused == 6 * is_needed)

    def test_numbers_of_lines_are_whole(self):
        """What is told by the number of a line is told by that number behind 70,000 lines, too; and so it is of a column."""
        many, seen = 70_000, set()
        for name, text, calls in LINED:
            for called, *words in calls:
                write(os.path.join(self.room, name), text)
                plain = told_of(self.room, *words, name, name=called)
                write(os.path.join(self.room, name), "#\n" * many + text)
                status, lines = told_of(self.room, *words, name, name=called)
                must_be_lines(f"{called} {words} {text}", lines, [shifted(it, many) for it in plain[1]])
                must(f"{called} {words} {text}", status == plain[0])
                seen |= {re.sub(r"[\d\W]+", " ", it)[:24] for it in lines if str(many // 100) in it}
        must(f"{seen}", len(seen) > 12)
        for text, column in ((" " * many + "0 fly\n", many + 3), ("#!" + " " * many + "nevr\n", many + 3), ("0 sip #" + " " * many + "\r#\n", many + 8)):
            _, lines = told(self.room, "board 1 1 9 0 0x80000000 0\n" + text, name="a.sched")
            must(f"{lines}", lines[1].startswith(f"not ok 1 - a.sched:2:{column}: "))

    def test_all_that_is_odd_is_told(self):
        """However many blocks are not entered, entries have no block, calls are always answered by errors, and harts wait: each is told."""
        harts, blocks, wanted, stuck = 40, [], [], []
        start = "".join(f"ecall 0x48534d 0 {hart} {0x80000000 + 16 * hart:#x}\n" for hart in range(1, harts))
        text = f"board {harts} 1 9999 0 0x80000000 0\nat 0x80000000\n{start}"
        for hart in range(1, harts):
            line = text.count("\n") + 1
            if hart % 2:
                text += f"at {0x80000000 + 16 * hart:#x}\necall 0x48534d 0 99 {hart}\nwfi\nat {0x80000800 + hart * 2:#x}\n"
                wanted += [f"# line {line + 1}: each answer to 'ecall 0x48534d 0 99 {hart}' was an error", f"# line {line + 3}: no order entered the block at {0x80000800 + hart * 2:#x}"]
                stuck.append(f"    - \"hart {hart}: line {line + 2} 'wfi': SSIP is 0, STIP is 0, SSIE is 0, STIE is 0\"")
            else:
                blocks.append(f"# a hart was entered at {0x80000000 + 16 * hart:#x}, where no block is")
        for words in (["--times", "3"], ["--times", "3", "--threads"]):
            _, lines = told(self.room, text, *words)
            found = [it for it in lines if it.startswith(("# line ", "# a hart "))]
            must(f"{words}: {found}, and not {wanted + blocks}", found == wanted + blocks)
            must(f"{words}: {lines}", [it for it in lines if it.startswith("    - ")] == stuck * (2 if "--threads" in words else 1))
