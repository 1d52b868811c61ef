"""All orders of programs: what `sbiboard explore` says of them, beside orders that are counted by the model of the tools."""
import os
import re
import shutil
import subprocess
import sys

from . import all_orders, programs
from .fixtures import EXAMPLES, HANG, PROGRAM, ROOT, TESTER, Test, example_programs, explored, must, ran, read, script, tester, write
from .test_orders import FENCE, LOADS_AND_STORES, RACE, SUSPENDED, WAKE

# Two harts that each store and then load what the other one stores.
STORE_BUFFERING = """\
board 2 4 100 0 0x80000000 0x0
at 0x80000000
ecall 0x48534d 0 1 0x80001000
store 0x80002000 1
load 0x80002008
at 0x80001000
store 0x80002008 1
load 0x80002000
"""

# A hart stores a word and then a flag, and another loads the flag and then the word.
MESSAGE_PASSING = """\
board 2 4 100 0 0x80000000 0x0
at 0x80000000
ecall 0x48534d 0 1 0x80001000
store 0x80002000 1
store 0x80002008 1
at 0x80001000
load 0x80002008
load 0x80002000
"""

# A hart is entered anew each time, so that some orders have no end.
REBOOTS = """\
board 2 1 100 0 0x80000000 0x0
at 0x80000000
ecall 0x48534d 0 1 0x80000010
ecall 0x53525354 0 2 0
at 0x80000010
clearssip
"""

# Each hart starts the other one anew once it has stopped.
TOGETHER = """\
board 2 1 100 0 0x80000000 0x0
at 0x80000000
ecall 0x48534d 0 1 0x80000010
ecall 0x48534d 1
at 0x80000010
ecall 0x48534d 0 0 0x80000020
at 0x80000020
sip
"""

COUNTED = {"race": RACE, "loads and stores": LOADS_AND_STORES, "wake": WAKE, "fence": FENCE, "suspended": SUSPENDED, "store buffering": STORE_BUFFERING, "message passing": MESSAGE_PASSING, "reboots": REBOOTS, "together": TOGETHER}

# How many random programs are counted, and how many states of theirs at most.
RANDOM, MOST = 40, 3_000


def ends_told(lines):
    """How many orders end so, by what is told of all; None for each where some have no end."""
    line = next((it for it in lines if it.startswith("# orders: ")), None)
    must(f"no orders are told: {lines}", line is not None)
    all_of, *ends = line[len("# orders: ") :].split(", ")
    if all_of in ("some without end", "all without end"):
        must(line, (all_of == "all without end") == (not ends))
        return {end.removeprefix("some "): None for end in ends}
    ends = dict(it.split() for it in ends)
    must(line, sum(map(int, ends.values())) == int(all_of))
    return {end: int(many) for end, many in ends.items()}


def outcomes_told(lines):
    """How many orders have each outcome, by what is told: what each load gave last, by its hart and its line, and the end."""
    found = {}
    for line in lines:
        if match := re.fullmatch(r"#  ((?: \d+:\d+=\S+)+) (\w+): \d+ states(?:, (\d+) orders)?", line):
            loads = [re.fullmatch(r"(\d+):(\d+)=(\S+)", it).groups() for it in match[1].split()]
            given = tuple(sorted(((int(hart), int(line)), answered(it)) for hart, line, it in loads if it != "-"))
            found[given, match[2]] = int(match[3]) if match[3] else None
    return found


def answered(word):
    return ("fault", int(word.removeprefix("fault-"))) if word.startswith("fault-") else ("value", int(word, 16))


def must_tell(name, lines, counted):
    """What is told of a program is what is counted: how many orders end so, and have each outcome."""
    must(f"{name}: told are {ends_told(lines)}, and counted {counted.ends}", ends_told(lines) == counted.ends)
    wanted = counted.outcomes if any(given for given, _ in counted.outcomes) else {}
    must(f"{name}: told are the outcomes {outcomes_told(lines)}, and counted {wanted}", outcomes_told(lines) == wanted)


def must_be_counted(room, name, text, most=200_000):
    counted = all_orders.Orders(text, most, loads=True)
    _, lines = explored(room, text)
    must_tell(name, lines, counted)
    _, plain = explored(room, text, "--no-outcomes")
    must(f"{name}: without outcomes {plain}", plain == [it for it in lines if not it.startswith(("# outcomes: ", "#   "))])


# A condition of a program, and the fewest steps to what it says, by a test of a step, or None where no order has it.
ASKED = (
    ("never 1 load 0x80002000 -> value 0x1", RACE, lambda actor, op, answer: (actor, op[0], answer) == (1, "load", ("value", 1))),
    ("never 1 load 0x80002000 -> value 0x2", RACE, lambda actor, op, answer: (actor, op[0], answer) == (1, "load", ("value", 2))),
    ("some 1 load 0x80002000 -> value 0x3", LOADS_AND_STORES, lambda actor, op, answer: (actor, op[0], answer) == (1, "load", ("value", 3))),
    ("some 1 load 0x80002000 -> value 0x4", LOADS_AND_STORES, lambda actor, op, answer: (actor, op[0], answer) == (1, "load", ("value", 4))),
    ("each 1 load 0x80002000 -> value 0", RACE, lambda actor, op, answer: (actor, op[0]) == (1, "load") and answer != ("value", 0)),
)


class Explore(Test):
    programs = (PROGRAM, TESTER)

    def test_all_orders_are_counted(self):
        """Of small programs and of the examples, as many orders are told as there are, by how they end."""
        for name, text in COUNTED.items():
            must_be_counted(self.room, name, text)
        for path in example_programs():
            must_be_counted(self.room, path, read(path))

    def test_all_orders_of_random_programs_are_counted(self):
        """So it is of random programs of few states."""
        counted = 0
        for seed in range(10 * RANDOM):
            text = programs.RandomProgram(seed).text().decode()
            if int(text.split()[1]) > 3:
                continue
            try:
                must_be_counted(self.room, f"seed {seed}", text, MOST)
            except ValueError:
                continue
            counted += 1
            if counted == RANDOM:
                return
        raise AssertionError(f"only {counted} random programs are small")

    def test_outcomes_are_those_of_sequential_consistency(self):
        """Of store buffering and of message passing, each outcome is told but the one that no order of steps has."""
        for text, never in ((STORE_BUFFERING, (0, 0)), (MESSAGE_PASSING, (1, 0))):
            _, lines = explored(self.room, text)
            told = {tuple(answer[1] for _, answer in given) for given, _ in outcomes_told(lines)}
            must(f"{text}: {told}", told == {(0, 0), (0, 1), (1, 0), (1, 1)} - {never})

    def test_conditions_are_asked_of_all_orders(self):
        """A condition that forbids fails in the shortest order that breaks it; `some` is told the shortest that has such a step."""
        for asked, text, is_it in ASKED:
            status, lines = explored(self.room, f"#! {asked}\n{text}")
            fewest = all_orders.Orders(text).shortest(is_it)
            holds = (fewest is None) != asked.startswith("some")
            said = "holds" if holds else "fails"
            if fewest is None:
                said += " in all orders"
            wanted = f"{'' if holds else 'not '}ok 1 - a.program: line 1: {asked}: {said}"
            must(f"{asked}: status {status}, {lines[1]!r}, not {wanted!r}", lines[1] == wanted and status == (0 if holds else 1))
            steps = next((int(it.split()[1]) for it in lines if it.startswith("  length: ")), None)
            must(f"{asked}: an order of {steps} steps, not {fewest}: {lines}", steps == fewest)

    def test_ends_are_asked_of_all_orders(self):
        for asked, text, status in (("end quiet", RACE, 0), ("end quiet", WAKE, 1), ("end quiet stuck", WAKE, 0), ("end stuck", SUSPENDED, 0), ("end off", REBOOTS, 1), ("maybe end off", REBOOTS, 0), ("before 0 store, 1 load", RACE, 1)):
            found, lines = explored(self.room, f"#! {asked}\n{text}")
            must(f"{asked}: status {found}, {lines}", found == status)
        for text, status in ((RACE, 0), (WAKE, 1), (SUSPENDED, 1)):
            found, lines = explored(self.room, text)
            must(f"without a condition: status {found}, {lines}", found == status)
        found, lines = explored(self.room, "board 1 1 10 0 0x80000000 0\nat 0x80000000\necall 0x53525354 0 0 0\n")
        must(f"of a shutdown: status {found}, {lines}", found == 0 and "# orders: 1, off 1" in lines)

    def test_what_no_order_meets_is_told(self):
        """A condition is told of which no step of any order has the actor and the operation; one that meets such steps isn't."""
        for asked, met in (
            ("maybe never 1 load 0x80002008 -> value 1", False), ("never 1 load 0x80002000 -> value 7", True), ("maybe each 1 poll -> ret 0", False), ("end quiet", True),
            ("never 1 load after 0 store", True), ("maybe never 1 load after 1 store", False), ("never 1 store after 0 store", False), ("maybe before 0 store, 1 load 0x9000", False),
            ("some 0 store 0x80002000 1", True), ("never 1 sip", False),
        ):  # fmt: skip
            _, lines = explored(self.room, f"#! {asked}\n{RACE}")
            must(f"{asked}: {lines}", ("# line 1: never met: no step has this actor and operation" in lines) != met)

    def test_failing_orders_are_traces(self):
        """The record of a failing order is a trace that agrees, and whose steps are replayed: also of one that is longer than the
        script's LIMIT."""


        for limit in (None, 2):
            text = WAKE if limit is None else re.sub(r"^(board \S+ \S+) \S+", rf"\1 {limit}", WAKE)
            status, lines = explored(self.room, f"#! end quiet\n{text}")
            name = next(re.match(r'  record: "(.*)"', it)[1] for it in lines if it.startswith("  record: "))
            path = os.path.join(self.room, name)
            found = ran(["check", path], program=PROGRAM)
            record = read(path)
            steps = record.count(" -> ")
            must(f"{found}, of {steps} steps", not found.returncode and found.stdout == b"agrees %d\n" % steps)
            must(f"{lines}, of {steps} steps with a limit of {limit}", f"  length: {steps}" in lines and (f"  limit: {steps}" in lines) == (limit is not None))
            replayed = ran(["replay", script(self.room, "".join(line.partition(" -> ")[0] + "\n" for line in record.splitlines()))])
            must(f"the record is {record!r}, and a replay prints {replayed}", replayed.stdout.decode() == record)
        # (an order as long as the limit is none that is longer)
        for limit in (steps - 1, steps, steps + 1):
            _, lines = explored(self.room, "#! end quiet\n" + re.sub(r"^(board \S+ \S+) \S+", rf"\1 {limit}", WAKE))
            must(f"{lines}, of {steps} steps with a limit of {limit}", f"  length: {steps}" in lines and (f"  limit: {steps}" in lines) == (limit < steps))

    def test_a_record_is_named_for_what_it_shows(self):
        """The record of an order that breaks a condition is named for that, and that of one that `some` wants for being reached."""
        for asked, name in (("some 1 load 0x80002000 -> value 0x3", "a.program.1.reached"), ("never 1 load 0x80002000 -> value 0x3", "a.program.1.failed")):
            _, lines = explored(self.room, f"#! {asked}\n{LOADS_AND_STORES}")
            found = [it for it in os.listdir(self.room) if it.startswith("a.program.")]
            must(f"{asked}: {found}, {lines}", f'  record: "./{name}"' in lines and found == [name])
            os.remove(os.path.join(self.room, name))

    def test_bounds_of_a_look_at_all_orders_are_told(self):
        """With too few states, or no time, not all orders are seen, which is no success; a schedule has no orders."""
        status, lines = explored(self.room, LOADS_AND_STORES, "--states", "5")
        must(f"status {status}, {lines}", status == 8 and any(it.startswith("# not all orders were seen: ") for it in lines) and lines[-1] == "# cut short: not all orders were seen")
        status, lines = explored(self.room, LOADS_AND_STORES, "--seconds", "0")
        must(f"no time: status {status}, {lines}", status == 8 and "# not all orders were seen: 1 states, 0 steps" in lines and not any(it.startswith("# orders: ") for it in lines))
        status, lines = explored(self.room, LOADS_AND_STORES)
        must(f"status {status}, {lines}", status == 0 and lines[-3:] == ["1..1", "# 1 points, 0 failed", "# 1 files"])
        for most in ((1 << 31) - 1, 1 << 32, (1 << 32) + 5, 1 << 63, (1 << 64) - 1):
            must(f"{most} states", explored(self.room, LOADS_AND_STORES, "--states", str(most)) == (status, lines))
        status, lines = explored(self.room, "board 1 1 10 0 0x80000000 0\n0 advance\n")
        must(f"status {status}, {lines}", status == 1 and lines[1] == "not ok 1 - a.program: only a program has orders")
        status, lines = explored(self.room, "boar\n")
        must(f"status {status}, {lines}", status == 1)
        # (three states: before the entry, before the load, and behind it)
        for most, wanted in (("2", 8), ("3", 0)):
            status, lines = explored(self.room, "board 1 1 10 0 0x80000000 0\nat 0x80000000\nload 0x80000000\n", "--states", most)
            must(f"{most} states: status {status}, {lines}", status == wanted and ("# outcomes: 1" in lines) == (wanted == 0))
        # (as many states as there are, of which each has an outcome or two: it is said where these are too many)
        _, lines = explored(self.room, MESSAGE_PASSING)
        states, outcomes, found = int(re.search(r"# states: (\d+)", "\n".join(lines))[1]), next(it for it in lines if it.startswith("# outcomes: ")), []
        for most in (*range(states, 3 * states, states // 8 + 1), 10 * states):
            status, lines = explored(self.room, MESSAGE_PASSING, "--states", str(most))
            found.append([it for it in lines if it.startswith("# outcomes: ")])
            must(f"{most} states: status {status}, {lines}", status == 0 and found[-1] in ([outcomes], ["# outcomes: not told, there are too many states"]))
        must(f"{found}", found[0] != [outcomes] and found[-1] == [outcomes] and found == sorted(found, key=lambda it: it == [outcomes]))

    def test_spin_counts_the_same_states(self):
        """SPIN finds as many states and steps as explore, of a model of the same shootdowns by hand."""
        if missing := [it for it in ("spin", "gcc") if shutil.which(it) is None]:
            self.skipTest(f"there is no {missing[0]}")
        found = subprocess.run([sys.executable, os.path.join(ROOT, "bench/spin.py"), "--agree", "--harts", "4", TESTER], capture_output=True, text=True, timeout=HANG)
        wanted = [f"both count the same {it} of {harts} harts" for harts, it in ((2, "33 states and 50 steps"), (3, "228 states and 579 steps"), (4, "1,923 states and 7,098 steps"))]
        must(f"{found}", found.returncode == 0 and found.stdout.splitlines()[1:] == wanted)

    def test_help_of_explore_is_stored(self):
        """The help that the script has before the program is built is the program's own."""
        wanted = read(os.path.join(ROOT, "tests/program-data/help-explore.txt"))
        for word in ("--help", "-h"):
            found = tester(self.room, word, name="sbiboard explore")
            must(f"{word}: {found}", (found.returncode, found.stdout, found.stderr) == (0, wanted, ""))

    def test_the_tour_on_all_orders(self):
        """The commands of the tour on all orders, as they are written: the first prints the lines that stand there and fails, the second passes."""
        text = read(os.path.join(ROOT, "docs/TOUR.md"))
        text = text[text.index("## All orders") : text.index("## A lazy TLB in C")]
        commands = [line.strip() for line in text.split("\n") if line.startswith(("    ./sbiboard", "    sed "))]
        shown = [it for it in text.split("```\n")[1].split("\n") if it and it != "..."]
        os.symlink(EXAMPLES, os.path.join(self.room, "examples"))
        write(os.path.join(self.room, "sbiboard"), f'#!/bin/bash\nshift; exec -a "sbiboard explore" {TESTER} "$@"\n')
        os.chmod(os.path.join(self.room, "sbiboard"), 0o755)
        found = [subprocess.run(["bash", "-c", it], cwd=self.room, capture_output=True, text=True, timeout=HANG) for it in commands]
        lines = found[0].stdout.splitlines()
        must(f"{found}, and not {shown}", [it.returncode for it in found] == [1, 0] and all(it in lines for it in shown))
