"""Programs of few states: `sbiboard test` looks at all their orders, and tries orders of its seed of the others."""
import os
import re

from . import all_orders, programs
from .expected_points import FEW, FEW_PAGES, said_of
from .fixtures import NO_MEMORY, PROGRAM, TESTER, Test, allocating, example_programs, explored, must, read, shim, tester, told, told_of, write
from .test_explore import ASKED, COUNTED, MESSAGE_PASSING, REBOOTS, STORE_BUFFERING, ends_told
from .test_orders import FAILING_CALLS, FAILING_LINES, FENCE, LOADS_AND_STORES, RACE, ROWS, SUSPENDED, WAKE, at_a_terminal

SEEDS = ("--times", "1000")

# Words that ask for seeds or for threads, and words that don't.
FLAGS = (["--times", "1000"], ["--times=7"], ["--seed", "0"], ["--seed", "9"], ["--order", "0"], ["--order", "5"], ["--threads"], ["--threads", "--times", "4"], ["--times", "0"])

OTHERS = (["--jobs", "1"], ["--jobs", "9"], ["--failed", "."], ["--tap", "points.tap"], ["--seconds", "100"], ["--seconds", "100", "--jobs", "2"])
OTHERS += tuple([option, str(number)] for option in ("--seconds", "--jobs") for number in ((1 << 31) - 1, 1 << 32, 1 << 63, (1 << 64) - 1))

# A program of one order, which switches the board off.
OFF = "board 1 1 50 0 0x80000000 0\nat 0x80000000\necall 0x53525354 0 0 0\n"

# Random programs that are looked at, and how many states of theirs the model finds at most.
RANDOM, MOST = 30, 500


def beside(one, other, before=0, pages=1):
    """A program of two harts that load so often, each beside the other, once the first has loaded so often before; see `states_of`."""
    load, start = "load 0x80000000\n", "ecall 0x48534d 0 1 0x80000800\n"
    return f"board 2 {pages} 1000 0 0x80000000 0x0\nat 0x80000000\n{load * before}{start}{load * one}at 0x80000800\n{load * other}"


def states_of(one, other, before=0):
    return 2 + before + (one + 1) * (other + 2)


# A program of more states than are few.
MANY = beside(150, 150)


def edge(pages):
    """On a board of so many pages: as many states as are few, a program of as many, and one of one more."""
    few = min(FEW, FEW_PAGES // pages)
    loads = max(it for it in range(few) if states_of(it, it) <= few)
    return few, *(beside(loads, loads, states - states_of(loads, loads), pages) for states in (few, few + 1))


EDGES = [edge(pages) for pages in (1, 16, 256)]


def summary(lines):
    """What is told behind the plan."""
    return lines[next(place for place, line in enumerate(lines) if line.startswith("1..")) + 1 :]


def are_all(lines):
    """Whether all orders were looked at, by what is told of one program."""
    is_seen = any(line.startswith("# states: ") for line in lines)
    must(f"{lines}", is_seen == any(line.startswith("# all orders of ") for line in summary(lines)) and is_seen != any(re.search(r" \d+ orders, ", line) for line in lines))
    return is_seen


def oddities_of(text):
    """The lines of a program that are odd, by the model: blocks that no order enters, and calls whose every answer is an error."""
    orders = all_orders.Orders(text, MOST)
    entered, calls = set(), {}
    for place, edges in enumerate(orders.edges):
        for actor, op, answer, _ in edges:
            if answer[0] == "entry":
                entered.add(answer[1])
            if op[0] == "ecall":
                line = orders.points[place].left[actor][0][0]
                calls[line] = calls.get(line, False) or not (answer[0] == "ret" and answer[1] != 0)
    heads = {int(words[1], 16): line for line, words in enumerate(map(str.split, text.splitlines()), 1) if words[:1] == ["at"]}
    found = {(line, "block") for addr, line in heads.items() if addr not in entered} | {(line, "call") for line, is_good in calls.items() if not is_good}
    return found | {(addr, "entry") for addr in entered if addr not in heads}


def oddities_told(lines):
    """The same, by what is told."""
    found = set()
    for line in lines:
        if match := re.fullmatch(r"# line (\d+): no order entered the block at 0x[0-9a-f]+", line):
            found.add((int(match[1]), "block"))
        elif match := re.fullmatch(r"# line (\d+): each answer to '.*' was an error", line):
            found.add((int(match[1]), "call"))
        elif match := re.fullmatch(r"# a hart was entered at (0x[0-9a-f]+), where no block is", line):
            found.add((int(match[1], 16), "entry"))
    return found


def as_explored(line):
    """A point of `test` in the words of `explore`, which doesn't say how far it looked."""
    found = re.fullmatch(r"((?:not )?ok \d+ - .*: )(holds|fails) in (some of )?all orders(?:: [\d,]+)?", line)
    if found is None:
        return line
    return found[1] + found[2] + ("" if found[3] else " in all orders")


class FewStates(Test):
    programs = (PROGRAM, TESTER)

    def test_few_states_are_all_looked_at(self):
        """Of a program of few states the points are those of `explore`, and the summary has as many orders as there are."""
        texts = [*COUNTED.values(), STORE_BUFFERING, MESSAGE_PASSING, *(f"#! {asked}\n{text}" for asked, text, _ in ASKED)]
        texts += map(read, example_programs())
        few = 0
        for text in texts:
            status, lines = told(self.room, text, name="a.program")
            lines = [*map(as_explored, lines)]
            found, wanted = explored(self.room, text, "--no-outcomes")
            states = next(int(line.split()[2].rstrip(",")) for line in wanted if line.startswith("# states: "))
            must(f"{text}: {states} states, {lines}", are_all(lines) == (states <= FEW))
            if states > FEW:
                continue
            few += 1
            plan = next(place for place, line in enumerate(wanted) if line.startswith("1.."))
            must(f"{text}: status {status}, {lines}, and explored {found}, {wanted}", status == found and lines[: plan + 3] == [*wanted[: plan + 2], "# 1 files"])
            ends = all_orders.Orders(text).ends
            # (a summary of several programs names no ends of those that have orders without end)
            told_ends = {} if "# all orders of 1 programs: some without end" in lines else ends_told([line.replace("# all orders of 1 programs: ", "# orders: ") for line in summary(lines)])
            must(f"{text}: told are {told_ends}, and counted {ends}", not (told_ends != ends and not (None in ends.values() and told_ends == {})))
            must(f"{text}: {lines}", len(summary(lines)) == 3)
        must(f"only {few} programs have few states", few >= 20)

    def test_many_states_are_tried_by_seeds(self):
        """A program of more states is told as orders of its seed are, to the byte; with one state less all are looked at."""
        for text, is_few in (
            *((text, is_few) for _, few, many in EDGES for text, is_few in ((few, True), (many, False))),
            (MANY, False), ("#! never 1 load -> value 1\n#! end off\n#! some 0 sip\n" + MANY, False),
        ):  # fmt: skip
            found = told(self.room, text)
            seeds = told(self.room, text, *SEEDS)
            name = text.splitlines()[0]
            must(f"{name}: {found}, and by seeds {seeds}", are_all(found[1]) == is_few and not are_all(seeds[1]) and (is_few or found == seeds))
        _, lines = told(self.room, MANY)
        must(f"{lines}", lines[1] == "ok 1 - race.program: no order ends stuck: holds in 1,000 orders of unknown many, seed 0" and lines[-2].startswith("# 1 files, 1000 orders, "))
        for few, text, _ in EDGES:
            _, lines = told(self.room, text)
            must(f"{lines}", f"# states: {few}, " in "\n".join(lines))

    def test_who_asks_for_seeds_gets_seeds(self):
        """Where the words ask for orders of a seed, or for threads, these are tried; other words make no difference."""
        text = "#! end quiet\n#! some 1 load -> value 1\n" + RACE
        for words in FLAGS:
            _, lines = told(self.room, text, *words)
            must(f"{words}: {lines}", not are_all(lines))
        must("--seed 0 is another seed", told(self.room, text, "--seed", "0") == told(self.room, text, *SEEDS))
        _, lines = told(self.room, text, "--order", "5")
        must(f"{lines}", any(line.startswith("# 1 files, 1 orders, ") for line in lines))
        _, lines = told(self.room, text, "--threads", "--times", "4")
        must(f"{lines}", "ok 3 - race.program: line 1: end quiet: holds in 4 runs on threads" in lines)
        plain = told(self.room, text)
        for words in OTHERS:
            found = told(self.room, text, *words)
            must(f"{words}: {found}", found == plain and are_all(found[1]))

    def test_time_that_is_over_before_all_orders_were_seen(self):
        """Where the time is over before all orders were seen, no order of the seed is tried either, and it is told as it was."""
        for text in (RACE, "#! end off\n" + RACE, "#! some 1 load\n#! end quiet\n" + MANY):
            found = told(self.room, text, "--seconds", "0")
            must(f"{found}", found == told(self.room, text, "--seconds", "0", *SEEDS) and found[0] == 8 and found[1][-1] == "# cut short: not all orders were tried")

    def test_odd_programs_of_few_states_are_told(self):
        """What is odd about a program is told by all its orders as it is by those of a seed, in the same words."""
        text = "#! end quiet\n" + RACE.replace("at 0x80001000\n", "ecall 0x48534d 0 9 0x80001000 # no such hart\nat 0x80003000\nat 0x80001004\n")
        odd = lambda lines: [line for line in lines if line.startswith(("# line", "# a "))]
        _, lines = told(self.room, text)
        wanted = [
            "# line 6: each answer to 'ecall 0x48534d 0 9 0x80001000' was an error", "# line 7: no order entered the block at 0x80003000",
            "# line 8: no order entered the block at 0x80001004", "# a hart was entered at 0x80001000, where no block is",
        ]  # fmt: skip
        must(f"{lines}", are_all(lines) and odd(lines) == wanted and odd(told(self.room, text, *SEEDS)[1]) == wanted)
        _, lines = told(self.room, FAILING_CALLS)
        must(f"{lines}", are_all(lines) and odd(lines) == FAILING_LINES)
        for text in (RACE, WAKE, SUSPENDED, FENCE, REBOOTS):
            must(text, oddities_told(told(self.room, text)[1]) == oddities_of(text) == set())

    def test_what_is_odd_about_random_programs_is_told(self):
        """Of random programs exactly that is told to be odd which is so by the model; some are."""
        seen = odd = 0
        for seed in range(20 * RANDOM):
            text = programs.RandomProgram(seed).text().decode()
            if int(text.split()[1]) > 3 or seen == RANDOM:
                continue
            try:
                wanted = oddities_of(text)
            except ValueError:
                continue
            _, lines = told(self.room, text)
            must(f"seed {seed}: told are {oddities_told(lines)}, and odd {wanted}", are_all(lines) and oddities_told(lines) == wanted)
            seen, odd = seen + 1, odd + bool(wanted)
        must(f"{seen} programs, {odd} odd", seen == RANDOM and odd > 5)

    def test_conditions_of_few_states_are_judged(self):
        """A condition of a program of few states is met, or isn't, as by orders of a seed, which meet all that the program has."""
        for asked, holds in ROWS:
            status, lines = told(self.room, f"#! {asked} # as it is\n{RACE}")
            is_some = asked.startswith("some")
            said = said_of(holds, is_some, "all orders: 4")
            must(f"{asked}: {status}, {lines}", status == (0 if holds else 1) and lines[1] == f"{'' if holds else 'not '}ok 1 - race.program: line 1: {asked}{said}")
            is_shown = holds == is_some
            name = f"race.program.1.{'reached' if is_some else 'failed'}"
            path = os.path.join(self.room, name)
            must(f"{asked}: {lines}", (f'  record: "./{name}"' in lines) == is_shown == os.path.exists(path))
            if is_shown:
                os.remove(path)
        for asked, is_met in (("maybe never 1 load 0x80002008 -> value 1", False), ("never 1 load after 0 store", True), ("maybe each 1 poll -> ret 0", False), ("never 0 sip", False), ("some 0 sip", False), ("end quiet", True)):
            _, lines = told(self.room, f"#! {asked}\n{RACE}")
            must(f"{asked}: {lines}", are_all(lines) and ("# line 1: never met: no step has this actor and operation" in lines) != is_met)

    def test_programs_of_few_states_without_conditions(self):
        """A program of few states and without conditions fails where some order ends stuck."""
        for text, holds in ((RACE, True), (WAKE, False), (SUSPENDED, False), (FENCE, True)):
            status, lines = told(self.room, text)
            many = sum(all_orders.Orders(text).ends.values())
            point = f"{'' if holds else 'not '}ok 1 - race.program: no order ends stuck{said_of(holds, False, f'all orders: {many:,}')}"
            must(f"{text}: {status}, {lines}", status == (0 if holds else 1) and lines[1] == point)
        _, lines = told(self.room, WAKE)
        must(f"{lines}", "    - \"hart 1: line 8 'wfi': SSIP is 0, STIP is 0, SSIE is 1, STIE is 0\"" in lines)

    def test_conditions_about_limits_are_asked_of_seeds(self):
        """A condition that names a history that is full is asked of orders of the seed, since no limit cuts off those that are all looked at."""
        for text in ("#! end quiet history-full\n" + RACE, "#! some 1 load\n#! end history-full\n" + RACE.replace(" 100 ", " 6 ")):
            found = told(self.room, text)
            must(f"{found}", not are_all(found[1]) and found == told(self.room, text, *SEEDS))
        status, lines = told(self.room, "#! end quiet\n" + RACE.replace(" 100 ", " 5 "))
        must(f"{lines}", status == 0 and are_all(lines) and lines[1].endswith("end quiet: holds in all orders: 4"))

    def test_summaries_of_few_states_and_many(self):
        """The summary tells orders that were tried, and programs of which all were seen, apart."""
        files = {"few.program": LOADS_AND_STORES, "wake.program": WAKE, "many.program": MANY, "endless.program": REBOOTS, "off.program": OFF, "a.sched": "board 1 1 10 0 0x80000000 0\n0 advance\n"}
        for name, text in files.items():
            write(os.path.join(self.room, name), text)
        ends = all_orders.Orders(WAKE).ends
        tried = r"# {} files, {} orders, \d+ different records;# ends: 0 off, 0 history-full, {} quiet, 0 stuck"
        for names, status, wanted in (
            (["few.program"], 0, "# 1 files;# all orders of 1 programs: 35, quiet 35"),
            (["few.program", "wake.program"], 1, f"# 2 files;# all orders of 2 programs: 41, quiet {35 + ends['quiet']}, stuck {ends['stuck']}"),
            (["off.program"], 0, "# 1 files;# all orders of 1 programs: 1, off 1"),
            (["few.program", "off.program", "wake.program", "off.program"], 1, f"# 4 files;# all orders of 4 programs: 43, off 2, quiet {35 + ends['quiet']}, stuck {ends['stuck']}"),
            (["endless.program"], 1, "# 1 files;# all orders of 1 programs: some without end"),
            (["few.program", "endless.program", "a.sched"], 1, "# 3 files;# all orders of 1 programs: 35, quiet 35;# all orders of 1 programs: some without end"),
            (["many.program", "few.program"], 0, tried.format(2, 1000, 1000) + ";# all orders of 1 programs: 35, quiet 35"),
            (["many.program"], 0, tried.format(1, 1000, 1000)), (["a.sched"], 0, tried.format(1, 0, 0)),
        ):  # fmt: skip
            found, lines = told_of(self.room, *names)
            points = sum(line.startswith(("ok ", "not ok ")) for line in lines)
            failed = sum(line.startswith("not ok ") for line in lines)
            must(f"{names}: {found}, {lines}", found == status and re.fullmatch(f"# {points} points, {failed} failed;(?:{wanted})", ";".join(summary(lines))))

    def test_statuses_of_few_states(self):
        """0 and 1 by the points; 7 for a record that can't be written; the points are written into a file, and told plainly at a terminal."""
        for text, status in ((RACE, 0), ("#! end off\n" + RACE, 1), ("#! some 1 load -> value 9\n" + RACE, 1), ("#! some 9 sip\n" + MANY, 1), (MANY, 0)):
            found = told(self.room, text, "--tap", "points.tap")
            must(f"{found}", found[0] == status and read(os.path.join(self.room, "points.tap")).splitlines() == found[1])
        told(self.room, "#! end off\n" + RACE)
        found = tester(self.room, "--failed", "nowhere", "race.program")
        must(f"{found}", found.returncode == 7 and found.stderr.startswith("sbiboard: nowhere/race.program.1.failed: "))
        status, text = at_a_terminal(self.room, "race.program")
        lines = text.split("\n")
        must(f"{text}", status == 1 and lines[0] == "FAIL  race.program: line 1: end off: fails in some of all orders: 4" and "all orders of 1 programs: 4, quiet 4" in lines and "TAP" not in text)

    def test_want_of_memory_of_a_look_at_few_states(self):
        """Allocations refused in turn, of a look at all orders: no memory, after whole points at most, or all is told as it is."""
        made = shim(self.room)
        write(os.path.join(self.room, "race.program"), f"#! never 1 load -> value 1\n#! end quiet\n{RACE}")
        whole, sizes = allocating(made, self.room, ["race.program"], program=TESTER, cwd=self.room)
        must(f"{whole}", whole.returncode == 1 and b"# states: " in whole.stdout)
        step, refused = 1 + len(sizes) // 400, 0
        for number in range(1, len(sizes) + 1, step):
            found, _ = allocating(made, self.room, ["race.program"], number, program=TESTER, cwd=self.room)
            if found.returncode == 6:
                refused += 1
                must(f"{number}: {found}", found.stderr == NO_MEMORY and whole.stdout.startswith(found.stdout))
            else:
                must(f"{number}: {found}", (found.returncode, found.stdout, found.stderr) == (whole.returncode, whole.stdout, whole.stderr))
        must(f"{refused} of {len(sizes)} are told", refused > 50)
