"""Cuts of the history: no later answer of a board tells that there was one, and the history has room for its limit again."""
import os
import re

from .fixtures import EXAMPLES, FULL, Test, at_once, checked, must, ran, read, replayed, write
from .replays import bare, worked_rows

# The table's number of events.
EVENTS = re.compile(rb"(?m)^# time ([0-9a-f]{16}) events +([0-9]+) ")

# Rows with more lines are cut at every line at once, and not at each by itself.
MOST_SINGLE = 60


def schedules():
    """All worked rows and the examples: a name, the board line, and the steps."""
    yield from worked_rows()
    for file in sorted(it for it in os.listdir(EXAMPLES) if it.endswith(".sched")):
        head, *steps = bare(read(os.path.join(EXAMPLES, file)))
        yield file, head, steps


def replay(path, head, steps):
    return ran(["replay", write(path, "\n".join([head, *steps]) + "\n")])


def parted(printed):
    """The lines of steps, the number of events of the table, and the table without it."""
    lines = printed.splitlines()
    steps = [it for it in lines if b" -> " in it and not it.startswith(b"#")]
    table = b"\n".join(it for it in lines if it.startswith(b"#"))
    found = EVENTS.search(table)
    return steps, int(found[2]), EVENTS.sub(rb"# time \1 ", table)


def accepted(steps):
    return sum(b" -> refused " not in it for it in steps)


def differs(path, head, steps, whole, places):
    """What differs where the history is cut behind the steps of these places, of which `whole` is the replay without a cut."""
    own, last = [], 0
    for place, step in enumerate(steps):
        own.append(step)
        if place in places:
            own.append("cut")
            last = len(own)
    found = replay(path, head, own)
    if found.returncode or found.stderr:
        return f"status {found.returncode}, {found.stderr}"
    answers, events, table = parted(found.stdout)
    cuts = [it for it in answers if it.startswith(b"cut ")]
    if cuts != [b"cut -> done"] * len(places):
        return f"{len(cuts)} cuts of {len(places)}"
    if [it for it in answers if not it.startswith(b"cut ")] != whole[0]:
        return "another answer"
    if events != accepted(answers[last:]):
        return f"{events} events in the table"
    if table != whole[2]:
        return "another table"
    again = ran(["check", write(path[: -len(".sched")] + ".trace", found.stdout)])
    if (again.returncode, again.stdout) != (0, b"agrees %d\n" % len(answers)):
        return f"check: status {again.returncode}, {again.stdout}"
    return None


class Cuts(Test):
    def test_each_row_is_cut(self):
        """Each worked row with a cut behind each of its steps, and behind all of them: each step is answered the same, the table is
        the same but for its number of events, which is of those since the last cut, and what was printed agrees when it is checked.
        Rows in which the history was full aren't looked at here: a cut makes room."""
        cases = []
        for number, (name, head, steps) in enumerate(schedules()):
            path = os.path.join(self.room, f"{number}.sched")
            found = replay(path, head, [it for it in steps if it != "cut"])
            if found.returncode:
                continue
            steps = [it for it in steps if it != "cut"]
            whole = parted(found.stdout)
            sets = [set(range(len(steps)))]
            if len(steps) <= MOST_SINGLE:
                sets += [{place} for place in range(len(steps))]
            cases += [(name, path[: -len(".sched")] + f"-{it}.sched", head, steps, whole, places) for it, places in enumerate(sets)]
        must(f"only {len(cases)} schedules were cut", len(cases) >= 2000)
        for case, why in zip(cases, at_once(lambda it: differs(*it[1:]), cases)):
            must(f"{case[0]}, cut behind {sorted(case[5])}: {why}", not why)

    def test_a_cut_makes_room(self):
        """The limit counts from the last cut: a history that was full has room again, and the table tells its events since then."""
        text = b"board 1 1 2 0 0x80000000 0x0\n0 advance\n0 sip\n0 sip\ncut\n0 sip\n0 sip\n0 sip\ncut\n"
        out = b"""\
board 1 1 2 0 0x80000000 0x0
0 advance -> entry 0x80000000 0 0x0
0 sip -> value 0x0
0 sip -> refused 4
cut -> done
0 sip -> value 0x0
0 sip -> value 0x0
0 sip -> refused 4
cut -> done
# time 0000000000000000 events       0 power on reset none
# starts 1 entries 1 pending 0 asked 0 applied 0 waiting 0
# hart state           wait out ss st ie se satp             deadline         tlb ic
#    0 STARTED            0   -  0  0 00  0 0000000000000000 ----------------   0  0
"""
        replayed(self.room, text, 3, out, FULL)
        checked(self.room, out, 0, b"agrees 8\n", b"")

    def test_lines_of_cuts(self):
        """A cut has no actor and no further word, and its reply is `done`; in a program it is no line."""
        board = b"board 1 1 10 0 0x80000000 0x0\n"
        for line, fault in ((b"cut x", 5), (b"cut ->", 5), (b"0 cut", 3), (b"c cut", 3), (b"cuts", 6), (b"cut cut", 5)):
            replayed(self.room, board + line + b"\n", 1, b"", b"sbiboard: line 2: fault %d\n" % fault)
        replayed(self.room, board + b"at 0x80000000\ncut\n", 1, b"", b"sbiboard: line 3: fault 6\n")
        checked(self.room, board + b"cut -> value 0x1\n", 5, b"differs at line 2: done\n", b"")
        replayed(self.room, board + b"c tick 1\n \tcut # here\n0 cut\n", 1, b"", b"sbiboard: line 4: fault 3\n")
