"""Why an access is stale, missed or unsteady: what `test` tells below a failing point, and behind the lines of a schedule or a trace."""
import os
import re

from .expected_causes import of_file, of_program
from .fixtures import TESTER, Test, must, read, told
from .test_marks import BEFORE, CASES, COVERING, FENCE_CALLS, FETCHED, FORGETS, FORGOTTEN, GLOBAL, LOADED, MORE, OFF, PROTECTED, REMAPPED, SECOND, TWINS, WINDOW, call, uses_old
from .test_orders import at_a_terminal
from .test_points import random_steps

CHANGED = "  changed at step 14 (line 16: 0 store 0x80003008 0x200014c7)"
ASKED = "0 ecall 0x52464e43 0x1 {} 0x0 0x1000 0x1000 0x0 0x0"
USED = "{} load 0x1000 used 0x80004000 rw-d, filled at step {} (line {}: {} load 0x1000)"


def used(hart, place):
    return USED.format(hart, place, place + 2, hart)


# What kernels get wrong: the condition, the schedule, and the lines of the cause.
KNOWN = (
    # A hart that the mask forgets.
    ("never missed", FORGOTTEN, [used(2, 13), CHANGED, f"  fenced at step 15 (line 17: {ASKED.format('0x2')}), which asked hart 1, and not hart 2"]),
    # A right shootdown, and a load before the fence is served.
    ("steady", BEFORE + LOADED + REMAPPED + call("1 0x6 0 0x1000 0x1000", "1 serve\n2 load 0x1000\n2 serve\n0 poll\n"), [used(2, 13), CHANGED, f"  fenced at step 15 (line 17: {ASKED.format('0x6')}), which asked harts 1, 2; hart 2 hasn't served it yet"]),
    # The same where the hart hasn't loaded from the page before.
    ("steady", BEFORE + REMAPPED + call("1 0x6 0 0x1000 0x1000", "2 load 0x1000\n1 serve\n2 serve\n0 poll\n"), ["2 load 0x1000 may use 0x80004000 rw-d, which the tables gave from step 11 to 12", "  changed at step 12 (line 14: 0 store 0x80003008 0x200014c7)", f"  fenced at step 13 (line 15: {ASKED.format('0x6')}), which asked harts 1, 2; hart 2 hasn't served it yet"]),
    # A load before the fence is asked.
    ("never stale", BEFORE + LOADED + REMAPPED + "1 load 0x1000\n" + call("1 0x6 0 0x1000 0x1000", ""), [used(1, 12), CHANGED, f"  no fence at hart 1 covers 0x1000 before this; the next is step 16 (line 18: {ASKED.format('0x6')})"]),
    # An ASID that is used again without a fence, and another root with it.
    ("never stale", SECOND + "1 satp 0x8000500000080006\n1 load 0x1000\n", [used(1, 15), "  changed at step 17 (line 19: 1 satp 0x8000500000080006)", "  no fence at hart 1 covers 0x1000 before this"]),
    ("steady", MORE + "0 store 0x80006000 0x20001c01\n0 store 0x80007000 0x20002001\n0 store 0x80008008 0x200014c7\n1 satp 0x8000500000080006\n1 load 0x1000\n", ["1 load 0x1000 may use 0x80004000 rw-d, which the tables give by satp 0x8000500000080001, which hart 1 had from step 10 to 15", "  changed at step 15 (line 17: 1 satp 0x8000500000080006)", "  no fence at hart 1 covers 0x1000 before this"]),
    # A page that is used for something else before the fence.
    ("never stale", BEFORE + LOADED + REMAPPED + "0 store 0x80004000 0x99\n" + call("1 0x4 0 0x1000 0x1000", "2 serve\n0 poll\n1 load 0x1000\n"), [used(1, 12), CHANGED, f"  fenced at step 16 (line 18: {ASKED.format('0x4')}), which asked hart 2, and not hart 1"]),
    # A right that is taken away.
    ("steady", PROTECTED + "1 load 0x1000\n1 store 0x1000 5\n", ["1 store 0x1000 0x5 used 0x80004000 rw-d, filled at step 12 (line 14: 1 load 0x1000)", "  changed at step 14 (line 16: 0 store 0x80003008 0x20001043)", "  no fence at hart 1 covers 0x1000 before this"]),
    # A hart that is off and on without a fence.
    ("steady", OFF + "1 load 0x1000\n", ["1 load 0x1000 may use 0x80004000 rw-d, which the tables gave from step 10 to 15", "  changed at step 15 (line 17: 0 store 0x80003008 0x200014c7)", "  no fence at hart 1 covers 0x1000 before this"]),
    # A hart that is off when the fence would be served.
    ("steady", BEFORE + LOADED + REMAPPED + call("1 0x2 0 0x1000 0x1000", "1 ecall 0x48534d 1\n0 poll\n1 advance\n0 ecall 0x48534d 0 1 0x80000000 0\n1 advance\n1 satp 0x8000500000080001\n1 load 0x1000\n"), ["1 load 0x1000 may use 0x80004000 rw-d, which the tables gave from step 10 to 14", CHANGED, f"  fenced at step 15 (line 17: {ASKED.format('0x2')}), which asked hart 1; hart 1 stopped before it served it"]),
    # A fence before the change, of another page, of another address space, of no hart, of other harts alone.
    ("never stale", BEFORE + LOADED + call("1 0x6 0 0x1000 0x1000", "1 serve\n2 serve\n0 poll\n") + LOADED + REMAPPED + "1 load 0x1000\n", [used(1, 18), "  changed at step 20 (line 22: 0 store 0x80003008 0x200014c7)", f"  fenced at step 14 (line 16: {ASKED.format('0x6')}), before the change, and not since"]),
    ("never stale", uses_old(call("1 0x6 0 0x2000 0x1000", "1 serve\n2 serve\n0 poll\n")), [used(2, 13), CHANGED, "  no fence at hart 2 covers 0x1000 before this"]),
    ("never stale", GLOBAL + "1 sfence - 5\n1 load 0x1000\n", [used(1, 12), "  changed at step 14 (line 16: 0 store 0x80003008 0x200014e7)", "  no fence at hart 1 covers 0x1000 before this"]),
    ("never stale", uses_old(call("1 0x0 0 0x1000 0x1000", "0 poll\n")), [used(2, 13), CHANGED, f"  fenced at step 15 (line 17: {ASKED.format('0x0')}), which asked no hart, and not hart 2"]),
    ("never stale", uses_old("0 sfence - -\n1 sfence 0x1000 -\n"), [used(2, 13), CHANGED, "  no fence at hart 2 covers 0x1000 before this"]),
    # Of several changes the one since which the tables don't give what the entry says, and no store to another entry.
    ("never stale", uses_old("0 store 0x80003010 0x200010c7\n0 store 0x80003008 0x200014c7\n"), [used(2, 13), CHANGED, "  no fence at hart 2 covers 0x1000 before this"]),
    ("never stale", uses_old("0 store 0x80003008 0x200010c7\n0 store 0x80003008 0x200014c7\n"), [used(2, 13), "  changed at step 16 (line 18: 0 store 0x80003008 0x200014c7)", "  no fence at hart 2 covers 0x1000 before this"]),
    # Of several fences the first that covers the address.
    ("never stale", uses_old(call("1 0x2 0 0x2000 0x1000") + COVERING + COVERING), [used(2, 13), CHANGED, f"  fenced at step 18 (line 20: {ASKED.format('0x2')}), which asked hart 1, and not hart 2"]),
    # A fetched word that the memory no longer has, and one that an instruction cache may hold.
    ("steady", FETCHED + "1 fetch 0x80004000\n", ["1 fetch 0x80004000 used the word 0x11 of 0x80004000, filled at step 11 (line 13: 1 fetch 0x80004000)", "  changed at step 12 (line 14: 0 store 0x80004000 0x12)", "  fenced at step 10 (line 12: 1 fencei), before the change, and not since"]),
    ("steady", FETCHED.replace("1 fencei\n1 fetch 0x80004000\n", "") + "0 ecall 0x52464e43 0 4\n1 fetch 0x80004000\n", ["1 fetch 0x80004000 may use the word 0x11 of 0x80004000, which memory had up to step 10", "  changed at step 10 (line 12: 0 store 0x80004000 0x12)", "  fenced at step 11 (line 13: 0 ecall 0x52464e43 0x0 0x4 0x0 0x0 0x0 0x0 0x0), which asked hart 2, and not hart 1"]),
    # A step behind another one that has a mark.
    ("never 0 poll after 2 load -> stale", BEFORE + LOADED + REMAPPED + call("1 0x6 0 0x1000 0x1000", "2 load 0x1000\n1 serve\n2 serve\n0 poll\n"), [used(2, 13), CHANGED, f"  fenced at step 15 (line 17: {ASKED.format('0x6')}), which asked harts 1, 2; hart 2 hasn't served it yet"]),
)  # fmt: skip


def shifted(text):
    """Behind one line more, as a condition is."""
    return re.sub(r"\(line (\d+)", lambda it: f"(line {int(it[1]) + 1}", text)


def block(lines):
    """The lines of the first cause below a point."""
    found = lines[lines.index("  cause: |") + 1 :] if "  cause: |" in lines else []
    end = next((at for at, it in enumerate(found) if not it.startswith("    ")), len(found))
    return [it[4:] for it in found[:end]]


def noted(lines):
    """Of each line of a file that is told as stale what is told of it, and the lines of its cause."""
    found, last = {}, None
    for line in lines:
        if match := re.fullmatch(r"# line (\d+): (stale: .*)", line):
            last = found[int(match[1])] = [match[2], []]
        elif line.startswith("#   ") and last:
            last[1].append(line[4:])
        else:
            last = None
    return found


def must_note(text, lines):
    """Each stale line has its cause, and is told as missed if it is."""
    causes, found, seen = of_file(text), noted(lines), 0
    for line, (why, told_lines) in found.items():
        place = causes.lines.index(line)
        wanted = causes.told(place, may=False)
        is_missed = bool(causes.used(place)) and causes.is_missed(place)
        must(f"{text}: line {line}: {why}: {told_lines}, and not {wanted}", told_lines in wanted and is_missed == why.endswith("; a fence call missed it"))
        seen += 1
    return seen


class CausesOfMarks(Test):
    programs = (TESTER,)

    def judged(self, asked, text, *words, name="a.sched"):
        text = f"#! {asked}\n{text}"
        return text, *told(self.room, text, *words, name=name)

    def test_causes_of_known_bugs(self):
        """Each thing that kernels get wrong has its cause: what was used, filled and changed where, and which fence would have ended it."""
        for asked, text, wanted in KNOWN:
            _, status, lines = self.judged(asked, text)
            must(f"{asked}: {text}: {lines}, and not {wanted}", status == 1 and block(lines) == list(map(shifted, wanted)) and not any("refused" in it for it in lines))

    def test_causes_of_schedules_and_traces(self):
        """Each failing point that asks of a mark tells the cause of its first access that has the mark, and each stale line its own: those of the model."""
        seen = 0
        texts = [text for text, *_ in (*CASES, *FENCE_CALLS)] + [text for twin in TWINS for text in twin[1:]] + [text for _, text, _ in KNOWN]
        for text in [*dict.fromkeys(texts), *(random_steps(seed) for seed in range(40))]:
            for asked in ("steady", "never stale"):
                whole, status, lines = self.judged(asked, text)
                causes = of_file(whole)
                found, place = block(lines), next((int(it.split()[1]) for it in lines if it.startswith("  place: ")), None)
                ways = [] if place is None else causes.told(place, may=asked == "steady")
                must(f"{whole}: {lines}: {found}, and not {ways}", (status == 1) == (place is not None) == bool(found) and found in (ways or [[]]))
                seen += bool(found)
                must_note(whole, lines)
        must(f"{seen} points fail", seen > 60)

    def test_causes_over_cuts(self):
        """A cut of the history changes no cause, and no line."""
        text = FORGOTTEN.replace(REMAPPED, "cut\n" + REMAPPED).replace("3 6 100", "3 6 14")
        whole, status, lines = self.judged("never missed", text)
        place = next(int(it.split()[1]) for it in lines if it.startswith("  place: "))
        must(f"{lines}", status == 1 and block(lines) in of_file(whole).told(place) and must_note(whole, lines) == 1)

    def test_causes_of_programs(self):
        """The first failing order of a program, or run on threads, has the cause that its record tells, with the lines of the program."""
        for text, asked in ((FORGETS, "never missed"), (FORGETS, "steady"), (WINDOW, "never stale"), (WINDOW, "steady"), (WINDOW, "never _ -> unsteady after 0 ecall")):
            for words in (("--times", "40"), ("--times", "20", "--seed", "7"), ("--times", "0", "--threads")):
                program, status, lines = self.judged(asked, text, *words, name="a.program")
                if "--threads" in words and "  cause: |" not in lines:
                    continue
                record = next(it.split('"')[1] for it in lines if it.startswith("  record: "))
                place = next(int(it.split()[1]) for it in lines if it.startswith("  place: "))
                causes = of_program(program, read(os.path.join(self.room, record)))
                must(f"{asked}: {lines}: {causes.told(place)}", status == 1 and block(lines) in causes.told(place))

    def test_causes_stand_where_marks_are_asked(self):
        """A point that asks of no mark stays as it is, and so does one whose step has no mark."""
        for asked in ("never 2 load 0x1000 -> value 0x11 after 0 poll", "each 1 load -> stale", "before 1 serve, 2 load -> value 0x11", "some 1 load -> unsteady"):
            _, status, lines = self.judged(asked, FORGOTTEN)
            must(f"{asked}: {lines}", status == 1 and "  cause: |" not in lines)

    def test_causes_on_a_terminal(self):
        """Plain text has the same lines."""
        _, lines = told(self.room, f"#! never missed\n{FORGOTTEN}", name="a.sched")
        _, text = at_a_terminal(self.room, "a.sched")
        shown = text.replace("\r", "").splitlines()
        must(f"{shown}", all(f"        {it}" in shown for it in block(lines)) and len(block(lines)) == 3 and "      cause: |" in shown)
