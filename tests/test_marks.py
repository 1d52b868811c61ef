"""What conditions say of accesses on any TLB: which are stale, which a fence call missed, and which are unsteady, of schedules and traces, and of tried orders."""
import os
import re

from board_model import number

from .any_tlb import MARKS, UNSTEADY, marks_of_schedule
from .fixtures import EXAMPLES, TESTER, Test, must, read, told
from .judge import Verdicts, condition, holds, misfit
from .marked_orders import MarkedOrders, steps_of
from .test_empty_verdicts import in_way, points

BEFORE = """\
board 3 6 100 0 0x80000000 0
0 advance
0 ecall 0x48534d 0 1 0x80000000 0
1 advance
0 ecall 0x48534d 0 2 0x80000000 0
2 advance
0 store 0x80001000 0x20000801
0 store 0x80002000 0x20000c01
0 store 0x80003008 0x200010c7
0 store 0x80004000 0x11
0 store 0x80005000 0x22
1 satp 0x8000500000080001
2 satp 0x8000500000080001
"""
REMAPPED = "0 store 0x80003008 0x200014c7\n"
LOADED = "1 load 0x1000\n2 load 0x1000\n"
# Hart 0 remaps the page, and asks a fence of hart 1 alone.
FORGOTTEN = BEFORE + LOADED + REMAPPED + "0 ecall 0x52464e43 1 0x2 0 0x1000 0x1000\n1 serve\n0 poll\n" + LOADED
# No TLB of this board has the page, and some TLB may have it.
AHEAD = BEFORE + REMAPPED + "1 load 0x1000\n"
FENCED = BEFORE + LOADED + REMAPPED + "1 sfence 0x1000 -\n2 sfence - -\n" + LOADED
OTHER_PAGE = BEFORE + LOADED + REMAPPED + "1 sfence 0x2000 -\n1 load 0x1000\n"
SAME_PAGE = BEFORE + LOADED + "0 store 0x80003008 0x200010c7\n" + LOADED
# A walk that began by the satp before may still fill, until a fence.
OTHER_SATP = BEFORE + "1 satp 0x8000500000080002\n1 load 0x1000\n"
AMO = BEFORE + LOADED + REMAPPED + "2 amoadd 0x1000 5\n1 sfence - -\n1 amoadd.w 0x1004 1\n"
# Of a fetch the word counts, also where nothing is translated.
FETCHED = BEFORE.rsplit("1 satp", 1)[0] + "1 fencei\n1 fetch 0x80004000\n0 store 0x80004000 0x12\n"
RESET = BEFORE + LOADED + REMAPPED + "0 ecall 0x53525354 0 2 0\n0 advance\n0 satp 0x8000500000080001\n0 load 0x1000\n"

# A schedule, and which of these conditions it meets.
CASES = (
    (FORGOTTEN, {"never stale": False, "steady": False, "steady 1": True, "steady 1 load 0x1000": True, "never 2 load -> stale": False, "some 2 load -> stale": True, "each 2 load -> stale": False, "never 1 -> stale": True,
        "never missed": False, "never 1 -> missed": True, "some 2 load 0x1000 -> missed": True, "never 2 -> missed after 0 poll": False, "before 0 poll, 2 load -> missed": True, "each 2 load -> missed": False, "never 2 _ -> stale after 0 poll": False, "before 0 poll, 2 load -> stale": True, "before 2 load -> unsteady, 1 serve": False, "some 1 load -> unsteady": False, "never _ -> unsteady": False, "maybe never stale": False}),
    (AHEAD, {"never stale": True, "steady": False, "steady 2": True, "some 1 load -> unsteady": True, "some 1 load 0x1000 -> stale": False}), (FENCED, {"never stale": True, "steady": True, "each 1 load -> unsteady": False}),
    (OTHER_SATP, {"never stale": True, "steady": False, "steady 2": True}), (OTHER_PAGE, {"never stale": False, "steady": False, "steady 2": True}), (SAME_PAGE, {"never stale": True, "steady": True}),
    (AMO, {"never stale": False, "steady 1": True, "never 2 amoadd -> stale": False, "some 2 amoadd 0x1000 5 -> unsteady": True, "never 1 amoadd.w -> unsteady": True, "never missed": True}),
    (FETCHED.replace("1 fencei\n", ""), {"steady": False}), (FETCHED + "1 fetch 0x80004000\n", {"never stale": True, "steady": False, "steady 1 fetch": False}), (FETCHED + "1 fencei\n1 fetch 0x80004000\n", {"steady": True}), (FETCHED + "0 fencei\n1 fetch 0x80004000\n", {"steady": False}),
    (FETCHED + "0 store 0x80004000 0x11\n1 fetch 0x80004000\n", {"steady": False}), (FETCHED + "1 load 0x80004000\n", {"steady": True}), (RESET, {"steady": True, "never stale": True}),
)  # fmt: skip
# Whether a fence call missed a load by an old translation: the call covers it, it succeeded, and the tables haven't given the old
# page since it was made.
MISSED = {"never missed": False, "never stale": False, "never 1 -> missed": True, "some 2 load -> missed": True}
UNMISSED = {"never missed": True, "never stale": False, "some 2 load -> stale": True}
AGAIN = "0 store 0x80003008 0x200010c7\n" + REMAPPED


def call(words, ends="1 serve\n0 poll\n"):
    """Hart 0 asks for a remote fence, of hart 1 alone."""
    return f"0 ecall 0x52464e43 {words}\n{ends}"


def uses_old(calls, remapped=REMAPPED, is_global=False):
    """Harts 1 and 2 load from the page, hart 0 remaps it and makes these calls, and hart 2 loads from it again."""
    text = BEFORE.replace("3 6 100", "3 6 140") + LOADED + remapped + calls + "2 load 0x1000\n"
    return text.replace("0x200010c7", "0x200010e7") if is_global else text


COVERING, ELSEWHERE = call("1 0x2 0 0x1000 0x1000"), call("1 0x2 0 0x2000 0x1000")
FENCE_CALLS = (
    # Which calls cover the load: those of a range with the page, of all addresses, of the hart's address space.
    (uses_old(COVERING), MISSED), (uses_old(call("1 0x2 0 0x0 0x5000")), MISSED), (uses_old(call("1 0x2 0 0x1fff 1")), MISSED), (uses_old(call("1 0x2 0 0x0 0x1001")), MISSED), (uses_old(call("1 0x2 0 0 0")), MISSED), (uses_old(call("1 0x2 0 5 0xffffffffffffffff")), MISSED),
    (uses_old(ELSEWHERE), UNMISSED), (uses_old(call("1 0x2 0 0x0 0x1000")), UNMISSED), (uses_old(call("0 0x2 0")), UNMISSED),
    (uses_old(call("2 0x2 0 0x1000 0x1000 5")), MISSED), (uses_old(call("2 0x2 0 0 0 5")), MISSED), (uses_old(call("2 0x2 0 0x1000 0x1000 6")), UNMISSED),
    (uses_old(COVERING, is_global=True), MISSED), (uses_old(call("2 0x2 0 0x1000 0x1000 5"), is_global=True), UNMISSED),
    # A call that is refused, and one that still waits.
    (uses_old(call("1 0x2 0 0xfffffffffffff000 0x2000", "")), UNMISSED), (uses_old(call("1 0x2 0 0x1000 0x1000", "")), UNMISSED), (uses_old(call("1 0x2 0 0x1000 0x1000", "1 serve\n")), UNMISSED),
    # The tables still gave the old page when the call was made, or gave it again later.
    (uses_old(COVERING + REMAPPED, ""), UNMISSED), (uses_old(COVERING, ""), {"never missed": True, "never stale": True}),
    (uses_old(COVERING + AGAIN), UNMISSED), (uses_old(COVERING + AGAIN + COVERING), MISSED),
    # Of several calls one is enough, and a later one of another page takes nothing back.
    (uses_old(COVERING + ELSEWHERE), MISSED), (uses_old(ELSEWHERE + COVERING), MISSED), (uses_old(ELSEWHERE + call("1 0x2 0 0x1000 0x1000", "")), UNMISSED),
    # Any hart may make the call, and forget itself. A local fence is no call.
    (uses_old("2 ecall 0x52464e43 1 0x2 0 0x1000 0x1000\n1 serve\n2 poll\n"), MISSED), (uses_old("1 sfence 0x1000 -\n"), UNMISSED),
)  # fmt: skip
# What kernels get wrong, each beside its mended twin: the condition that tells them apart, the wrong lines, and the right ones.
MORE = BEFORE.replace("3 6 100", "3 12 100")
ASK, SERVED = "0 ecall 0x52464e43 1 0x6 0 0x1000 0x1000\n", "1 serve\n2 serve\n0 poll\n"
# A second root table, which maps the page to another one.
SECOND = MORE + "0 store 0x80006000 0x20001c01\n0 store 0x80007000 0x20002001\n0 store 0x80008008 0x200014c7\n" + LOADED
GLOBAL = MORE.replace("0x200010c7", "0x200010e7") + LOADED + "0 store 0x80003008 0x200014e7\n"
# A superpage, whose part a table takes over.
SUPER = MORE.replace("1 satp", "0 store 0x80002008 0x200000c7\n1 satp") + "1 load 0x204000\n"
SPLIT = "0 store 0x80002008 0x20002401\n1 load 0x204000\n"
# A right that is taken away, and a store by the old one.
PROTECTED = MORE + LOADED + "0 store 0x80003008 0x20001043\n"
READ_ONLY = MORE.replace("0x200010c7", "0x20001043") + LOADED
# A hart that is off while the page is mapped anew.
OFF = MORE + "1 load 0x1000\n1 ecall 0x48534d 1\n1 advance\n" + REMAPPED + "0 ecall 0x48534d 0 1 0x80000000 0\n1 advance\n1 satp 0x8000500000080001\n"
TWINS = (
    ("never stale", FORGOTTEN, BEFORE + LOADED + REMAPPED + ASK + SERVED + LOADED), ("never missed", FORGOTTEN, BEFORE + LOADED + REMAPPED + ASK + "1 load 0x1000\n" + SERVED + LOADED), ("steady", FORGOTTEN, BEFORE + LOADED + REMAPPED + ASK + SERVED + LOADED),
    ("steady", BEFORE + LOADED + REMAPPED + ASK + "1 load 0x1000\n" + SERVED, BEFORE + LOADED + REMAPPED + ASK + SERVED + "1 load 0x1000\n"),
    ("steady", AHEAD, BEFORE + REMAPPED + ASK + SERVED + "1 load 0x1000\n"),
    ("steady", READ_ONLY + "0 store 0x80003008 0x200010c7\n1 store 0x1000 5\n", READ_ONLY + "0 store 0x80003008 0x200010c7\n1 load 0x1000\n"),
    ("never missed", PROTECTED + call("1 0x4 0 0x1000 0x1000", "2 serve\n0 poll\n") + "1 store 0x1000 5\n", PROTECTED + ASK + SERVED + "1 store 0x1000 5\n"),
    ("steady", MORE + LOADED + "0 store 0x80003008 0x20001043\n1 store 0x1000 5\n", MORE + LOADED + "0 store 0x80003008 0x20001043\n" + ASK + SERVED + "1 store 0x1000 5\n"),
    ("steady", SECOND + "1 satp 0x8000500000080006\n1 load 0x1000\n", SECOND + "1 satp 0x8000600000080006\n1 load 0x1000\n"), ("never stale", SECOND + "1 satp 0x8000500000080006\n1 load 0x1000\n", SECOND + "1 satp 0x8000500000080006\n1 sfence - 5\n1 load 0x1000\n"),
    ("never stale", GLOBAL + "1 sfence - 5\n1 load 0x1000\n", GLOBAL + "1 sfence - -\n1 load 0x1000\n"), ("steady", GLOBAL + "1 sfence 0x1000 5\n1 load 0x1000\n", GLOBAL + "1 sfence 0x1000 -\n1 load 0x1000\n"),
    ("steady", SUPER + "0 store 0x80009020 0x200014c7\n" + SPLIT, SUPER + "0 store 0x80009020 0x200010c7\n" + SPLIT), ("steady", OFF + "1 load 0x1000\n", OFF + "1 sfence - -\n1 load 0x1000\n"),
)  # fmt: skip
FIRST, OTHER = "0x8000500000080001", "0x8000500000080006"
# Two fences wait at hart 1, of which the second one covers the page.
WAITING = BEFORE + LOADED + REMAPPED + "0 ecall 0x52464e43 1 0x2 0 0x2000 0x1000\n2 ecall 0x52464e43 1 0x2 0 0x1000 0x1000\n"
# An address that the first satp's mode translates, and the second one's can't have.
BEYOND = MORE.replace(" 0 0x80000000 0\n", " 0 0x80000000 0 16 48\n", 1).replace(f"1 satp {FIRST}", "0 store 0x80001008 0x20000801\n0 store 0x80001000 0\n0 store 0x80002000 0x200000c7\n1 satp 0x9000500000080001") + f"1 load 0x8000004000\n1 satp {FIRST}\n1 load 0x8000004000\n"
CASES += (
    (RESET + f"0 ecall 0x48534d 0 1 0x80000000 0\n1 advance\n1 satp {FIRST}\n1 load 0x1000\n", {"steady": True, "never stale": True}), (BEYOND, {"steady 1 load 0x8000004000": True, "never stale": True}),
    (WAITING + "1 serve\n1 load 0x1000\n", {"steady 1 load": False, "never stale": False}), (WAITING + "1 serve\n1 serve\n1 load 0x1000\n", {"steady 1 load": True, "never stale": True}),
    (BEFORE + LOADED + REMAPPED + "1 sfence 0x1000 0x10005\n2 sfence - 0x10005\n" + LOADED, {"steady": True, "never stale": True}), (GLOBAL + "1 satp 0x8000600000080001\n1 load 0x1000\n", {"steady 1 load": False, "never stale": False}),
    (BEFORE + LOADED + REMAPPED + "1 ecall 0x52464e43 1 0x2 0 0x1000 0x1000\n1 poll\n1 load 0x1000\n", {"steady 1": True, "never stale": True}),
    # No TLB changes a misaligned access.
    (BEFORE + LOADED + REMAPPED + "2 load 0x1004\n2 store 0x1004 5\n2 store4 0x1002 5\n2 fetch 0x1002\n2 amoadd 0x1004 1\n", {"steady": True, "never stale": True}),
    # A table that is changed behind the satp's time may still fill.
    (SECOND + f"1 satp {OTHER}\n0 store 0x80003010 0x200010c7\n1 load 0x2000\n", {"steady 1 load 0x2000": False, "never stale": True}),
)  # fmt: skip
FENCE_CALLS += (
    # Another hart's call that succeeds; an ASID of more bits than the board has.
    (uses_old(call("1 0x2 0 0x1000 0x1000", "") + "2 ecall 0x52464e43 1 0x4 0 0x2000 0x1000\n2 poll\n"), UNMISSED), (uses_old(call("2 0x2 0 0x1000 0x1000 0x10005")), MISSED),
    # Since the call the old page was given by the satp that the hart had, or by its present one, which it hadn't; or by neither.
    (SECOND.replace("0 store 0x80008008 0x200014c7", "0 store 0x80008008 0x200010c7") + REMAPPED + COVERING + f"2 satp {OTHER}\n2 satp {FIRST}\n2 load 0x1000\n", UNMISSED),
    (SECOND + REMAPPED + f"2 satp {OTHER}\n" + COVERING + AGAIN + f"2 satp {FIRST}\n2 load 0x1000\n", UNMISSED), (SECOND + REMAPPED + f"2 satp {OTHER}\n" + COVERING + f"2 satp {FIRST}\n2 load 0x1000\n", MISSED),
)  # fmt: skip
# What no record has.
WRONG = (("never 1 poll -> stale", "no poll is stale"), ("never 1 sfence -> missed", "no sfence is missed"), ("some c -> unsteady", "no tick is unsteady"), ("firm 1 wfi", "no wfi is unfirm"), ("never 1 satp -> unlenient", "no satp is unlenient"), ("never 9 load -> stale", "the board has no hart 9"), ("never 0 sstatus 7 -> stale", "no sstatus has 7"))
FAULTS = (("never 1 load -> stal", "unknown word: 'stal'"), ("never 1 load -> miss", "unknown word: 'miss'"), ("never missed 1", "'1'"), ("never unfirm 1", "'1'"), ("firm stale", "not a number: 'stale'"), ("lenient 1 load -> unlenient", "not a number: '->'"), ("never 1 load -> stale 1", "too few or too many words: '1'"), ("never stale 1", "'1'"), ("some stale", "not a number: 'stale'"), ("steady c tick -> done", "not a number: '->'"))


START = """\
board 3 6 120 0 0x80000000 0x0
at 0x80000000
store 0x80001000 0x20000801
store 0x80002000 0x20000c01
store 0x80003008 0x200010c7
store 0x80004000 0x11
store 0x80005000 0x22
sie 0x2
ecall 0x48534d 0 1 0x80000100 0
wfi
clearssip
ecall 0x48534d 0 2 0x80000100 0
wfi
clearssip
store 0x80003008 0x200014c7
"""
# A hart uses the page, says so, and uses it again when it is told to go on.
USES = """\
at 0x80000100
sie 0x2
satp 0x8000500000080001
load 0x1000
ecall 0x735049 0 0x1 0
wfi
clearssip
load 0x1000
"""


def shootdown(mask, uses=USES):
    """Hart 0 remaps the page, asks a fence of the harts of the mask, and lets harts 1 and 2 go on."""
    return START + f"ecall 0x52464e43 1 {mask} 0 0x1000 0x1000\necall 0x735049 0 0x6 0\n" + uses


FORGETS, FENCES = shootdown("0x2"), shootdown("0x6")
# A load that may come before the fence is served.
WINDOW = shootdown("0x6", USES.replace("wfi\n", "load 0x1000\nwfi\n"))
# A hart that is told to go on before the fence is asked for, and the mended twin.
EARLY, LATE = (read(os.path.join(EXAMPLES, f"orders/early-wake{it}.program")) for it in ("", ".mended"))
EARLY, LATE = ("".join(it for it in text.splitlines(True) if not it.startswith("#")) for text in (EARLY, LATE))
# A program, and which of these conditions its orders meet.
PROGRAMS = (
    (EARLY, {"steady": False, "never stale": False, "some 1 load 0x1000 -> stale": True, "never _ -> stale after 0 poll": True}), (LATE, {"steady": True, "never stale": True, "some _ -> unsteady": False}),
    (FORGETS, {"never missed": False, "never 1 -> missed": True, "some 2 load -> missed": True, "never stale": False, "steady": False, "steady 1": True, "never 1 -> stale": True, "some 2 load -> stale": True, "each 2 load -> stale": False, "never 2 -> stale after 0 poll": False, "before 0 poll, 2 load -> stale": True, "maybe never stale": False}),
    (FENCES, {"never missed": True, "never stale": True, "steady": True, "some 2 load -> stale": False, "never _ -> unsteady after 0 poll": True}),
    (WINDOW, {"never missed": True, "never stale": False, "steady": False, "never _ -> stale after 0 poll -> ret 0 _": True, "some _ load -> stale": True}),
)  # fmt: skip


class Marks(Test):
    programs = (TESTER,)

    def test_schedules_and_their_traces(self):
        """Each condition is met or not as the standard says, by a schedule, and by the same with a cut, which leaves no room for all."""
        for text, asked in CASES:
            for script in (text, text.replace(REMAPPED, "cut\n" + REMAPPED).replace("3 6 100", "3 6 14" if REMAPPED in text else "3 6 100")):
                status, lines = told(self.room, "".join(f"#! {it}\n" for it in asked) + script, name="a.sched")
                found = [it.startswith("ok ") for it in lines if it.startswith(("ok ", "not ok "))]
                must(f"{script}: {lines}", found == list(asked.values()) and status == (0 if all(found) else 1))

    def test_what_fence_calls_miss(self):
        """A load is missed exactly by a call that covers it, that succeeded, and since which the tables haven't given what it used."""
        for text, asked in FENCE_CALLS:
            status, lines = told(self.room, "".join(f"#! {it}\n" for it in asked) + text, name="a.sched")
            found = [it.startswith("ok ") for it in lines if it.startswith(("ok ", "not ok "))]
            must(f"{text}: {lines}", found == list(asked.values()) and status == (0 if all(found) else 1) and not any("refused" in it for it in lines))

    def test_known_answers(self):
        """A condition finds what kernels get wrong, and nothing in the mended twin."""
        for asked, wrong, right in TWINS:
            for script, met in ((wrong, False), (right, True)):
                status, lines = told(self.room, f"#! {asked}\n{script}", name="a.sched")
                must(f"{asked}: {script}: {lines}", status == (0 if met else 1) and not any("refused" in it or "never met" in it for it in lines))

    def test_what_no_step_can_have(self):
        """A mark of what is no access is told, and so is each other word that no step has."""
        for asked, why in WRONG:
            status, lines = told(self.room, f"#! {asked}\n{FENCED}", name="a.sched")
            must(f"{asked}: {lines}", status == 1 and points(lines) == [f"not ok line 1: {asked}: {why}"])

    def test_programs(self):
        """Of a program the marks of each tried order count, and of each run on threads."""
        for text, asked in PROGRAMS:
            for words, reach in ((("--times", "60"), "60 orders of unknown many, seed 0"), (("--times", "20", "--seed", "7", "--jobs", "3"), "20 orders of unknown many, seed 7")):
                for it, met in asked.items():
                    status, found, lines = in_way(self.room, ("sbiboard", words), f"#! {it}\n{text}")
                    must(f"{words}: {it}: {text}: {lines}", status == (0 if met else 1) and len(found) == 1 and found[0].startswith(f"{'ok' if met else 'not ok'} line 1: {it}: ") and (reach.split(",")[0] in found[0] or not met))
        for text, asked, met in ((FORGETS, "never 2 load -> stale", False), (FORGETS, "never 1 load -> stale", True), (FENCES, "never stale", True), (FENCES, "steady", True)):
            status, found, lines = in_way(self.room, ("sbiboard", ("--times", "5", "--threads")), f"#! {asked}\n{text}")
            must(f"{asked}: {lines}", status == (0 if met else 1) and [it.startswith("ok ") for it in found] == [met, met])

    def test_known_answers_of_the_enumeration(self):
        """The enumeration's own marks are those of the tables, of schedules too; and the judge tells what no step can have."""
        for asked, why in WRONG:
            must(asked, misfit(condition(1, asked), 3) == why)
        known = [(text, it, met) for text, asked in CASES + FENCE_CALLS for it, met in asked.items()]
        known += [(text, asked, met) for asked, wrong, right in TWINS for text, met in ((wrong, False), (right, True))]
        for text, it, met in known:
            if "missed" not in it:
                must(f"{it}: {text}", holds(condition(1, it), steps_of(text), None) == met)

    def test_all_orders_of_programs(self):
        """What tried orders of these programs meet is what all of their orders do, by an enumeration that shares no code with the program."""
        for text, asked in PROGRAMS:
            verdicts = Verdicts(MarkedOrders(text))
            for it, met in asked.items():
                if "missed" not in it:
                    wanted = condition(1, it.replace("maybe ", ""))
                    must(f"{it}: {text}", (verdicts.fewest(wanted) is None) == (met != (wanted.word == "some")))

    def test_stale_accesses_of_programs_are_told(self):
        """Behind the points of all orders each line that is stale in some order is told, and no other, unless a condition asks of marks."""
        for text, stale in ((FORGETS, [1]), (FENCES, []), (WINDOW, [1]), (LATE, [])):
            script = f"#! end quiet\n{text}"
            loads = [at for at, it in enumerate(script.splitlines(), 1) if it == "load 0x1000"]
            for way in (("sbiboard", ()), ("sbiboard explore", ("--no-outcomes",))):
                _, _, lines = in_way(self.room, way, script)
                found = [re.fullmatch(r"# line (\d+): stale in some order: a walk gives another translation; `#! never stale` tells the order", it) for it in lines if "stale in" in it]
                must(f"{way}: {text}: {lines}", all(found) and [int(it[1]) for it in found] == [loads[it] for it in stale])
            for way, asked in ((("sbiboard", ()), "maybe never stale"), (("sbiboard", ("--times", "5")), "end quiet")):
                _, _, lines = in_way(self.room, way, f"#! {asked}\n{text}")
                must(f"{way}: {text}: {lines}", not any("stale in" in it for it in lines))

    def test_a_failing_order_is_kept(self):
        """The record of the first order that fails tells the access that has the mark."""
        status, lines = told(self.room, "#! never stale\n" + FORGETS, "--times", "30")
        place = next(it.split()[1] for it in lines if it.startswith("  place: "))
        must(f"{lines}", status == 1 and f"    {place} 2 load 0x1000 -> value 0x11" in lines and lines.count(f"    {place} 2 load 0x1000 -> value 0x11") == 1)

    def test_a_failing_schedule_is_kept(self):
        """The record of a schedule or a trace that has a mark tells the first access that has it, which is no step that a condition without marks would name."""
        steps = [it for it in FORGOTTEN.splitlines()[1:] if it]
        last, many = len(steps) - 1, FORGOTTEN.count("2 load 0x1000")
        for asked, place in (("never 2 load -> stale", last), ("steady 2 load", last), ("never _ load -> stale after 0 poll", last), ("each 2 load -> stale", steps.index("2 load 0x1000")), ("before 2 load -> stale, 2 load", steps.index("2 load 0x1000"))):
            status, lines = told(self.room, f"#! {asked}\n{FORGOTTEN}", name="a.sched")
            must(f"{asked}: {lines}", many == 2 and status == 1 and f"  place: {place}" in lines and sum(it.startswith(f"    {place} 2 load 0x1000 -> value ") for it in lines) == 1)

    def test_programs_of_few_states(self):
        """Where a condition asks of marks, and its program fetches, orders are tried, though the states are few; so they are where it asks of `missed`, `unfirm` or `unlenient`."""
        for asked, op in (("steady", "fetch 0x80001000"), ("maybe never missed", "load 0x80001000"), ("maybe never unfirm", "load 0x80001000"), ("maybe lenient", "load 0x80001000")):
            status, found, lines = in_way(self.room, ("sbiboard", ()), f"#! {asked}\nboard 1 2 9 0 0x80000000 0\nat 0x80000000\n{op}\n")
            must(f"{lines}", status == 0 and found == [f"ok line 1: {asked}: holds in 1,000 orders of unknown many, seed 0"])

    def test_programs_without_such_accesses(self):
        """A condition on marks of a program whose accesses no TLB entry could change is vacuous: that translate nothing, also where they fault, or whose address isn't aligned; of `stale` also where they fetch."""
        for op in ("load 0x80001000", "load 0x1000", "load 0x80001004", "fetch 0x80001002", "fetch 0x1000", "store 0x1000 5", "amoadd 0x80002000 1"):
            name = op.split()[0]
            for asked, said in (("steady", "_"), ("never stale", "stale"), (f"steady 0 {name}", f"0 {name}"), (f"some 0 {name} -> unsteady", f"0 {name} -> unsteady"), (f"maybe never 0 {name} -> stale", "")):
                status, found, lines = in_way(self.room, ("sbiboard", ("--times", "5")), f"#! {asked}\nboard 1 2 9 0 0x80000000 0\nat 0x80000000\n{op}\n")
                mark = "takes no page fault, and fetches no word" if "stale" not in asked else "and takes no page fault"
                wanted = f"not ok line 1: {asked}: vacuous: no step is '{said}' in the 5 orders tried; such a step uses no TLB entry, {mark}"
                must(f"{op}: {asked}: {lines}", found == ([wanted] if said else [f"ok line 1: {asked}: holds in 5 orders of unknown many, seed 0"]) and status == (1 if said else 0))

    def test_programs_whose_accesses_an_entry_could_change(self):
        """A page fault that an entry could have prevented counts, and so does a fault of a page that was found. A fetch counts of what is unsteady alone."""
        table = "store 0x80001000 0x20000801\nstore 0x80002000 0x20000c01\nstore 0x80003008 {}\nsatp 0x8000000000080001\n"
        for entry, op, answer in (("0", "load 0x1000", "fault 13"), ("0x200010c3", "store 0x1000 5", "fault 15"), ("0x300000c7", "load 0x1000", "fault 5"), ("0", "fetch 0x1000", "fault 12"), ("0x200010c7", "load 0x1000", "value 0")):
            text = "board 1 5 20 0 0x80000000 0\nat 0x80000000\n" + table.format(entry) + op + "\n"
            name = op.split()[0]
            for asked in (f"never 0 {name} 0x1000 -> stale", f"steady 0 {name} 0x1000", f"each 0 {name} 0x1000 -> {answer}"):
                status, found, lines = in_way(self.room, ("sbiboard", ("--times", "5")), f"#! {asked}\n{text}")
                must(f"{entry}: {asked}: {lines}", status == 0 and found[0].startswith(f"ok line 1: {asked}: holds in"))
        fetched = "board 1 2 9 0 0x80000000 0\nat 0x80000000\nfetch 0x80001000\n"
        for asked, is_met in (("never 0 fetch -> stale", False), ("never 0 fetch -> unsteady", True), ("never stale", False), ("steady", True)):
            status, found, lines = in_way(self.room, ("sbiboard", ("--times", "5")), f"#! {asked}\n{fetched}")
            must(f"{asked}: {lines}", status == (0 if is_met else 1) and found[0].startswith(f"ok line 1: {asked}: holds" if is_met else f"not ok line 1: {asked}: vacuous: no step is"))

    def test_faults(self):
        """A mark is one word, behind an arrow, or alone behind `never`."""
        for asked, why in FAULTS:
            status, lines = told(self.room, f"#! {asked}\n{FENCED}", name="a.sched")
            must(f"{asked}: {lines}", status == 1 and why in lines[1])

    def test_too_long_a_record(self):
        """Of a record with more events than a history can have, no mark is told."""
        reads = "0 sip\n"
        status, lines = told(self.room, "#! steady\nboard 1 2 1000000 0 0x80000000 0\n0 advance\n" + reads * 600_000 + "cut\n" + reads * 400_000, name="a.sched")
        must(f"{lines}", status == 8 and points(lines) == ["not ok line 1: steady: not judged: more than 1,000,000 events"])

    def test_nothing_translated_is_noted(self):
        """A condition on marks of a record without an access that an entry or a fetched word could change is noted, also where accesses fault."""
        for asked, more, is_noted in (("steady", "", True), ("steady 0", "0 load 0x1000\n", True), ("never 0 -> stale", "0 fetch 0x80004000\n", True), ("steady 0", "0 fetch 0x80000000\n", False), ("never 1 -> stale", "1 load 0x7000\n", False), ("before 1 load -> stale, 0 load -> stale", "0 load 0x1000\n1 load 0x1000\n", True)):
            status, lines = told(self.room, f"#! {asked}\n{BEFORE}{more}", name="a.sched")
            must(f"{asked}: {more}: {lines}", status == 0 and ("# line 1: never met: no step has this actor and operation" in lines) == is_noted)


def meets(asked, steps):
    """Whether marked steps meet a condition; None where it asks for more than one step's mark."""
    kind, *words = asked.split()
    mark, pattern = (UNSTEADY, words) if kind == "steady" else (words[-1], words[: words.index("->")] if "->" in words else [])
    if kind not in ("steady", "never", "some") or mark not in MARKS:
        return None
    fits = lambda actor, op: all(it == "_" or it == at for it, at in zip(pattern, (str(actor), op[0]))) and all(number(it) == at for it, at in zip(pattern[2:], op[1:]))
    has_one = any(mark in marks and fits(actor, op) for actor, op, marks in steps)
    return has_one == (kind == "some")


class MarksOfTheModel(Test):
    programs = ()

    def test_the_model_of_any_tlb_has_the_known_marks(self):
        """The model in Python, by which programs' marks are judged, has the marks of the tables of known answers."""
        judged = 0
        cases = [*CASES, *FENCE_CALLS, *((text, {asked: met}) for asked, wrong, right in TWINS for text, met in ((wrong, False), (right, True)))]
        for text, asked in cases:
            steps = marks_of_schedule(text)
            for it, met in asked.items():
                found = meets(it, steps)
                judged += found is not None
                must(f"{it}: {text}: {[step for step in steps if step[2]]}", found in (None, met))
        must(f"{judged} of {sum(len(asked) for _, asked in cases)}", judged > 120)
