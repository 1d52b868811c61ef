"""Conditions on marks, judged by all orders of programs: what `explore` and `test` tell, beside an enumeration in Python with what any TLB
may hold in each state."""
import os
import random
import re

from . import fixtures
from .fixtures import TESTER, Test, must, read
from .judge import FORBIDS, Verdicts, condition, lacking
from .marked_orders import MarkedOrders, steps_of
from .test_empty_verdicts import in_way
from .test_marks import PROGRAMS

EXPLORE, FEW = ("sbiboard explore", ("--no-outcomes",)), ("sbiboard", ())
# Of so many random programs one is judged here.
SHARE = 4
# The most states of a random program, with what TLBs may hold.
MOST = 4_000
# What the random programs' harts do behind their tables: the page's entry is rewritten, the page is used, and fences come.
ENTRIES = ("0x200010c7", "0x200014c7", "0x200010c3", "0x200010e7", "0")
USES = (*("load 0x1000",) * 4, "store 0x1000 5", "amoadd 0x1000 1", "load 0x1004", "load 0x80004000")
FENCES = ("sfence 0x1000 -", "sfence - -", "sfence 0x2000 -", "ecall 0x52464e43 1 {mask} 0 0x1000 0x1000", "ecall 0x52464e43 1 {mask} 0 0 0", "ecall 0x52464e43 2 {mask} 0 0x1000 0x1000 1")
SATPS = ("satp 0x8000100000080001", "satp 0x8000200000080001", "satp 0")
TABLES = "store 0x80001000 0x20000801\nstore 0x80002000 0x20000c01\nstore 0x80001010 0x200000c7\n"
ASKED = ("steady", "never stale", "steady 1", "steady 0 load", "never 1 load -> stale", "some 1 load 0x1000 -> unsteady", "some _ -> stale", "each 1 load 0x1000 -> unsteady", "each _ amoadd -> stale", "never _ -> stale after 1 sfence", "never 1 load after _ load -> stale",
    "never _ load -> unsteady after _ store -> unsteady", "before 1 load -> unsteady, 1 load -> stale", "before 0 store, 1 load -> unsteady", "before _ load -> stale, 0 sfence", "maybe steady", "maybe each 1 load -> unsteady", "some 0 amoadd -> unsteady", "never 1 load -> value 0x5")  # fmt: skip


def random_program(seed):
    """One hart sets tables up, and starts another; both use a page, which one of them remaps, and fence it, or not."""
    some = random.Random(seed)
    fence = lambda: some.choice(FENCES).format(mask=some.choice(("0x1", "0x2", "0x3")))
    remap = lambda: f"store 0x80003008 {some.choice(ENTRIES)}"
    first = [remap(), "ecall 0x48534d 0 1 0x80000100 0", *([some.choice(SATPS)] if some.random() < 0.3 else [])]
    first += [some.choice((remap, remap, fence, lambda: some.choice(USES)))() for _ in range(some.randint(1, 3))]
    second = [some.choice(SATPS[:2]), "load 0x1000", *(some.choice((fence, lambda: some.choice(USES), lambda: some.choice(USES), lambda: some.choice(SATPS)))() for _ in range(some.randint(1, 3)))]
    return "\n".join(["board 2 6 200 0 0x80000000 0", "at 0x80000000", TABLES + "\n".join(first), "at 0x80000100", *second, ""])


def wanted_of(asked, orders):
    """What `explore` tells of a condition, behind its text, and how many steps its order has."""
    verdicts, wanted = Verdicts(orders), condition(1, asked)
    fewest = verdicts.fewest(wanted)
    lacks = None if wanted.maybe else lacking(wanted, verdicts.steps)
    if fewest is not None:
        return ("fails" if wanted.word in FORBIDS else "holds"), fewest
    if lacks is not None:
        return "vacuous", None
    return ("holds in all orders" if wanted.word in FORBIDS else "fails in all orders"), None


class MarksOfAllOrders(Test):
    programs = (TESTER,)

    def judged(self, text, asked, orders):
        """What `explore` tells is what the enumeration has; its record is a shortest one, and `test` tells the same of few states."""
        verdict, fewest = wanted_of(asked, orders)
        status, found, lines = in_way(self.room, EXPLORE, f"#! {asked}\n{text}")
        ok = verdict.startswith("holds")
        begins = f"{'ok' if ok else 'not ok'} line 1: {asked}: {verdict}"
        must(f"{asked}: {text}: {found}, and not {verdict}", len(found) == 1 and (found[0] == begins or verdict == "vacuous" and found[0].startswith(begins + ": no step is '")) and status == (0 if ok else 1))
        must(f"{asked}: {text}: {lines}, and not {fewest}", (f"  length: {fewest}" in lines) == (fewest is not None))
        if fewest is not None:
            self.has_mark(text, asked, lines)
        status, found, lines = in_way(self.room, FEW, f"#! {asked}\n{text}")
        must(f"{asked}: {text}: {lines}", status == (0 if ok else 1) and found[0].startswith(begins.partition(" in ")[0]))
        return verdict

    def has_mark(self, text, asked, lines):
        """The record of the order has the steps of an order of the program, and its last step is the one that settles the condition."""
        record = re.search(r'  record: "(.*)"', "\n".join(lines))[1]
        trace = read(os.path.join(self.room, record))
        steps = steps_of("\n".join(it.partition(" -> ")[0] for it in trace.splitlines() if not it.startswith("#")) + "\n")
        wanted = condition(1, asked.removeprefix("maybe "))
        mark = wanted.patterns[0].reply[:1]
        must(f"{asked}: {text}: {steps}", mark not in (("stale",), ("unsteady",)) or (mark[0] in steps[-1][3]) == (wanted.word != "each"))

    def test_marked_orders__known_answers(self):
        """Of these programs `explore` tells what the enumeration has."""
        for text, asked in PROGRAMS:
            orders = MarkedOrders(text)
            for it, met in asked.items():
                if "missed" not in it:
                    must(f"{it}: {text}", self.judged(text, it, orders).startswith("holds") == met)

    def test_marked_orders__what_only_records_tell(self):
        """`explore` judges no condition on what is missed, unfirm or unlenient, though it would fail in each order."""
        for text, _ in PROGRAMS:
            for it in ("never missed", "some 0 load -> missed", "firm", "lenient", "never 0 load -> unfirm", "some _ -> unlenient", "never 0 poll after _ -> unfirm", "maybe before _ -> unlenient, 0 load"):
                status, found, lines = in_way(self.room, EXPLORE, f"#! {it}\n{text}")
                must(f"{it}: {lines}", status == 8 and found == [f"not ok line 1: {it}: not judged: only records tell what is missed, unfirm or unlenient: use test"] and not any("record:" in line for line in lines))

    def test_marked_orders__random_programs(self):
        """Of random programs that remap a page, with fences or without, `explore` tells what the enumeration has."""
        found, judged = {}, 0
        for seed in range(fixtures.MANY // SHARE):
            text = random_program(seed)
            try:
                orders = MarkedOrders(text, MOST)
            except ValueError:
                continue
            some = random.Random(-seed)
            for asked in some.sample(ASKED, 3):
                verdict = self.judged(text, asked, orders)
                found[verdict] = found.get(verdict, 0) + 1
            judged += 1
        must(f"{found}, of {judged}", judged >= fixtures.MANY // SHARE // 2 and len(found) == 5)

    def test_marked_orders__programs_that_fetch(self):
        """Of a program that fetches, only records tell marks: `explore` says so, and judges the other conditions."""
        for asked in ("never stale", "steady", "maybe never 0 load -> stale", "some 0 load -> unsteady", "each 0 load -> stale"):
            status, found, lines = in_way(self.room, EXPLORE, f"#! {asked}\n#! end quiet\nboard 1 2 9 0 0x80000000 0\nat 0x80000000\nfetch 0x80001000\n")
            must(f"{asked}: {lines}", status == 8 and found[0] == f"not ok line 1: {asked}: not judged: the program fetches, and only records tell its marks: use test" and found[1].startswith("ok line 2") and not any("record:" in it or "cut short" in it for it in lines))

    def test_marked_orders__limits(self):
        """With more states than the limit a condition isn't judged, unless one of those that were seen breaks it; nor without time."""
        text = PROGRAMS[0][0]
        for asked, words, why in (("steady 0", ("--states", "20"), "more than 20 states, none of those seen breaks it"), ("steady", ("--seconds", "0"), "no time")):
            status, found, lines = in_way(self.room, ("sbiboard explore", words), f"#! {asked}\n{text}")
            must(f"{asked}: {lines}", status == 8 and found == [f"not ok line 1: {asked}: not judged: {why}"] and "# cut short: not all orders were seen" in lines)

    def test_marked_orders__causes(self):
        """A point that fails by a mark in all orders tells its cause, too."""
        for text, asked in PROGRAMS:
            for it in ("steady", "never stale"):
                if asked.get(it) is False:
                    status, found, lines = in_way(self.room, EXPLORE, f"#! {it}\n{text}")
                    must(f"{it}: {lines}", status == 1 and any(line.startswith("  cause:") for line in lines) and any("0x1000 " in line and (" used " in line or " may use " in line) for line in lines))
