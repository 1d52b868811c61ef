"""What conditions say of accesses on TLBs that also keep pointers and invalid entries: which are unfirm, and which unlenient, and why, of
known schedules and of random ones, by a model in Python."""
import os
import random

from board_model import access_of

from . import fixtures
from .any_tlb import UNSTEADY
from .any_walk import UNFIRM, UNLENIENT, Told, marks_of_schedule
from .fixtures import TESTER, Test, at_once, must, told
from .test_causes import block, shifted

# Hart 1 has page tables at 0x80001000, 0x80002000 and 0x80003000, which it fences in; hart 0 translates nothing.
BEFORE = """\
board 2 16 200 0 0x80000000 0
0 advance
0 ecall 0x48534d 0 1 0x80000000 0
1 advance
0 store 0x80001000 0x20000801
0 store 0x80002000 0x20000c01
0 store 0x80003008 0x200010c7
1 satp 0x8000500000080001
1 sfence - -
"""
LOAD, OTHER = "1 load 0x1000\n", "1 load 0x2000\n"
REMAPPED, GONE = "0 store 0x80003008 0x200014c7\n", "0 store 0x80003008 0x0\n"
# The table moves, and its old memory is reused.
MOVED = "0 store 0x80006008 0x200010c7\n0 store 0x80002000 0x20001801\n"
REUSED = "0 store 0x80003008 0x200014c7\n"
SUPERPAGE = "0 store 0x80002000 0x200000c7\n"
# Hart 1's page 0x3000 is its lowest table, in which it makes its page 0x2000 valid.
OWN = BEFORE.replace("1 satp", "0 store 0x80003018 0x20000cc7\n1 satp") + "1 store 0x3010 0x200010c7\n"
# A superpage that the hart itself takes away, and another address of it; and an invalid entry, with a bit that is G only of a valid one.
SUPERPAGE_GONE = """\
board 1 16 100 0 0x80000000 0x0
0 advance
0 store 0x80001000 0x20000801
0 store 0x80002008 0x200000c7
0 satp 0x8000500000080001
0 sfence - -
0 load 0x205000
0 store 0x202008 0x0
0 sfence {} -
0 load 0x205000
"""
SUPERPAGE_COMES = BEFORE + "0 store 0x80002008 0x200000c7\n{}1 load 0x205000\n"
SOFTWARE = BEFORE.replace("1 satp", "0 store 0x80003010 {}\n1 satp") + "0 store 0x80003010 0x200010c7\n1 sfence 0x2000 {}\n" + "1 load 0x2000\n"
CALLED = "0 ecall 0x52464e43 1 0x2 0 {}\n1 serve\n0 poll\n"
# A schedule, and which of these conditions it meets.
CASES = (
    (BEFORE + LOAD + OTHER, {"firm": True, "lenient": True, "firm 1": True, "never unfirm": True, "some 1 load -> unfirm": False}),
    # without the hart's own fence behind its write of satp
    (BEFORE.replace("1 sfence - -\n", "") + LOAD, {"firm": False, "lenient": True, "steady": True}),
    (BEFORE + REMAPPED + LOAD, {"firm": False, "lenient": False, "steady": False}), (BEFORE + REMAPPED + "1 sfence 0x1000 -\n" + LOAD, {"firm": True}),
    (BEFORE + REMAPPED + "1 sfence 0x2000 -\n" + LOAD, {"firm": False}), (BEFORE + REMAPPED + "1 sfence 0x1000 5\n" + LOAD, {"firm": True}), (BEFORE + REMAPPED + "1 sfence 0x1000 6\n" + LOAD, {"firm": False}),
    # a global page, and a fence of an ASID
    (BEFORE.replace("0x200010c7", "0x200010e7") + "0 store 0x80003008 0x200014e7\n1 sfence 0x1000 5\n" + LOAD, {"firm": False, "lenient": False}),
    (BEFORE.replace("0x200010c7", "0x200010e7") + "0 store 0x80003008 0x200014e7\n1 sfence 0x1000 -\n" + LOAD, {"firm": True}),
    # an entry that becomes valid, and one that doesn't any more
    (BEFORE + "0 store 0x80003010 0x200010c7\n" + OTHER, {"firm": False, "lenient": True, "steady": True}), (BEFORE + GONE + LOAD, {"firm": False, "lenient": False}),
    (BEFORE + "0 store 0x80003010 0x200010c7\n1 sfence 0x2000 -\n" + OTHER, {"firm": True}), (BEFORE + "0 store 0x80003010 0x200010c7\n" + CALLED.format("0x2000 0x1000") + OTHER, {"firm": True}),
    # a pointer is ordered by a fence without an address alone
    (BEFORE + MOVED + "1 sfence 0x1000 -\n" + REUSED + LOAD, {"firm": False, "lenient": False, "steady": True}), (BEFORE + MOVED + "1 sfence - -\n" + REUSED + LOAD, {"firm": True}),
    (BEFORE + MOVED + "1 sfence - 5\n" + REUSED + LOAD, {"firm": True}), (BEFORE + MOVED + "1 sfence - 6\n" + REUSED + LOAD, {"firm": False}),
    # an invalid entry that a pointer followed is ordered so, too
    (BEFORE + "0 store 0x80002008 0x20000c01\n1 sfence 0x201000 -\n1 load 0x201000\n", {"firm": False, "lenient": True}), (BEFORE + "0 store 0x80002008 0x20000c01\n1 sfence - -\n1 load 0x201000\n", {"firm": True}),
    # a table becomes a superpage
    (BEFORE + SUPERPAGE + "1 sfence 0x1000 -\n" + GONE + LOAD, {"firm": False, "lenient": False, "steady": True}), (BEFORE + SUPERPAGE + "1 sfence - -\n" + GONE + LOAD, {"firm": True}),
    # a fence of one address of a superpage is of all of it, and of no other page
    (SUPERPAGE_GONE.format("0x204000"), {"steady": True, "firm": True, "lenient": True}), (SUPERPAGE_GONE.format("0x404000"), {"steady": False, "firm": False, "lenient": False}),
    (SUPERPAGE_COMES.format("1 sfence 0x3ff000 -\n"), {"firm": True}), (SUPERPAGE_COMES.format("1 sfence 0x400000 -\n"), {"firm": False, "lenient": True}), (SUPERPAGE_COMES.format("1 sfence 0x1ff000 -\n"), {"firm": False, "lenient": True}),
    (SUPERPAGE_COMES.format(CALLED.format("0x204000 0x1000")), {"firm": True}), (SUPERPAGE_COMES.format(CALLED.format("0x1ff000 0x1001")), {"firm": True}), (SUPERPAGE_COMES.format(CALLED.format("0x1ff000 0x1000")), {"firm": False}),
    # and a fence of one page of a table is of no other
    (BEFORE + "0 store 0x80003010 0x200010c7\n1 sfence 0x3000 -\n" + OTHER, {"firm": False, "lenient": True}),
    # the other bits of an invalid entry are software's, but not of one with V
    (SOFTWARE.format("0x20", "5"), {"firm": True, "steady": True}), (SOFTWARE.format("0x20", "6"), {"firm": False, "lenient": True}), (SOFTWARE.format("0x20", "-"), {"firm": True}),
    (SOFTWARE.format("0x21", "5"), {"firm": False, "lenient": True}), (SOFTWARE.format("0x21", "-"), {"firm": True}),
    # a former satp
    (BEFORE + "1 satp 0x8000500000080006\n" + LOAD, {"firm": False, "lenient": False}), (BEFORE + "1 satp 0x8000500000080006\n1 sfence - -\n" + LOAD, {"firm": True}),
    (BEFORE + "1 satp 0x8000600000080006\n" + LOAD, {"firm": True}), (BEFORE + "1 satp 0x8000500000080006\n1 sfence - 6\n" + LOAD, {"firm": False}),
    # a hart's own store to its tables, with its own fence or without
    (OWN + OTHER, {"firm": False, "firm 1 store": True, "lenient": True, "steady": True}), (OWN + "1 sfence 0x2000 -\n" + OTHER, {"firm": True}),
    # what isn't translated, and a fetched word
    (BEFORE + "0 load 0x80004000\n1 load 0x1001\n", {"firm": True}), (BEFORE + "0 fetch 0x80004000\n0 store 0x80004000 0x13\n0 fetch 0x80004000\n", {"firm": False, "lenient": False, "steady": False}),
)  # fmt: skip

# What kernels get wrong: the condition, the schedule, and the lines of the cause.
FENCED = "1 sfence - -), before the change, and not since"
GLOBAL = BEFORE.replace("0x20000801", "0x20000821")
VALID = "0 store 0x80003010 0x200010c7\n"
WHY_INVALID = ["1 load 0x2000 may use the table word 0x0 of 0x80003010, which memory had up to step 8", "  changed at step 8 (line 10: 0 store 0x80003010 0x200010c7)"]
WHY_MOVED = ["1 load 0x1000 may use the table word 0x20000c01 of 0x80002000, which memory had up to step 9", "  changed at step 9 (line 11: 0 store 0x80002000 0x20001801)"]
# A word of the old table changes behind a fence, and changes back; then a fence of the address suffices only behind that.
THERE_AND_BACK = "0 store 0x80003008 0x200014c7\n0 store 0x80003008 0x200010c7\n"
ALONE = "0 ecall 0x52464e43 1 0x1 0 {}\n0 poll\n"
# An invalid entry becomes a superpage, and then a pointer, which gives the same.
TURNED = BEFORE.replace("1 satp", "0 store 0x80006008 0x200004c7\n1 satp") + "0 store 0x80002008 0x200000c7\n0 store 0x80002008 0x20001801\n1 sfence 0x201000 -\n1 load 0x201000\n"
# The same on three harts, where hart 1 serves its fence behind the pointer.
LATE = TURNED.replace("board 2", "board 3").replace("1 advance\n", "1 advance\n0 ecall 0x48534d 0 2 0x80000000 0\n2 advance\n")
LATE = LATE.replace("0 store 0x80002008 0x20001801\n1 sfence 0x201000 -\n", "0 ecall 0x52464e43 1 0x2 0 0x201000 0x1000\n2 store 0x80002008 0x20001801\n1 serve\n0 poll\n")
# A page becomes writable, so a TLB may keep an entry that faults; and its table moves.
READ_ONLY = BEFORE.replace("0x200010c7", "0x20001043")
RIGHT = "0 store 0x80003008 0x200010c7\n"
KNOWN = (
    # an entry that becomes valid, without a fence, with one later, with one of another page, and with one of another hart
    ("firm", BEFORE + VALID + OTHER, [*WHY_INVALID, f"  fenced at step 7 (line 9: {FENCED}"]), ("firm", BEFORE + VALID + OTHER + "1 sfence 0x2000 -\n", [*WHY_INVALID, f"  fenced at step 7 (line 9: {FENCED}; the next is step 10 (line 12: 1 sfence 0x2000 -)"]),
    ("firm", BEFORE + VALID + "1 sfence 0x1000 -\n" + OTHER, [*WHY_INVALID, f"  fenced at step 7 (line 9: {FENCED}"]), ("firm", BEFORE + VALID + "0 ecall 0x52464e43 1 0x1 0 0x2000 0x1000\n" + OTHER, [*WHY_INVALID, "  fenced at step 9 (line 11: 0 ecall 0x52464e43 0x1 0x1 0x0 0x2000 0x1000 0x0 0x0), which asked hart 0, and not hart 1"]),
    # the same where the way meets G, and the fence has an ASID
    ("firm", GLOBAL + VALID + "1 sfence 0x2000 5\n" + OTHER, [*WHY_INVALID, f"  fenced without an ASID at step 7 (line 9: {FENCED}"]),
    # a table that moves behind a fence with an address, and whose memory is reused; only a later change is no reason for what isn't lenient
    ("firm", BEFORE + MOVED + "1 sfence 0x1000 -\n" + REUSED + LOAD, [*WHY_MOVED, f"  fenced without an address at step 7 (line 9: {FENCED}"]), ("lenient", BEFORE + MOVED + "1 sfence 0x1000 -\n" + REUSED + LOAD, [*WHY_MOVED, f"  fenced without an address at step 7 (line 9: {FENCED}"]),
    ("lenient", BEFORE + MOVED + "1 sfence 0x1000 -\n" + REUSED + "0 store 0x80006008 0\n0 store 0x80006008 0x200010c7\n" + LOAD, [*WHY_MOVED, f"  fenced without an address at step 7 (line 9: {FENCED}"]),
    ("firm", GLOBAL + MOVED + "1 sfence 0x1000 5\n" + REUSED + LOAD, [*WHY_MOVED, f"  fenced without an address and an ASID at step 7 (line 9: {FENCED}"]),
    # no fence of the hart behind its satp, though the tables were written before; and a former satp whose tables give nothing
    ("firm", BEFORE.replace("1 sfence - -\n", "") + LOAD, ["1 load 0x1000 may use the table word 0x0 of 0x80003008, which memory had up to step 5", "  changed at step 5 (line 7: 0 store 0x80003008 0x200010c7)", "  no fence at hart 1 covers 0x1000 before this"]),
    ("firm", BEFORE.replace("1 satp 0x8000500000080001", "1 satp 0x8000500000080002") + "1 satp 0x8000500000080001\n" + LOAD, ["1 load 0x1000 may use satp 0x8000500000080002, which hart 1 had up to step 8", "  changed at step 8 (line 10: 1 satp 0x8000500000080001)", f"  fenced without an address at step 7 (line 9: {FENCED}"]),
    # a hart's own store to its tables, which a page maps
    ("firm 1 load", OWN + "1 load 0x2000\n", ["1 load 0x2000 may use the table word 0x0 of 0x80003010, which memory had up to step 9", "  changed at step 9 (line 11: 1 store 0x3010 0x200010c7)", f"  fenced at step 8 (line 10: {FENCED}"]),
    # a fence of the address that the hart served, or made, before all had changed is none that was missing, nor is one of another hart
    ("firm", BEFORE + MOVED + CALLED.format("0x1000 0x1000") + THERE_AND_BACK + LOAD, [*WHY_MOVED, f"  fenced without an address at step 7 (line 9: {FENCED}"]),
    ("lenient", BEFORE + MOVED + "1 sfence 0x1000 -\n" + THERE_AND_BACK + LOAD, [*WHY_MOVED, f"  fenced without an address at step 7 (line 9: {FENCED}"]),
    ("lenient", BEFORE + MOVED + ALONE.format("0x1000 0x1000") + THERE_AND_BACK + LOAD, [*WHY_MOVED, f"  fenced without an address at step 7 (line 9: {FENCED}"]),
    ("lenient", BEFORE + MOVED + ALONE.format("0x1000 0x1000") + THERE_AND_BACK + ALONE.format("0x1000 0x1000") + LOAD, [*WHY_MOVED, "  fenced at step 14 (line 16: 0 ecall 0x52464e43 0x1 0x1 0x0 0x1000 0x1000 0x0 0x0), which asked hart 0, and not hart 1"]),
    ("lenient", BEFORE + MOVED + ALONE.format("0x0 0x0") + THERE_AND_BACK + LOAD, [*WHY_MOVED, "  fenced without an address at step 10 (line 12: 0 ecall 0x52464e43 0x1 0x1 0x0 0x0 0x0 0x0 0x0), which asked hart 0, and not hart 1"]),
    ("lenient", BEFORE + MOVED + THERE_AND_BACK + ALONE.format("0x0 0x0") + LOAD, [*WHY_MOVED, "  fenced at step 12 (line 14: 0 ecall 0x52464e43 0x1 0x1 0x0 0x0 0x0 0x0 0x0), which asked hart 0, and not hart 1"]),
    ("firm", BEFORE + VALID + "0 ecall 0x52464e43 1 0x2 0 0x2000 0x1000\n" + OTHER, [*WHY_INVALID, "  fenced at step 9 (line 11: 0 ecall 0x52464e43 0x1 0x2 0x0 0x2000 0x1000 0x0 0x0), which asked hart 1; hart 1 hasn't served it yet"]),
    ("firm", TURNED, ["1 load 0x201000 may use the table word 0x0 of 0x80002008, which memory had up to step 9", "  changed at step 9 (line 11: 0 store 0x80002008 0x200000c7)", f"  fenced without an address at step 8 (line 10: {FENCED}"]),
    ("firm", LATE, ["1 load 0x201000 may use the table word 0x0 of 0x80002008, which memory had up to step 11", "  changed at step 11 (line 13: 0 store 0x80002008 0x200000c7)", f"  fenced without an address at step 10 (line 12: {FENCED}"]),
    ("firm", GLOBAL + VALID + ALONE.format("0x2000 0x1000") + OTHER, [*WHY_INVALID, "  fenced without an ASID at step 9 (line 11: 0 ecall 0x52464e43 0x1 0x1 0x0 0x2000 0x1000 0x0 0x0), which asked hart 0, and not hart 1"]),
    # what isn't lenient isn't told by an entry that only faults, but by another one
    ("lenient", READ_ONLY + RIGHT + MOVED + REUSED + "1 store 0x1000 0x5\n", ["1 store 0x1000 0x5 may use the table word 0x20000c01 of 0x80002000, which memory had up to step 10", "  changed at step 10 (line 12: 0 store 0x80002000 0x20001801)", f"  fenced without an address at step 7 (line 9: {FENCED}"]),
    ("lenient", READ_ONLY + LOAD + RIGHT + MOVED + REUSED + "1 store 0x1000 0x5\n", ["1 store 0x1000 0x5 may use the table word 0x20000c01 of 0x80002000, which memory had up to step 11", "  changed at step 11 (line 13: 0 store 0x80002000 0x20001801)", f"  fenced without an address at step 7 (line 9: {FENCED}"]),
    ("firm", READ_ONLY + RIGHT + MOVED + REUSED + "1 store 0x1000 0x5\n", ["1 store 0x1000 0x5 may use 0x80004000 r---, which the tables gave from step 6 to 8", "  changed at step 8 (line 10: 0 store 0x80003008 0x200010c7)", f"  fenced at step 7 (line 9: {FENCED}"]),
    ("lenient", BEFORE + REMAPPED + LOAD, ["1 load 0x1000 may use 0x80004000 rw-d, which the tables gave from step 6 to 8", "  changed at step 8 (line 10: 0 store 0x80003008 0x200014c7)", f"  fenced at step 7 (line 9: {FENCED}"]),
    # of an access that is unsteady, too, the cause is that of an unsteady one
    ("firm", BEFORE + REMAPPED + LOAD, ["1 load 0x1000 may use 0x80004000 rw-d, which the tables gave from step 6 to 8", "  changed at step 8 (line 10: 0 store 0x80003008 0x200014c7)", f"  fenced at step 7 (line 9: {FENCED}"]),
)  # fmt: skip

# What random schedules are made of.
WORDS = (0x0, 0x20, 0x20000801, 0x20000C01, 0x20001801, 0x200010C7, 0x200014C7, 0x200010E7, 0x200014C3, 0x200000C7, 0x20000C21)
PLACES = (0x80001000, 0x80001008, 0x80002000, 0x80002008, 0x80003008, 0x80003010, 0x80006008)
SATPS = (0x8000500000080001, 0x8000600000080001, 0x8000500000080002, 0x8000500000080006, 0x0)
ADDRESSES = (0x1000, 0x2000, 0x201000)
SPANS = ("0x0 0x0", "0x1000 0x1000", "0x2000 0x2000", "0x200000 0x200000", "0x204000 0x1000")


def random_schedule(seed):
    """A schedule of hart 0, which stores words of tables and asks fences, and of hart 1, which uses them."""
    rng = random.Random(seed)
    steps = [BEFORE]
    for _ in range(rng.randrange(4, 40)):
        kind = rng.choice(("store",) * 5 + ("load",) * 5 + ("sfence",) * 2 + ("call", "satp", "store1"))
        if kind == "store":
            steps.append(f"0 store {rng.choice(PLACES):#x} {rng.choice(WORDS):#x}\n")
        elif kind == "load":
            steps.append(f"1 load {rng.choice(ADDRESSES):#x}\n")
        elif kind == "store1":
            steps.append(f"1 store {rng.choice(ADDRESSES):#x} {rng.choice(WORDS):#x}\n")
        elif kind == "sfence":
            steps.append(f"1 sfence {rng.choice(('-', '-', '0x1000', '0x2000', '0x201000', '0x3ff000'))} {rng.choice(('-', '-', 5, 6))}\n")
        elif kind == "satp":
            steps.append(f"1 satp {rng.choice(SATPS):#x}\n")
        else:
            call = rng.choice((CALLED, CALLED, ALONE))
            steps.append(rng.choice((call.format(rng.choice(SPANS)), call.format(f"{rng.choice(SPANS)} {rng.choice((5, 6))}").replace("43 1 ", "43 2 "))))
    return "".join(steps)


class Walks(Test):
    programs = (TESTER,)

    def test_walks__known_answers(self):
        """Each condition is met or not as the standard says."""
        for text, asked in CASES:
            status, lines = told(self.room, "".join(f"#! {it}\n" for it in asked) + text, name="a.sched")
            found = [it.startswith("ok ") for it in lines if it.startswith(("ok ", "not ok "))]
            must(f"{text}: {lines}", found == list(asked.values()) and status == (0 if all(found) else 1) and not any("refused" in it for it in lines))

    def test_walks__random_schedules(self):
        """Of random schedules each address's loads and stores are unfirm, or unlenient, exactly where some are by the model."""
        seeds = range(max(fixtures.MANY // 5, 20))
        kinds = [(name, va, mark) for name in ("load", "store") for va in ADDRESSES for mark in (UNFIRM, UNLENIENT)]

        def judged(seed):
            text = random_schedule(seed)
            marked = {(op[0], op[1], mark) for actor, op, marks in marks_of_schedule(text) if actor == 1 and op[0] in ("load", "store") for mark in marks}
            room = os.path.join(self.room, str(seed))
            os.makedirs(room, exist_ok=True)
            _, lines = told(room, "".join(f"#! maybe never 1 {name} {va:#x} -> {mark}\n" for name, va, mark in kinds) + text, name="a.sched")
            found = [it.startswith("ok ") for it in lines if it.startswith(("ok ", "not ok "))]
            wanted = [kind not in marked for kind in kinds]
            return seed, found == wanted, text, lines, wanted.count(False)

        answers = at_once(judged, seeds)
        for seed, is_right, text, lines, _ in answers:
            must(f"seed {seed}: {text}: {lines}", is_right)
        many = sum(it[4] for it in answers)
        must(f"{many} of {len(kinds) * len(seeds)} fail", len(kinds) * len(seeds) // 20 < many < len(kinds) * len(seeds) * 19 // 20)

    def test_walks__causes_of_known_bugs(self):
        """Each access that isn't firm, though it is steady, tells the word of the tables or the satp that changed, its step, and which fence would have ended it."""
        for asked, text, wanted in KNOWN:
            status, lines = told(self.room, f"#! {asked}\n{text}", name="a.sched")
            must(f"{asked}: {text}: {lines}, and not {wanted}", status == 1 and block(lines) == list(map(shifted, wanted)) and not any("refused" in it for it in lines))

    def test_walks__causes_of_random_schedules(self):
        """Of random schedules the change that is told is the last one with which, and with what came later, the access has the mark; and the fence
        that is told would have ended it."""
        seeds = range(max(fixtures.MANY // 10, 20))

        def judged(seed):
            text, found = random_schedule(seed), []
            for asked, mark in (("firm", UNFIRM), ("lenient", UNLENIENT)):
                room = os.path.join(self.room, f"{seed}-{asked}")
                os.makedirs(room, exist_ok=True)
                status, lines = told(room, f"#! {asked}\n{text}", name="a.sched")
                place = next((int(it.split()[1]) for it in lines if it.startswith("  place: ")), None)
                must(f"seed {seed}: {asked}: {lines}", (status == 1) == (place is not None) == bool(block(lines)))
                if place is not None:
                    record = Told(text)
                    change, is_unsteady = record.change(place, mark), UNSTEADY in record.marks(0, place)
                    must(f"seed {seed}: {asked}: {text}: {lines}, and not step {change}", is_unsteady or block(lines)[1].startswith(f"  changed at step {change} (") and " may use " in block(lines)[0])
                    must(f"seed {seed}: {asked}: {text}: {lines}: the fence", is_unsteady or self.has_fence(record, place, mark, change, block(lines)[2]))
                    found.append(is_unsteady)
            return found

        found = [it for all_its in at_once(judged, seeds) for it in all_its]
        must(f"{found.count(False)} of {len(found)} are steady", found.count(False) > len(seeds) // 8)


    def has_fence(self, record, place, mark, change, line):
        """Whether the fence of a cause's last line would have ended it, and one of a lesser kind not; or whether one of the kind that the line
        tells would have done so right behind the change, and the hart has applied none of that kind since."""
        va, asid = access_of(record.taken[place][1])[1], record.boards[place].harts[record.taken[place][0]].satp >> 44 & 0xFFFF
        is_whole, is_global = "without an address" in line.split(" at ")[0], "an ASID" in line.split(" at ")[0]
        ends = lambda at, whole, space: mark not in record.marks(change, place, (at, None if whole else va, space))
        if "which asked" in line:
            at = int(line.partition("at step ")[2].split()[0])
            whole, space = record.called(at)
            is_least = (not whole or ends(at, False, space) != is_whole) and (space is not None or ends(at, whole, asid) != is_global)
            return at > change and ends(at, whole, space) and is_least and (whole or not is_whole) and (space is None or not is_global)
        since = any((whole or not is_whole) and (of is None or not is_global and of == asid) for whole, of in record.fences(change, place))
        return ends(change, is_whole, None if is_global else asid) and not since


class WalksOfTheModel(Test):
    programs = ()

    def test_walks__the_model_has_the_known_marks(self):
        """The model, by which programs' marks are judged, has the marks of the known answers."""
        marks = {"firm": UNFIRM, "lenient": UNLENIENT, "firm 1": UNFIRM, "never unfirm": UNFIRM}
        judged = 0
        for text, asked in CASES:
            found = {mark for *_, its in marks_of_schedule(text) for mark in its}
            for it, met in asked.items():
                if it in marks:
                    judged += 1
                    must(f"{it}: {text}: {found}", (marks[it] not in found) == met)
        must(f"{judged}", judged > 50)
