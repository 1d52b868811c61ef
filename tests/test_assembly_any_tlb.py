"""`#! any tlb`: what guests in assembly may read on a board with any TLBs, beside an enumeration of its own."""
import glob
import os
import random
import re

from board_model import access_of, spelled_answer, spelled_step

from .fixtures import EXAMPLES, Test, at_once, must, program_of, read, write
from .loose_orders import LooseOrders
from .marked_orders import MarkedOrders
from .random_programs import Maker
from .test_assembly import GUESTS, HEAD, explored, points
from .test_assembly_blocks import blocks_of, in_assembly
from .test_assembly_tried import tested

EXPLORER = program_of("asm_orders")
# How many random programs are tried, how many of their states at most, and how many answers that no order has are asked of each.
SEEDS, MOST, ABSENT = 100, 3_000, 6


def board_answers(text):
    """The accesses of all orders on this board, with their answers; and whether some access is unsteady."""
    orders = MarkedOrders(text, MOST)
    steps = [step for steps in orders.edges for step in steps if step[0] is not None and access_of(step[1])]
    return {step[:3] for step in steps}, any("unsteady" in step[3] for step in steps)


def asked(loose, name):
    """Conditions that ask whether some access gets an answer, and whether it does: each that one gets, and some that others get."""
    answers = {(op[0], answer) for _, op, answer in loose.accesses}
    places = {(actor, op) for actor, op, _ in loose.accesses}
    others = sorted({(actor, op, answer) for actor, op in places for kind, answer in answers if kind == op[0]} - loose.accesses)
    chosen = random.Random(name).sample(others, min(ABSENT, len(others)))
    return [(f"some {spelled_step(*it[:2])} -> {spelled_answer(it[2])}", it in loose.accesses) for it in (*sorted(loose.accesses), *chosen)]


def is_alike(room, name, lines):
    """What accesses may get is what the enumeration says. Returns whether they get more than on this board; None: it isn't tried."""
    found = blocks_of(lines)
    text = "\n".join(lines) + "\n"
    if found is None or any(it.startswith("fetch") for it in lines):
        return None
    try:
        loose = LooseOrders(text, MOST)
        (own, is_unsteady) = board_answers(text)
    except ValueError:
        return None
    wanted = asked(loose, name)
    ends = [(f"maybe end {it}", loose.ends <= {it}) for it in ("quiet", "stuck", "off")]
    board, blocks, ticks = found
    conditions = ["any tlb", *(it for it, _ in wanted + ends)]
    write(os.path.join(room, f"{name}.s"), in_assembly(board, blocks, ticks, conditions))
    lines, _ = explored(room, "--states", "100000", f"{name}.s")
    told = [it.startswith("ok ") for it in points(lines)]
    must(f"{name}: {[(it, a) for it, a in zip(wanted + ends, told) if it[1] != a]}, {len(told)}", told == [is_so for _, is_so in wanted + ends])
    # (the theorem: where each access is steady, no TLB can be told from another)
    must(f"{name}: {loose.accesses ^ own}", own <= loose.accesses and (is_unsteady or own == loose.accesses))
    return own != loose.accesses


class AnyTlb(Test):
    programs = (EXPLORER,)

    def test_wrong_value_with_any_tlb(self):
        """The record of the order says that it is no trace of this board, and which entries were used; an order that this board has is
        a trace as ever. Without the line this board's TLB decides."""
        path = os.path.join(GUESTS, "any-tlb.s")
        lines, status = explored(self.room, path)
        must(f"{status}, {lines}", status == 1 and lines[-6:-4] == ["# on a board with any TLBs, whose walks are of one moment", "# states: 28, steps: 44"])
        record = read(os.path.join(self.room, "any-tlb.s.4.failed")).splitlines()
        used = [it.partition("    # used ")[2] for it in record if "    # used " in it]
        must(f"{record}", record[0] == "# another TLB than this board's: `check` refuses these replies" and record[1] == "board 2 16 1000 0 0x8000fffe 0x0" and len(record) == 19)
        must(f"{used}", used == ["0x80003000 rw-d; any-tlb.s:32: sd t0, 0(s1)", "0x80003000 rw-d; any-tlb.s:33: 2: ld t0, 8(s1)", "0x80001000 rw-d; any-tlb.s:36: ld t1, 0(s0)"])
        reached = read(os.path.join(self.room, "any-tlb.s.5.reached"))
        must(reached, reached.startswith("board ") and len(reached.splitlines()) > 18)
        write(os.path.join(self.room, "a.s"), read(path).replace("#! any tlb", "# "))
        lines, status = explored(self.room, "a.s")
        must(f"{status}, {lines}", status == 0 and lines[0] and not any("any TLBs" in it for it in lines))

    def test_what_any_tlb_excludes(self):
        """A condition on marks, and a fetch, are told, and nothing is explored. `test` takes all orders, with whatever options."""
        own = "        .board  1, 4, 100, 0, 0x80000000, 0\n        .org    0x80000000\n        li t0, 0x80001000\n"
        for text, said in (
            (f"#! any tlb\n#! end quiet\n#! steady\n{own}        ld t1, 0(t0)\n", "a.s: line 3: with 'any tlb' no condition asks of marks: ask it in a file without"),
            (f"#! never _ load _ -> stale\n#! any  tlb  # all\n{own}        ld t1, 0(t0)\n", "a.s: line 1: with 'any tlb' no condition asks of marks: ask it in a file without"),
            (f"#! any tlb\n{own}        fetch t1, 0(t0)\n", "a.s: with 'any tlb' no guest fetches"),
        ):
            write(os.path.join(self.room, "a.s"), text)
            lines, status = explored(self.room, "a.s")
            must(f"{status}, {lines}", status == 1 and points(lines) == [f"not ok 1 - {said}"])
        path = os.path.join(GUESTS, "any-tlb.mended.s")
        for words in ((), ("--times", "3"), ("--seed", "1")):
            lines, status = tested(self.room, *words, path)
            must(f"{words}: {status}, {lines}", status == 0 and all(" seed" not in it for it in lines) and len(points(lines)) == 3)
        lines, status = explored(self.room, "--states", "20", path)
        must(f"{status}, {lines}", status == 8 and all("not judged: more than 20 states" in it for it in points(lines)))

    def test_misfits_with_any_tlb(self):
        """A condition that no step can meet is a misfit, as ever; one that no order meets is vacuous."""
        path = os.path.join(GUESTS, "any-tlb.s")
        write(os.path.join(self.room, "a.s"), "#! any tlb\n#! never 3 load 0x1000 -> value 0\n#! each 1 load 0x5000 -> done\n#! never 1 load 0x5000 -> value 0\n" + read(path))
        lines, status = explored(self.room, "a.s")
        said = [it.partition(": line ")[2] for it in points(lines)[:3]]
        must(f"{status}, {lines}", status == 1 and said[:2] == ["2: never 3 load 0x1000 -> value 0: the board has no hart 3", "3: each 1 load 0x5000 -> done: no load has the reply done"])
        must(f"{said}", said[2].startswith("4: never 1 load 0x5000 -> value 0: vacuous: no step is"))

    def test_examples_with_any_tlb(self):
        paths = [it for folder in ("", "orders", "tlb") for it in sorted(glob.glob(os.path.join(EXAMPLES, folder, "*.program")))]

        def is_tried(path):
            name = os.path.relpath(path, EXAMPLES).replace(os.sep, "-").removesuffix(".program")
            return is_alike(self.room, name, [it for it in read(path).splitlines() if not it.startswith("#")])

        tried = at_once(is_tried, paths)
        must(f"{tried.count(None)} of {len(paths)} aren't tried, {tried.count(True)} get more", tried.count(None) == 0 and tried.count(True) >= 7)

    def test_random_programs_with_any_tlb(self):
        def is_tried(seed):
            return is_alike(self.room, f"r{seed}", [re.sub(r"^sstatus .*", "sstatus 0", it) for it in Maker(seed).lines()])

        tried = at_once(is_tried, range(SEEDS))
        must(f"{tried.count(None)} of {SEEDS} aren't tried, {tried.count(True)} get more", tried.count(None) <= 100 and tried.count(True) >= 5)
