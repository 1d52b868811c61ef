"""Conditions on what orders of programs in assembly leave at their ends: `exists` and `forall`."""
import itertools
import os
import re
import subprocess

from .fixtures import PROGRAM, Test, at_once, must, program_of, write
from .test_assembly import explored, points

EXPLORER = program_of("asm_orders")
# Litmus shapes (their names are those of test_assembly_known): what each hart does (w: writes the number; r: reads), the variables
# whose last values count, and all outcomes: what reads gave, hart by hart, then the last values. By hand, for memory that is in order.
SHAPES = {
    "MP": (("wx1 wy1", "ry rx"), "", "00 01 11"),
    "SB": (("wx1 ry", "wy1 rx"), "", "01 10 11"),
    "LB": (("rx wy1", "ry wx1"), "", "00 01 10"),
    "S": (("wx2 wy1", "ry wx1"), "x", "01 02 11"),
    "R": (("wx1 wy1", "wy2 rx"), "y", "01 11 12"),
    "2+2W": (("wx1 wy2", "wy1 wx2"), "xy", "12 21 22"),
    "CoRR": (("wx1", "rx rx"), "", "00 01 11"),
    "CoWR": (("wx1 rx", "wx2"), "x", "11 12 22"),
    "CoRW": (("rx wx1", "wx2"), "x", "01 02 21"),
    "WRC": (("wx1", "rx wy1", "ry rx"), "", "000 001 010 011 100 101 111"),
    "3.SB": (("wx1 ry", "wy1 rz", "wz1 rx"), "", "001 010 011 100 101 110 111"),
}
X = 0x80002000
START = ["li a7, 0x48534d", "li a6, 0", "li a2, 0"]


def shape_text(harts, conditions):
    """A shape as a program: hart 0 starts the others, and does its part. What a hart reads is in s2, s3, ..; x, y, z are symbols."""
    lines = [f".board {len(harts)}, 4, 400, 0, 0x80000000, 0", *(f".equ {it}, {X + 8 * at:#x}" for at, it in enumerate("xyz")), ".org 0x80000000"]
    for hart in range(1, len(harts)):
        lines += [*START, f"li a0, {hart}", f"la a1, hart{hart}", "ecall"]
    for hart, deeds in enumerate(harts):
        lines.append(f"hart{hart}: li s0, x")
        reads = 0
        for kind, name, *number in deeds.split():
            offset = 8 * "xyz".index(name)
            lines += [f"li t0, {number[0]}", f"sd t0, {offset}(s0)"] if kind == "w" else [f"ld s{2 + reads}, {offset}(s0)"]
            reads += kind == "r"
        lines.append("ebreak")
    return "\n".join([f"#! {it}" for it in conditions] + lines) + "\n"


def claims_of(harts, last, values):
    """What registers and words hold at an end with these values."""
    reads = [f"{hart}:s{2 + at}" for hart, deeds in enumerate(harts) for at in range(sum(it[0] == "r" for it in deeds.split()))]
    return [f"{place}={value}" for place, value in zip([*reads, *last], values, strict=True)]


def shape_has(room, name):
    """A shape ends in all its outcomes and no other one: each by `exists`, and all by one `forall`."""
    harts, last, wanted = SHAPES[name]
    many = sum(it[0] == "r" for hart in harts for it in hart.split()) + len(last)
    lists = list(itertools.product(range(3 if "2" in "".join(harts) else 2), repeat=many))
    ands, ors = ((" and ", " or "), (" /\\ ", " \\/ "))[len(name) % 2]
    all_of = [ands.join(claims_of(harts, last, it)) for it in lists]
    wanted_lists = [tuple(map(int, it)) for it in wanted.split()]
    some = ors.join("(" + ands.join(claims_of(harts, last, it)) + ")" for it in wanted_lists)
    fewer = ors.join("(" + ands.join(claims_of(harts, last, it)) + ")" for it in wanted_lists[1:])
    file = re.sub(r"\W", "-", name) + ".s"
    write(os.path.join(room, file), shape_text(harts, [*(f"exists {it}" for it in all_of), f"forall {some}", f"forall {fewer}", f"forall not ~({some})"]))
    lines, status = explored(room, file)
    told = points(lines)
    found = " ".join("".join(map(str, it)) for it, point in zip(lists, told) if point.endswith(": holds"))
    must(f"{name}: {found}, {wanted}: {lines}", found == wanted and status == 1)
    must(f"{name}: {told}", [it.endswith(": no order ends so") for it in told[: len(lists)]] == [it not in wanted_lists for it in lists])
    must(f"{name}: {told[len(lists) :]}", [it.rsplit(": ", 1)[1] for it in told[len(lists) :]] == ["holds in all orders", "fails", "holds in all orders"])


# Faults: the condition, and what is told behind the file and the line.
FAULTS = {
    "exists": ":1:10: a value is missing: ''",
    "exists 0:t9=1": ":1:13: this is no register, and nothing defines this symbol: 't9=1'",
    "exists 2:t0=1": ":1:11: the board has no such hart, and no such word: '2:t0=1'",
    "exists 0x80002001=1": ":1:11: the board has no such hart, and no such word: '0x80002001=1'",
    "exists 0:t0": ":1:15: what is asked is HART:REGISTER=VALUE or ADDRESS=VALUE: ''",
    "forall (0:t0=1": ":1:18: a parenthesis isn't closed: ''",
    "forall 0:t0=1 1:t0=1": ":1:18: 'and' or 'or' is missing before this: '1:t0=1'",
    "forall nowhere=1": ":1:11: this is no register, and nothing defines this symbol: 'nowhere=1'",
    "forall 0:t0=1 and": ":1:21: a value is missing: ''",
}


def fault_is_told(room, at):
    asked, wanted = list(FAULTS.items())[at]
    file = f"fault-{at}.s"
    write(os.path.join(room, file), shape_text(("wx1", "rx"), [asked]))
    lines, status = explored(room, file)
    must(f"{asked}: {lines}", status == 1 and points(lines) == [f"not ok 1 - {file}{wanted}"])


# Programs, with what is told of their conditions.
SPIN = ".board 1, 4, 100, 0, 0x80000000, 0\n.org 0x80000000\nli s0, 0x80002000\n1: ld t0, 0(s0)\nj 1b\n"
LOST = ".board 1, 4, 100, 0, 0x80000000, 0\n.org 0x80000000\nli t0, 7\nli t1, 0x10\njr t1\n"
RESTS = ".board 1, 4, 100, 0, 0x80000000, 0\n.org 0x80000000\nla t0, h\ncsrw stvec, t0\nli t1, 2\ncsrw sie, t1\ncsrs sstatus, t1\nli t0, 7\n1: j 1b\nh: ebreak\n"
OFF = ".board 2, 4, 100, 0, 0x80000000, 0\n.org 0x80000000\nli t0, 7\nli a7, 0x53525354\nli a6, 0\nli a0, 0\nli a1, 0\necall\nebreak\n"
TOLD = {
    # (no order ends: nothing is judged)
    "#! forall 0:t0=0\n#! exists 0:t0=0\n" + SPIN: (["no order ends", "no order ends so"], 1),
    # an end at which a guest is lost is never so; a hart that was never entered has no registers
    "#! forall 0:t0=7\n#! exists 0:t0=7\n#! forall not 0:t0=7\n#! exists not 0:t0=7\n" + LOST: (["fails", "no order ends so"] * 2, 1),
    "#! exists 1:a0=0\n#! forall 1:a0=0 and 1:sp=0\n" + OFF: (["holds", "holds in all orders"], 0),
    "#! forall 0:zero=0 and 0:x5=0\n" + SPIN.replace("j 1b", "ebreak"): (["holds in all orders"], 0),
    # beside other conditions, whose points come first
    "#! exists 0:t0=7\n#! end stuck\n#! forall 0:t0=7\n" + LOST.replace("jr t1", "ebreak"): (["fails", "holds", "holds in all orders"], 1),
    # one in a jump to itself keeps them
    "#! forall 0:t0=7 and 0:t1=2\n#! exists 0:t0=0\n" + RESTS: (["holds in all orders", "no order ends so"], 1),
    "#! any tlb\n#! exists 0:t0=7\n" + LOST: (["line 2: with 'any tlb' no condition is 'exists' or 'forall': ask it in a file without"], 1),
}


def is_told(room, at):
    text, (wanted, status) = list(TOLD.items())[at]
    file = f"told-{at}.s"
    write(os.path.join(room, file), text)
    lines, found = explored(room, file)
    must(f"{text}: {lines}", [it.split(": ", 1)[1] if "any tlb" in it else it.rsplit(": ", 1)[1] for it in points(lines)] == wanted and found == status)


class AssemblyEnds(Test):
    programs = (PROGRAM, EXPLORER)

    def test_shapes_end_in_their_outcomes(self):
        at_once(lambda name: shape_has(self.room, name), SHAPES)

    def test_faults_of_ends_are_told(self):
        at_once(lambda at: fault_is_told(self.room, at), range(len(FAULTS)))

    def test_ends_are_told(self):
        at_once(lambda at: is_told(self.room, at), range(len(TOLD)))

    def test_ends_leave_records(self):
        """The record of an order that is told is a trace of the board, and its loads give what is asked."""
        write(os.path.join(self.room, "sb.s"), shape_text(*(lambda it: (it[0], ["exists 0:s2=0 and 1:s2=1", "forall 0:s2=1"]))(SHAPES["SB"])))
        lines, status = explored(self.room, "sb.s")
        must(f"{lines}", status == 1 and [it.startswith("ok") for it in points(lines)] == [True, False])
        for name in ("sb.s.1.reached", "sb.s.2.failed"):
            text = open(os.path.join(self.room, name), encoding="utf-8").read()
            must(f"{name}: {text}", "0 load 0x80002008 -> value 0x0" in text)
            found = subprocess.run(["sbiboard", "check", name], executable=PROGRAM, cwd=self.room, capture_output=True, text=True, timeout=60)
            must(f"{name}: {found}", found.stdout.startswith("agrees "))
