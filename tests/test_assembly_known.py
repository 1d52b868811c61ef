"""Programs in assembly whose answers are known from elsewhere: litmus shapes, with their outcomes under sequential consistency by hand;
and code on registers, which QEMU's user mode runs too."""
import itertools
import os
import random
import re
import shutil
import subprocess

from .fixtures import Test, at_once, must, program_of, write
from .test_assembly import COMPILER, explored, points

EXPLORER, EMULATOR = program_of("asm_orders"), "qemu-riscv64"

# Litmus shapes: what each hart does (w: writes the number; r: reads; +: adds the number by an AMO, which reads what was there), the
# variables whose last values count, and all outcomes: what reads gave, hart by hart, then the last values.
SHAPES = {
    "MP": (("wx1 wy1", "ry rx"), "", "00 01 11"),
    "SB": (("wx1 ry", "wy1 rx"), "", "01 10 11"),
    "LB": (("rx wy1", "ry wx1"), "", "00 01 10"),
    "S": (("wx2 wy1", "ry wx1"), "x", "01 02 11"),
    "R": (("wx1 wy1", "wy2 rx"), "y", "01 11 12"),
    "2+2W": (("wx1 wy2", "wy1 wx2"), "xy", "12 21 22"),
    "CoRR": (("wx1", "rx rx"), "", "00 01 11"),
    "CoWR": (("wx1 rx", "wx2"), "x", "11 12 22"),
    "CoRW": (("rx wx1", "wx2"), "x", "01 02 21"),
    "CoWW": (("wx1 wx2", ""), "x", "2"),
    "WRC": (("wx1", "rx wy1", "ry rx"), "", "000 001 010 011 100 101 111"),
    "RWC": (("wx1", "rx ry", "wy1 rx"), "", "000 001 010 011 101 110 111"),
    "ISA2": (("wx1 wy1", "ry wz1", "rz rx"), "", "000 001 010 011 100 101 111"),
    "3.SB": (("wx1 ry", "wy1 rz", "wz1 rx"), "", "001 010 011 100 101 110 111"),
    "3.LB": (("rx wy1", "ry wz1", "rz wx1"), "", "000 001 010 011 100 101 110"),
    "IRIW": (("wx1", "wy1", "rx ry", "ry rx"), "", "0000 0001 0010 0011 0100 0101 0110 0111 1000 1001 1011 1100 1101 1110 1111"),
    "two adds": (("+x1", "+x1"), "x", "012 102"),
    "an add and a write": (("+x1", "wx2"), "x", "02 23"),
}  # fmt: skip
# Where the variables stand, the word in which harts add up what they read, and that of the outcome.
X, SUM, OUTCOME = 0x80002000, 0x80002040, 0x80002048
# How many bits a value has in the outcome, and from which bit on harts are counted.
BITS, COUNT = 2, 32


def hart_text(hart, deeds, before, last, many):
    """A hart: what it does, then it adds what it read, and the last one stores the outcome. `before` values stand before its own."""
    out, read = [f"hart{hart}: li s0, {X:#x}", "li s1, 1", f"slli s1, s1, {COUNT}"], before
    for kind, name, *number in deeds:
        offset = 8 * "xyz".index(name)
        if kind == "w":
            out += [f"li t0, {number[0]}", f"sd t0, {offset}(s0)"]
            continue
        out += [f"ld t0, {offset}(s0)"] if kind == "r" else [f"addi t1, s0, {offset}", f"li t0, {number[0]}", "amoadd.d t0, t0, (t1)"]
        out += [f"slli t0, t0, {BITS * read}", "add s1, s1, t0"]
        read += 1
    out += [f"addi t1, s0, {SUM - X}", "amoadd.d t0, s1, (t1)", "add t0, t0, s1", f"srli t1, t0, {COUNT}", f"li t2, {many}", f"beq t1, t2, last{hart}", "ebreak"]
    out += [f"last{hart}: slli t0, t0, {64 - COUNT}", f"srli t0, t0, {64 - COUNT}"]
    for place, name in last:
        out += [f"ld t1, {8 * 'xyz'.index(name)}(s0)", f"slli t1, t1, {BITS * place}", "add t0, t0, t1"]
    return [*out, f"sd t0, {OUTCOME - X}(s0)", "ebreak"], read


def shape_text(harts, last, conditions):
    """A shape as a program: hart 0 starts the others, and does its part."""
    many, values = len(harts), 0
    lines = [f".board {many}, 4, 400, 0, 0x80000000, 0", ".org 0x80000000"]
    for hart in range(1, many):
        lines += ["li a7, 0x48534d", "li a6, 0", f"li a0, {hart}", f"la a1, hart{hart}", "li a2, 0", "ecall"]
    reads = sum(it[0] != "w" for hart in harts for it in hart.split())
    for hart, deeds in enumerate(harts):
        text, values = hart_text(hart, deeds.split(), values, list(enumerate(last, reads)), many)
        lines += text
    return "\n".join([f"#! {it}" for it in conditions] + lines) + "\n"


def outcomes_of(room, name):
    """The outcomes of a shape: of each list of values whether some order has it."""
    harts, last, _ = SHAPES[name]
    many = sum(it[0] != "w" for hart in harts for it in hart.split()) + len(last)
    lists = list(itertools.product(range(4 if "+" in "".join(harts) else 3 if "2" in "".join(harts) else 2), repeat=many))
    codes = [sum(value << BITS * place for place, value in enumerate(it)) for it in lists]
    file = re.sub(r"\W", "-", name) + ".s"
    write(os.path.join(room, file), shape_text(harts, last, [*(f"some _ store {OUTCOME:#x} {it:#x}" for it in codes), "end quiet"]))
    lines, _ = explored(room, file)
    told = [it.startswith("ok ") for it in points(lines)]
    must(f"{name}: {lines}", len(told) == len(lists) + 1 and told.pop())
    return " ".join("".join(map(str, it)) for it, is_met in zip(lists, told, strict=True) if is_met)


# ---- code on registers

# Registers that the code uses; the last one is kept for the address of what is stored.
REGISTERS, BASE = [f"x{it}" for it in range(1, 31)], "x31"
THREE = (
    "add sub sll slt sltu xor srl sra or and addw subw sllw srlw sraw mul mulh mulhsu mulhu div divu rem remu mulw divw divuw remw remuw"
).split()  # fmt: skip
IMMEDIATE = ("addi slti sltiu xori ori andi addiw").split()
SHIFTS = {"slli": 64, "srli": 64, "srai": 64, "slliw": 32, "srliw": 32, "sraiw": 32}
TWO = ("mv not neg negw sext.w seqz snez sltz sgtz").split()
BRANCHES = ("beq bne blt bge bltu bgeu bgt ble bgtu bleu").split()
ZERO_BRANCHES = ("beqz bnez bltz bgez blez bgtz").split()
ODD = (0, 1, 2, 3, 31, 32, 63, 64, 0x7FFFFFFF, 0x80000000, 0xFFFFFFFF, 2**63 - 1, 2**63, 2**64 - 1, 2**64 - 2, 0xFFFFFFFF80000000)
# How many programs, and lines of each: each line is one instruction or more.
CODES, LINES = 60, 1_800


def number(chance):
    return chance.choice(ODD) if chance.randrange(2) else chance.getrandbits(chance.choice((8, 32, 64)))


def signed(value):
    return value - 2**64 if value >> 63 else value


def line_of(chance, at):
    """A line at this place; a label stands before each, and those that jump go forward by a few."""
    a, b, c = (chance.choice(REGISTERS) for _ in range(3))
    to = f"l{at + chance.randrange(1, 4)}"
    kind = chance.randrange(24)
    if kind < 11:
        return f"{chance.choice(THREE)} {a}, {b}, {c}"
    if kind < 14:
        return f"{chance.choice(IMMEDIATE)} {a}, {b}, {chance.choice((-2048, 2047, -1, 0, 1, chance.randrange(-2048, 2048)))}"
    if kind < 16:
        name = chance.choice(list(SHIFTS))
        return f"{name} {a}, {b}, {chance.choice((0, 1, SHIFTS[name] - 1, chance.randrange(SHIFTS[name])))}"
    if kind == 16:
        return f"{chance.choice(TWO)} {a}, {b}"
    if kind < 19:
        return f"li {a}, {signed(number(chance))}"
    if kind == 19:
        return f"{chance.choice(('lui', 'auipc'))} {a}, {chance.choice((0, 1, 0x7ffff, 0x80000, 0xfffff, chance.getrandbits(20)))}"
    if kind == 20:
        return f"{chance.choice(BRANCHES)} {a}, {b}, {to}"
    if kind == 21:
        return f"{chance.choice(ZERO_BRANCHES)} {a}, {to}"
    if kind == 22:
        return chance.choice((f"jal {a}, {to}", f"j {to}", f"la {a}, {to}; jr {a}", f"la {a}, {to}; jalr {b}, 0({a})", f"la {a}, {to}; addi {a}, {a}, -7; jalr {b}, 8({a})"))
    # (a loop of a few turns)
    return f"li {a}, {chance.randrange(1, 6)}; 1: {chance.choice(THREE)} {b}, {b}, {c}; addi {a}, {a}, -1; bnez {a}, 1b" if a not in (b, c) else "nop"


def code_of(chance):
    """Code on registers, which begins with values in all of them, and stores all at its end from `x31` on."""
    lines = [f"li {it}, {signed(number(chance))}" for it in REGISTERS]
    lines += [f"l{at}: {line_of(chance, at)}" for at in range(LINES)]
    lines += [f"l{LINES + at}: nop" for at in range(4)]
    return lines, [f"sd {it}, {8 * at}({BASE})" for at, it in enumerate(REGISTERS)]


# How a program of QEMU's user mode ends: write(1, x31, 240), exit(0).
LEAVE = ["li a7, 64", "li a0, 1", f"mv a1, {BASE}", f"li a2, {8 * len(REGISTERS)}", "ecall", "li a7, 93", "li a0, 0", "ecall"]


def emulated(room, name, code, stores):
    """What the registers hold at the end, by QEMU."""
    source, made = os.path.join(room, f"{name}.qemu.s"), os.path.join(room, f"{name}.elf")
    write(source, "\n".join([".option norelax", ".globl _start", "_start:", *code, f"la {BASE}, stored", *stores, *LEAVE, ".bss", ".balign 8", f"stored: .skip {8 * len(REGISTERS)}", ""]))
    flags = "-march=rv64im -mabi=lp64 -mcmodel=medany -nostdlib -static -Wl,--build-id=none -Wl,-Ttext=0x80000000".split()
    subprocess.run([COMPILER, *flags, "-o", made, source], check=True, capture_output=True, timeout=60)
    found = subprocess.run([EMULATOR, made], capture_output=True, check=True, timeout=60).stdout
    return [int.from_bytes(found[8 * at : 8 * at + 8], "little") for at in range(len(REGISTERS))]


def by_guest(room, name, code, stores):
    """The same by a guest: what it stores is told where a condition fails at its last store."""
    base = 0x80004000
    last = base + 8 * (len(REGISTERS) - 1)
    write(os.path.join(room, f"{name}.s"), "\n".join([f"#! never 0 store {last:#x}", ".option norelax", ".board 1, 16, 400, 0, 0x80000000, 0", ".org 0x80000000", *code, f"li {BASE}, {base:#x}", *stores, "ebreak", ""]))
    lines, status = explored(room, f"{name}.s")
    must(f"{name}: {status}, {lines[:5]}", status == 1 and points(lines)[0].endswith(": fails"))
    told = [re.match(r" +\d+ 0 store (0x[0-9a-f]+) (0x[0-9a-f]+) -> done    # ", it) for it in lines]
    told = [(int(it[1], 16), int(it[2], 16)) for it in told if it]
    must(f"{name}: {told}", [at for at, _ in told] == [base + 8 * at for at in range(len(REGISTERS))])
    return [value for _, value in told]


class KnownGuests(Test):
    programs = (EXPLORER,)

    def test_litmus_shapes_of_guests(self):
        """Each shape has just the outcomes of sequential consistency."""
        found = dict(zip(SHAPES, at_once(lambda name: outcomes_of(self.room, name), SHAPES), strict=True))
        others = {name: (it, SHAPES[name][2]) for name, it in found.items() if it != SHAPES[name][2]}
        must(f"{others}", not others)

    def test_register_code_of_guests(self):
        """100,000 instructions on registers, written by chance, leave what QEMU's user mode says."""
        for tool in (COMPILER, EMULATOR):
            if not shutil.which(tool):
                self.skipTest(f"there is no {tool}")

        def agrees(seed):
            code, stores = code_of(random.Random(seed))
            guest, emulator = (run(self.room, str(seed), code, stores) for run in (by_guest, emulated))
            must(f"seed {seed}: {[(REGISTERS[at], hex(a), hex(b)) for at, (a, b) in enumerate(zip(guest, emulator, strict=True)) if a != b]}", guest == emulator)

        at_once(agrees, range(CODES))
