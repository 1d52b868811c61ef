"""Addresses in programs in assembly: the two parts of a distance, which GNU as writes alike; calls as compilers write them; and page tables
by `.map`."""
import os
import random
import re
import shutil
import subprocess

from .fixtures import Test, at_once, must, program_of, write
from .test_assembly import COMPILER, explored, points
from .test_assembly_told import ONE, lines_of

EXPLORER, COPIER = program_of("asm_orders"), "riscv64-linux-gnu-objcopy"
HERE, WORD = 0x80002000, 0x80003000
# How far a symbol is from its `auipc`: round each bound of 12 bits, and the last ones that are reached.
DISTANCES = (0, 4, 0x7FC, 0x7FF, 0x800, 0x801, 0xFFF, 0x1000, 0x17FF, 0x1800, -1, -4, -0x7FF, -0x800, -0x801, -0x1000, -0x1801, 0x12345678, 0x7FFFF7FF, -0x80000800)
# What shows the high part, in t0.
HIGH = ("sd t0, 0(s0)", rf"0 store {WORD:#x} (0x[0-9a-f]+) ")
# What adds the low part to it, and how it is told where that leads.
ADDING = (
    ("addi t1, t0, %pcrel_lo({})\n sd t1, 0(s0)", HIGH[1]), ("ld t1, %pcrel_lo({})(t0)", r"0 load (0x[0-9a-f]+) "),
    ("sd t1, %pcrel_lo({})(t0)", r"0 store (0x[0-9a-f]+) "), ("sb t1, %pcrel_lo({})(t0)", r"0 store1 (0x[0-9a-f]+) "), ("jalr t1, t0, %pcrel_lo({})", r"lost at (0x[0-9a-f]+), where no instruction is"),
    ("jalr %pcrel_lo({})(t0)", r"lost at (0x[0-9a-f]+), where no instruction is"), ("jr %pcrel_lo({})(t0)", r"lost at (0x[0-9a-f]+), where no instruction is"),
)  # fmt: skip
# Ways to call `f`, which goes back to ra, or `g`, which goes back to t0.
CALLS = ("call f@plt", "jal f@plt", "jal ra, f@plt", "call t0, g@plt", "jal t0, g@plt", "la ra, 1f\n tail f@plt\n1:", "la ra, 1f\n j f@plt\n1:")
# A page that two maps share tables for, its neighbour, and the words that a loader stores for them: root table, tables behind `.bss`.
MAPPED = """\
        la s0, leaf
        sd zero, 0(s0)
        ebreak
        .bss
root:   .zero 4096
        .map root, 0x1000, 0x80004000, rwad, leaf
        .map root, 0x2000, 0x80006000, dra
"""
WORDS = ((0x80001000, 0x20000801), (0x80002000, 0x20000C01), (0x80003008, 0x200010C7), (0x80003010, 0x200018C3))
# How many programs of maps are tried, and the first pages of theirs, by the width of the mode.
MAPS, BASES = 40, {39: (0, 0x1FE000, 0x3FFFE000, 0x3FFFFFD000, 2**64 - 2**38, 2**64 - 0x3000), 48: (0, 0x1FE000, 0x3FFFE000, 0x7FFFFFE000, 2**47 - 0x3000, 2**64 - 2**47, 2**64 - 0x3000)}


def maps_text(chance):
    """Some pages by one mode, each with a word of its own, which a guest loads by their addresses."""
    width = chance.choice((39, 48))
    pages = sorted({chance.choice(BASES[width]) + 0x1000 * chance.randrange(3) for _ in range(8)})
    chance.shuffle(pages)
    lines = ["la t0, root", "srli t0, t0, 12", f"li t1, {8 + (width == 48)}", "slli t1, t1, 60", "or t0, t0, t1", "csrw satp, t0", "sfence.vma"]
    for page in pages:
        lines += [f"li s0, {page:#x}", "ld t1, 8(s0)"]
    lines += ["ebreak"]
    for at in range(len(pages)):
        lines += [f".org {0x80008000 + 0x1000 * at:#x}", f"word{at}: .dword 0, {0x100 + at:#x}"]
    lines += [".bss", "other: .zero 4", ".balign 4096", "root: .zero 4096"]
    for at, page in enumerate(pages):
        flags = "".join(chance.sample("rwxad", 5)) if chance.randrange(2) else "rad"
        lines.append(f".map{'48' if width == 48 else ''} root, {page:#x}, word{at}, {flags}")
    asked = [f"#! each 0 load {page + 8:#x} -> value {0x100 + at:#x}" for at, page in enumerate(pages)]
    head = ".board 1, 64, 900, 0, 0x80000000, 0, 16, 48\n.org 0x80000000\n"
    return "\n".join([*asked, "#! end quiet"]) + "\n" + head + lines_of("\n".join(lines)), len(pages) + 1


def maps_are_walked(room, seed):
    text, many = maps_text(random.Random(seed))
    write(os.path.join(room, f"maps{seed}.s"), text)
    lines, status = explored(room, f"maps{seed}.s")
    must(f"{seed}: {status}, {lines}", status == 0 and len(points(lines)) == many)


def leads_to(room, name, distance, adding, told, is_forward):
    """Where a guest is led by the `auipc` at HERE and what adds the low part, which stands behind it, or before it and is jumped to."""
    low = f"2: {adding.format('1f' if is_forward else '1b')}\n ebreak"
    high = f"here:\n1: auipc t0, %pcrel_hi({(HERE + distance) % 2**64:#x})"
    parts = f"{low}\n .org {HERE:#x}\n{high}\n j 2b" if is_forward else f".org {HERE:#x}\n{high}\n{low}"
    write(os.path.join(room, f"{name}.s"), f"#! never 0 load\n#! never 0 store\n#! never 0 store1\n#! end quiet\n{ONE} li s0, {WORD:#x}\n j here\n{parts}\n")
    lines, _ = explored(room, f"{name}.s")
    found = [it[1] for it in (re.search(told, it) for it in lines) if it]
    must(f"{distance:#x}, {adding}: {lines}", found)
    return int(found[0], 16)


def by_gnu_as(room, adding):
    """Both parts of each distance by the words that GNU as and ld write."""
    source, made, words = (os.path.join(room, f"gnu.{it}") for it in ("s", "elf", "bin"))
    cases = [f".org {0x1000 * at:#x}\n1: auipc t0, %pcrel_hi(s{at})\n {adding.format('1b')}" for at in range(len(DISTANCES))]
    # (GNU as takes no distance of a number that is so far away)
    symbols = [f"-Wl,--defsym=s{at}={(0x80000000 + 0x1000 * at + it) % 2**64:#x}" for at, it in enumerate(DISTANCES)]
    write(source, "\n".join([".option norelax", ".globl _start", "_start:", *cases, ""]))
    flags = "-march=rv64im -mabi=lp64 -nostdlib -static -Wl,--build-id=none -Wl,-Ttext=0x80000000".split()
    subprocess.run([COMPILER, *flags, *symbols, "-o", made, source], check=True, capture_output=True, timeout=60)
    subprocess.run([COPIER, "-O", "binary", "-j", ".text", made, words], check=True, capture_output=True, timeout=60)
    with open(words, "rb") as file:
        code = file.read()
    found = []
    for at in range(len(DISTANCES)):
        high, low = (int.from_bytes(code[it : it + 4], "little") for it in (0x1000 * at, 0x1000 * at + 4))
        must(f"{adding}: {high:#x}, {low:#x}", high & 0xFFF == 0x297 and low >> 15 & 31 == 5)
        low = low >> 25 << 5 | low >> 7 & 31 if low & 0x7F == 0x23 else low >> 20
        found.append(((high >> 12 ^ 1 << 19) - (1 << 19) << 12, (low ^ 1 << 11) - (1 << 11)))
    return found


class AssemblyAddresses(Test):
    """Addresses in programs in assembly."""

    programs = (EXPLORER,)

    def test_parts_of_distances(self):
        """The high part of each distance is a multiple of 4 KiB, the low part adds up to the symbol, wherever it stands."""
        cases = [(distance, *it, forward) for distance in DISTANCES for it in (HIGH, *ADDING) for forward in (False, True)]
        # (a jump to the jump itself would go on for ever)
        cases = [it for it in cases if not it[1].startswith("j") or it[0] not in (0, 4)]
        found = at_once(lambda at: leads_to(self.room, str(at), *cases[at]), range(len(cases)))
        for (distance, adding, _, forward), there in zip(cases, found, strict=True):
            wanted = (distance + 0x800) & ~0xFFF if adding == HIGH[0] else distance
            wanted = (HERE + wanted) % 2**64 & (~1 if adding.startswith("j") else ~0)
            must(f"{distance:#x}, {adding}, {forward}: {there:#x}, and not {wanted:#x}", there == wanted)

    def test_parts_of_distances_beside_gnu_as(self):
        """GNU as and ld write the same parts."""
        for tool in (COMPILER, COPIER):
            if not shutil.which(tool):
                self.skipTest(f"there is no {tool}")
        for adding, _ in ADDING:
            parts = by_gnu_as(self.room, adding)
            wanted = [((it + 0x800) & ~0xFFF, it - ((it + 0x800) & ~0xFFF)) for it in DISTANCES]
            must(f"{adding}: {[it for it in zip(DISTANCES, parts, wanted) if it[1] != it[2]]}", parts == wanted)

    def test_calls_as_compilers_write_them(self):
        """`symbol@plt` is the symbol, behind each jump that takes one."""
        text = "#! some 0 store 0x80003000 -> done\n#! each 0 load 0x80003000 -> value %d\n#! end quiet\n%s" % (len(CALLS), ONE)
        text += lines_of("\n".join([f"li s0, {WORD:#x}", *CALLS, "sd s1, 0(s0)", "ld t1, 0(s0)", "ebreak", "f: addi s1, s1, 1", "ret", "g: addi s1, s1, 1", "jr t0"]))
        write(os.path.join(self.room, "calls.s"), text)
        lines, status = explored(self.room, "calls.s")
        must(f"{status}, {lines}", status == 0 and len(points(lines)) == 3)

    def test_words_of_maps(self):
        """A loader stores the words of the tables that no map above made, and a name is the address of a page's entry."""
        write(os.path.join(self.room, "a.s"), f"#! never 0 store leaf 0\n{ONE}{MAPPED}")
        lines, status = explored(self.room, "a.s")
        stores = [re.match(r"    \d+ 0 store (0x[0-9a-f]+) (0x[0-9a-f]+) -> done    # (.*)", it) for it in lines]
        stores = [(int(it[1], 16), int(it[2], 16), it[3]) for it in stores if it]
        must(f"{status}, {lines}", status == 1 and [it[:2] for it in stores if it[2] == "the loader"] == [*WORDS])
        must(f"{stores}", stores[-1] == (0x80003008, 0, "a.s:5: sd zero, 0(s0)"))

    def test_maps_are_walked(self):
        """Each page is found by the tables that the maps of a program made, by Sv39 and by Sv48."""
        at_once(lambda seed: maps_are_walked(self.room, seed), range(MAPS))
