"""Programs of blocks, written anew in assembly: all of their orders have the same answers, and as many states and steps; after a reset
assembly may have more."""
import glob
import os
import re

from board_model import SRST

from .fixtures import EXAMPLES, TESTER, Test, at_once, must, program_of, read, told_of, write
from .random_programs import Maker
from .test_assembly import explored, points

EXPLORER = program_of("asm_orders")
# Where the code of blocks stands, within reach of a jump from the RAM, and not in it; and how far apart blocks must be.
BODIES, ROOM = 0x80080000, 4
# Words of conditions that ask of what isn't told of guests in assembly.
UNTOLD = re.compile(r"\b(?:missed|unfirm|unlenient|firm|lenient)\b")
STORES = {"store": "sd", "store4": "sw", "store2": "sh", "store1": "sb"}
# What is asked of each program beside its own conditions, and of those that fetch nothing.
ASKED = ("maybe end quiet", "maybe end quiet stuck", "can end quiet", "can end stuck", "maybe end off")
OF_MARKS = ("steady", "never stale", "some _ load -> stale", "never _ store -> unsteady", "never _ load -> stale after _ load -> unsteady", "each _ load -> unsteady", "maybe steady", "maybe never _ load -> stale")
ACCESSES = ("load", "store", "fetch", "store4", "store2", "store1", *(f"amo{it}{width}" for width in ("", ".w") for it in ("swap", "add", "and", "or", "xor", "min", "max", "minu", "maxu")), "amocas")
NO_FAULT = [f"maybe never _ {it} -> fault" for it in ACCESSES]
# How many random programs are tried, and how many of their states at most.
SEEDS, MOST = 150, 20_000


def values(*pairs):
    return "; ".join(f"li {register}, {value:#x}" for register, value in pairs)


def numbered(word):
    return int(word, 16 if word.lower().startswith("0x") else 10)


def done(words):
    """An operation as instructions. What they leave in registers is 0, so that a state has nothing more than that of a block."""
    name, numbers = words[0], [None if it == "-" else numbered(it) for it in words[1:]]
    if name == "load":
        return f"{values(('t0', numbers[0]))}; ld zero, 0(t0); li t0, 0"
    if name == "fetch":
        return f"{values(('t0', numbers[0]))}; fetch zero, 0(t0); li t0, 0"
    if name in STORES:
        return f"{values(('t0', numbers[0]), ('t1', numbers[1]))}; {STORES[name]} t1, 0(t0); li t0, 0; li t1, 0"
    if name == "amocas":
        return f"{values(('t0', numbers[0]), ('t2', numbers[1]), ('t1', numbers[2]))}; amocas.d t2, t1, (t0); li t0, 0; li t1, 0; li t2, 0"
    if name.startswith("amo"):
        return f"{values(('t0', numbers[0]), ('t1', numbers[1]))}; {name if name.endswith('.w') else name + '.d'} zero, t1, (t0); li t0, 0; li t1, 0"
    if name in ("satp", "sie"):
        return f"{values(('t0', numbers[0]))}; csrw {name}, t0; li t0, 0"
    if name == "sstatus":
        return f"{values(('t0', 2 * numbers[0]))}; csrw sstatus, t0; li t0, 0"
    if name == "sfence":
        given = [(register, it) for register, it in zip(("t0", "t1"), numbers) if it is not None]
        named = [register if it is not None else "zero" for register, it in zip(("t0", "t1"), numbers)]
        return "; ".join([*([values(*given)] if given else []), f"sfence.vma {named[0]}, {named[1]}", *(f"li {register}, 0" for register, _ in given)])
    if name == "ecall":
        registers = ("a7", "a6", "a0", "a1", "a2", "a3", "a4", "a5")
        numbers += [0] * (len(registers) - len(numbers))
        return f"{values(*zip(registers, numbers))}; ecall; {values(*((it, 0) for it in registers))}"
    if name == "sip":
        return "csrr t0, sip; li t0, 0"
    if name == "clearssip":
        return "li t0, 2; csrc sip, t0; li t0, 0"
    return {"fencei": "fence.i", "wfi": "wfi"}[name]


def blocks_of(lines):
    """The board's words, each block with its address and its operations, and the clock's ticks; None: blocks stand too close to each other."""
    board, blocks, clock = None, [], (None, [])
    for words in filter(None, (it.partition("#")[0].split() for it in lines)):
        if words[0] == "board":
            board = words[1:]
        elif words[0] == "clock":
            block = clock
        elif words[0] == "at":
            block = (numbered(words[1]), [])
            blocks.append(block)
        else:
            block[1].append(words)
    blocks.sort()
    is_apart = all(b[0] - a[0] >= ROOM for a, b in zip(blocks, blocks[1:])) and all(it[0] % 2 == 0 for it in blocks)
    return (board, blocks, [numbered(it[1]) for it in clock[1]]) if is_apart else None


def in_assembly(board, blocks, ticks, conditions):
    """The program. A fault goes on behind its instruction."""
    out = [f"#! {it}" for it in conditions]
    out.append("        .board  " + ", ".join(str(numbered(it)) for it in board))
    if ticks:
        out.append("        .tick   " + ", ".join(f"{it:#x}" for it in ticks))
    for at, _ in blocks:
        out += [f"        .org    {at:#x}", f"        j       body_{at:x}"]
    out += [f"        .org    {BODIES:#x}", "handler: csrr t0, sepc; addi t0, t0, 4; csrw sepc, zero; csrw scause, zero; csrw stval, zero; jr t0"]
    for at, operations in blocks:
        out += [f"body_{at:x}: la t0, handler; csrw stvec, t0; li t0, 0; li a0, 0; li a1, 0", *(f"        {done(it)}" for it in operations), "        ebreak"]
    return "\n".join(out) + "\n"


def told_by(lines):
    """Of each point whether it is ok, and how many states and steps there are; None: not all were seen."""
    counts = [re.fullmatch(r"# states: (\d+), steps: (\d+)", it) for it in lines]
    return [it.startswith("ok ") for it in points(lines)], next(((int(it[1]), int(it[2])) for it in counts if it), None)


def is_alike(room, name, lines, conditions):
    """Both ways of writing it have the same answers. Returns whether it could be tried; one of many states is not."""
    found = blocks_of(lines)
    if found is None:
        return False
    board, blocks, ticks = found
    conditions = [*conditions, *ASKED, *(() if any(it.startswith("fetch") for it in lines) else OF_MARKS), *NO_FAULT]
    write(os.path.join(room, f"{name}.program"), "".join(f"#! {it}\n" for it in conditions) + "\n".join(lines) + "\n")
    write(os.path.join(room, f"{name}.s"), in_assembly(board, blocks, ticks, conditions))
    _, said = told_of(room, "--no-outcomes", "--states", str(MOST), f"{name}.program", name="sbiboard explore")
    other, _ = explored(room, "--states", str(2 * MOST), f"{name}.s")
    by_blocks, states = told_by(said)
    by_assembly, more = told_by(other)
    if states is None:
        return False
    must(f"{name}: {[(it, a, b) for it, a, b in zip(conditions, by_blocks, by_assembly) if a != b]}", len(by_blocks) == len(conditions) and by_blocks == by_assembly)
    # (of a block nothing tells a guest that is through from one that never began, whose harts a reset makes alike)
    resets = any(words[0] == "ecall" and numbered(words[1]) == SRST for _, operations in blocks for words in operations)
    must(f"{name}: {states}, {more}", states == more or resets and more is not None and states[0] < more[0] and states[1] <= more[1])
    return True


class AssemblyOfBlocks(Test):
    programs = (EXPLORER, TESTER)

    def test_examples_of_blocks_in_assembly(self):
        """The conditions of each example, but for those that ask of what isn't told of guests in assembly."""
        paths = [it for folder in ("", "orders", "tlb") for it in sorted(glob.glob(os.path.join(EXAMPLES, folder, "*.program")))]

        def is_tried(path):
            lines = read(path).splitlines()
            conditions = [it[2:].partition("#")[0].strip() for it in lines if it.startswith("#!")]
            name = os.path.relpath(path, EXAMPLES).replace(os.sep, "-").removesuffix(".program")
            return is_alike(self.room, name, [it for it in lines if not it.startswith("#")], [it for it in conditions if not UNTOLD.search(it)])

        tried = at_once(is_tried, paths)
        must(f"{sum(tried)} of {len(paths)} are tried", sum(tried) >= 45)

    def test_random_blocks_in_assembly(self):
        def is_tried(seed):
            lines = [re.sub(r"^sstatus .*", "sstatus 0", it) for it in Maker(seed).lines()]
            return is_alike(self.room, f"random-{seed}", lines, [])

        tried = at_once(is_tried, range(SEEDS))
        must(f"{sum(tried)} of {SEEDS} are tried", sum(tried) >= 110)
