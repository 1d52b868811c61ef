"""Boards with other address spaces: Sv48 and short ASIDs, beside a model in plain Python."""
import os
import random
import re

import board_model

from .fixtures import EXAMPLES, Test, must, must_be, ran, read_bytes, script, stored
from .replays import printed, worked_rows

# ASIDLEN and WIDTH of other boards than the usual one.
SPACES = ("16 48", "9 39", "1 48", "0 39")


# A step, as rows have it.
STEP = re.compile(rf"cut|(c|\d+|0x[0-9a-f]+)\s+({'|'.join([*board_model.GUEST, 'poll', 'serve', 'advance', 'tick'])})(\s.*)?")


def schedules():
    """The rows that are schedules, of boards of six numbers."""
    return [it for it in worked_rows() if len(it[1].split()) == 7 and it[2] and all(map(STEP.fullmatch, it[2]))]


def must_agree(room, name, board_line, steps):
    """A replay prints what the model says."""
    text = "\n".join([board_line, *steps]) + "\n"
    found, wanted = ran(["replay", script(room, text.encode())]).stdout.decode().splitlines(), printed(text)
    if found != wanted:
        raise AssertionError(f"{name} with {board_line!r}: {next((pair for pair in zip(found, wanted) if pair[0] != pair[1]), (len(found), len(wanted)))}")


# Page tables of four levels in pages 1 to 4 of the RAM, and pages of data after them.
PAGES = 16
PTE_BITS = (0xCF, 0xC7, 0xC3, 0xCB, 0xE7, 0xD7, 0x47, 0x87, 0x01, 0x21, 0x41, 0x00, 0xC5, 0x4CF)


def random_entry(some):
    page = some.choice((0x80000 + some.randrange(PAGES), 0x80000 + some.randrange(1, 5), 0, 0x40000, 0x80200, some.getrandbits(44)))
    return page << 10 | some.choice(PTE_BITS) | (1 << some.randrange(54, 64) if some.random() < 0.02 else 0)


def random_address(some):
    """Mostly of few pages of each level, and near the ends of the addresses of each mode."""
    if some.random() < 0.15:
        near = some.choice((0, 1 << 38, 1 << 39, 1 << 47, 1 << 48, 1 << 63, (1 << 64) - (1 << 38), (1 << 64) - (1 << 39), (1 << 64) - (1 << 47)))
        return (near + 8 * some.randrange(-2, 3) + some.choice((0, 0x80004000))) % (1 << 64)
    parts = [some.choice((0, 0, 1, 2, 255, 256, 511)) for _ in range(4)]
    va = sum(part << 12 + 9 * level for level, part in enumerate(parts)) + 8 * some.randrange(4)
    width = some.choice((39, 48, 48))
    va %= 1 << width
    return va if va < 1 << width - 1 else va + (1 << 64) - (1 << width)


def random_step(some):
    """A step, or a fence by hart 2 with what ends it."""
    actor, kind = str(some.randrange(2)), some.randrange(16)
    if kind < 9:
        va = random_address(some)
        if some.random() < 0.85:
            return [[actor, some.choice(("load", "load", "fetch")), f"{va:#x}"]]
        name, at = some.choice((("store", 0), ("amoadd", 0), ("amoxor.w", 4), ("amomin", 0), ("store1", 5), ("store4", 4), ("amomaxu.w", 0)))
        return [[actor, name, f"{va + at:#x}", "7"]]
    if kind < 11:
        table, slot = some.randrange(1, 5), some.choice((0, 0, 1, 2, 255, 256, 511))
        return [["2", "store", f"{0x80000000 + 4096 * table + 8 * slot:#x}", f"{random_entry(some):#x}"]]
    if kind == 11:
        mode, asid = some.choice((8, 8, 9, 9, 9, 0, 10)), some.choice((0, 1, 2, 5, 9, 257, 0xFFFF))
        return [[actor, "satp", f"{mode << 60 | asid << 44 | 0x80000 + some.choice((1, 1, 1, 2)):#x}"]]
    if kind < 14:
        return [["2", "store", f"{0x80001000 + 4096 * level:#x}", f"{0x20000801 + 0x400 * level:#x}"] for level in range(3)]
    asid = some.choice(("0", "1", "5", "0x101", "0xffff", "0x10005"))
    if kind == 14:
        va = some.choice(("-", f"{random_address(some):#x}"))
        return [[actor, "sfence", va, some.choice(("-", asid))]]
    start, size = random_address(some), some.choice((0, 1, 2, 4096, 1 << 30, 1 << 39, (1 << 64) - 1))
    ask = ["2", "ecall", "0x52464e43", some.choice("12"), "3", "0", f"{start:#x}", f"{size:#x}", asid]
    return [ask, ["0", "serve"], ["1", "serve"], ["2", "poll"]]


ENTRIES = "0 advance|0 ecall 0x48534d 0 1 0x80000000|1 advance|0 ecall 0x48534d 0 2 0x80000000|2 advance"
# Leaves of each level of four, and of two harts with each mode.
TABLES = {0x80001008: 0xC7, 0x80001800: 0xC7, 0x80001FF8: 0xCF, 0x80002008: 0x200000C7, 0x80002800: 0x200000CF, 0x80003008: 0x200000CF}
TABLES |= {0x80004000: 0x200010C7, 0x80004008: 0x200014CF, 0x80004010: 0x200010E7, 0x800047F8: 0x200014C3}
SETUP = [["2", "store", f"{at:#x}", f"{entry:#x}"] for at, entry in TABLES.items()]
SETUP += [["0", "satp", "0x8000500000080001"], ["1", "satp", "0x9000500000080001"]]


class Modes(Test):
    def test_all_rows_on_other_boards(self):
        """Each row's schedule on each of the other boards: its answers and its table are the model's."""
        rows = schedules()
        must(f"only {len(rows)} schedules", len(rows) >= 200)
        for name, board_line, steps in rows:
            for spaces in SPACES:
                must_agree(self.room, name, f"{board_line} {spaces}", steps)

    def test_random_steps_by_both_modes(self):
        """Random accesses, tables, writes of satp and fences, on boards of each width."""
        for seed in range(60):
            some = random.Random(seed)
            for width in (39, 48):
                steps = ENTRIES.split("|") + [" ".join(step) for step in SETUP + [step for _ in range(300) for step in random_step(some)]]
                must_agree(self.room, f"seed {seed}", f"board 3 {PAGES} 1000 0 0x80000000 0x0 {some.choice((16, 16, 9, 2, 1, 0))} {width}", steps)

    def test_16_and_39_written_out(self):
        """An example of six numbers prints what is stored of it, with 16 and 39 written out, too."""
        for name in sorted(it for it in os.listdir(EXAMPLES) if it.endswith(".sched")):
            text = read_bytes(os.path.join(EXAMPLES, name))
            words = next(it for it in text.split(b"\n") if it.startswith(b"board ")).partition(b"#")[0].rstrip()
            if len(words.split()) != 7:
                continue
            found = ran(["replay", script(self.room, text.replace(words, words + b" 16 39", 1))])
            must_be(found, found.returncode, stored(f"{name}.out"), None)
