"""The reader of page tables, beside the board's walk; the instructions that are looked for; and what a report tells of a supervisor
that forgets a hart."""
import os
import random
import subprocess

from board_model import RAM, Board, Fault, allows
from elf import Names
from page_tables import found_in, instruction_of, mappings, size_of, translated
from records import read as read_record
from stale import LEFT_OUT, MAPPED_ANEW, Stale

from .fixtures import RECORDS, ROOT, Test, must, read, write

PAGES = 24
RIGHTS = {"load": 2, "store": 4, "fetch": 8}

# ---- tables that the board can read, too


def some_tables(any_, mode):
    """A board with random tables, and a satp. Leaves have A, and D or not; no U, and no upper bits."""
    board = Board(1, PAGES, 10, 0, RAM, 0, width=48)
    board.step(0, ("advance",))
    for at in any_.sample(range(PAGES * 512), 900):
        page = any_.choice([RAM // 4096 + any_.randrange(PAGES), any_.randrange(1 << 20), any_.randrange(1 << 8) << 18])
        bits = any_.choice([1, 1, 1, 0x21, 0x43 | any_.choice([0, 4, 8, 12]) | any_.choice([0, 0x80, 0x20]), any_.randrange(16), 0xCF])
        board.ram[RAM + 8 * at] = page << 10 | bits
    return board, mode << 60 | 7 << 44 | RAM // 4096


def is_read_alike(board, satp, va, maps):
    """The board's walk of an address, beside the mapping that the reader has of it."""
    found = next((maps[key] for key in maps if key[0] <= va < key[0] + size_of(key[1])), None)
    for kind, right in RIGHTS.items():
        try:
            entry = board.walk(satp, kind, va)
            there = (entry[0], entry[1], entry[3], entry[4]) if allows(entry, kind) else None
        except Fault:
            there = None
        may = found and found.pte & 0x40 and found.pte & right and (kind != "store" or found.pte & 0x80)
        here = (found.va, found.level, bool(found.pte & 0x20), found.pa) if may else None
        must(f"{va:#x}, {kind}: the board has {there}, and the reader {here}", here == there)
    return found is not None


# ---- supervisors

SATP, OTHER = 8 << 60 | 0x80001, 8 << 60 | 9 << 44 | 0x80001
HEAD = "record 2\n0 entry 0x80200000 0 0\n0 call 0x48534d 0 1 0x80200100 7 0 0 0\n0 ret 0 0\n1 entry 0x80200100 1 7\n"
TABLES = "m store 0x80001000 0x20000801\nm store 0x80002000 0x20000c01\n"


def page(at, to, bits=0xC7):
    return f"m store {0x80003000 + 8 * at:#x} {to << 10 | bits if to else 0:#x}\n"


def satp(value=SATP, harts=(0, 1)):
    return "".join(f"{hart} satp {value:#x}\n{hart} sfence - -\n" for hart in harts)


def fence(mask, start=0x1000, size=0x1000, fid=1, asid=0):
    return f"0 call 0x52464e43 {fid} {mask} 0 {start:#x} {size:#x} {asid} 0\n0 ret 0 0\n"


def svinval(hart=1, va="0x1000", asid="-", begins=True, ends=True):
    return f"{hart} winval\n" * begins + f"{hart} sinval {va} {asid}\n" + f"{hart} invalir\n" * ends


TICK = "0 call 0x54494d45 0 5 0 0 0 0 0\n0 ret 0 0\n"
BEGIN = HEAD + TABLES + page(1, 0x80100) + page(2, 0x80101) + satp()
# What each gives: how many findings of each kind.
SUPERVISORS = [
    ("a hart that is left out", BEGIN + page(1, 0x80200) + fence(1), {LEFT_OUT: 1}),
    ("nobody is left out", BEGIN + page(1, 0x80200) + fence(3), {}),
    ("a page that is unmapped", BEGIN + page(1, 0) + fence(1), {LEFT_OUT: 1}),
    ("a right that is taken", BEGIN + page(1, 0x80100, 0xC3) + fence(1), {LEFT_OUT: 1}),
    ("a right that is given", BEGIN + page(1, 0x80100, 0xCF) + fence(1), {}),
    ("what the processor writes", BEGIN + page(1, 0x80100, 0x47) + fence(1), {}),
    ("a new page", BEGIN + page(7, 0x80100) + fence(1, 0x7000), {}),
    ("another page's fence", BEGIN + page(1, 0x80200) + fence(1, 0x2000), {}),
    ("a fence of everything", BEGIN + page(1, 0x80200) + fence(1, 0, 0), {LEFT_OUT: 1}),
    ("a hart that fences by itself", BEGIN + page(1, 0x80200) + "1 sfence 0x1000 -\n" + fence(1), {}),
    ("a hart that fences another page", BEGIN + page(1, 0x80200) + "1 sfence 0x2000 -\n" + fence(1), {LEFT_OUT: 1}),
    ("a hart that never had these tables", HEAD + TABLES + page(1, 0x80100) + satp(harts=(0,)) + page(1, 0x80200) + fence(1), {}),
    ("a hart that has left these tables", BEGIN + "1 satp 0\n" + page(1, 0x80200) + fence(1), {LEFT_OUT: 1}),
    ("a hart that has left these tables, and fenced", BEGIN + "1 satp 0\n1 sfence - -\n" + page(1, 0x80200) + fence(1), {}),
    ("a fence before the change", BEGIN + fence(1) + page(1, 0x80200) + TICK, {}),
    ("a fence that failed", BEGIN + page(1, 0x80200) + fence(1).replace("ret 0", "ret -5"), {}),
    ("the right ASID, and a left out hart", HEAD + TABLES + page(1, 0x80100) + satp(OTHER) + page(1, 0x80200) + fence(1, fid=2, asid=9), {LEFT_OUT: 1}),
    ("the right ASID", HEAD + TABLES + page(1, 0x80100) + satp(OTHER) + page(1, 0x80200) + fence(3, fid=2, asid=9) + fence(1), {}),
    ("the right ASID, by its low 16 bits", HEAD + TABLES + page(1, 0x80100) + satp(OTHER) + page(1, 0x80200) + fence(3, fid=2, asid=0x7_0009) + fence(1), {}),
    ("another ASID", HEAD + TABLES + page(1, 0x80100) + satp(OTHER) + page(1, 0x80200) + fence(3, fid=2, asid=8) + fence(1), {LEFT_OUT: 1}),
    ("a global page, and a fence of an ASID", HEAD + TABLES + page(1, 0x80100, 0xE7) + satp(OTHER) + page(1, 0x80200) + fence(3, fid=2, asid=9) + fence(1), {LEFT_OUT: 1}),
    ("a superpage that is taken away", HEAD + TABLES + "m store 0x80002008 0x200000cf\n" + satp() + "m store 0x80002008 0x0\n" + fence(1, 0x210000), {LEFT_OUT: 1}),
    ("a table that is taken away", BEGIN + "m store 0x80002000 0x0\n" + fence(1, 0, 0x200000), {LEFT_OUT: 2}),
    ("a page that is mapped anew too early", BEGIN + page(1, 0) + TICK + page(1, 0x80200) + TICK, {MAPPED_ANEW: 2}),
    ("a page that is mapped anew behind a fence", BEGIN + page(1, 0) + "0 sfence - -\n" + fence(3) + page(1, 0x80200) + TICK, {}),
    ("a page that is mapped again as it was", BEGIN + page(1, 0) + TICK + page(1, 0x80100) + TICK, {}),
    ("a reset", BEGIN + page(1, 0x80200) + "m reset\n0 entry 0x80200000 0 0\n" + fence(1), {}),
    ("Svinval", BEGIN + page(1, 0x80200) + svinval() + fence(1), {}),
    ("Svinval of another page", BEGIN + page(1, 0x80200) + svinval(va="0x2000") + fence(1), {LEFT_OUT: 1}),
    ("Svinval of everything", BEGIN + page(1, 0x80200) + svinval(va="-") + fence(1), {}),
    ("Svinval without sfence.w.inval", BEGIN + page(1, 0x80200) + svinval(begins=False) + fence(1), {LEFT_OUT: 1}),
    ("Svinval without sfence.inval.ir", BEGIN + page(1, 0x80200) + svinval(ends=False) + fence(1), {LEFT_OUT: 1}),
    ("Svinval without sinval.vma", BEGIN + page(1, 0x80200) + "1 winval\n1 invalir\n" + fence(1), {LEFT_OUT: 1}),
    ("Svinval, and a change behind sfence.w.inval", BEGIN + "1 winval\n" + page(1, 0x80200) + svinval(begins=False) + fence(1), {LEFT_OUT: 1}),
    ("Svinval of another hart", BEGIN + page(1, 0x80200) + svinval(0) + fence(1), {LEFT_OUT: 1}),
    ("Svinval across a reset", BEGIN + "1 winval\n1 sinval - -\nm reset\n0 entry 0x80200000 0 0\n" + HEAD.partition("0 0\n")[2] + satp() + page(1, 0x80200) + "1 invalir\n" + fence(1), {LEFT_OUT: 1}),
    ("Svinval of an ASID, by its low 16 bits", HEAD + TABLES + page(1, 0x80100) + satp(OTHER) + page(1, 0x80200) + svinval(asid="0x70009") + fence(1), {}),
    ("a fence of an ASID, by its low 16 bits", HEAD + TABLES + page(1, 0x80100) + satp(OTHER) + page(1, 0x80200) + "1 sfence - 0x70009\n" + fence(1), {}),
    ("tables that a hart has left, and a remote fence of everything", BEGIN + "1 satp 0\n" + fence(3, 0, 0) + page(1, 0x80200) + fence(1), {}),
    ("tables that a hart has left, and a remote fence of another hart", BEGIN + "1 satp 0\n" + fence(1, 0, 0) + page(1, 0x80200) + fence(1), {LEFT_OUT: 1}),
    ("tables that a hart has left, and a remote fence of one page", BEGIN + "1 satp 0\n" + fence(3) + page(1, 0x80200) + fence(1), {LEFT_OUT: 1}),
    ("tables that a hart leaves while everything is fenced", BEGIN + fence(3, 0, 0).replace("0 ret", "1 satp 0\n0 ret") + page(1, 0x80200) + fence(1), {LEFT_OUT: 1}),
    ("tables that a hart has left, and a fence of their ASID", HEAD + TABLES + page(1, 0x80100) + satp(OTHER) + "1 satp 0\n1 sfence - 9\n" + page(1, 0x80200) + fence(1), {}),
    ("tables that a hart has left, and a fence of another ASID", HEAD + TABLES + page(1, 0x80100) + satp(OTHER) + "1 satp 0\n1 sfence - 8\n" + page(1, 0x80200) + fence(1), {LEFT_OUT: 1}),
    ("tables that change while no hart can have them", BEGIN + satp(0) + page(1, 0x80200) + satp() + page(7, 0x80100) + fence(1), {}),
    ("a firmware that is seen, and fences nobody", BEGIN + page(1, 0x80200) + "0 sfence 0x1000 - firmware=1\n" + fence(3), {LEFT_OUT: 1}),
    ("a firmware that is seen, and fences all", BEGIN + page(1, 0x80200) + fence(3).replace("0 ret", "1 sfence 0x1000 - firmware=1\n0 ret"), {}),
]  # fmt: skip
WORDS = [
    ("sfence", 0x12000073), ("sfence", 0x12B50073), ("sinval", 0x16B50073), ("fencei", 0x0000100F), ("satp", 0x18051073), ("satp", 0x18052073), ("satp", 0x18005073),
    ("satp", 0x180F77F3), ("sinval", 0x16000073), ("winval", 0x18000073), ("invalir", 0x18100073), (None, 0x18002573), (None, 0x18200073), (None, 0x18008073), (None, 0x00000073),
    (None, 0x10200073), (None, 0x0FF0000F), (None, 0x14051073), (None, 0x26B50073),
]  # fmt: skip


class PageTables(Test):
    programs = ()

    def test_page_tables__as_the_board_walks(self):
        """Of tables that both can read the reader maps what the board's walk finds, with the same rights, and nothing more."""
        found = {}
        for seed in range(60):
            any_ = random.Random(seed)
            mode = 8 + seed % 2
            board, value = some_tables(any_, mode)
            table_at = lambda at: [board.ram.get(at + 8 * it, 0) for it in range(512)] if board.in_ram(at) else None
            maps = mappings(value, table_at)
            for va, level in any_.sample(sorted(maps), min(40, len(maps))):
                there = va + any_.randrange(size_of(level)) & -8
                is_read_alike(board, value, there, maps)
                must(f"{there:#x} is at {translated(value, there, table_at)}, not as {maps[va, level]}", translated(value, there, table_at) == maps[va, level].pa + there - va)
                found[mode, level] = found.get((mode, level), 0) + 1
            for _ in range(40):
                va = any_.randrange(1 << 38 if mode == 8 else 1 << 47) & -8
                is_mapped = any(begin <= va < begin + size_of(level) for begin, level in maps)
                must(f"{va:#x} is mapped: {is_mapped}", is_mapped == (translated(value, va, table_at) is not None))
                found["none"] = found.get("none", 0) + (not is_read_alike(board, value, va, maps))
        must(f"too little was tried: {found}", len(found) >= 5 and min(found.values()) >= 5)

    def test_page_tables__what_the_board_hasn_t(self):
        """Sv57, user pages, bits of later extensions, and addresses of the upper half."""
        tables = {0x1000 * at: [0] * 512 for at in range(1, 6)}
        for at in range(1, 5):
            tables[0x1000 * at][511] = (at + 1) << 10 | 1
        tables[0x5000][510] = 1 << 61 | 0x77 << 10 | 0xD3
        found = mappings(10 << 60 | 1, tables.get)
        must(f"{[str(it) for it in found.values()]}", [str(it) for it in found.values()] == ["0xffffffffffffe000 -> 0x77000 ru"])
        must("bare", mappings(0, tables.get) == mappings(5 << 60 | 1, tables.get) == {})

    def test_page_tables__instructions(self):
        """Fences and writes of satp by their encodings, at each two bytes; and nothing that only looks alike."""
        for name, word in WORDS:
            must(f"{word:#x} is {instruction_of(word)}", instruction_of(word) == name)
        code = b"\x01\x00" + b"".join(word.to_bytes(4, "little") for _, word in WORDS) + b"\x73"
        places = [0x1002 + 4 * at for at, (name, _) in enumerate(WORDS) if name]
        must(f"{list(found_in(code, 0x1000))}", [it[0] for it in found_in(code, 0x1000)] == places)

    def test_page_tables__what_a_supervisor_does_wrong(self):
        """Each is told as often as it is there, and what is right isn't."""
        for what, text, wanted in SUPERVISORS:
            stale = Stale(read_record(text.encode()))
            kinds = [it.kind for it in stale.findings]
            must(f"{what}: {list(stale.lines())}", {kind: kinds.count(kind) for kind in set(kinds)} == wanted)

    def test_page_tables__costs(self):
        """Fences before which nothing had changed are counted, by their kinds."""
        for text, wanted in ((BEGIN, []), (BEGIN + "1 sfence - -\n", ["sfence"]), (BEGIN + fence(3), ["call"]), (BEGIN + page(1, 0x80200) + fence(3), []), (BEGIN + page(1, 0) + "1 sfence 0x1000 -\n", []), (BEGIN + svinval(), ["sinval"]), (BEGIN + page(1, 0) + svinval() + svinval(), ["sinval"])):
            found = [line.kind for line in Stale(read_record(text.encode())).needless]
            must(f"{found}, not {wanted}, of {text}", found == wanted)

    def test_page_tables__names_of_functions(self):
        """By lines of `nm`: the last function that begins at or before an address; data and what lies behind the last symbol have none."""
        names = Names(b"ffffffff80000000 T start\n80000100 t $x\n80000100 r table\n80000100 t sbi\nU none\n80000180 W weak\n80000200 D data\n80000300 T last\n").function
        found = [names(at) for at in (0x800000FF, 0x80000100, 0x8000017F, 0x80000180, 0x800001FF, 0x80000200, 0x80000300, 0xFFFFFFFF7FFFFFFF, 0xFFFFFFFF80000000)]
        must(f"{found}", found == [None, "sbi", "sbi", "weak", "weak", None, "last", "last", None])
        neither = subprocess.run([os.path.join(ROOT, "tools/to-trace"), "--report", "--symbols", write(os.path.join(self.room, "none"), "x"), os.path.join(RECORDS, "kernel.record")], capture_output=True, timeout=60)
        must(f"{neither}", neither.returncode == 1 and b"neither an ELF file nor lines of nm" in neither.stderr)

    def test_page_tables__the_stored_record(self):
        """The kernel of the examples forgets two harts, once: the report names them, the fence, and its functions by the lines of `nm`; and
        by its status."""
        path = os.path.join(RECORDS, "kernel-tables.record")
        for text, status in ((read(path), 6), (read(path).replace(" 0x1 0x3 0x0 0x1000 0x1000 ", " 0x1 0xf 0x0 0x1000 0x1000 ", 1), 6), (without_tables(read(path)), 0)):
            made = write(os.path.join(self.room, "kernel-tables.record"), text)
            found = subprocess.run([os.path.join(ROOT, "tools/to-trace"), "--report", "--symbols", path.replace(".record", ".nm"), made], stdin=subprocess.DEVNULL, capture_output=True, text=True, timeout=60)
            must(f"status {found.returncode}, and it said {found.stderr}", found.returncode == status)
            if text == read(path):
                must(f"{found.stdout}", found.stdout == read(path.replace(".record", ".report")))
        told = [it for it in read(path.replace(".record", ".report")).splitlines() if LEFT_OUT in it]
        must(f"{told}", len(told) == 2 and all(" in sbi from boot_main, " in it for it in told) and "hart 2 may hold 0x1000" in told[0] and "hart 3 may hold 0x1000" in told[1])


def without_tables(text):
    return "".join(line + "\n" for line in text.splitlines() if line.split()[1:2] not in (["store"], ["sfence"], ["fencei"], ["satp"]))
