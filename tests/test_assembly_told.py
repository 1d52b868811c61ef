"""What is told of programs in assembly, word by word: each fault, the board's numbers, words of conditions beside symbols, whole points,
how orders end, where stuck harts stand; and the command line."""
import os
import re
import subprocess

from .fixtures import ROOT, TOO_LONG, Test, must, must_have, read, write
from .test_assembly import EXPLORER, GUESTS, HEAD, LOADS, explored, of_text, points

# A board, and where its program begins.
ONE = "        .board 1, 4, 99, 0, 0x80000000, 0\n        .org 0x80000000\n"
# What isn't assembled: a line behind these two, the column of its fault, and what is said of it.
STATEMENTS = (
    ("li t0,", 15, "a value is missing", ""), ("li t0, 0x10000000000000000", 16, "this is no number below 2^64", "0x10000000000000000"), ("li t0, 09", 16, "this is no number below 2^64", "09"),
    ("la t0, none", 16, "nothing defines this symbol", "none"), ("lui t0, %upper(4)", 17, "%hi and %lo are the functions of values", "%upper(4)"), ("li t0, (1", 18, "a parenthesis isn't closed", ""),
    ("li t0, " + "-" * 300 + "1", 269, "too many parentheses and signs stand within one another", None), ("li t0, 1 / 0", 18, "a division by 0", "/ 0"), ("li t0, 1 2", 18, "something stands behind an operand", "2"),
    ("\"a\"", 9, "this is no label, directive or instruction", "\"a\""), ("moo t0", 9, "no instruction has this mnemonic", "moo t0"), ("mret", 9, "guests don't obey this instruction", "mret"),
    ("csrrc t0, sip, t1", 9, "sip is cleared by csrc without a result: write csrr, then csrc", "csrrc t0, sip, t1"),
    ("add t0, t1", 9, "these aren't the operands that it takes", "add t0, t1"), ("addi t0, t0, 2048", 9, "a value doesn't fit", "addi t0, t0, 2048"), ("beq t0, t1, 0x80000001", 9, "the target is too far away, or at an odd address", "beq t0, t1, 0x80000001"),
    (".moo 1", 9, "no directive is called so", ".moo 1"), ("a: nop\na: nop", 1, "the symbol is defined twice", "a: nop"), (".org 0x7fffffff", 9, ".org goes back, or the program is too large", ".org 0x7fffffff"),
    ("la t0, .@plt", 17, "something stands behind an operand", "@plt"), ("beqz t0, .@plt", 19, "something stands behind an operand", "@plt"), ("jalr .@plt", 15, "something stands behind an operand", "@plt"), ("call @plt", 18, "a value is missing", ""),
    ("addi t0, t0, %pcrel_lo(.)", 22, "no auipc with %pcrel_hi stands at this label", "%pcrel_lo(.)"), ("auipc t0, 1\n        ld t0, %pcrel_lo(. - 4)(t0)", 16, "no auipc with %pcrel_hi stands at this label", "%pcrel_lo(. - 4)(t0)"),
    ("auipc t0, %pcrel_hi(0x100000000)", 19, "the target is too far away, or at an odd address", "%pcrel_hi(0x100000000)"), ("auipc t0, %pcrel_hi(.", 30, "a parenthesis isn't closed", ""), ("auipc t0, %pcrel_hi .", 19, "%hi and %lo are the functions of values", "%pcrel_hi ."),
    ("li t0, %pcrel_lo(.)", 16, "%hi and %lo are the functions of values", "%pcrel_lo(.)"), ("ld t0, %pcrel_lo(.)", 16, "%hi and %lo are the functions of values", "%pcrel_lo(.)"), ("lui t0, %pcrel_hi(.)", 17, "%hi and %lo are the functions of values", "%pcrel_hi(.)"),
    ("amoadd.d t0, t0, %pcrel_lo(.)(t0)", 26, "%hi and %lo are the functions of values", "%pcrel_lo(.)(t0)"), (".dword %pcrel_lo(.)", 16, "%hi and %lo are the functions of values", "%pcrel_lo(.)"),
    (".tick 1, none", 18, "nothing defines this symbol", "none"), (".tick 1,", 17, "a value is missing", ""),
    (".map 0x80001000, 0x1000, 0x80002000, w", 9, "a leaf has r, or x without w, and of r, w, x, g, a and d each at most once", ".map 0x80001000, 0x1000, 0x80002000, w"), (".map 0x80001000, 0x1000, 0x80002000, wx", 9, "a leaf has r, or x without w, and of r, w, x, g, a and d each at most once", ".map 0x80001000, 0x1000, 0x80002000, wx"), (".map 0x80001000, 0x1000, 0x80002000, adg", 9, "a leaf has r, or x without w, and of r, w, x, g, a and d each at most once", ".map 0x80001000, 0x1000, 0x80002000, adg"),
    (".map 0x80001000, 0x1000, 0x80002000, rr", 9, "a leaf has r, or x without w, and of r, w, x, g, a and d each at most once", ".map 0x80001000, 0x1000, 0x80002000, rr"), (".map 0x80001000, 0x1000, 0x80002000, ru", 9, "a leaf has r, or x without w, and of r, w, x, g, a and d each at most once", ".map 0x80001000, 0x1000, 0x80002000, ru"), (".map 0x80001000, 0x1000, 0x80002000, rwxadgr", 9, "a leaf has r, or x without w, and of r, w, x, g, a and d each at most once", ".map 0x80001000, 0x1000, 0x80002000, rwxadgr"),
    (".map 0x80001008, 0x1000, 0x80002000, r", 9, "a value doesn't fit", ".map 0x80001008, 0x1000, 0x80002000, r"), (".map 0x80001000, 0x1008, 0x80002000, r", 9, "a value doesn't fit", ".map 0x80001000, 0x1008, 0x80002000, r"), (".map 0x80001000, 0x1000, 0x80002001, r", 9, "a value doesn't fit", ".map 0x80001000, 0x1000, 0x80002001, r"),
    (".map 0x80001000, 0x4000000000, 0x80002000, r", 9, "a value doesn't fit", ".map 0x80001000, 0x4000000000, 0x80002000, r"), (".map48 0x80001000, 0x800000000000, 0x80002000, r", 9, "a value doesn't fit", ".map48 0x80001000, 0x800000000000, 0x80002000, r"), (".map 0x80001000, 0x1000, 0x100000000000000, r", 9, "a value doesn't fit", ".map 0x80001000, 0x1000, 0x100000000000000, r"),
    (".map 0x80001000, 0x1000, 0x80002000", 9, "these aren't the operands that it takes", ".map 0x80001000, 0x1000, 0x80002000"), (".map 0x80001000, 0x1000, 0x80002000, r, leaf, 5", 9, "these aren't the operands that it takes", ".map 0x80001000, 0x1000, 0x80002000, r, leaf, 5"), (".map 0x80001000, 0x1000, 0x80002000, 5 + 1", 9, "these aren't the operands that it takes", ".map 0x80001000, 0x1000, 0x80002000, 5 + 1"),
    (".map none, 0x1000, 0x80002000, r", 14, "nothing defines this symbol", "none, 0x1000, 0x80002000, r"), (".map 0x80001000, 0x1000, none, r", 34, "nothing defines this symbol", "none, r"), (".map 0x80001000, 0x1000, 0x80002000, r\n        .map 0x80001000, 0x1000, 0x80002000, rw", 9, "the page is mapped twice, or its root by another mode", ".map 0x80001000, 0x1000, 0x80002000, rw"),
    (".map 0x80001000, 0x1000, 0x80002000, r\n        .map48 0x80001000, 0x2000, 0x80002000, r", 9, "the page is mapped twice, or its root by another mode", None), ("a: nop\n        .map 0x80001000, 0x1000, 0x80002000, r, a", 49, "the symbol is defined twice", "a"),
    (".section .moo", 18, ".text, .rodata, .data and .bss are the sections", ".moo"), ("`", 9, "no token begins so", "`"), ("\"a", 9, "a string isn't closed on its line", "\"a"), ("/* a", 9, "a comment isn't closed", "/* a"),
)  # fmt: skip
# Numbers of `.board` that are no board.
BOARDS = ("2, 4, 99, 1, 0x80000000", "2, 4, 99, 1, 0x80000000, 0, 16", "2, 4, 99, 1, 0x80000000, 0, 16, 39, 1", "2, 4, 99, 1, 0x80000000, 0\n        .board 2, 4, 99, 1, 0x80000000, 0")
NO_BOARD = ": it needs one board: .board HARTS, PAGES, LIMIT, BOOTHART, BOOTADDR, BOOTOPAQUE"
# The words of conditions, in conditions that have them.
WORDS = ("_ after before c can each end firm lenient maybe missed never off quiet some stale steady stuck unfirm unlenient unsteady load store ecall advance value done ret entry").split()
WORDED = (
    ("end off quiet stuck", "holds in all orders"), ("can end quiet", "holds in all orders"), ("maybe never _ load _ -> value 9", "holds in all orders"), ("never 1 load after 0 store -> done", "fails"),
    ("before 0 ecall, 1 load", "holds in all orders"), ("each 0 ecall -> ret 0", "holds in all orders"), ("some 1 advance -> entry", "holds"), ("never c load", "no load is the clock's"),
    *((asked, "not judged: only records tell what is missed, unfirm or unlenient: use test") for asked in ("firm", "lenient", "never missed", "never 1 load -> unfirm", "never 1 load -> unlenient")),
    *((asked, "vacuous: no step is '.*'; such a step uses no TLB entry, (and takes no page fault|takes no page fault, and fetches no word)") for asked in ("steady", "never 1 load -> stale", "never 1 load -> unsteady")),
)  # fmt: skip
# Conditions that name the symbol `page` before their fault: its column, what is wrong, and the word.
COLUMNS = (
    ("never 1 load page -> valeu 1", 25, "unknown word: 'valeu'"), ("never 1 load page -> value 1 after 0 stroe page", 41, "unknown word: 'stroe'"), ("before 1 load page, 0 stroe page", 26, "unknown word: 'stroe'"),
    ("before 1 load page", 22, "no comma"), ("before 1 load page,", 23, "too few or too many words"), ("never 1 load page ->", 24, "too few or too many words"), ("some 1 load page -> value page page", 35, "too few or too many words: 'page'"),
    ("before 1 load page  ,  0 store pgae", 35, "not a number: 'pgae'"), ("never 1 load page -> value page after", 41, "too few or too many words"), ("nevr 1 load page", 4, "unknown condition: 'nevr'"),
    ("before 1 load page -> , 0 store", 26, "too few or too many words: ','"), ("before 1 store page, , 0 store", 25, "not a number: ','"),
)  # fmt: skip
# What hart 0 does, the operation that a condition asks of it with another number, and what it is told to do instead.
INSTEAD = (
    ("li s0, 0x80002000\n ld t0, 0(s0)", "load 0x1 -> value 1", "loads 0x80002000"), ("li s0, 0x80002000\n fetch t0, 8(s0)", "fetch 0x1 -> value 1", "fetches 0x80002008"),
    ("li s0, 0x80002000\n ld t0, 0(s0)\n fetch t0, 0(s0)", "load 0x1 -> value 1", "loads 0x80002000"), ("li s0, 0x80002000\n ld t0, 0(s0)\n fetch t0, 0(s0)", "fetch 0x1 -> value 1", "fetches 0x80002000"),
    ("li s0, 0x80002000\n ld t0, 0(s0)\n ld t0, 8(s0)", "load 0x1 -> value 1", "loads 0x80002000, 0x80002008"),
)  # fmt: skip
# Programs whose hart 0 stands at a wfi that nothing ends, and what is told of it.
SLEEPERS = (
    ("li t0, 2\n csrw sie, t0\n wfi", "STARTED, SSIP is 0, STIP is 0, SSIE is 1, STIE is 0"),
    ("li a7, 0x735049\n li a6, 0\n li a0, 1\n li a1, 0\n ecall\n li t0, 0x20\n csrw sie, t0\n wfi", "STARTED, SSIP is 1, STIP is 0, SSIE is 0, STIE is 1"),
    ("li a7, 0x54494d45\n li a6, 0\n li a0, 0\n ecall\n wfi", "STARTED, SSIP is 0, STIP is 1, SSIE is 0, STIE is 0"),
    ("li a7, 0x48534d\n li a6, 3\n li a0, 0\n ecall\n ebreak", "SUSPENDED, SSIP is 0, STIP is 0, SSIE is 0, STIE is 0"),
)  # fmt: skip


# Programs with one instruction that an unknown value decides; its line behind the two of the board, and its text.
UNKNOWN = (
    ("beqz t0, 1f\n1: ebreak", 3, "beqz t0, 1f"), ("li t1, 1\nbgeu t1, t0, 1f\n1: ebreak", 4, "bgeu t1, t0, 1f"), ("jr t0", 3, "jr t0"), ("ld t1, 8(t0)", 3, "ld t1, 8(t0)"), ("lb t1, 0(t0)", 3, "lb t1, 0(t0)"),
    ("li t1, 1\nsd t1, 0(t0)", 4, "sd t1, 0(t0)"), ("sw x0, 0(t0)", 3, "sw x0, 0(t0)"), ("li t1, 1\namoadd.d t1, t1, (t0)", 4, "amoadd.d t1, t1, (t0)"), ("li t1, 0x80002000\namocas.d t0, x0, (t1)\nebreak", 4, "amocas.d t0, x0, (t1)"),
    ("fetch t1, 0(t0)", 3, "fetch t1, 0(t0)"), ("csrw satp, t0\nebreak", 3, "csrw satp, t0"), ("csrs sie, t0\nebreak", 3, "csrs sie, t0"), ("csrw stvec, t0\nebreak", 3, "csrw stvec, t0"), ("csrc sip, t0\nebreak", 3, "csrc sip, t0"),
    ("sfence.vma t0, x0\nebreak", 3, "sfence.vma t0, x0"), ("sfence.vma x0, t0\nebreak", 3, "sfence.vma x0, t0"), ("li a6, 0\necall\nebreak", 4, "ecall"), ("li a7, 0x10\necall\nebreak", 4, "ecall"),
    ("add t1, t0, a0\nsrli t1, t1, 1\nbnez t1, 1f\n1: ebreak", 5, "bnez t1, 1f"), ("mv s0, t0\nj 1f\n1: beq x0, s0, 1f\n1: ebreak", 5, "1: beq x0, s0, 1f"),
)  # fmt: skip
# Programs without one: a value that is moved, computed with or stored decides nothing, and one that is loaded is known.
KNOWN = (
    "mv t1, t0\nadd t2, t1, t0\nebreak", "li s0, 0x80002000\nsd t0, 0(s0)\nld t1, 0(s0)\nbeqz t1, 1f\n1: ebreak", "li s0, 0x80002000\namoadd.d t0, t1, (s0)\nbeqz t0, 1f\n1: ebreak", "li s0, 0x80002000\nsh t0, 0(s0)\nebreak",
    "beqz a0, 1f\n1: beqz a1, 1f\n1: ebreak", "csrr t0, sie\nbeqz t0, 1f\n1: csrw sie, x0\ncsrwi sstatus, 0\nebreak", "sfence.vma\nsfence.vma x0, x0\nebreak", "li a7, 0x10\nli a6, 0\necall\nbeqz a0, 1f\n1: beqz a1, 1f\n1: ebreak", "jal t0, 1f\n1: addi t0, t0, 4\njr t0\nebreak",
)  # fmt: skip
# Calls by extension and function, and how many arguments each has (SBI 4 to 10); of 1s they return, or end their hart.
CALLS = (
    *((0x10, it, it == 3) for it in range(7)), (0x54494D45, 0, 1), (0x735049, 0, 2), (0x52464E43, 0, 2), (0x52464E43, 1, 4), (0x52464E43, 2, 5), (0x48534D, 0, 3), (0x48534D, 1, 0), (0x48534D, 2, 1), (0x48534D, 3, 3), (0x53525354, 0, 2),
    (0x10, 7, 0), (0x1234, 0, 0),
)  # fmt: skip


def unknown_of(lines):
    """The comments on instructions that an unknown value decides."""
    return [it for it in lines if it.startswith("# in some order an unknown value ")]


def lines_of(code):
    return "".join(f"        {it.strip()}\n" for it in code.split("\n"))


class AssemblyTold(Test):
    """What is told of programs in assembly, word by word."""

    programs = (EXPLORER,)

    def test_each_fault_of_a_statement(self):
        """Each has its own words, its line and its column, and what stands there."""
        for statement, column, wrong, rest in STATEMENTS:
            lines, status = of_text(self.room, f"{ONE}        {statement}\n")
            found = re.fullmatch(r"not ok 1 - a\.s:(\d+):(\d+): (.*): '(.*)'", points(lines)[0])
            must(f"{statement}: {status}, {lines}", status == 1 and len(points(lines)) == 1 and found)
            line = 2 + len(statement.split("\n"))
            must(f"{statement}: {lines}", (int(found[1]), int(found[2]), found[3]) == (line, column, wrong))
            must(f"{statement}: {lines}", rest is None or found[4] == rest)
        lines, status = of_text(self.room, f"{ONE}        .text\na: .space a / 0x80000000\n")
        must(f"{status}, {lines}", status == 1 and points(lines) == ["not ok 1 - a.s:5:1: the size of a section depends on where it stands: ''"])

    def test_numbers_of_the_board(self):
        """Six numbers are a board, or eight, each in its place; no others are."""
        for numbers in BOARDS:
            lines, status = of_text(self.room, f"        .board {numbers}\n        .org 0x80000000\n        ebreak\n")
            must(f"{numbers}: {status}, {lines}", status == 1 and points(lines) == [f"not ok 1 - a.s{NO_BOARD}"])
        for numbers, head in (("2, 4, 99, 1, 0x80000000, 7", "board 2 4 99 1 0x80000000 0x7"), ("3, 5, 98, 2, 0x80000008, 6, 5, 48", "board 3 5 98 2 0x80000008 0x6 5 48")):
            boot = numbers.split(", ")[3]
            lines, status = of_text(self.room, f"#! never {boot} advance\n        .board {numbers}\n        .org 0x80000000\n        nop\n        nop\n        ebreak\n")
            must(f"{numbers}: {status}, {lines}", status == 1 and read(os.path.join(self.room, "a.s.1.failed")).splitlines()[0] == head)

    def test_symbols_and_words_of_conditions(self):
        """A word of conditions is that word, though a symbol is called so; blanks of each kind stand between words."""
        symbols = "".join(f"        .equ {it}, 0x77\n" for it in WORDS)
        for asked, said in WORDED:
            lines, _ = of_text(self.room, f"#! {asked}\n{symbols}{LOADS}")
            must(f"{asked}: {lines}", re.fullmatch(f"(not )?ok 1 - a\\.s: line 1: {re.escape(asked)}: {said}", points(lines)[0]))
        lines, status = of_text(self.room, f"#!\tsome\t1 load\tpage -> value\tone\r\n        .equ page, 0x80002000\n        .equ one, 1\n{LOADS}")
        must(f"{status}, {lines}", status == 0 and len(points(lines)) == 1)
        # (a local label's name is a number, which stays one)
        lines, status = of_text(self.room, f"#! some 1 load 0x80002000 -> value 1\n{LOADS.replace('other:', '1: nop' + chr(10) + 'other:')}")
        must(f"{status}, {lines}", status == 0)

    def test_columns_of_conditions_with_symbols(self):
        """A fault is told at its word in the text, though a symbol before it is longer or shorter than its number."""
        for symbol in ("page", "p", "a_page_that_moves"):
            for asked, column, wrong in COLUMNS:
                front = asked[: column - 4]
                at = column + front.count("page") * (len(symbol) - 4)
                lines, status = of_text(self.room, f"#! {asked.replace('page', symbol)}\n        .equ {symbol}, 0x80002000\n{LOADS}")
                must(f"{asked}: {status}, {lines}", status == 1 and points(lines) == [f"not ok 1 - a.s:1:{at}: {wrong.replace('page', symbol)}"])

    def test_whole_points_of_guests(self):
        """Of the page's first example all lines are as they stand there, and of its twin: no line more."""
        page = read(os.path.join(ROOT, "docs/ASSEMBLY.md")).partition("finds the order that breaks the first one:\n\n```\n")[2].partition("```")[0]
        found = subprocess.run(["sbiboard explore", "--failed", self.room, os.path.join(GUESTS, "spin-flag.s")], executable=EXPLORER, cwd=self.room, capture_output=True, text=True, timeout=60)
        told = found.stdout.replace(os.path.join(GUESTS, ""), "examples/guests/").replace(f'"{self.room}/', '"./')
        front, back = page.split("\n..\n")
        must(f"{told}, and not {page}", found.returncode == 1 and told.startswith(f"TAP version 13\n{front}\n") and back in told)

    def test_orders_of_guests_that_break_no_end(self):
        """Where harts stand is told of ends alone; the number of steps, and the place of the last one, of each order."""
        for asked, is_told in (("never 1 load", False), ("each 1 load -> value 1", False), ("before 1 load, 0 store", False), ("end off", True), ("can end off", True), (None, True)):
            text = LOADS if asked else LOADS.replace("        ebreak\nother", "        wfi\nother")
            lines, status = of_text(self.room, (f"#! {asked}\n" if asked else "") + text)
            steps = [it for it in lines if re.match(r"    \d+ [01] ", it)]
            must(f"{asked}: {status}, {lines}", status == 1 and f"  length: {len(steps)}" in lines and f"  place: {len(steps) - 1}" in lines)
            stuck = any(it.startswith("  stuck:") for it in lines)
            must(f"{asked}: {lines}", stuck == (asked is None) if is_told else not stuck)

    def test_names_of_files_in_points(self):
        """A name's quotes, backslashes and other letters are told so that each line stays one; records stand in their folder."""
        os.mkdir(os.path.join(self.room, "kept"))
        name = 'a"b\\c\u00e4.s'
        write(os.path.join(self.room, name), f"#! never 0 ecall\n{LOADS}")
        lines, status = explored(self.room, "--failed", "kept", name)
        must(f"{status}, {lines}", status == 1 and '  record: "kept/a\\"b\\\\c\u00e4.s.1.failed"' in lines and os.path.isfile(os.path.join(self.room, "kept", f"{name}.1.failed")))
        must(f"{lines}", any(it.endswith('    # a"b\\c?.s:9: ecall') for it in lines))
        for many in (1, 2, 3):
            os.mkdir(os.path.join(self.room, str(many)))
            write(os.path.join(self.room, str(many), "a.s"), f"#! never 0 ecall\n{LOADS}")
        explored(self.room, "1/a.s", "2/a.s", "3/a.s")
        must(f"{os.listdir(self.room)}", {"a.s.1.failed", "a.s~2.1.failed", "a.s~3.1.failed"} <= {*os.listdir(self.room)})

    def test_how_orders_of_guests_end(self):
        """Each kind of end is counted by itself."""
        off = "li a7, 0x53525354\n li a6, 0\n li a0, 0\n li a1, 0\n ecall"
        for code, said in ((off, "1, off 1"), ("ebreak", "1, quiet 1"), ("wfi", "1, stuck 1")):
            lines, _ = of_text(self.room, f"#! maybe end quiet off stuck\n{ONE}{lines_of(code)}")
            must(f"{code}: {lines}", f"# states at which orders end: {said}" in lines)
        both = HEAD + lines_of("li s0, 0x80002000\n ld t0, 0(s0)\n beqz t0, 1f\n wfi\n1: ebreak") + "other:\n" + lines_of("li s0, 0x80002000\n li t0, 1\n sd t0, 0(s0)\n ebreak")
        lines, status = of_text(self.room, f"#! end quiet stuck\n{both}")
        must(f"{status}, {lines}", status == 0 and "# states at which orders end: 2, quiet 1, stuck 1" in lines)

    def test_where_stuck_harts_stand(self):
        """Its instruction, its state, and each interrupt, pending or enabled."""
        for code, said in SLEEPERS:
            lines, status = of_text(self.room, ONE + lines_of(code))
            told = [it for it in lines if it.startswith('    - "hart ')]
            must(f"{code}: {status}, {lines}", status == 1 and len(told) == 1 and told[0].endswith(f': {said}"'))
            must(f"{code}: {lines}", told[0].startswith('    - "hart 0: a.s:') or "SUSPENDED" in said)
            lines, _ = of_text(self.room, f"#! can end off\n{ONE}{lines_of(code)}")
            must(f"{code}: {lines}", sum(it.startswith('    - "hart 0: ') and it.endswith(f': {said}"') for it in lines) == 1)
        # (of a guest that is lost in many states it is told once)
        lines, _ = of_text(self.room, f"#! end stuck\n{LOADS.replace('        ebreak' + chr(10) + 'other', '        sret' + chr(10) + 'other')}")
        must(f"{lines}", sum(it.startswith("# in some order hart 0 is lost at ") for it in lines) == 1)
        must(f"{lines}", not any(it.startswith("# a hart was entered") for it in lines))

    def test_what_guests_do_instead(self):
        """Of an operation that no step has it is told with which numbers the hart does the same."""
        for code, asked, said in INSTEAD:
            lines, status = of_text(self.room, f"#! never 0 {asked}\n{ONE}{lines_of(code)}        ebreak\n")
            must(f"{code}: {status}, {lines}", status == 1 and points(lines)[0].endswith(f"; hart 0 {said}"))

    def test_data_that_are_aligned(self):
        """Numbers of 2 and 4 bytes at their multiples are stored at once."""
        text = f"#! never 0 load\n{ONE}        la t0, data\n        ld t1, 0(t0)\n        ebreak\n        .data\ndata:   .half 0x1234, 0xfedc\n        .word 0x99aabbcc\n        .half 0\n        .word 5\n"
        lines, status = of_text(self.room, text)
        stores = [it.split(None, 2)[2].partition(" ->")[0] for it in lines if re.match(r"    \d+ 0 store", it)]
        must(f"{status}, {lines}", status == 1 and stores[:3] == ["store2 0x80001000 0x1234", "store2 0x80001002 0xfedc", "store4 0x80001004 0x99aabbcc"])
        must(f"{stores}", stores[3:] == [f"store1 {0x8000100A + at:#x} {5 if not at else 0:#x}" for at in range(4)])

    def test_strings_of_guests(self):
        """A string's bytes are data, its escapes among them, with a 0 behind them or none; what isn't one is a fault."""
        data = '.string "a\\n\\"\\\\\\t"\n .ascii "\\101\\377;#"\n .asciz ""\n .ascii "b\\r\\f\\b"\n .byte 1'
        asked = "#! some 0 load 0x80001000 -> value 0xff4100095c220a61\n#! some 0 load 0x80001008 -> value 0x1080c0d6200233b\n"
        lines, status = of_text(self.room, asked + ONE + lines_of("la t0, text\n ld t1, 0(t0)\n ld t1, 8(t0)\n ebreak\n .data") + "text:\n" + lines_of(data))
        must(f"{status}, {lines}", status == 0 and len(points(lines)) == 2)
        for operands in (r'"\q"', '5', '"a", "b"', r'"\400"', r'"\12"', r'"\189"', "", r'"a" 1'):
            lines, status = of_text(self.room, f"{ONE}        .string {operands}\n")
            must(f"{operands}: {status}, {lines}", status == 1 and points(lines)[0].startswith("not ok 1 - a.s:3:9: these aren't the operands that it takes: '.string"))

    def test_long_files_of_guests(self):
        """A file has at most 16,777,216 bytes."""
        text = f"#! end quiet\n{ONE}        ebreak\n"
        for size, status in ((TOO_LONG - 1, 0), (TOO_LONG, 1)):
            lines, found = of_text(self.room, text + "#" * (size - len(text)))
            must(f"{size}: {found}, {lines}", found == status and (not status or points(lines) == ["not ok 1 - a.s: more than 16,777,216 bytes"]))

    def test_values_that_are_unknown(self):
        """An instruction that an unknown value decides is told with its hart, its line and its text; one that only moves or stores it isn't."""
        for code, line, said in UNKNOWN:
            lines, _ = of_text(self.room, f"{ONE}{lines_of(code)}")
            must(f"{code!r}: {lines}", unknown_of(lines) == [f"# in some order an unknown value decides what hart 0 does at a.s:{line}: {said}"])
        for code in KNOWN:
            lines, status = of_text(self.room, f"{ONE}{lines_of(code)}")
            must(f"{code!r}: {status}, {lines}", not unknown_of(lines) and status == 0)
        # (of a call as many arguments count as it has)
        for extension, function, count in CALLS:
            for known in range(max(count - 1, 0), count + 1):
                given = "".join(f"li a{i}, 1\n" if i < known else f"mv a{i}, t0\n" for i in range(6))
                lines, _ = of_text(self.room, f"{ONE.replace('board 1', 'board 2')}{lines_of(f'{given}li a7, {extension}' + chr(10) + f'li a6, {function}' + chr(10) + 'ecall' + chr(10) + 'ebreak')}")
                must(f"{extension}, {function}, {known}: {lines}", bool(unknown_of(lines)) == (known < count))

    def test_unknown_values_behind_steps(self):
        """They are told behind each step of a guest, of each hart, once for each instruction."""
        text = LOADS.replace("        ld      t1, 0(s0)\n", "        ld      t1, 0(s0)\n        beqz    t2, 1f\n1:      bnez    t1, 1f\n1:      ld      t1, 0(s0)\n        beqz    t2, 1f\n1:\n")
        lines, _ = of_text(self.room, text)
        must(f"{lines}", [it.split(" does at a.s:")[1].partition(": ")[2] for it in unknown_of(lines)] == ["beqz t2, 1f", "beqz t2, 1f"] and len({*unknown_of(lines)}) == 2 and all("hart 1 does" in it for it in unknown_of(lines)))

    def test_a_wfi_that_may_return(self):
        """With the line a wfi is a step that needs no wake, and so is none that a condition finds; without it nothing changes."""
        text = f"{ONE}{lines_of('wfi' + chr(10) + 'ebreak')}"
        lines, status = of_text(self.room, f"#! end stuck\n{text}")
        must(f"{status}, {lines}", status == 0)
        for said in ("#! wfi may return", "  #!wfi  may\treturn   # as 3.3.3 allows"):
            lines, status = of_text(self.room, f"{said}\n#! end quiet\n#! some 0 sip -> value 0\n#! maybe never 0 wfi\n{text}")
            must(f"{status}, {lines}", status == 0 and len(points(lines)) == 3)
            must("the record has it", "0 sip -> value 0x0    # a.s:7: wfi" in read(os.path.join(self.room, "a.s.3.reached")))
        for wrong in ("wfi may", "wfi can return", "wfi may return soon", "never wfi may return"):
            lines, status = of_text(self.room, f"#! {wrong}\n{text}")
            must(f"{wrong}: {status}, {lines}", status == 1 and points(lines)[0].startswith("not ok 1 - a.s:1:"))
        for name in sorted(os.listdir(GUESTS)):
            if name.endswith(".mended.s") or name in ("boot-all.s", "dekker.s", "peterson.s", "spin-lock.s"):
                lines, status = of_text(self.room, f"#! wfi may return\n{read(os.path.join(GUESTS, name))}")
                must(f"{name}: {status}, {lines}", status == 0)

    def test_stale_accesses_of_guests_are_told(self):
        """Each instruction that is a stale access in some order is told, unless a condition asks of marks; of a steady program none."""
        for name, asked, wanted in (("lazy-tlb.s", "", True), ("lazy-tlb.s", "#! maybe never stale\n", False), ("walked-ahead.mended.s", "", False)):
            text = "".join(f"{it}\n" for it in read(os.path.join(GUESTS, name)).splitlines() if not it.startswith("#!"))
            lines, _ = of_text(self.room, asked + text)
            found = [it for it in lines if "stale in some order" in it]
            must(f"{name}, {asked}: {lines}", bool(found) == wanted and all(re.fullmatch(r"# hart \d at a\.s:\d+: ld .*: stale in some order: a walk gives another translation; `#! never stale` tells the order", it) for it in found))

    def test_command_line_of_guests(self):
        """Help, faults of usage, and an output that can't be written."""
        write(os.path.join(self.room, "a.s"), LOADS)
        how = {"executable": EXPLORER, "cwd": self.room, "capture_output": True, "text": True, "timeout": 60}
        found = subprocess.run(["sbiboard explore", "--help"], **how)
        must(f"{found}", found.returncode == 0 and not found.stderr)
        must_have(found.stdout, "Usage: sbiboard explore [OPTIONS] <FILE>...", "--states <N>", "[default: 1000000]", "--failed <DIR>", "[default: .]", "Exit status: 0 all hold, 1 some don't, 2 usage, 6 no memory, 7 input or output failed, 8 not all was judged or seen.")
        found = subprocess.run(["sbiboard test", "--help"], **how)
        must(f"{found}", found.returncode == 0 and not found.stderr)
        must_have(found.stdout, "Usage: sbiboard test [OPTIONS] <FILE>...", "--times <N>", "[default: 1000]", "--seed <S>", "[default: 0]", "8 not all was judged.")
        for words in (["--states", "5", "a.s"], ["--times", "x", "a.s"], ["--seed", "a.s"]):
            found = subprocess.run(["sbiboard test", *words], **how)
            must(f"{words}: {found}", found.returncode == 2 and not found.stdout and found.stderr.startswith("error: "))
        for words in ([], ["--states", "x", "a.s"], ["--states", "-1", "a.s"], ["--failed=", "a.s"], ["--moo", "a.s"], ["--states"]):
            found = subprocess.run(["sbiboard explore", *words], **how)
            must(f"{words}: {found}", found.returncode == 2 and not found.stdout and found.stderr.startswith("error: "))
        for words in (["--help"], ["a.s"]):
            with open("/dev/full", "w", encoding="ascii") as full:
                found = subprocess.run(["sbiboard explore", *words], **{**how, "capture_output": False, "stdout": full, "stderr": subprocess.PIPE})
            must(f"{words}: {found}", found.returncode == 7)
        must(f"{found}", found.stderr.startswith("sbiboard: "))
