"""Programs in assembly, all of whose orders are explored: the examples; random small programs against an interpreter of their own; verdicts
that judged nothing; what is told of an order; and the script."""
import json
import os
import random
import re
import shutil
import subprocess
from xml.etree import ElementTree

from . import assembly_model
from .fixtures import EXAMPLES, NO_MEMORY, PROGRAM, ROOT, Test, allocating, at_once, must, program_of, read, shim, write
from .test_wrapper import called, clone
from .test_wrapper import ran as ran_script

EXPLORER = program_of("asm_orders")
GUESTS = os.path.join(EXAMPLES, "guests")
COMPILER = "riscv64-linux-gnu-gcc"
# The examples of which a condition fails: its line, and where the last step of its order stands.
FAILING = {
    "lazy-tlb.s": (2, "1 load 0x1000 -> value 0x33    # lazy-tlb.s:54: ld t2, 0(s0)"),
    "spin-flag.s": (2, "1 load 0x80002000 -> value 0x0    # spin-flag.s:26: ld t1, 0(s0)"),
    "lost-wakeup.s": (2, None),
    "hotplug.s": (2, None),
    "online-mask.s": (2, None),
    "any-tlb.s": (4, "1 load 0x1000 -> value 0x11    # used 0x80001000 rw-d; any-tlb.s:36: ld t1, 0(s0)"),
    "walked-ahead.s": (3, "1 load 0x1000 -> value 0x22    # walked-ahead.s:41: ld t1, 0(s0)"),
}
# How many words of page tables a loader stores, behind the first entry.
LOADED = {"any-tlb.s": 6, "walked-ahead.s": 4}
# The example whose order this board's TLB answers otherwise, and what `check` says of its record.
DIFFERS = {"any-tlb.s": "differs at line 19: value 0x22\n"}
# How many random programs are explored, and the values whose loads are asked for.
PROGRAMS, VALUES = 60, range(4)

# Hart 0 starts hart 1, stores a word, and calls; hart 1 loads it, twice.
HEAD = """\
        .board  2, 4, 200, 0, 0x80000000, 0
        .org    0x80000000
boot:   li      a7, 0x48534d
        li      a6, 0
        li      a0, 1
        la      a1, other
        li      a2, 0
        ecall
"""
LOADS = HEAD + """\
        li      s0, 0x80002000
        li      t0, 1
        sd      t0, 0(s0)
        ebreak
other:  li      s0, 0x80002000
        ld      t0, 0(s0)
        ld      t1, 0(s0)
        ebreak
"""
HINT = "; hart 1 loads 0x80002000"
# Conditions of it, and how their points end: those that say nothing are not ok, however they would come out.
POINTS = (
    ("never 1 load 0x80005008 -> value 1", False, f": vacuous: no step is '1 load 0x80005008'{HINT}"), ("some 1 load 0x80005008 -> value 1", False, f": vacuous: no step is '1 load 0x80005008'{HINT}"),
    ("each 1 load 0x80005008 -> value 1", False, f": vacuous: no step is '1 load 0x80005008'{HINT}"), ("before 1 load 0x80005008, 0 store", False, f": vacuous: no step is '1 load 0x80005008'{HINT}"),
    ("before 0 store, 1 load 0x80005008", False, f": vacuous: no step is '1 load 0x80005008'{HINT}"), ("never 1 load after 1 wfi", False, ": vacuous: no step is '1 wfi'"),
    ("never 1 load after 0 ecall 0x48534d -> ret -3", False, ": vacuous: no step is '0 ecall 0x48534d -> ret -3'; such a step has another reply"), ("never 0 load 0x80002000 -> value 1", False, ": vacuous: no step is '0 load 0x80002000'"),
    ("maybe never 1 load 0x80005008 -> value 1", True, ": holds in all orders"), ("never 1 load 0x80005008", True, ": holds in all orders"), ("never 1 ecall 0x10 -> ret 0", True, ": holds in all orders"),
    ("never 1 load 0x80002000 -> value 9", True, ": holds in all orders"), ("never 1 load 0x80002000 -> value 0", False, ": fails"), ("each 0 store -> done", True, ": holds in all orders"),
    ("some 1 load 0x80002000 -> value 1", True, ": holds"), ("some 1 load 0x80002000 -> value 9", False, ": fails in all orders"), ("end quiet", True, ": holds in all orders"), ("end stuck off", False, ": fails"),
    ("can end quiet", True, ": holds in all orders"), ("can end off", False, ": fails"), ("before 0 ecall, 1 load", True, ": holds in all orders"), ("before 1 load, 0 store", False, ": fails"),
    ("never 9 load", False, ": the board has no hart 9"), ("maybe never 9 load", False, ": the board has no hart 9"), ("never 1 sip -> done", False, ": no sip has the reply done"), ("never c load", False, ": no load is the clock's"),
)  # fmt: skip
# What asks of marks that nothing tells.
UNTOLD = "only records tell what is missed, unfirm or unlenient: use test"
MARKED = ("never missed", "never 1 load -> missed", "firm", "lenient", "some 1 load -> unfirm", "never 1 load after 1 load -> missed")
# Where hart 1 has a page's entry or hasn't, and is fenced or isn't: whether its later load is steady, isn't stale, and has the new value.
TOUCHED = (("ld t1, 0(s0)", True, (True, True, True)), ("ld t1, 0(s0)", False, (False, False, False)), ("", True, (True, True, True)), ("", False, (False, True, True)))
# No order ends: hart 0 begins anew again and again, or spins on a word that nobody stores.
ENDLESS = (
    "        .board 1, 1, 50, 0, 0x80000000, 0\n        .org 0x80000000\n        li a7, 0x53525354\n        li a6, 0\n        li a0, 2\n        li a1, 0\n        ecall\n",
    "        .board 1, 4, 50, 0, 0x80000000, 0\n        .org 0x80000000\n        li s0, 0x80002000\n1:      ld t0, 0(s0)\n        beqz t0, 1b\n        ebreak\n",
)
# What makes a guest lost, and what is told of it.
LOST = (
    ("lui t0, 0x80100\n        slli t0, t0, 32\n        srli t0, t0, 32\n        jr t0", "lost at 0x80100000, where no instruction is"), ("li t0, 3\n        ld t1, 0(t0)", "lost at a.s:5: ld t1, 0(t0), by a trap before stvec is written"),
    ("1: addi t0, t0, 1\n        bnez t0, 1b\n        j 1b", "after 100,000 instructions without an operation"), ("sret", "lost at a.s:4: sret, by an sret to user mode"),
)  # fmt: skip
# Texts that aren't explored, and what is said of each.
FAULTS = (
    ("        .board 1, 4, 9, 0, 0x80000000, 0\n        .org 0x80000000\n        lr.d t0, (t1)\n", ":3:9: guests don't obey this instruction: 'lr.d t0, (t1)'"),
    ("        .board 1, 4, 9, 0, 0x80000000, 0\n        flw ft0, 0(a0)\n", ":2:13: nothing defines this symbol: 'ft0, 0(a0)'"),
    ("        .board 1, 4, 9, 0, 0x80000000, 0\n        unimp\n", ":2:9: no instruction has this mnemonic: 'unimp'"),
    ("\t.board\t1, 4, 9, 0, 0x80000000, 0\n\t.strings\t\"a\"\n", ":2:2: no directive is called so: '.strings \"a\"'"),
    ("        .board 1, 4, 9, 0, 0x80000000, 0\n        .org 0x80000008\n        ebreak\n", ": no instruction stands at BOOTADDR, 0x80000000"),
    ("        ebreak\n", ": it needs one board: .board HARTS, PAGES, LIMIT, BOOTHART, BOOTADDR, BOOTOPAQUE"),
    ("        .board 200, 4, 9, 0, 0x80000000, 0\n", ": bad board: HARTS is 200, at most 128"),
    ("        .board 1, 4, 9, 0, 0x80000000, 0\n        .org 0x80003ffc\n        .dword 1\n", ": data at 0x80003ffc lie outside the RAM"),
    ("        .board 1, 4, 9, 0, 0x80000000, 0\n        .org 0x7fffffff\n        .byte 1\n", ": data at 0x7fffffff lie outside the RAM"),
    ("        .board 1, 4, 9, 0, 0x80000000, 0\n        .org 0x80000002\n        ebreak\n        .byte 1\n", ": data need instructions at multiples of 4, between which their loader stands"),
    ("#! never 1 laod\n        .board 1, 4, 9, 0, 0x80000000, 0\n", ":1:12: unknown word: 'laod'"), ("        ebreak  #! never 1 load\n        .board 1, 4, 9, 0, 0x80000000, 0\n", ":1:17: a condition stands alone on its line"),
)  # fmt: skip


def explored(room, *words):
    """What the program prints, and its status."""
    found = subprocess.run(["sbiboard explore", *words], executable=EXPLORER, cwd=room, capture_output=True, text=True, timeout=300)
    must(f"{words}: {found.stderr}", not found.stderr)
    return found.stdout.splitlines(), found.returncode


def of_text(room, text, *words):
    write(os.path.join(room, "a.s"), text)
    return explored(room, *words, "a.s")


def points(lines):
    return [it for it in lines if it.startswith(("ok ", "not ok "))]


def example_is_judged(room, name):
    own = os.path.join(room, name + ".room")
    os.mkdir(own)
    shutil.copy(os.path.join(GUESTS, name), own)
    lines, status = explored(own, name)
    must(f"{name}: status {status}: {lines}", status == int(name in FAILING) and lines[0] == "TAP version 13")
    must(f"{name}: {lines}", any(re.fullmatch(r"# states: \d+, steps: \d+", it) for it in lines) and f"1..{len(points(lines))}" in lines)
    must(f"{name}: {lines}", name != "spin-flag.s" or "# states at which orders end: 1, quiet 1" in lines)
    if name in FAILING:
        line, last = FAILING[name]
        must(f"{name}: {lines}", any(re.fullmatch(rf"not ok \d+ - {name}: line {line}: .*: fails", it) for it in lines))
        record = read(os.path.join(own, f"{name}.{line}.failed"))
        steps = [it for it in record.splitlines() if " -> " in it]
        place = next(at for at, it in enumerate(lines) if it == "  steps: |")
        must(f"{name}: {lines}", [f"    {k} {it}" for k, it in enumerate(steps)] == lines[place + 1 : place + 1 + len(steps)])
        must(f"{name}: {lines}", lines[place - 1] == f"  place: {len(steps) - 1}")
        must(f"{name}: {steps}", last is None or steps[-1] == last)
        # (each of a guest's steps has its instruction, and no other one)
        loaded, others = steps[1 : 1 + LOADED.get(name, 0)], steps[:1] + steps[1 + LOADED.get(name, 0) :]
        must(f"{name}: {steps}", all(it.endswith("    # the loader") for it in loaded))
        must(f"{name}: {steps}", all(bool(re.search(rf"    # (used 0x[0-9a-f]+ [r-][w-][x-][d-]; )?{re.escape(name)}:", it)) == (it.split()[1] not in ("advance", "serve", "poll")) for it in others))
        found = subprocess.run(["sbiboard", "check", f"{name}.{line}.failed"], executable=PROGRAM, cwd=own, capture_output=True, text=True, timeout=60)
        must(f"{name}: {found}", found.stdout == DIFFERS.get(name, f"agrees {len(steps)}\n"))


def agrees(room, seed):
    """Loads of a random program give exactly what the interpreter says, in as many states and steps; and a load that is never done is told."""
    chance = random.Random(seed)
    harts = assembly_model.random_program(chance)
    asked = [(hart, word, value) for hart in (0, 1) for word in assembly_model.WORDS for value in VALUES]
    conditions = [f"some {hart} load {word:#x} -> value {value:#x}" for hart, word, value in asked]
    conditions += [f"never {hart} load {word:#x} -> value {value:#x}" for hart, word, value in asked]
    name = f"{seed}.s"
    write(os.path.join(room, name), assembly_model.program_text(harts, [*conditions, "end quiet"]))
    lines, _ = explored(room, name)
    orders = assembly_model.Orders(harts)
    found = orders.given
    done = {(hart, word) for hart, word, _ in found}
    said = [re.sub(r"^((?:not )?ok) \d+ - [^:]*: line \d+: [^:]*: ", r"\1 ", it) for it in points(lines)]
    wanted = []
    for is_some in (True, False):
        for hart, word, value in asked:
            if (hart, word) not in done:
                wanted.append("not ok vacuous")
            elif is_some:
                wanted.append("ok holds" if (hart, word, value) in found else "not ok fails in all orders")
            else:
                wanted.append("not ok fails" if (hart, word, value) in found else "ok holds in all orders")
    wanted.append("ok holds in all orders")
    said = [re.sub(r"^not ok vacuous: .*", "not ok vacuous", it) for it in said]
    wrong = [it for it in zip([*conditions, "end quiet"], said, wanted) if it[1] != it[2]]
    must(f"{read(os.path.join(room, name))}: {len(said)} verdicts, {wrong}", len(said) == len(wanted) and not wrong)
    must(f"{read(os.path.join(room, name))}: {lines}", f"# states: {orders.states}, steps: {orders.steps}" in lines)
    return len(found)


class Assembly(Test):
    """Programs in assembly, all of whose orders are explored."""

    programs = (EXPLORER, PROGRAM)

    def test_examples_of_guests(self):
        """Each bug is found, with the instruction of each step; each mended program holds."""
        names = sorted(it for it in os.listdir(GUESTS) if it.endswith(".s"))
        must(f"{names}", {*FAILING} <= {*names} and all(it.replace(".s", ".mended.s") in names for it in FAILING))
        at_once(lambda name: example_is_judged(self.room, name), names)

    def test_guests_in_c(self):
        """What the compiler wrote of the bug in C, and of its mended twin, is judged; and what a compiler that is here writes, alike."""
        for name, status in (("lazy-tlb", 1), ("lazy-tlb.mended", 0)):
            texts = [read(os.path.join(GUESTS, "c", f"{name}.s"))]
            if shutil.which(COMPILER):
                flags = re.search(r"riscv64-linux-gnu-gcc (.*?)FILE\.c", re.sub(r"\\\n \*", "", read(os.path.join(GUESTS, "c", "sbiboard.h"))), re.DOTALL)[1].split()
                made = os.path.join(self.room, f"{name}.s")
                subprocess.run([COMPILER, *flags, "-Wall", "-Wextra", "-Werror", "-o", made, os.path.join(GUESTS, "c", f"{name}.c")], check=True, timeout=60)
                texts.append(read(made))
            for text in texts:
                lines, found = of_text(self.room, text)
                must(f"{name}: {found}, {lines}", found == status and len(points(lines)) == 2)
                must(f"{name}: {lines}", any(it.endswith(" -> done    # the loader") for it in lines))

    def test_the_tour_on_guests_in_c(self):
        """The commands of the tour compile the bug, find it, mend it, and find none. By the compiler of the example they print the lines that stand there."""
        if not shutil.which(COMPILER):
            self.skipTest(f"there is no {COMPILER}")
        text = read(os.path.join(ROOT, "docs/TOUR.md")).partition("## A lazy TLB in C")[2].partition("\n## ")[0]
        commands = [it.strip() for it in text.split("\n") if it.startswith("    ") and "->" not in it]
        blocks = [[it for it in block.split("\n") if it and it != "..."] for block in text.split("```\n")[1::2]]
        must(f"{commands}, {blocks}", len(commands) == 4 and len(blocks) == 2 and all(blocks))
        flags = commands[0].partition(";")[0]
        os.symlink(EXAMPLES, os.path.join(self.room, "examples"))
        write(os.path.join(self.room, "sbiboard"), f'#!/bin/bash\nshift; exec -a "sbiboard explore" {EXPLORER} "$@"\n')
        os.chmod(os.path.join(self.room, "sbiboard"), 0o755)
        found = [subprocess.run(["bash", "-c", f"{flags}; {it}"], cwd=self.room, capture_output=True, text=True, timeout=60) for it in commands]
        must(f"{found}", [it.returncode for it in found] == [0, 1, 0, 0] and not any(it.stderr for it in found))
        version = re.search(r"\.ident.*", read(os.path.join(GUESTS, "c", "lazy-tlb.s")))[0]
        is_same = version in read(os.path.join(self.room, "lazy.s"))
        for run, shown in zip(found[1::2], blocks, strict=True):
            lines = [it for it in shown if is_same or re.match("(not )?ok ", it)]
            must(f"{run}, and not {lines}", lines and all(it in run.stdout.splitlines() for it in lines))

    def test_data_of_guests(self):
        """Data are stored by a loader before the boot hart begins: each size, those that aren't aligned, and none that are 0."""
        text = """\
        .board  1, 4, 99, 0, 0x80000000, 7
        .org    0x80000000
boot:   bnez    ra, wrong
        bnez    t1, wrong
        la      t0, data
        ld      a2, 0(t0)
        ld      a3, 8(t0)
        ebreak
wrong:  j       0x7ffff000
        .data
data:   .byte   1, 0, -1
        .half   0x1234
        .byte   5
        .half   0
        .dword  0
        .dword  0x8877665544332211
        .byte   0
        .word   0x99aabbcc
"""
        stores = ["store1 0x80001000 0x1", "store1 0x80001002 0xff", "store1 0x80001003 0x34", "store1 0x80001004 0x12", "store1 0x80001005 0x5", "store 0x80001010 0x8877665544332211"]
        stores += [f"store1 {0x80001019 + at:#x} {it:#x}" for at, it in enumerate((0xCC, 0xBB, 0xAA, 0x99))]
        asked = "#! never 0 load 0x80001000 -> value 0x51234ff0001\n"
        lines, status = of_text(self.room, asked + text)
        steps = [it.split(None, 1)[1] for it in lines if re.match(r"    \d+ 0 ", it)]
        must(f"{status}, {lines}", status == 1 and steps[0].startswith("0 advance -> entry 0x80003ffe 0 0x7"))
        must(f"{lines}", [it for it in steps if "store" in it] == [f"0 {it} -> done    # the loader" for it in stores])
        lines, status = of_text(self.room, "#! some 0 load 0x80001000 -> value 0x51234ff0001\n#! each 0 load 0x80001008 -> value 0\n" + text)
        must(f"{status}, {lines}", status == 0)

    def test_random_programs_of_guests(self):
        many = at_once(lambda seed: agrees(self.room, seed), range(PROGRAMS))
        must(f"{sum(many)} values are loaded", sum(many) > PROGRAMS)

    def test_conditions_of_guests(self):
        """A condition that says nothing is not ok, and the others are what the program does."""
        for asked, is_ok, said in POINTS:
            lines, status = of_text(self.room, f"#! {asked}\n{LOADS}")
            must(f"{asked}: {status}, {lines}", points(lines) == [f"{'ok' if is_ok else 'not ok'} 1 - a.s: line 1: {asked}{said}"] and status == int(not is_ok))

    def test_conditions_name_symbols(self):
        """A symbol in a condition is its value, also one that stands below; a word of conditions isn't one."""
        text = LOADS.replace("boot:", "        .equ page, 0x80002000\n        .equ load, 0x10\n        .equ HSM, 0x48534d\nboot:")
        for asked, status in (("never 1 load page -> value 9", 0), ("some 1 load page -> value 1", 0), ("never 1 load page -> value 0 # page", 1), ("before 0 ecall HSM, 1 load page", 0), ("some 1 advance -> entry other", 0), ("some 1 load other", 1)):
            lines, found = of_text(self.room, f"#! {asked}\n{text}")
            must(f"{asked}: {found}, {lines}", found == status and points(lines)[0].split(" - a.s: line 1: ")[1].startswith(asked.partition(" #")[0]))
        lines, status = of_text(self.room, f"#! never 1 load page page\n{text}")
        must(f"{status}, {lines}", points(lines) == ["not ok 1 - a.s:1:22: too few or too many words: 'page'"] and status == 1)
        lines, status = of_text(self.room, f"#! never 1 load pages\n{text}")
        must(f"{status}, {lines}", points(lines) == ["not ok 1 - a.s:1:17: not a number: 'pages'"] and status == 1)

    def test_marks_of_guests(self):
        """What any TLB may hold is judged by all orders; what isn't told is no success."""
        for asked in MARKED:
            lines, status = of_text(self.room, f"#! {asked}\n#! end quiet\n{LOADS}")
            must(f"{asked}: {status}, {lines}", points(lines)[0] == f"not ok 1 - a.s: line 1: {asked}: not judged: {UNTOLD}" and status == 8)
            must(f"{asked}: {lines}", "# 2 points, 0 failed, 1 not judged" in lines)
        lines, status = of_text(self.room, f"#! never missed\n#! end off\n{LOADS}")
        must(f"{status}, {lines}", status == 1)
        for asked in ("steady", "never stale", "never 1 load -> stale"):
            lines, status = of_text(self.room, f"#! {asked}\n{LOADS}")
            must(f"{asked}: {status}, {lines}", ": vacuous: " in points(lines)[0] and status == 1)
            lines, status = of_text(self.room, f"#! maybe {asked}\n{LOADS}")
            must(f"{asked}: {status}, {lines}", points(lines)[0].endswith(": holds in all orders") and status == 0)
        fetches = LOADS.replace("ld      t1, 0(s0)", "fetch   t1, 0(s0)")
        lines, status = of_text(self.room, f"#! steady\n{fetches}")
        must(f"{status}, {lines}", points(lines) == ["not ok 1 - a.s: line 1: steady: not judged: the program fetches, and only records tell its marks: use test"] and status == 8)

    def test_marks_of_a_page_that_is_touched_or_not(self):
        text = "\n".join(it for it in read(os.path.join(GUESTS, "walked-ahead.mended.s")).splitlines() if not it.startswith("#!")) + "\n"
        fence = next(it for it in text.splitlines() if "remote_sfence_vma" in it)
        asked = ("steady", "never 1 load 0x1000 -> stale", "some 1 load 0x1000 -> value 0x22", "end quiet", "never 1 load 0x1000 -> stale after 0 store 0x80003008", "never 0 load 0x80006000 -> value 7 after 1 load 0x1000 -> stale")
        for touch, is_fenced, wanted in TOUCHED:
            changed = text.replace("sfence.vma ", f"sfence.vma; li s0, 0x1000; {touch}; nop #") if touch else text
            changed = changed if is_fenced else changed.replace(fence, "")
            lines, status = of_text(self.room, "".join(f"#! {it}\n" for it in asked) + changed)
            found = [it.startswith("ok ") for it in points(lines)]
            # (the last one needs a stale step, which it would else not be about)
            must(f"{touch!r}, {is_fenced}: {lines}", found == [*wanted, True, wanted[1], not wanted[1]] and status == 1)

    def test_guests_without_an_end(self):
        """`end`, and a file without conditions, aren't met by orders without an end."""
        for text in ENDLESS:
            for asked, said in ((None, "a.s: no order ends stuck"), ("end quiet", "a.s: line 1: end quiet"), ("end quiet off stuck", "a.s: line 1: end quiet off stuck")):
                lines, status = of_text(self.room, (f"#! {asked}\n" if asked else "") + text)
                must(f"{asked}: {status}, {lines}", points(lines) == [f"not ok 1 - {said}: no order ends"] and status == 1)
            lines, status = of_text(self.room, "#! maybe end quiet\n" + text)
            must(f"{status}, {lines}", status == 0)
        lines, status = of_text(self.room, LOADS)
        must(f"{status}, {lines}", points(lines) == ["ok 1 - a.s: no order ends stuck: holds in all orders"] and status == 0)

    def test_lost_and_stuck_guests(self):
        """Where no hart goes on it is told where each stands, and why a guest is lost; also where no condition asks."""
        for text, said in LOST:
            text = f"        .board 2, 4, 9, 0, 0x80000000, 0\n        .org 0x80000000\n{text if text[0] == '1' else '        nop' + chr(10) + '        ' + text}\n"
            lines, status = of_text(self.room, text)
            must(f"{text}: {status}, {lines}", points(lines) == ["not ok 1 - a.s: no order ends stuck: fails"] and status == 1)
            must(f"{text}: {lines}", not any(it.startswith('    - "hart 1: ') for it in lines))
            must(f"{text}: {lines}", any(it.startswith('    - "hart 0: ') and said in it for it in lines) and any(it.startswith("# in some order hart 0 is ") and said in it for it in lines))
            lines, status = of_text(self.room, "#! end quiet off\n" + text)
            must(f"{text}: {status}, {lines}", status == 1)
        lines, _ = explored(self.room, os.path.join(GUESTS, "lost-wakeup.s"))
        must(f"{lines}", '    - "hart 1: lost-wakeup.s:30: wfi: STARTED, SSIP is 0, STIP is 0, SSIE is 1, STIE is 0"' in lines and sum(it.startswith('    - "hart') for it in lines) == 1)
        lines, _ = of_text(self.room, LOADS.replace("la      a1, other", "li      a1, 0x80000800"))
        must(f"{lines}", "# a hart was entered at 0x80000800, where no instruction is" in lines)

    def test_limit_of_states_of_guests(self):
        """More states than the limit are told, and are no success; an order that decides is told all the same."""
        lines, status = of_text(self.room, f"#! end quiet\n#! never 1 load 0x80002000 -> value 9\n#! some 0 store\n{LOADS}", "--states", "7")
        must(f"{status}, {lines}", status == 8 and "# cut short: not all orders were seen" in lines and any(it.startswith("# not all orders were seen: ") for it in lines))
        must(f"{lines}", [it.partition(": not judged: ")[2] for it in points(lines)[:2]] == ["more than 7 states, none of those seen breaks it"] * 2)
        lines, status = of_text(self.room, f"#! never 0 ecall\n{LOADS}", "--states", "7")
        must(f"{status}, {lines}", status == 1 and points(lines) == ["not ok 1 - a.s: line 1: never 0 ecall: fails"])

        lines, status = of_text(self.room, f"#! never 1 load 0x80002000 -> value 1\n{LOADS.replace('2, 4, 200', '2, 4, 3')}")
        must(f"{status}, {lines}", status == 1 and any(re.fullmatch("  limit: [4-9]", it) for it in lines))

    def test_faults_of_guests(self):
        for text, said in FAULTS:
            lines, status = of_text(self.room, text)
            must(f"{text}: {status}, {lines}", points(lines) == [f"not ok 1 - a.s{said}"] and status == 1)
        lines, status = of_text(self.room, f"# !never 1 load\n{LOADS}")
        must(f"{status}, {lines}", status == 1 and "not ok 2 - a.s: line 1: '\\# !never' is a comment, and no condition" in lines)
        lines, status = explored(self.room, "none.s", ".")
        must(f"{status}, {lines}", status == 1 and points(lines) == ["not ok 1 - none.s: no such file", "not ok 2 - .: is a directory"])

    def test_records_of_guests(self):
        """Files of one name have records of their own; none is written over a file that is explored; what isn't written is told."""
        text = f"#! never 0 ecall\n#! some 1 load\n{LOADS}"
        for folder in ("one", "two"):
            os.mkdir(os.path.join(self.room, folder))
            write(os.path.join(self.room, folder, "a.s"), text)
        lines, status = explored(self.room, "one/a.s", "two/a.s")
        names = {"a.s.1.failed", "a.s.2.reached", "a.s~2.1.failed", "a.s~2.2.reached"}
        must(f"{status}, {lines}", status == 1 and names <= {*os.listdir(self.room)} and "# 4 points, 2 failed" in lines and "# 2 files" in lines)
        fence = HEAD + "        li a7, 0x52464e43\n        li a6, 1\n        li a0, 2\n        li a1, 0\n        li a2, 0\n        li a3, 0\n        ecall\n        fence.i\n        ebreak\nother:  ebreak\n"
        lines, status = of_text(self.room, f"#! some 0 poll -> ret 0\n{fence}")
        steps = [it for it in lines if re.match(r"    \d+ [01] (serve|poll) ", it)]
        must(f"{status}, {lines}", status == 0 and len(steps) == 1 and "#" not in steps[0])
        os.symlink("one/a.s", os.path.join(self.room, "b.s.1.failed"))
        write(os.path.join(self.room, "b.s"), text)
        found = subprocess.run(["sbiboard explore", "b.s", "one/a.s"], executable=EXPLORER, cwd=self.room, capture_output=True, text=True, timeout=60)
        must(f"{found}", found.returncode == 7 and "  unwritten: " in found.stdout and "1..4" in found.stdout and found.stderr.startswith("sbiboard: ./b.s.1.failed: ") and read(os.path.join(self.room, "one/a.s")) == text)

    def test_memory_refused_to_guests(self):
        """Allocations refused in turn: no memory, after whole points at most, or all is told as it is."""
        made = shim(self.room)
        write(os.path.join(self.room, "a.s"), f"#! never 1 load 0x80002000 -> value 0\n#! some 0 store\n{LOADS}")
        words = ["--failed", self.room, os.path.join(self.room, "a.s")]
        good, sizes = allocating(made, self.room, words, program=EXPLORER)
        must(f"{good}", good.returncode == 1 and len(sizes) > 100)
        refused = 0
        for number in range(1, len(sizes) + 1, len(sizes) // 80 + 1):
            found, _ = allocating(made, self.room, words, number, program=EXPLORER)
            if found.returncode == 6:
                refused += 1
                must(f"{number}: {found}", found.stderr == NO_MEMORY and good.stdout.startswith(found.stdout))
            else:
                must(f"{number}: {found}", (found.returncode, found.stdout, found.stderr) == (good.returncode, good.stdout, good.stderr))
        must(f"{refused} of {len(sizes)} are told", refused > 50)


SAID = "sbiboard: {}: test and explore take programs in assembly, {} doesn't\n"


class AssemblyWrapper(Test):
    """The script takes programs in assembly for `test` and `explore` alone."""

    programs = ()

    def test_script_takes_assembly(self):
        front = clone(self.room)
        for name in ("a.s", "b.s"):
            write(os.path.join(self.room, name), LOADS)
        status, out, _ = ran_script(self.room, [front, "explore", "a.s", "b.s"])
        must(f"{status}, {out!r}, {called(self.room)}", (status, out) == (0, "built: a.s b.s\n") and called(self.room)[-1] == "rt run -- --help in asm_orders")
        many = len(called(self.room))
        for words in (["explore", "a.s"], ["explore", "--states", "5", "a.s"], ["explore", "--failed=.", "--", "a.s"], ["test", "a.s"], ["test", "--times=5", "--seed", "7", "a.s"]):
            found = ran_script(self.room, [front, *words])
            must(f"{words}: {found}", found == (0, f"built: {' '.join(words[1:])}\n", "") and len(called(self.room)) == many)
        found = ran_script(self.room, [front, "--try", "explore", "a.s"])
        must(f"{found}", found[:2] == (3, f"tried: {os.path.join(self.room, 'clone/crates/asm_orders/out/tried')} a.s\n"))

    def test_script_refuses_assembly(self):
        """Other tasks, other FILEs beside it, and options that need a script's program are refused before anything is built."""
        front = clone(self.room)
        write(os.path.join(self.room, "a.s"), LOADS)
        for task in ("run", "replay", "check"):
            found = ran_script(self.room, [front, task, "a.s"])
            must(f"{task}: {found}", found == (1, "", SAID.format("a.s", task)))
        for option, *value in (("--seconds", "1"), ("--needed",), ("--explain",), ("--no-outcomes",)):
            found = ran_script(self.room, [front, "explore", option, *value, "a.s"])
            must(f"{option}: {found}", found == (2, "", f"sbiboard: {option} doesn't take programs in assembly, such as a.s\n"))
        for option, *value in (("--seconds", "1"), ("--order", "1"), ("--jobs", "1"), ("--threads",), ("--explain",)):
            found = ran_script(self.room, [front, "test", option, *value, "a.s"])
            must(f"{option}: {found}", found == (2, "", f"sbiboard: {option} doesn't take programs in assembly, such as a.s\n"))
        found = ran_script(self.room, [front, "explore", "a.program", "a.s"])
        must(f"{found}", found == (2, "", "sbiboard: a.program: no program in assembly, and so not beside a.s\n"))
        found = ran_script(self.room, [front, "explore", "none.s"])
        must(f"{found}", found == (1, "", "sbiboard: none.s: no such file\nsbiboard: so nothing is built\n"))
        must(f"{called(self.room)}", not called(self.room))

    def test_points_of_assembly_as_json(self):
        """What `--json` reads of points of programs in assembly is what is printed."""
        if not os.access(EXPLORER, os.X_OK):
            self.skipTest("asm_orders isn't built")
        path = os.path.join(GUESTS, "lost-wakeup.s")
        found = subprocess.run([os.path.join(ROOT, "sbiboard"), "explore", "--json", "--failed", self.room, path], capture_output=True, text=True, timeout=120)
        rows = [json.loads(it) for it in found.stdout.splitlines()]
        point = next(it for it in rows if it.get("kind") == "point") if len(rows) > 1 else None
        must(f"{found}", found.returncode == 1 and point and not point["ok"] and point["condition"] == "end quiet" and point["details"]["stuck"][0].startswith("hart 1: lost-wakeup.s:30: wfi"))

    def test_points_of_assembly_in_files(self):
        """`--tap`, `--junit` and `--html` have the points that are printed; no FILE is written over."""
        if not os.access(EXPLORER, os.X_OK):
            self.skipTest("asm_orders isn't built")
        path = os.path.join(GUESTS, "spin-flag.s")

        def ran(*words):
            found = subprocess.run([os.path.join(ROOT, "sbiboard"), "explore", "--failed", self.room, *words], cwd=self.room, capture_output=True, text=True, timeout=120)
            return found.returncode, found.stdout, found.stderr

        status, out, said = ran("--tap", "tap", "--junit", "xml", "--html", "pages", path)
        must(f"{status}, {out}", status == 1 and out.startswith("TAP version 13\n") and read(os.path.join(self.room, "tap")) == out)
        must(f"{said}", said == "sbiboard: pages/index.html lists the points that fail (1, and 1 drawn)\n")
        suites = ElementTree.parse(os.path.join(self.room, "xml")).getroot()
        must(f"{suites.attrib}", (suites.get("tests"), suites.get("failures"), suites.get("errors")) == ("3", "1", "0"))
        page = read(os.path.join(self.room, "pages", "spin-flag.s.2.failed.html"))
        must("each step has its instruction", all(f"spin-flag.s:{it}" in page for it in (15, 18, 24, 26)))
        status, out, said = ran("--tap", "tap", "--tap-version", "14", path)
        must(f"{status}, {out}, {said}", status == 1 and out.startswith("TAP version 14\n") and read(os.path.join(self.room, "tap")) == out)
        status, out, _ = ran("--tap", "tap", "--json", path)
        must(f"{status}, {out}", json.loads(out.splitlines()[0])["task"] == "explore" and len(points(read(os.path.join(self.room, "tap")).splitlines())) == 3)
        copy = os.path.join(self.room, "a.s")
        write(copy, LOADS)
        must("no FILE is written over", ran("--tap", "a.s", "a.s") == (7, "", "sbiboard: a.s: entity already exists\n") and read(copy) == LOADS)
        must("a full device", ran("--tap", "/dev/full", "a.s")[::2] == (7, "sbiboard: /dev/full: No space left on device\n"))
        must("a folder that isn't there", ran("--tap", "none/tap", "a.s") == (7, "", "sbiboard: none/tap: No such file or directory\n"))
