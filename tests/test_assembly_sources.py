"""Files that programs in assembly include."""
import os

from .fixtures import Test, must, read, write
from .test_assembly import EXPLORER, explored, points

MAIN = """\
#! never 0 store 0x80002008 _
#! end quiet
        .include "below/board.inc"      # the board
start:  .include "below/sbi.inc"
        li      s0, page
        sd      x0, 0(s0)
        ebreak
"""
BOARD = """\
        .equ    PAGES, 4
        .include "../numbers.inc"; .board 1, PAGES, LIMIT, 0, 0x80000000, 0
        .org    0x80000000
"""
CODE = """\
        # the page, and a store
        .equ    page, 0x80002000
        li      t0, page
        sd      t0, 8(t0)"""
FILES = {"a.s": MAIN, "numbers.inc": "LIMIT = 99".replace("LIMIT = 99", "        .equ LIMIT, 99"), "below/board.inc": BOARD, "below/sbi.inc": CODE}


class AssemblySources(Test):
    """Files that programs in assembly include: each stands in place of its `.include`, and what is told of it names it."""

    programs = (EXPLORER,)

    def put(self, **changed):
        os.makedirs(os.path.join(self.room, "below"), exist_ok=True)
        for name, text in {**FILES, **{it.replace("_", "/").replace("-", "."): text for it, text in changed.items()}}.items():
            write(os.path.join(self.room, name), text)

    def told(self):
        lines, status = explored(self.room, "a.s")
        return points(lines), status, lines

    def test_included_files(self):
        self.put()
        found, status, lines = self.told()
        must(f"{status}, {lines}", status == 1 and [it.split(" - ")[0] for it in found] == ["not ok 1", "ok 2"])
        must(f"{lines}", found[0] == "not ok 1 - a.s: line 1: never 0 store 0x80002008 _: fails" and any(it.endswith("store 0x80002008 0x80002000 -> done    # sbi.inc:4: sd t0, 8(t0)") for it in lines))
        whole = MAIN.replace(".include \"below/board.inc\" ", f"{BOARD.replace('        .include ' + chr(34) + '../numbers.inc' + chr(34), FILES['numbers.inc'])} ").replace(".include \"below/sbi.inc\"", CODE + "\n")
        record = read(os.path.join(self.room, "a.s.1.failed"))
        write(os.path.join(self.room, "a.s"), whole)
        _, again, flat = self.told()
        must(f"{again}, {flat}", again == status)
        bare = [it.partition("    # ")[0] for it in record.splitlines()]
        must(f"{record}", bare == [it.partition("    # ")[0] for it in read(os.path.join(self.room, "a.s.1.failed")).splitlines()])

    def test_steps_behind_included_files(self):
        """The lines of a program's own file count as they stand there, whatever is included above."""
        self.put()
        write(os.path.join(self.room, "a.s"), MAIN.replace("0x80002008 _", "0x80002000 _"))
        found, status, lines = self.told()
        must(f"{status}, {lines}", status == 1 and any(it.endswith("store 0x80002000 0x0 -> done    # a.s:6: sd x0, 0(s0)") for it in lines))

    def test_faults_of_included_files(self):
        for name, text, wanted in (
            ("below/sbi.inc", CODE + "\n        moo\n", "below/sbi.inc:5:9: no instruction has this mnemonic: 'moo'"), ("numbers.inc", "        .equ LIMIT, 1 / 0\n", "numbers.inc:1:23: a division by 0: '/ 0'"),
            ("numbers.inc", None, "below/board.inc:2:9: below/../numbers.inc: no such file"), ("below/sbi.inc", "#! end quiet\n", "below/sbi.inc:1: conditions stand in the program's own file"),
            ("below/sbi.inc", "  .include \"sbi.inc\"\n", "a.s: too many files include one another"), ("a.s", MAIN + "        .include numbers\n", "a.s:8:9: no directive is called so: '.include numbers'"),
            ("a.s", MAIN.replace("ebreak", "moo"), "a.s:7:9: no instruction has this mnemonic: 'moo'"), ("a.s", MAIN + "/* .include \"none\" */ # .include \"none\"\n        .asciz \".include\"; moo\n", "a.s:9:28: no instruction has this mnemonic: 'moo'"),
        ):  # fmt: skip
            self.put()
            path = os.path.join(self.room, name)
            if text is None:
                os.remove(path)
            else:
                write(path, text)
            found, status, lines = self.told()
            wanted = wanted.replace("numbers.inc:1", "below/../numbers.inc:1")
            must(f"{name}: {status}, {lines}", status == 1 and found == [f"not ok 1 - {wanted}"])

    def test_files_by_other_folders(self):
        """A name counts from the folder of the file that names it; one that begins with a slash is whole."""
        self.put()
        write(os.path.join(self.room, "a.s"), MAIN.replace("below/sbi.inc", os.path.join(self.room, "below/sbi.inc")))
        os.mkdir(os.path.join(self.room, "other"))
        lines, status = explored(os.path.join(self.room, "other"), "../a.s")
        must(f"{status}, {lines}", status == 1 and points(lines)[0].startswith("not ok 1 - ../a.s: line 1: "))
