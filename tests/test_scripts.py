"""Scripts that are refused, with the line and the number of their first fault, and those beside them that are taken."""
import os

from . import grammar, scripts
from .fixtures import BOARD, TASKS, TOO_LONG, Test, at_once, checked, must_be, must_have, ran, replayed, script, shown, write

# Texts, with the line and the number of their first fault.
FAULTS = [
    (b"", 0, 2),
    (b"# nothing but a comment\n\n", 0, 2),
    (b"0 advance\n" + BOARD, 1, 2),
    (b"boards 2 1 10 0 0x80000000 0\n", 1, 2),
    (b"\x80" + BOARD, 1, 1),
    (BOARD + b"0 advance\x00\n", 2, 1),
    (BOARD + b"0 advance # caf\xc3\xa9\n", 2, 1),
    (BOARD + b"0 advance\n# \x80\n0 advance\n", 3, 1),
    (BOARD + b"0 advance\n\r0 advance\n", 3, 1),
    (BOARD + b"\n0 fly\n", 3, 3),
    (BOARD + b"c Tick 1\n", 2, 3),
    (BOARD + b"128 advance\n", 2, 4),
    (BOARD + b"0 sstatus 2\n", 2, 4),
    (BOARD + b"c tick 0x\n", 2, 4),
    (BOARD + b"c tick 18446744073709551616\n", 2, 4),
    (b"board 2 1 x 0 0x80000000 0\n", 1, 4),
    (b"board 2 1 10 0 0x80000000\n", 1, 5),
    (BOARD + b"0\n", 2, 5),
    (BOARD + b"0 advance 1\n", 2, 5),
    (BOARD + b"0 ecall 1\n", 2, 5),
    (BOARD + b"0 ecall 1 2 3 4 5 6 7 8 9\n", 2, 5),
    (BOARD + b"advance 0\n", 2, 6),
    (BOARD + b"advance -> done\n", 2, 6),
    (BOARD + b"0 advance\n0 advance -> done\n", 3, 6),
    (BOARD + b"0 advance -> entry 0 0\n", 2, 5),
    (BOARD + b"0 advance ->\n", 2, 5),
    (BOARD + b"0 advance -> ret 0x0 0\n", 2, 4),
    (BOARD + b"0 advance -> entered\n", 2, 3),
    (BOARD + b"at 0x10\nat 16\n", 3, 7),
    (BOARD + b"clock\nclock\n", 3, 7),
    (BOARD + b"at 0x10\npoll\n", 3, 3),
    # the first line with a fault decides, and in it the first test
    (BOARD + b"0 fly\n0 advance\x00\n", 2, 3),
    (BOARD + b"128 fly -> \n", 2, 4),
]


def is_judged(room, place, text):
    """What all tasks say of a text, compared with what the grammar says. A script that is taken prints something."""
    path = os.path.join(room, str(place))
    write(path, text)
    for task in TASKS:
        found, said = ran([task, path]), grammar.said_of(text, task)
        ends = (1,) if said else {"run": (0, 3, 4), "replay": (0, 3), "check": (0, 5)}[task]
        if found.returncode not in ends or bool(found.stdout) == bool(said) or said and found.stderr != said:
            raise AssertionError(f"{task} {text!r}: status {found.returncode}, it said {shown(found.stderr)}, not {said!r}")
    os.remove(path)


class Scripts(Test):
    def test_faults_of_scripts(self):
        for text, line, number in FAULTS:
            for task in TASKS:
                must_be(ran([task, script(self.room, text)]), 1, b"", b"sbiboard: line %d: fault %d\n" % (line, number))

    def test_the_grammar_of_scripts(self):
        """Scripts of all kinds, and with all faults, are judged as `tests/grammar.py` judges them."""
        at_once(lambda it: is_judged(self.room, *it), enumerate(scripts.all_texts()))

    def test_beginnings_of_a_schedule(self):
        """The beginnings of a schedule, by the bytes that are kept: a script, or the line and number of its fault."""
        whole = b"board 1 1 10 0 0x80000000 0x0\n0 advance\n0 ecall 0x10 0\n"
        wanted = {0: (0, 2), **dict.fromkeys(range(1, 5), (1, 2)), **dict.fromkeys(range(5, 27), (1, 5)), 28: (1, 4)}
        wanted |= {**dict.fromkeys((31, 32), (2, 5)), **dict.fromkeys(range(33, 39), (2, 3))}
        wanted |= {**dict.fromkeys((41, 42, *range(47, 54)), (3, 5)), **dict.fromkeys(range(43, 47), (3, 3))}
        for size in range(len(whole) + 1):
            if size in wanted:
                replayed(self.room, whole[:size], 1, b"", b"sbiboard: line %d: fault %d\n" % wanted[size])
            else:
                replayed(self.room, whole[:size], 0, None, b"")

    def test_each_byte_of_a_comment(self):
        """A comment may have printable ASCII and tabs; a line feed ends it, and any other byte is a fault."""
        for byte in range(256):
            text = BOARD + b"# " + bytes([byte])
            if byte in b"\t\n" or 0x20 <= byte <= 0x7E:
                replayed(self.room, text, 0, None, b"")
            else:
                replayed(self.room, text, 1, b"", b"sbiboard: line 2: fault 1\n")

    def test_too_many_bytes(self):
        """One byte more than allowed is fault 8, whatever the bytes are; the last allowed one is read."""
        filled = lambda size: BOARD + b"#" * (size - len(BOARD))
        blanks = b" " * (TOO_LONG - 1)
        replayed(self.room, blanks, 1, b"", b"sbiboard: line 0: fault 2\n")
        replayed(self.room, blanks + b"\x80", 1, b"", b"sbiboard: line 0: fault 8\n")
        replayed(self.room, blanks + b"\x80\x80", 1, b"", b"sbiboard: line 0: fault 8\n")
        must_be(ran(["replay", "/dev/zero"]), 1, b"", b"sbiboard: line 0: fault 8\n")
        replayed(self.room, filled(TOO_LONG), 1, b"", b"sbiboard: line 0: fault 8\n")
        replayed(self.room, b"\x00" * TOO_LONG, 1, b"", b"sbiboard: line 0: fault 8\n")
        checked(self.room, filled(TOO_LONG), 1, b"", b"sbiboard: line 0: fault 8\n")
        must_be(ran(["check", "/dev/zero"]), 1, b"", b"sbiboard: line 0: fault 8\n")
        path = script(self.room, filled(TOO_LONG - 1))
        found = ran(["replay", path])
        must_be(found, 0, None, b"")
        must_have(found.stdout, b"board 2 1 10 0 0x80000000 0x0\n# time 0000000000000000 events       0 ")
        must_be(ran(["check", path]), 0, b"agrees 0\n", b"")
