"""Traces that agree, and traces that differ."""
from .fixtures import BAD_BOARD, BOARD, EVERY, TOO_LONG, TRACE, WRONG_KIND, Test, checked, every, must_agree, ran, script

# Traces and what else may be given, with the status, and what is printed and said.
CHECKED = [
    (TRACE, 0, b"agrees 2\n", b""),
    (TRACE[:-1], 0, b"agrees 2\n", b""),
    (TRACE.replace(b"\n", b" # \r\n\r\n"), 0, b"agrees 2\n", b""),
    (BOARD, 0, b"agrees 0\n", b""),
    (TRACE.replace(b"0x1000000", b"0x2000000"), 5, b"differs at line 3: ret 0 0x1000000\n", b""),
    (TRACE.replace(b"0x0\n0 ecall", b"0x1\n# no step\n0 ecall"), 5, b"differs at line 2: entry 0x80000000 0 0x0\n", b""),
    (TRACE + b"0 sip -> done\n0 sip -> done", 5, b"differs at line 4: value 0x0\n", b""),
    (b"# one\n\n" + TRACE + b"\n \t# seven\r\n0 sip -> done", 5, b"differs at line 8: value 0x0\n", b""),
    (TRACE + b"0 advance -> refused 3\n", 5, b"differs at line 4: refused 2\n", b""),
    (TRACE + b"0 sip -> refused 18446744073709551615", 5, b"differs at line 4: value 0x0\n", b""),
    (TRACE[: -len(b" ret 0 0x1000000\n")], 1, b"", b"sbiboard: line 3: fault 5\n"),
    (TRACE.replace(b"0x1000000", b"-1"), 1, b"", b"sbiboard: line 3: fault 4\n"),
    (TRACE.replace(b"ret 0", b"ret x"), 1, b"", b"sbiboard: line 3: fault 4\n"),
    (TRACE + b"0 sip\n", 1, b"", b"sbiboard: line 4: fault 6\n"),
    (b"", 1, b"", b"sbiboard: line 0: fault 2\n"),
    (BOARD + b"0 advance\n", 1, b"", WRONG_KIND),
    (BOARD + b"at 0x80000000\nsip\n", 1, b"", WRONG_KIND),
    (BOARD + b"clock\n", 1, b"", WRONG_KIND),
    (TRACE.replace(b"board 1", b"board 0"), 1, b"", BAD_BOARD),
    # refusals agree as any reply does, also those for want of room in the history
    (TRACE.replace(b" 10 0 0x8", b" 1 0 0x8").replace(b"ret 0 0x1000000", b"refused 4"), 0, b"agrees 2\n", b""),
    (TRACE.replace(b" 10 0 0x8", b" 1 0 0x8"), 5, b"differs at line 3: refused 4\n", b""),
]


def other_replies(reply):
    """Replies that are another one, each by one of its words."""
    name, *numbers = reply.split()
    yield b"done" if reply != b"done" else b"value 0x0"
    for at, number in enumerate(numbers):
        value = int(number, 0)
        for other in (value + 1, value - 1 if value else 2, value ^ 1 << 8, value ^ 1 << 32, value ^ 1 << 62):
            yield b" ".join([name, *numbers[:at], b"%d" % other, *numbers[at + 1 :]])


class Traces(Test):
    def test_long_traces(self):
        """With ample memory a trace of any length is checked, and a reply that differs is found, whether first or last."""
        head = b"board 1 1 1000000 0 0x80000000 1\n0 advance -> entry 0x80000000 0 1\n"
        good, other = b"0 ecall 0x10 0 -> ret 0 0x1000000\n", b"0 ecall 0x10 0 -> ret 0 0x1000001\n"
        for times in (1_000, (TOO_LONG - 1 - len(head)) // len(good)):
            checked(self.room, head + good * times, 0, b"agrees %d\n" % (times + 1), b"")
            differs = b"differs at line %d: ret 0 0x1000000\n"
            checked(self.room, head + good * (times - 1) + other, 5, differs % (times + 2), b"")
            checked(self.room, head + other + good * (times - 1), 5, differs % 3, b"")

    def test_traces(self):
        for text, status, out, said in CHECKED:
            checked(self.room, text, status, out, said)

    def test_each_reply_changed(self):
        """A long replay agrees, and no longer where the reply of any one of its lines is another one by one of its words."""
        lines = ran(["replay", script(self.room, every(len(EVERY.splitlines()) + 1, 1_000))]).stdout.splitlines(keepends=True)
        must_agree(self.room, b"".join(lines))
        steps = [at for at, line in enumerate(lines) if b" -> " in line]
        for at in steps:
            step, _, reply = lines[at].partition(b" -> ")
            for other in other_replies(reply.strip()):
                text = b"".join([*lines[:at], step + b" -> " + other + b"\n", *lines[at + 1 :]])
                checked(self.room, text, 5, b"differs at line %d: %s" % (at + 1, reply), b"")
