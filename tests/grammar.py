"""Judges a script by docs/FORMATS.md alone, in plain Python: what tests compare the built program with.

`judged(text)` answers the first fault of a script, or its kind. It is written for reading: a script is cut into lines,
a line into words, and the tests of a line stand in the order in which its first fault is looked for."""
import os
import re

MOST_BYTES = 16_777_216
MOST = (1 << 64) - 1
LAST_HART = 127
# ASIDLEN and WIDTH where a board line leaves them out.
USUAL_SPACES = (16, 39)


def widths():
    """What that page says that a WIDTH may be."""
    with open(os.path.join(os.path.dirname(os.path.realpath(__file__)), "../docs/FORMATS.md"), encoding="utf-8") as page:
        row = re.search(r"^\| WIDTH \|.*\|([^|]*)\|$", page.read(), re.MULTILINE)
    return {int(it) for it in re.findall(r"\d+", row[1])}


WIDTHS = widths()

# How many words may follow an operation, at least and at most.
COUNTS = {
    "ecall": (2, 8), "load": (1, 1), "store": (2, 2), "fetch": (1, 1), "satp": (1, 1), "sie": (1, 1), "sstatus": (1, 1), "sip": (0, 0),
    "clearssip": (0, 0), "sfence": (2, 2), "fencei": (0, 0), "wfi": (0, 0), "poll": (0, 0), "serve": (0, 0), "advance": (0, 0), "tick": (1, 1),
    **{f"amo{it}{width}": (2, 2) for width in ("", ".w") for it in ("swap", "add", "and", "or", "xor", "min", "max", "minu", "maxu")},
    "amocas": (3, 3), "store1": (2, 2), "store2": (2, 2), "store4": (2, 2),
}  # fmt: skip
CLOCKS = {"tick"}
FIRMWARES = {"poll", "serve", "advance"}
GUESTS = set(COUNTS) - CLOCKS - FIRMWARES

# How many words follow a reply.
REPLIES = {"ret": 2, "entry": 3, "value": 1, "fault": 1, "moved": 1, "refused": 1}
REPLIES |= {"waiting": 0, "gone": 0, "served": 0, "done": 0}

EMPTY, PROGRAM, SCHEDULE, TRACE = "empty", "program", "schedule", "trace"


class Fault(Exception):
    """A fault's number, and its line."""

    def __init__(self, number, line=None):
        super().__init__(line, number)
        self.number = number
        self.line = line


class Script:
    """A script without a fault: the numbers of its board line, its kind, and how many lines it has after that one."""

    def __init__(self, board):
        self.board = board
        self.kind = EMPTY
        self.lines = 0
        self.block = None
        self.addresses = set()
        self.has_clock = False

    def is_good_board(self):
        harts, pages, limit, boot_hart, boot_addr, _, asid_len, width = self.board
        sizes = 1 <= harts <= 128 and 1 <= pages <= 256 and 1 <= limit <= 1_000_000
        return sizes and asid_len <= 16 and width in WIDTHS and boot_hart < harts and boot_addr % 2 == 0 and 0 <= boot_addr - 0x80000000 < 4096 * pages


def lines_of(text):
    """The lines, without their ends."""
    *ended, last = text.split(b"\n")
    lines = [line[:-1] if line.endswith(b"\r") else line for line in ended]
    return lines + [last] if last else lines


def words_of(line):
    return line.partition(b"#")[0].decode("ascii").replace("\t", " ").split(" ")


def value_of(digits, allowed):
    """The number that digits are, the allowed ones being those of its radix. None: they are no digits."""
    if digits == "" or not all(it in allowed for it in digits):
        return None
    value = 0
    for it in digits:
        value = value * len(allowed) + allowed.index(it)
    return value


def number(word):
    """The number that a word is, or None."""
    if word.startswith("0x"):
        return value_of(word[2:].lower(), "0123456789abcdef")
    return value_of(word, "0123456789")


def must_be_number(word, most=MOST):
    value = number(word)
    if value is None or value > most:
        raise Fault(4)
    return value


def must_be_signed(word):
    is_below = word.startswith("-")
    value = value_of(word[is_below:], "0123456789")
    if value is None or value >= (1 << 63) + is_below:
        raise Fault(4)


def must_count(words, least, most):
    if not least <= len(words) <= most:
        raise Fault(5)


# ---- the words of a line


def operation(words, allowed):
    """An operation's words, of which the first names it."""
    if not words:
        raise Fault(5)
    name, *rest = words
    if name not in allowed:
        raise Fault(3)
    must_count(rest, *COUNTS[name])
    for word in rest:
        if name == "sfence" and word == "-":
            continue
        must_be_number(word, 1 if name == "sstatus" else MOST)


def reply(words):
    if not words:
        raise Fault(5)
    name, *rest = words
    if name not in REPLIES:
        raise Fault(3)
    must_count(rest, REPLIES[name], REPLIES[name])
    if name == "ret":
        must_be_signed(rest.pop(0))
    for word in rest:
        must_be_number(word)


def board(words):
    name, *rest = words
    if name != "board":
        raise Fault(2)
    must_count(rest, 6, 8)
    if len(rest) == 7:
        raise Fault(5)
    return [*(must_be_number(word) for word in rest), *USUAL_SPACES][:8]


def head(script, words):
    """A block's head."""
    name, *rest = words
    if name == "at":
        must_count(rest, 1, 1)
        address = must_be_number(rest[0])
        if address in script.addresses:
            raise Fault(7)
        script.addresses.add(address)
        script.block = GUESTS
    else:
        must_count(rest, 0, 0)
        if script.has_clock:
            raise Fault(7)
        script.has_clock = True
        script.block = CLOCKS


def actor_line(words):
    actor, *rest = words
    arrow = rest.index("->") if "->" in rest else len(rest)
    if actor == "cut":
        must_count(rest[:arrow], 0, 0)
    else:
        if actor != "c":
            must_be_number(actor, LAST_HART)
        operation(rest[:arrow], COUNTS)
    if arrow < len(rest):
        reply(rest[arrow + 1 :])


def kind_of(script, words):
    """The kind of script that a line belongs to."""
    if words[0] in ("at", "clock"):
        return PROGRAM
    if words[0] in ("c", "cut") or words[0][0] in "0123456789":
        return TRACE if "->" in words else SCHEDULE
    return PROGRAM if script.kind == PROGRAM else None


def later_line(script, words):
    """A line after the board line."""
    kind = kind_of(script, words)
    if kind is None or script.kind not in (EMPTY, kind):
        raise Fault(6)
    script.kind = kind
    script.lines += 1
    if kind != PROGRAM:
        actor_line(words)
    elif words[0] in ("at", "clock"):
        head(script, words)
    else:
        operation(words, script.block)


# ---- a script


def read_line(script, line):
    """The script after a line more. None: there is no board line yet."""
    if not all(0x20 <= byte <= 0x7E or byte == 0x09 for byte in line):
        raise Fault(1)
    words = [word for word in words_of(line) if word]
    if not words:
        return script
    if script is None:
        return Script(board(words))
    later_line(script, words)
    return script


def judged(text):
    """The script that the bytes are. Raises its first Fault, whose line is 0 where it is the script as a whole."""
    if len(text) > MOST_BYTES:
        raise Fault(8, 0)
    script = None
    for count, line in enumerate(lines_of(text), 1):
        try:
            script = read_line(script, line)
        except Fault as fault:
            raise Fault(fault.number, count) from None
    if script is None:
        raise Fault(2, 0)
    return script


# The kinds that each subcommand takes.
TAKEN = {"run": (EMPTY, PROGRAM), "replay": (EMPTY, SCHEDULE), "check": (EMPTY, TRACE)}


def said_of(text, subcommand):
    """What the program says of a script that its subcommand doesn't take, or b"" where it takes it."""
    try:
        script = judged(text)
    except Fault as fault:
        return b"sbiboard: line %d: fault %d\n" % (fault.line, fault.number)
    if script.kind not in TAKEN[subcommand]:
        return b"sbiboard: wrong kind of script\n"
    return b"" if script.is_good_board() else b"sbiboard: bad board\n"
