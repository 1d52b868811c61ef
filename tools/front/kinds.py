"""Looks at FILEs before a program is there: whether they can be read, and of which kind they surely are.

A kind is told of a script without any fault alone: of another one the program says the fault first.
"""
import os
import re
import stat

MOST_BYTES = 16_777_216

# (numbers that are longer are left to the program)
NUMBER = "(?:0x0*[0-9A-Fa-f]{1,16}|0*[0-9]{1,19})"
HART = "(?:0x0*[0-7]?[0-9A-Fa-f]|0*(?:[0-9]{1,2}|1[01][0-9]|12[0-7]))"


# The words of scripts: how many numbers follow each operation, at least and at most, and each reply; what may stand in a condition.
GUEST_WORDS = {
    "ecall": (2, 8), "load": (1, 1), "store": (2, 2), "fetch": (1, 1), "satp": (1, 1), "sfence": (2, 2), "fencei": (0, 0), "sie": (1, 1),
    "sstatus": (1, 1), "sip": (0, 0), "clearssip": (0, 0), "wfi": (0, 0),
    **{f"amo{it}{width}": (2, 2) for width in ("", ".w") for it in ("swap", "add", "and", "or", "xor", "min", "max", "minu", "maxu")},
    "amocas": (3, 3), "store1": (2, 2), "store2": (2, 2), "store4": (2, 2),
}  # fmt: skip
FIRMWARE_WORDS = {"poll": (0, 0), "serve": (0, 0), "advance": (0, 0)}
OPERATIONS = {**GUEST_WORDS, **FIRMWARE_WORDS, "tick": (1, 1)}
REPLIES = {"ret": 2, "entry": 3, "waiting": 0, "gone": 0, "value": 1, "fault": 1, "served": 0, "moved": 1, "done": 0, "refused": 1}
RULES, ENDS = ("never", "some", "each", "before", "end", "can", "steady", "firm", "lenient", "after", "maybe"), ("off", "history-full", "quiet", "stuck")
MARKS = ("stale", "missed", "unsteady", "unfirm", "unlenient")


def with_numbers(name, least, most=None):
    return f"{re.escape(name)}(?: {NUMBER}){{{least},{least if most is None else most}}}"


# Those whose numbers aren't any.
ODD = {"sstatus": "sstatus (?:0x)?0*[01]", "sfence": f"sfence (?:{NUMBER}|-) (?:{NUMBER}|-)", "ret": f"ret -?0*[0-9]{{1,18}} {NUMBER}"}
TICK = with_numbers("tick", 1)
GUEST = "|".join(ODD.get(it) or with_numbers(it, *counts) for it, counts in GUEST_WORDS.items())
STEP = f"(?:cut|(?:c|{HART}) (?:{GUEST}|{TICK}|{'|'.join(FIRMWARE_WORDS)}))"
REPLY = "|".join(ODD.get(it) or with_numbers(it, count) for it, count in REPLIES.items())

BOARD = re.compile(f"{with_numbers('board', 6)}|{with_numbers('board', 8)}")
STEPS = {"schedule": re.compile(STEP), "trace": re.compile(f"{STEP} -> (?:{REPLY})")}
BLOCKS = {"at": re.compile(f"at {NUMBER}"), "clock": re.compile("clock")}
IN_BLOCK = {"at": re.compile(GUEST), "clock": re.compile(TICK)}
UNALLOWED = re.compile(rb"[^\t\x20-\x7e]")


def why_unread(path):
    """Why a FILE can't be read, in the words of `test`, or nothing."""
    try:
        if stat.S_ISDIR(os.stat(path).st_mode):
            return "is a directory"
    except FileNotFoundError:
        return "no such file"
    except PermissionError:
        return "permission denied"
    except OSError:
        return "can't be read"
    return "" if os.access(path, os.R_OK) else "permission denied"


def kind_of(path):
    """The kind of the script in a file, where that is sure. (What isn't a regular file can be read but once.)"""
    try:
        if not stat.S_ISREG(os.stat(path).st_mode) or os.path.getsize(path) > MOST_BYTES:
            return None
        with open(path, "rb") as file:
            return kind_of_text(file.read(MOST_BYTES))
    except OSError:
        return None


def lines_of(text):
    """The lines of a script, without their ends."""
    *ended, last = text.split(b"\n")
    return [line[:-1] if line.endswith(b"\r") else line for line in ended] + [last]


def kind_of_text(text):
    lines = lines_of(text)
    if any(UNALLOWED.search(line) for line in lines):
        return None
    lines = [" ".join(line.partition(b"#")[0].decode("ascii").split()) for line in lines]
    lines = [line for line in lines if line]
    if len(lines) < 2 or not BOARD.fullmatch(lines[0]):
        return None
    if lines[1].split()[0] in BLOCKS:
        return "program" if is_program(lines[1:]) else None
    kind = "trace" if "->" in lines[1].split() else "schedule"
    return kind if all(STEPS[kind].fullmatch(line) for line in lines[1:]) else None


def is_program(lines):
    """Whether lines are blocks without a fault, of which no two begin alike."""
    heads, block = set(), None
    for line in lines:
        name = line.split()[0]
        if name not in BLOCKS:
            if not IN_BLOCK[block].fullmatch(line):
                return False
            continue
        head = (name, *(int(it, 16 if it.startswith("0x") else 10) for it in line.split()[1:] if BLOCKS[name].fullmatch(line)))
        if not BLOCKS[name].fullmatch(line) or head in heads:
            return False
        heads.add(head)
        block = name
    return True
