"""`--explain`: each fault of a script by its line and column, with what may be meant. The first fault is the one that the proved
program says. Its line is mended or taken out, and the rest is read again."""
import difflib
import os
import re
import subprocess
import tempfile

from builds import program_of
from commands import OF_PROGRAM, TESTER, constant
from kinds import ENDS, FIRMWARE_WORDS, MARKS, OPERATIONS, REPLIES, RULES, UNALLOWED, kind_of_text, lines_of
from points import Point, read_points

# So many faults are told at most, and a file is read so often.
MOST_TOLD, MOST_READ = 20, 200
BAD_BYTE, NO_BOARD, UNKNOWN, NO_NUMBER, COUNT, KIND, SECOND = range(1, 8)
GOOD_BOARD = b"board 128 256 1000000 0 0x80000000 0"
# The numbers of a board line, in their order.
BOARD_WORDS = ("HARTS", "PAGES", "LIMIT", "BOOTHART", "BOOTADDR", "BOOTOPAQUE", "ASIDLEN", "WIDTH")
RAM, PAGE = 0x80000000, 4096
TASK_OF = {"schedule": "replay", "trace": "check", "program": "run"}
ARROW = "the arrow is '->', between blanks"
WITHOUT_REPLIES = " Without its replies it is a schedule: sed 's/ -> .*//'"
# How many numbers follow each word that begins a line, an operation or a reply, and how these are written.
COUNTS = {**OPERATIONS, **{it: (many, many) for it, many in REPLIES.items()}, "board": (6, 8), "at": (1, 1), "clock": (0, 0), "cut": (0, 0)}
FORMS = {
    "board": "board HARTS PAGES LIMIT BOOTHART BOOTADDR BOOTOPAQUE [ASIDLEN WIDTH]", "at": "at ADDR", "ecall": "ecall EID FID [A0 .. A5]", "load": "load VA", "fetch": "fetch VA",
    "satp": "satp VALUE", "sfence": "sfence VA ASID", "sie": "sie VALUE", "sstatus": "sstatus VALUE", "amocas": "amocas VA OLD NEW", "tick": "tick N",
    **{it: f"{it} VA VALUE" for it, counts in OPERATIONS.items() if counts == (2, 2) and it != "sfence"},
    "ret": "ret ERROR VALUE", "entry": "entry ADDR HART OPAQUE", "value": "value V", "fault": "fault CAUSE", "moved": "moved S", "refused": "refused N",
}  # fmt: skip
# How each condition is written.
CONDITIONS = {
    "never": "never PATTERN [after PATTERN]", "some": "some PATTERN", "each": "each STEP -> REPLY", "before": "before PATTERN , PATTERN", "end": "end END ..", "can": "can end [WAY ..]", "steady": "steady [STEP]", "firm": "firm [STEP]", "lenient": "lenient [STEP]",
}  # fmt: skip
# The names of extensions, whose ids scripts have.
EXTENSIONS = {"BASE": "0x10", "TIME": "0x54494d45", "IPI": "0x735049", "RFENCE": "0x52464e43", "HSM": "0x48534d", "SRST": "0x53525354"}
# What each operation that reads answers, for an answer without its word.
ANSWERS = {"load": "value", "fetch": "value", "sip": "value", "advance": "moved", "ecall": "ret 0"}


class Found:
    """A fault: its line and column, the word there, what it is, and its number (None: of a condition or of the board)."""

    def __init__(self, line, column, what, fault=None):
        self.line, self.column, self.what, self.fault = line, column, what, fault
        word = re.search(r" '(.*)'(?: \(fault \d\))?$", what)
        self.word = word[1] if word else ""
        # Of a line of another kind: the script's kind, its own, and the other lines of which the same is true.
        self.kinds, self.also = None, []


# ---- who reads


def said_by_tester(program, text):
    """The first fault, in the words of `test`."""
    with tempfile.TemporaryDirectory(prefix="sbiboard-explain.") as room:
        words = ["sbiboard", "--times", "0", "--failed", room, "/dev/stdin"]
        out = subprocess.run(words, executable=program, input=text, stdout=subprocess.PIPE, stderr=subprocess.DEVNULL, check=False).stdout
    for point in read_points(out.decode("utf-8", "replace").split("\n"), ["/dev/stdin"]):
        if isinstance(point, Point) and not point.is_ok and point.condition is None:
            number = re.search(r" \(fault (\d)\)$", point.why)
            if point.column or number:
                return Found(point.line or 1, point.column or 1, point.why, int(number[1]) if number else None)
            if point.why.startswith("bad board: "):
                return Found(*place_on_board(text, point.why.split()[2]), point.why)
    return None


def said_by_program(program, text):
    """The first fault as the proved program says it, with the word that is the likeliest."""
    task = "replay" if kind_of_text(text) == "trace" else "check"
    said = subprocess.run(["sbiboard", task, "/dev/stdin"], executable=program, input=text, stdout=subprocess.DEVNULL, stderr=subprocess.PIPE, check=False).stderr.decode()
    found = re.match(r"sbiboard: line (\d+): fault (\d)\n", said)
    if not found:
        return Found(*place_on_board(text, "HARTS"), "bad board: a number is outside its limits") if said == "sbiboard: bad board\n" else None
    line, fault = int(found[1]), int(found[2])
    if not line:
        return Found(1, 1, f"{meaning(fault)} (fault {fault})", fault)
    row = lines_of(text)[line - 1]
    column, word = suspect(row, fault)
    return Found(line, column, f"{meaning(fault)}" + (f": '{word}'" if word else "") + f" (fault {fault})", fault)


def meaning(fault):
    """What a fault's number means, as the help has it."""
    return re.search(rf"^  {fault}  (.*)$", constant(OF_PROGRAM, "NUMBERS"), re.M)[1]


def words_of(row):
    """The words of a line, each with its column."""
    said = row.partition(b"#")[0].decode("latin-1")
    return [(found.start() + 1, found[0]) for found in re.finditer(r"[^ \t]+", said)]


def suspect(row, fault):
    """The column and the word of a line that most likely has the fault."""
    if fault == BAD_BYTE:
        return UNALLOWED.search(row).start() + 1, ""
    words = words_of(row)
    known = {"c", "cut", "at", "clock", "->", "-", *OPERATIONS, *REPLIES}
    wanted = {UNKNOWN: lambda it: it not in known and not is_number(it), NO_NUMBER: lambda it: it not in known and not is_number(it)}.get(fault)
    return next(((column, word) for column, word in words if wanted and wanted(word)), words[0] if words else (1, ""))


def is_number(word):
    return bool(re.fullmatch(r"0x[0-9A-Fa-f]+|[0-9]+", word))


def place_on_board(text, name):
    """The line and the column of a number of the board line."""
    for line, row in enumerate(lines_of(text), 1):
        if words := words_of(row):
            at = BOARD_WORDS.index(name) + 1 if name in BOARD_WORDS else 0
            return line, words[at][0] if at < len(words) else 1
    return 1, 1


# ---- the faults of a text


def faults(read, text):
    """All faults of a text, as they are found by reading it again and again. Of lines of another kind the first is told."""
    lines, found = lines_of(text), []
    for turn in range(MOST_READ):
        fault = read(b"\n".join(lines))
        if fault is None or len(found) == MOST_TOLD:
            break
        if fault.fault == KIND:
            fault.kinds = kinds_at(lines, fault.line)
        like = next((it for it in found if it.kinds and it.kinds == fault.kinds), None)
        if like:
            like.also.append(fault.line)
        else:
            found.append(fault)
        if not mend(lines, fault, turn):
            break
    return sorted(found, key=lambda it: (it.line, it.column))


def kinds_at(lines, line):
    """The kind that the first line behind the board line gives a script, and the kind of this line."""
    rows = filter(None, ([word for _, word in words_of(it)] for it in lines))
    next(rows)
    return kind_of_line(next(rows)), kind_of_line([word for _, word in words_of(lines[line - 1])])


def kind_of_line(words):
    """The kind of script that a line behind the board line belongs to; an operation of a block alone to none."""
    if is_step(words):
        return "trace" if "->" in words else "schedule"
    return "program" if words[0] in ("at", "clock") else ""


def is_step(words):
    return words[0] in ("c", "cut") or words[0][0].isdigit()


def mend(lines, fault, turn):
    """Takes the fault out of the lines. Returns whether that is possible."""
    at = fault.line - 1
    if not 0 <= at < len(lines) or fault.what.startswith("more than "):
        return False
    row, first = lines[at], next((at for at, it in enumerate(lines) if words_of(it)), None)
    if fault.fault == BAD_BYTE:
        lines[at] = UNALLOWED.sub(b" ", row.removeprefix(b"\xef\xbb\xbf"))
    elif first is None:
        return False
    elif at == first or fault.fault == NO_BOARD:
        lines[at] = GOOD_BOARD
    elif fault.fault != KIND and words_of(row)[:1] and words_of(row)[0][1] == "at":
        lines[at] = b"at 0x%x" % (0xFFFF_0000_0000_0000 + turn)
    elif fault.fault != KIND and words_of(row) and is_step([word for _, word in words_of(row)]):
        # (the first step tells the script's kind)
        lines[at] = b"0 sip -> done" if any(word == "->" for _, word in words_of(row)) else b"0 sip"
    else:
        lines[at] = b""
        # (the ticks of a second clock would be a hart's)
        while fault.fault == SECOND and at + 1 < len(lines) and words_of(lines[at + 1])[:1] and words_of(lines[at + 1])[0][1] != "at":
            at += 1
            lines[at] = b""
    return lines[fault.line - 1] != row


# ---- what may be meant


def likeness(word, other):
    return difflib.SequenceMatcher(None, other, word).ratio()


def alike(word, words):
    """The words that are most like this one: a second one if it is nearly as much so, and no longer form of the first."""
    given, word = word, word.lower()
    found = [word] if word in words else difflib.get_close_matches(word, words, n=2, cutoff=0.6)
    found = found[:1] + [it for it in found[1:] if likeness(word, it) > likeness(word, found[0]) - 0.1 and not it.startswith(found[0])]
    return f"did you mean {' or '.join(repr(it) for it in found)}?" if found and found != [given] else ""


def hint(fault, row):
    """What may be meant where a line has a fault, or nothing."""
    words = [word for _, word in words_of(row)]
    if fault.fault is None:
        return of_board(fault, words) if fault.what.startswith("bad board") else of_condition(fault, condition_words(row))
    if fault.fault == BAD_BYTE:
        return of_byte(row[fault.column - 1 :])
    if fault.fault == UNKNOWN:
        return of_name(fault, words)
    if fault.fault == NO_NUMBER:
        return of_number(fault.word, bool(words) and words[0] == fault.word)
    if fault.fault == COUNT:
        return of_count(words)
    if fault.fault == KIND:
        return of_line(fault.kinds, words)
    return (alike(fault.word, ["board"]) or "a script begins with '" + FORMS["board"] + "'") if fault.fault == NO_BOARD else ""


def of_byte(rest):
    if rest.startswith(b"\xef\xbb\xbf"):
        return "save the file as UTF-8 without a byte order mark"
    if rest[:2] in (b"\xff\xfe", b"\xfe\xff") or rest[:1] == b"\0":
        return "the file is UTF-16: save it as ASCII"
    return "a blank that only looks like one: write a plain one" if rest.startswith(b"\xc2\xa0") else "a script is ASCII, its comments too"


def condition_words(row):
    """The words of a condition, without `maybe`."""
    words = row.partition(b"#!")[2].partition(b"#")[0].decode("latin-1").replace(",", " , ").split()
    return words[words[:1] == ["maybe"] :]


def of_condition(fault, words):
    """Of a fault of a condition, which has no number."""
    what, word = fault.what.partition(":")[0], fault.word
    if what == "unknown condition":
        return alike(word, [*RULES]) or "a condition begins with never, some, each, before, end, can end, steady, firm or lenient"
    if what in ("too few or too many words", "no comma") and words and words[0] in CONDITIONS:
        return f"it is '{CONDITIONS[words[0]]}'"
    if has_other_arrow([word]):
        return ARROW
    if what == "not a number":
        return words[1:2] == [word] and of_actor(word) or of_number(word, False) or alike(word, [*OPERATIONS, *REPLIES, *MARKS])
    if words[:1] == ["can"] and word in ENDS:
        return "a limit ends no order" if word == "history-full" else f"did you mean 'can end {word}'?"
    return alike(word, [*RULES, *ENDS, *OPERATIONS, *REPLIES, *MARKS])


def of_name(fault, words):
    """Of an operation or a reply that is unknown, or not allowed in its block."""
    arrow = words.index("->") if "->" in words else len(words)
    if fault.word in words[arrow + 1 :]:
        if is_number(fault.word):
            answer = ANSWERS.get(words[1] if arrow > 1 else "", "value")
            return f"no reply word stands before it: did you mean '{answer} {fault.word}'?"
        return alike(fault.word, REPLIES)
    if has_other_arrow(words):
        return ARROW
    if fault.word == "cut":
        return "a cut stands alone, without an actor"
    if fault.word in FIRMWARE_WORDS:
        return "the firmware of a program does it by itself"
    if fault.word == "tick" or fault.word in OPERATIONS:
        return "'tick' stands in the block of the clock, and there nothing else does"
    if fault.word in REPLIES:
        return "before a reply an arrow stands: '->'"
    return alike(fault.word, OPERATIONS)


def of_number(word, is_actor):
    if word in EXTENSIONS:
        return f"did you mean '{EXTENSIONS[word]}', the id of {word}?"
    if is_actor:
        return of_actor(word) or "an actor is c, or the number of a hart: at most 127"
    if word.startswith("0X"):
        return f"did you mean '0x{word[2:]}'?"
    if re.fullmatch(r"[+\d][\d_]*", word) and not word.isdigit():
        return f"did you mean '{re.sub('[+_]', '', word)}'?"
    return f"did you mean '0x{word}'?" if re.fullmatch(r"[0-9A-Fa-f]{1,16}", word) and not word.isdigit() else ""


def of_count(words):
    """Of a line with too many or too few words: the form of the part that has them."""
    if words[-1:] == ["->"]:
        return "behind the arrow a reply is wanted, such as 'done'"
    if has_other_arrow(words):
        return ARROW
    arrow = words.index("->") if "->" in words else len(words)
    begin = int(bool(words) and is_step(words) and words[0] != "cut")
    for name, *numbers in filter(None, (words[begin:arrow], words[arrow + 1 :])):
        least, most = COUNTS.get(name, (0, len(words)))
        if not least <= len(numbers) <= most:
            return f"it is '{FORMS.get(name, name)}'"
    return ""


def has_other_arrow(words):
    return any("->" in it and it != "->" or it in ("=>", "=", ">") for it in words)


def of_line(kinds, words):
    """Of a line that is of another kind than the script, whose first line behind the board line says which that is."""
    begun, kind = kinds
    if kind == "program":
        return f"a block is of a program, and this script begins with a step, as a {begun} does"
    if begun == "program" and kind:
        return "an operation of a program has no actor: its block says who does it"
    if kind == "trace":
        return "it has a reply, and the first step has none, as in a schedule"
    if kind == "schedule" and has_other_arrow(words):
        return ARROW
    return "it has no reply, and the first step has one, as in a trace" if kind else of_actor(words[0])


def of_actor(word):
    """Of a line's first word, where it makes the line one of another kind."""
    if found := re.fullmatch(r"(?i)(?:[+]|hart|h|cpu|core)_?(\d+):?", word):
        return f"an actor is c, or the number of a hart: did you mean '{found[1]}'?"
    if word in ("C", "clk", "timer"):
        return "an actor is c, or the number of a hart: did you mean 'c'?"
    if word in OPERATIONS:
        return "a step begins with its actor, and an operation of a program stands in a block"
    return alike(word, ["at", "clock", "cut", "board"])


def of_board(fault, words):
    boot = words[5] if len(words) > 5 else ""
    return f"did you mean '0x{boot}'?" if "BOOTADDR" in fault.what and is_hex_in_ram(boot, 256) else ""


def is_hex_in_ram(word, pages):
    """Whether a decimal number would be an address of the RAM, if it were hexadecimal."""
    return word.isdigit() and int(word) < RAM and RAM <= int(word, 16) < RAM + PAGE * pages


# ---- what is no fault


def notes(text):
    """What is no fault, and yet surely isn't meant: decimal addresses that are hexadecimal, and harts that the board hasn't."""
    rows = [(line, words_of(row)) for line, row in enumerate(lines_of(text), 1) if words_of(row)]
    if not rows or rows[0][1][0][1] != "board" or not all(is_number(word) for _, word in rows[0][1][1:]) or len(rows[0][1]) < 7:
        return
    harts, pages = (int(word, 0 if "x" in word else 10) for _, word in rows[0][1][1:3])
    for line, row in enumerate(lines_of(text), 1):
        head, _, asked = row.partition(b"#!")
        for found in re.finditer(rb"[^ \t,]+", asked.partition(b"#")[0].partition(b"->")[0] if not head.strip() else b""):
            if is_hex_in_ram(found[0].decode("latin-1"), pages):
                yield line, len(head) + found.start() + 3, said_of_decimal(found[0].decode("latin-1"))
    for line, words in rows[1:]:
        column, actor = words[0]
        if is_number(actor) and harts <= int(actor, 0 if "x" in actor else 10) <= 127:
            yield line, column, f"the board has no hart {actor}: its harts are 0 to {harts - 1}"
        for column, word in words[1:]:
            if is_hex_in_ram(word, pages) and not any(it == "tick" for _, it in words):
                yield line, column, said_of_decimal(word)


def said_of_decimal(word):
    return f"{word} is decimal, {int(word):#x}, and in no page of the RAM: did you mean '0x{word}'?"


# ---- the whole


def reader(program, crate):
    """Who reads a text: `test`, where it is built, by a program of this crate or else one that is there."""
    testers = [program] if crate == TESTER else [program_of(TESTER), program_of(TESTER, "tried")]
    tester = next((it for it in testers if os.access(it, os.X_OK)), None)
    return (lambda text: said_by_tester(tester, text)) if tester else lambda text: said_by_program(program, text)


def explained(program, command, name, text):
    """What is said of a script of this name: its faults, a kind that the task doesn't take, and what surely isn't meant."""
    lines, told = lines_of(text), []
    for it in faults(reader(program, command.program), text):
        meant = hint(it, lines[it.line - 1] if it.line <= len(lines) else b"")
        also = f"{len(it.also)} more lines, from line {it.also[0]} on" if it.also[1:] else f"line {it.also[0]}" if it.also else ""
        told.append((it.line, it.column, it.what + (f": {meant}" if meant else "") + (f" (also {also})" if also else "")))
    return said_of(name, [*told, *of_kind(command, text), *notes(text)])


def of_kind(command, text):
    """What is said of a script without a fault, of a kind that the task doesn't take."""
    kind = kind_of_text(text)
    if kind not in (None, *command.kinds):
        line = [at for at, row in enumerate(lines_of(text), 1) if words_of(row)][1]
        yield line, 1, f"a {kind}, and {command.word} takes a {command.kinds[0]}: did you mean '{TASK_OF[kind]}' or 'test'?" + (WITHOUT_REPLIES if (kind, command.word) == ("trace", "replay") else "")


def said_of(name, told):
    return "".join(f"{name}:{line}:{column}: {what}\n" for line, column, what in sorted(set(told)))
