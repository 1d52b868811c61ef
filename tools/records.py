"""Reads records of calls and entries, as docs/RECORDS.md describes them, and says where one is broken."""
from board_model import ALL, HSM, IPI, RFENCE, SRST

# Return addresses of callers, from the innermost one.
CALLERS = ("ra", *(f"ra{place}" for place in range(2, 9)))
NOTES = ("time", "sie", "sip", "sstatus", "satp", "sstc", "pc", *CALLERS, "firmware")
COUNTS = {"call": 8, "ret": 2, "entry": 3, "satp": 1, "sfence": 2, "fencei": 0, "sinval": 2, "winval": 0, "invalir": 0}
# Lines of page tables, which a trace has nothing of.
OF_TABLES = ("satp", "sfence", "fencei", "sinval", "winval", "invalir", "store")
ENDS = ("limit", "off", "closed")
# How records without a line `m end` say it.
ENDED = {"# ended: the limit of ": "limit", "# ended: the machine was switched off": "off"}
MOST_HARTS = 128
# A return whose answer wasn't seen.
UNSEEN = (None, None)


class Broken(Exception):
    """A record's line that can't be: its number, and why."""

    def __init__(self, number, text):
        super().__init__(f"line {number}: {text}")


class Line:
    """One line: its number, the hart (its place among the record's; None for the machine), the kind, the numbers, the notes.
    `reply` is the line of a call's return, and `then` the hart's next line, as places in the record's list (None where
    there is none)."""

    def __init__(self, number, hart, kind, numbers, notes):
        self.number, self.hart, self.kind, self.numbers, self.notes = number, hart, kind, numbers, notes
        self.reply = self.then = None


class Record:
    """How many harts there are, their ids, the lines, and how the record ended (None where it doesn't say).
    `is_guessed`: the ids aren't those from 0, and no list of them was given. `conditions`: its lines that begin with `#!`."""

    def __init__(self, ids, lines, end, is_guessed):
        self.harts, self.ids, self.lines, self.end, self.is_guessed = len(ids), ids, lines, end, is_guessed
        self.conditions, self.tables = [], []
        self.place_of = {number: place for place, number in enumerate(ids)}
        self.has_times = any("time" in line.notes for line in lines)
        self.has_sie = any("sie" in line.notes for line in lines)
        self.has_stimecmp = any(line.notes.get("sstc") for line in lines)


def number_of(word, at, is_error=False):
    digits = word[1:] if is_error and word[:1] == "-" else word
    try:
        if not digits.isascii() or not digits.isalnum():
            raise ValueError
        value = int(digits, 16) if digits[:2] == "0x" else int(digits)
    except ValueError:
        raise Broken(at, f"'{word}' is no number") from None
    value = value if digits is word else -value
    if is_error and not -(1 << 63) <= value < 1 << 63:
        raise Broken(at, f"{word} is no error: errors are -2^63 to 2^63-1")
    if value > ALL:
        raise Broken(at, f"{word} is more than 64 bits")
    return value


def notes_of(words, at):
    notes = {}
    for word in words:
        name, found, value = word.partition("=")
        if not found or name not in NOTES:
            raise Broken(at, f"'{word}' is no note; notes are {', '.join(note + '=' for note in NOTES)}")
        if name in notes:
            raise Broken(at, f"a second note {name}=")
        notes[name] = number_of(value, at)
    return notes


def line_of(words, at):
    if words == ["m", "reset"]:
        return Line(at, None, "reset", (), {})
    if words[:2] == ["m", "end"] and len(words) == 3 and words[2] in ENDS:
        return Line(at, None, "end", (words[2],), {})
    if words[:2] == ["m", "store"] and len(words) == 4:
        return Line(at, None, "store", tuple(number_of(word, at) for word in words[2:]), {})
    if words[0] == "m":
        raise Broken(at, f"the machine's lines are 'm reset', 'm store ADDRESS VALUE' and 'm end {'|'.join(ENDS)}'")
    hart = number_of(words[0], at)
    if len(words) < 2 or words[1] not in COUNTS:
        raise Broken(at, "a line is HART call, HART ret or HART entry" + (f", and not '{words[1]}'" if len(words) > 1 else ""))
    kind = words[1]
    plain = [word for word in words[2:] if "=" not in word]
    if len(plain) != COUNTS[kind] or plain != words[2 : 2 + len(plain)]:
        cut = ": is the line cut?" if len(plain) < COUNTS[kind] else ""
        raise Broken(at, f"'{kind}' has {COUNTS[kind]} numbers, and here are {len(plain)}{cut}")
    if kind == "ret" and plain == ["-", "-"]:
        numbers = UNSEEN
    elif kind in ("sfence", "sinval"):
        numbers = tuple(None if word == "-" else number_of(word, at) for word in plain)
    else:
        numbers = tuple(number_of(word, at, kind == "ret" and i == 0) for i, word in enumerate(plain))
    return Line(at, hart, kind, numbers, notes_of(words[2 + len(plain) :], at))


def head_of(words, at):
    """How many harts the record has, and the list of their ids, or none."""
    if words[0] != "record" or len(words) < 2:
        raise Broken(at, f"the first line must be 'record HARTS', and not '{' '.join(words)[:40]}'")
    harts, ids = number_of(words[1], at), sorted({number_of(word, at) for word in words[2:]})
    if not 1 <= harts <= MOST_HARTS:
        raise Broken(at, "a board has 1 to 128 harts")
    if words[2:] and len(ids) != harts or len(ids) != len(words[2:]):
        raise Broken(at, f"the record has {harts} harts, and the list {len(ids)} ids")
    return harts, ids


def read(data):
    """The record that these bytes are."""
    try:
        text = data.decode("ascii")
    except UnicodeDecodeError as error:
        raise Broken(data.count(b"\n", 0, error.start) + 1, "a byte that isn't ASCII") from None
    head, lines, end = None, [], None
    for at, line in enumerate(text.split("\n")[:-1], 1):
        words = line.partition("#")[0].split()
        if not words:
            end = next((how for begin, how in ENDED.items() if line.startswith(begin)), end)
        elif head is None:
            head = head_of(words, at)
        elif lines and lines[-1].kind == "end":
            raise Broken(at, "a line behind the record's end")
        else:
            lines.append(line_of(words, at))
    if text and not text.endswith("\n"):
        raise Broken(text.count("\n") + 1, "the last line has no line feed: it is cut")
    if head is None:
        raise Broken(1, "the first line must be 'record HARTS'")
    if lines and lines[-1].kind == "end":
        end = lines.pop().numbers[0]
    found = [line for line in lines if line.kind in OF_TABLES]
    lines = [line for line in lines if line.kind not in OF_TABLES]
    join(lines)
    record = numbered(head, lines, end)
    record.tables = found
    for line in found:
        if line.hart is not None and line.hart not in record.place_of:
            raise Broken(line.number, f"there is no hart {line.hart}: the record has {' '.join(map(str, record.ids))}")
        line.hart = None if line.hart is None else record.place_of[line.hart]
    record.conditions = conditions(text)
    return record


def conditions(text):
    """The lines that ask something of a trace."""
    lines = [line.strip() for line in text.split("\n")]
    return [line for line in lines if line.startswith("#!") and not line.startswith("#!/")]


def numbered(head, lines, end):
    """The record, in which a line's hart is its place in the ascending list of ids."""
    harts, ids = head
    seen = {}
    for line in lines:
        if line.hart is not None:
            seen.setdefault(line.hart, line.number)
    is_guessed = not ids and any(hart >= harts for hart in seen)
    ids = ids or (guessed(harts, lines, seen) if is_guessed else list(range(harts)))
    record = Record(ids, lines, end, is_guessed)
    for line in lines:
        if line.hart is not None:
            if line.hart not in record.place_of:
                raise Broken(line.number, f"there is no hart {line.hart}: the record has {' '.join(map(str, ids))}")
            line.hart = record.place_of[line.hart]
    return record


def guessed(harts, lines, seen):
    """The ids of a record that doesn't list them: of the harts that act, of those that calls name with success, and free ones."""
    if len(seen) > harts:
        hart = list(seen)[harts]
        raise Broken(seen[hart], f"there is no hart {hart}: the record has {harts}, and {harts} others act before it")
    ids = set(seen)
    for numbers in (line.numbers for line in lines if line.kind == "call" and line.reply is not None and lines[line.reply].numbers[0] == 0):
        named = named_by(numbers)
        if len(ids.union(named)) <= harts:
            ids.update(named)
    free = (number for number in range(harts) if number not in ids)
    while len(ids) < harts:
        ids.add(next(free))
    return sorted(ids)


def named_by(numbers):
    """The ids of harts that a call names."""
    eid, fid, a0, a1 = numbers[:4]
    if (eid, fid) in ((HSM, 0), (HSM, 2)):
        return [a0]
    if eid in (IPI, RFENCE) and a1 != ALL:
        return [a1 + i for i in range(64) if a0 >> i & 1]
    return []


def listed(record, pair):
    """The harts of a list by their places, those of strange bits left out."""
    mask, base = pair
    if base == ALL:
        return list(range(record.harts))
    return [record.place_of[base + i] for i in range(64) if mask >> i & 1 and base + i in record.place_of]


def join(lines):
    """Joins each call with its return, and each line with the hart's next one."""
    last, calls, times, entered, since = {}, {}, {}, set(), "before this line"
    if lines and lines[0].kind != "entry":
        raise Broken(lines[0].number, "the first line of a hart is the entry of the one that boots")
    for place, line in enumerate(lines):
        hart = line.hart
        if hart is None:
            entered, since = set(), f"since the reset of line {line.number}"
            continue
        if line.kind != "entry" and hart not in entered:
            raise Broken(line.number, f"hart {hart} has not entered {since}")
        if line.kind == "entry":
            entered.add(hart)
            calls.pop(hart, None)
            times.pop(hart, None)
        elif line.kind == "call":
            if hart in calls:
                raise Broken(line.number, nested(hart, lines[calls[hart]].number))
            calls[hart] = place
        else:
            if hart not in calls:
                raise Broken(line.number, f"a reply without its call: hart {hart} is in none")
            lines[calls.pop(hart)].reply = place
        if line.notes.get("time", ALL) < times.get(hart, 0):
            raise Broken(line.number, f"hart {hart}'s time goes back, from {times[hart]:#x} to {line.notes['time']:#x}")
        times[hart] = line.notes.get("time", times.get(hart, 0))
        if hart in last:
            lines[last[hart]].then = place
        last[hart] = place


def nested(hart, number):
    return (
        f"hart {hart} calls inside its call of line {number}, which has not returned; where an interrupt was taken right behind "
        f"its return, '{hart} ret A0 A1' belongs before this line, or '{hart} ret - -' where its answer wasn't seen"
    )


def is_reset(numbers):
    return numbers[:2] == (SRST, 0)


def is_suspend(numbers):
    return numbers[:2] == (HSM, 3)
