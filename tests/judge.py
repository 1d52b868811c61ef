"""Judges by docs/FORMATS.md alone, in plain Python: reads what a text asks by its conditions, and says of a record, and of all
orders of a program, whether they are so. It knows nothing of the program that is tested.

Words of a step are its actor ("c" is the clock), its operation, and its numbers; words of a reply are its name and its numbers.
In a pattern None stands for `_`."""
import re
from collections import namedtuple

import board_model

from .replays import spelled

# What a condition asks: its line, its text, its first word (`after` is a `never` with an `after`), its patterns, its ends, and whether
# `maybe` stands in front of it.
Condition = namedtuple("Condition", "line text word patterns ends maybe")
Pattern = namedtuple("Pattern", "step reply")

# What a condition has seen so far of a record. BROKEN is where no record goes on that is as it asks, MET what `some` wants.
NOTHING, OTHER, SETTLED, BROKEN, MET = "nothing", "the other pattern", "settled", "broken", "met"

FORBIDS = ("never", "after", "each", "before")

# What a condition asks of an access in a reply's place, and what a step has that could have a mark by other entries.
MARKS, COULD = ("stale", "missed", "unsteady", "unfirm", "unlenient"), "could"
UNMARKED = {"steady": "unsteady", "firm": "unfirm", "lenient": "unlenient"}


# ---- reading


def value(word):
    """What a word of a pattern stands for: None for any, a number, or the word itself."""
    if word == "_":
        return None
    if re.fullmatch("0x[0-9a-fA-F]+", word):
        return int(word, 16)
    return int(word) if re.fullmatch("-?[0-9]+", word) else word


def pattern(words):
    at = words.index("->") if "->" in words else len(words)
    return Pattern(tuple(map(value, words[:at])), tuple(map(value, words[at + 1 :])))


def condition(line, text):
    """The condition that a text is, which has no fault."""
    is_maybe = text.split()[0] == "maybe"
    rule = text.partition("maybe")[2] if is_maybe else text
    word, *words = rule.split()
    if word == "end":
        return Condition(line, text, word, (), frozenset(words), is_maybe)
    if word == "can":
        return Condition(line, text, word, (), frozenset(words[1:] or ("off", "quiet", "stuck")), is_maybe)
    if word == "before":
        first, _, second = rule.partition("before")[2].partition(",")
        return Condition(line, text, word, (pattern(first.split()), pattern(second.split())), None, is_maybe)
    if word in UNMARKED:
        return Condition(line, text, "never", (pattern([*(words or ["_"]), "->", UNMARKED[word]]),), None, is_maybe)
    if word == "never" and words[0] in MARKS:
        return Condition(line, text, word, (pattern(["_", "->", words[0]]),), None, is_maybe)
    if word == "never" and "after" in words:
        at = words.index("after")
        return Condition(line, text, "after", (pattern(words[:at]), pattern(words[at + 1 :])), None, is_maybe)
    return Condition(line, text, word, (pattern(words),), None, is_maybe)


def conditions(text):
    """The conditions of a script's text."""
    found = []
    for line, words in enumerate(text.split("\n"), 1):
        words = words.strip(" \t\r")
        if words.startswith("#!") and not (line == 1 and words.startswith("#!/")):
            found.append(condition(line, words[2:].partition("#")[0].strip(" \t")))
    return found


# ---- steps


def step_words(actor, op):
    """All words of a step: arguments of a call that aren't written are 0."""
    name, *numbers = op
    if name == "ecall":
        numbers += [0] * (8 - len(numbers))
    return ("c" if actor is None else actor, name, *("-" if it is None else it for it in numbers))


def are_fitting(wanted, words):
    return len(wanted) <= len(words) and all(it in (None, word) for it, word in zip(wanted, words))


def fits(pattern, actor, op):
    """Whether the actor and the operation of a step are those of a pattern."""
    return are_fitting(pattern.step, step_words(actor, op))


def matches(pattern, actor, op, answer, marks=()):
    """The marks are those of the step's access, if it has some."""
    if asks_of_marks(pattern):
        return fits(pattern, actor, op) and pattern.reply[0] in marks
    return fits(pattern, actor, op) and are_fitting(pattern.reply, answer)


def asks_of_marks(pattern):
    return pattern.reply[:1] in ((it,) for it in MARKS)


def tells(pattern, actor, op, answer, marks=()):
    """Whether a step has the actor and the operation of a pattern, and its mark, if it asks of one, or could have it."""
    return fits(pattern, actor, op) and (not asks_of_marks(pattern) or pattern.reply[0] in marks or COULD in marks)


# ---- conditions that say nothing


def needs(asked):
    """The patterns of which a condition needs a step, each with whether the step's reply must fit, too."""
    if asked.word in ("end", "can"):
        return []
    first = asked.patterns[0]
    is_exempt = asked.word in ("never", "after", "some") and not first.reply or asked.word in ("never", "after") and first.step[1:2] == ("ecall",)
    return [(first, False)] * (not is_exempt) + [(second, asked.word == "after") for second in asked.patterns[1:]]


def lacking(asked, steps):
    """The pattern that makes a condition vacuous among these steps, and whether its reply counts; None: it says something of them."""
    for wanted, with_reply in needs(asked):
        if not any(tells(wanted, *step) and (not with_reply or matches(wanted, *step)) for step in steps):
            return wanted, with_reply
    return None


# The replies of each operation that is accepted, where it isn't done.
REPLIES = {"ecall": ("ret", "waiting", "gone"), "load": ("value", "fault"), "store": ("done", "fault"), "fetch": ("value", "fault"), "sip": ("value",), "poll": ("ret",), "serve": ("served",), "advance": ("entry", "moved", "ret")}
REPLIES |= {op: REPLIES["store" if op in board_model.STORES else "load"] for op in board_model.CHANGES}
# The causes of faults, by the access: misaligned, outside of the RAM, not allowed by the page tables.
CAUSES = {"fetch": (0, 1, 12), "load": (4, 5, 13), "store": (6, 7, 15)}
CAUSES |= dict.fromkeys(board_model.CHANGES, CAUSES["store"])
# The numbers that can stand in a reply, where not any can: errors are 0 or below, and a hart moves without an entry or a return to STOPPED,
# SUSPENDED or RESUME_PENDING. And those of one operation: a fence call and a suspend return 0, and sip reads SSIP and STIP.
NUMBERS = {("ret", 0): range(-8, 1), ("moved", 0): (1, 4, 6), ("fault", 0): sum(CAUSES.values(), ()), ("sstatus", 0): (0, 1)}
OF_OPERATION = {("poll", "ret"): (0,), ("advance", "ret"): (0,), ("sip", "value"): (0, 2, 32, 34), **{(op, "fault"): causes for op, causes in CAUSES.items()}}
# (a store of 1 byte is aligned at each address)
OF_OPERATION["store1", "fault"] = (7, 15)


class SignExtended:
    """The numbers that are 4 bytes sign-extended to 8, of which the first and the last ones are listed."""

    def __contains__(self, number):
        return number < 1 << 31 or number >= (1 << 64) - (1 << 31)

    def __iter__(self):
        return iter((0, (1 << 31) - 1, (1 << 64) - (1 << 31), (1 << 64) - 1))


# An AMO on 4 bytes gives no others.
OF_OPERATION |= {(op, "value"): SignExtended() for op in board_model.CHANGES if op.endswith(".w")}


def misfit(asked, harts):
    """Which word of a condition no step of a board with so many harts has, in the words of the documents; None: each can be there."""
    return next((why for step, reply in asked.patterns for why in misfits(step, reply, harts)), None)


def misfits(step, reply, harts):
    """Why no step is a pattern's: first by its actor and its operation, then by what that can be answered."""
    actor, op, said = (*step[:2], None)[0], (*step[1:2], None)[0], (*reply[:1], None)[0]
    if isinstance(actor, int) and actor >= harts:
        yield f"the board has no hart {actor}"
    if actor is not None and op is not None and (actor == "c") != (op == "tick"):
        yield f"no {op} is {'a hart' if op == 'tick' else 'the clock'}'s"
    yield from (f"no {op} has {word}" for place, word in enumerate(step[2:]) if op is not None and not can_be(op, place, word))
    if actor == "c":
        op = "tick"
    if said in MARKS:
        if op is not None and op not in CAUSES:
            yield f"no {op} is {said}"
        return
    if op is not None and said is not None and said not in REPLIES.get(op, ("done",)):
        yield f"no {op} has the reply {said}"
    if said is not None:
        yield from (why for place, word in enumerate(reply[1:]) for why in wrong_in_reply(op, said, place, word, harts))


def wrong_in_reply(op, said, place, word, harts):
    if said == "entry" and place == 1 and isinstance(word, int) and word >= harts:
        yield f"the board has no hart {word}"
    if not can_be(said, place, word):
        yield f"no {said} has {word}"
    if word is not None and word not in OF_OPERATION.get((op, said), (word,)):
        yield f"no {op}'s {said} has {word}"


def can_be(name, place, word):
    """Whether a word, or any, can stand in this place behind the name of an operation or a reply."""
    if word is None:
        return True
    if word == "-":
        return name == "sfence"
    return word in NUMBERS[name, place] if (name, place) in NUMBERS else word >= 0


# ---- conditions, step by step


def seen_after(asked, seen, step):
    """What a condition has seen after a step (actor, operation and answer, and the marks of its access) more."""
    first = asked.patterns[0] if asked.patterns else None
    if asked.word == "never":
        return BROKEN if matches(first, *step) else seen
    if asked.word == "some":
        return MET if matches(first, *step) else seen
    if asked.word == "each":
        return BROKEN if fits(first, *step[:2]) and not matches(first, *step) else seen
    if asked.word == "after":
        if seen == OTHER and matches(first, *step):
            return BROKEN
        return OTHER if matches(asked.patterns[1], *step) else seen
    return seen_of_before(asked, seen, step) if asked.word == "before" else seen


def seen_of_before(asked, seen, step):
    """The first step of the one pattern must stand before the first of the other, where both stand."""
    is_first, is_second = (matches(it, *step) for it in asked.patterns)
    if seen == NOTHING and is_second:
        return BROKEN if is_first else OTHER
    if seen == OTHER and is_first:
        return BROKEN
    return SETTLED if seen == NOTHING and is_first else seen


def broken_at(asked, steps):
    """The place of the step at which a record is settled: it breaks the condition, or is what `some` wants. None: there is none."""
    seen = NOTHING
    for place, step in enumerate(steps):
        seen = seen_after(asked, seen, step)
        if seen in (BROKEN, MET):
            return place
    return None


def holds(asked, steps, end):
    """Whether a record with this end is as a condition asks; the end of one that a limit cut off is open."""
    if asked.word == "end":
        return end == "history-full" or end in asked.ends
    if asked.word == "can":
        return False
    return (broken_at(asked, steps) is None) == (asked.word in FORBIDS)


def is_met(asked, steps):
    """Whether each pattern's actor and operation are those of some of these steps."""
    return all(any(fits(pattern, *step[:2]) for step in steps) for pattern in asked.patterns)


# ---- all orders


class Verdicts:
    """What holds in all orders, which are those of `all_orders.Orders`, or of `marked_orders.MarkedOrders`."""

    def __init__(self, orders):
        self.orders = orders
        self.steps = {step[:-1] for steps in orders.edges for step in steps}
        self.depths = self.depths_of()

    def depths_of(self):
        """The fewest steps to each state."""
        depths, ready = {0: 0}, [0]
        for place in ready:
            for *_, to in self.orders.edges[place]:
                if to not in depths:
                    depths[to] = depths[place] + 1
                    ready.append(to)
        return depths

    def fewest(self, asked):
        """The fewest steps of an order that breaks a condition, or that `some` wants; None: no order does. Without a condition of
        one that ends stuck."""
        if asked is None or asked.word in ("end", "can"):
            is_bad = lambda end: end == "stuck" if asked is None else end not in asked.ends
            fewest = min((self.depths[place] for place, (_, end) in self.orders.over.items() if is_bad(end)), default=None)
            if fewest is None and asked is not None and asked.word == "can":
                return min((self.depths[place] for place in self.without_way_out(asked)), default=None)
            return fewest
        return self.fewest_watched(asked)

    def without_way_out(self, asked):
        """The states from which no order comes to an end that is named."""
        before = {}
        for place, steps in enumerate(self.orders.edges):
            for *_, to in steps:
                before.setdefault(to, set()).add(place)
        ready = [place for place, (_, end) in self.orders.over.items() if end in asked.ends]
        found = set(ready)
        for place in ready:
            for one in before.get(place, set()) - found:
                found.add(one)
                ready.append(one)
        return set(self.depths) - found

    def keys_without_way_out(self, asked):
        """What tells these states apart, whatever loads gave last."""
        lost = self.without_way_out(asked)
        return {key for (key, _), place in self.orders.places.items() if place in lost}

    def fewest_watched(self, asked):
        changes = {}
        depths, ready = {(0, NOTHING): 0}, [(0, NOTHING)]
        for place, seen in ready:
            for *step, to in self.orders.edges[place]:
                key = seen, *step
                if key not in changes:
                    changes[key] = seen_after(asked, seen, step)
                now = changes[key]
                if now in (BROKEN, MET):
                    return depths[place, seen] + 1
                if (to, now) not in depths:
                    depths[to, now] = depths[place, seen] + 1
                    ready.append((to, now))
        return None

    def is_met(self, asked):
        return is_met(asked, self.steps)


# ---- records


class NoOrder(Exception):
    """Why a record is none of a program."""


class Followed:
    """A record, followed through its program: its steps, how it ended, and where each hart is at its end."""

    def __init__(self, program, text, limit=None):
        """`text`: the board's line, and a line for each step, and others that are comments. Without a limit it may end anywhere."""
        self.lines = [line for line in text.split("\n")[1:] if " -> " in line]
        self.steps, self.point = [], program.start()
        # Of each hart the line of the operation that its guest did last since its entry.
        self.last = [None] * len(self.point.board.harts)
        for line in self.lines:
            self.take(program, line)
        self.end = self.end_by(program, limit)

    def take(self, program, line):
        actor = line.split(" ", 1)[0]
        hart = None if actor == "c" else int(actor)
        for *step, after in program.steps_of(self.point, hart):
            if spelled(*step) == line:
                self.see(step)
                self.point = after
                return
        raise NoOrder(f"no step of the program is {line!r}, behind {self.lines[: len(self.steps)]}")

    def see(self, step):
        self.steps.append(tuple(step))
        hart, op, answer = step
        if hart is not None and answer[0] == "entry":
            self.last[hart] = None
        elif hart is not None and op[0] in board_model.GUEST:
            self.last[hart] = self.point.left[hart][0]

    def end_by(self, program, limit):
        if next(program.steps(self.point), None) is None:
            return program.end(self.point)
        if limit is None:
            return None
        if len(self.steps) < limit:
            raise NoOrder(f"it ends where a step can be taken: {self.lines}")
        return "history-full"

    def ends(self, program, limit):
        """How a run on threads with this record may end. Where the history is full, a tick that the time refuses may have been tried
        before that or not."""
        is_full = len(self.steps) == limit and program.meets_full_history(self.point, limit)
        return {self.end, "history-full"} if is_full else {self.end}
