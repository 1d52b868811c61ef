"""The report of a record: each call and entry in one class, its line, and the share that was compared."""
from collections import Counter

import liveness
from records import Broken, is_reset
from registers import Registers
from rules import RULES
from standard import BREAKS, OPEN, OWN, UNEXPLAINED, UNJUDGED
from states import Difference

AGREES, PASSED, FOLLOWS = "agree", "passed over", "follows"
# A function of the legacy extensions.
SHUTDOWN = 8
# The classes in the order in which they are told, with what is said of their calls and entries, and of the whole.
CLASSES = {
    BREAKS: ("break the standard", "breaks the standard"),
    UNEXPLAINED: ("are unexplained", "unexplained"),
    liveness.RETURN: ("don't return", "calls that don't return"),
    liveness.ENTER: ("are followed by no entry", "harts that were started and never enter"),
    liveness.OTHERWISE: ("enter otherwise", "entries with another address or other registers"),
    OPEN: ("are left open by the standard", "the standard leaves it open"),
    OWN: ("are a restriction of this board", "this board's own restriction"),
    UNJUDGED: ("can't be judged", "can't be judged from a record"),
    FOLLOWS: ("are not compared", "not compared, since it follows from an earlier difference"),
}
FAULTS = (BREAKS, UNEXPLAINED, liveness.RETURN, liveness.ENTER, liveness.OTHERWISE)
# Of several classes of one call the first of these counts.
WORST = (*FAULTS, FOLLOWS, UNJUDGED, OWN, OPEN)
NOT_COMPARED = (FOLLOWS, UNJUDGED, PASSED)


class Item:
    """What is told of a line: its class, the sentence under which it stands, and the text."""

    def __init__(self, kind, at, sentence, text, rule=None):
        self.kind, self.at, self.sentence, self.text, self.rule = kind, at, sentence, text, rule


def page_of(rule):
    return f"; docs/FIRMWARE.md, {RULES[rule].page}" if rule else ""


def of_difference(item):
    text = f"{item.what}: here {item.here}, there {item.there}" if item.here else item.what
    if item.follows:
        return Item(FOLLOWS, item.at, "", f"{text} (from line {item.follows})")
    verdict = item.verdict
    if verdict.kind == UNEXPLAINED and item.what.endswith(" entry") and item.here.startswith("entry"):
        return Item(liveness.OTHERWISE, item.at, "", text)
    section = verdict.section if verdict.section.startswith("Priv") else f"SBI {verdict.section}"
    sentence = "" if verdict.kind == UNEXPLAINED else f"{verdict.sentence} ({section}{page_of(verdict.rule)})"
    return Item(verdict.kind, item.at, sentence, text, verdict.rule)


def of_fault(fault):
    kind = UNJUDGED if fault.kind == liveness.OPEN_AT_END else fault.kind
    sentence = "a call was open where the record, or the machine's run, ended" if kind == UNJUDGED else ""
    return Item(kind, fault.at, sentence, fault.text + (f" (SBI {fault.section})" if fault.section else ""))


class Report:
    """Of a record that was followed: `classes`, of each call and entry by its line, and `items`, by their classes."""

    def __init__(self, follower, items):
        self.record, self.follower = follower.record, follower
        if not self.record.lines:
            raise Broken(1, "nothing was recorded")
        # (a call that is passed over must return, and keep the registers, all the same)
        faults = [of_fault(fault) for fault in liveness.faults(self.record) if fault.kind == liveness.RETURN or not self.is_passed_over(fault.at)]
        entries = {fault.at for fault in faults if fault.kind == liveness.OTHERWISE}
        seen = [*Registers(follower).differences(), *(item for item in follower.unsteady() if not self.is_passed_over(item.at))]
        found = [of_difference(item) for item in (*items, *seen) if isinstance(item, Difference)]
        # (an entry that nobody asked for is told once)
        found = [item for item in found if item.at not in entries or item.kind not in (UNEXPLAINED, liveness.OTHERWISE, FOLLOWS)]
        self.items = {kind: sorted((item for item in faults + found if item.kind == kind), key=lambda item: item.at) for kind in CLASSES}
        self.calls, self.entries = units(follower)
        self.classes = self.classified()
        self.counts = Counter(self.classes.values())

    def is_passed_over(self, number):
        return any(self.follower.lines[place].number == number for place in self.follower.passed_over)

    def classified(self):
        """The class of each call and entry."""
        classes = {}
        for place, line in enumerate(self.record.lines):
            if line.kind in ("call", "entry"):
                classes[line.number] = PASSED if place in self.follower.passed_over else AGREES
        calls = {self.record.lines[line.reply].number: line.number for line in self.record.lines if line.reply is not None}
        for kind in reversed(WORST):
            for item in self.items[kind]:
                classes[calls.get(item.at, item.at)] = kind
        return classes

    @property
    def compared(self):
        return sum(count for kind, count in self.counts.items() if kind not in NOT_COMPARED)

    @property
    def is_empty(self):
        """Whether no call was compared: then the entries say nothing of the firmware's calls."""
        return all(self.classes[line.number] in NOT_COMPARED for line in self.record.lines if line.kind == "call")

    @property
    def is_off_by_no_call(self):
        """Whether the machine was switched off, and no call could have done it."""
        return self.record.end == "off" and not any(line.kind == "call" and line.then is None and (is_reset(line.numbers) or line.numbers[0] == SHUTDOWN) for line in self.record.lines)

    @property
    def is_bad(self):
        """Whether something is wrong with what was recorded, or no call was compared."""
        return any(self.items[kind] for kind in FAULTS) or self.is_empty

    def lines(self):
        total = len(self.classes)
        yield f"calls {self.calls}, entries {self.entries}: {self.counts[AGREES]} agree"
        for kind, (said, _) in CLASSES.items():
            if self.counts[kind]:
                yield f"  {self.counts[kind]} {said}"
        if self.counts[PASSED]:
            yield f"  {self.counts[PASSED]} are passed over"
        yield f"compared: {self.compared} of {total}, {100 * self.compared / total:.1f} %" + (", and no call" if self.is_empty else "")
        yield f"the record ends: {ENDINGS[self.record.end]}" + ", by no call" * self.is_off_by_no_call
        if resets := [str(line.number) for line in self.record.lines if line.kind == "reset"]:
            yield f"resets by no call: {len(resets)}, at line {', '.join(resets)}"
        for kind, (_, title) in CLASSES.items():
            yield f"{title}: {len(self.items[kind])}"
            yield from self.group(self.items[kind])
        yield from (f"passed over: {count} of {name}" for name, count in sorted(Counter(self.follower.passed_over.values()).items()))
        yield from self.follower.numbers.told()

    def group(self, items):
        """By their sentences, in the order of the rules, and then of the lines."""
        names = list(RULES)
        sentences = {item.sentence: (names.index(item.rule) if item.rule else -1, item.at) for item in reversed(items)}
        for sentence in sorted(sentences, key=sentences.get):
            mine = [item for item in items if item.sentence == sentence]
            if sentence:
                yield f"  {len(mine)} x {sentence}"
            yield from (f"    line {item.at}: {item.text}" for item in mine)


ENDINGS = {
    "off": "the machine was switched off", "limit": "by the recorder's limit of time", "closed": "the recorder lost the machine", None: "it doesn't say how",
}  # fmt: skip


def units(follower):
    """Of the record: how many calls and entries."""
    kinds = Counter(line.kind for line in follower.lines)
    return kinds["call"], kinds["entry"]
