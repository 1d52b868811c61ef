"""Traces of records: what tools/to-trace prints, and what other tools count and draw."""
import re
from collections import Counter

from board_model import BASE, HSM, IPI, RFENCE, SRST, TIME
from follow import MOST_EVENTS, PAGES, Follower
from records import Broken
from states import Step

LOADED_AT = 0x80200000
# The names that a condition may have for an extension.
NAMES = {"BASE": BASE, "TIME": TIME, "IPI": IPI, "RFENCE": RFENCE, "HSM": HSM, "SRST": SRST}


def followed(record, maps=None, ignored=(), version=None):
    """The follower of a record, and what came of it: steps and differences in their order. maps: one pair, or a list."""
    if maps is None:
        first = record.lines[0].numbers[0] if record.lines else 0
        maps = [(LOADED_AT, 0x80000000)] if first == LOADED_AT else []
    elif isinstance(maps, tuple):
        maps = [maps]
    if not record.lines:
        raise Broken(1, "nothing was recorded")
    follower = Follower(record, maps, ignored, version)
    return follower, follower.follow().items()


def condition(line):
    """A condition as a trace has it: extensions by their numbers."""
    return re.sub(r"\becall (\w+)", lambda found: f"ecall {NAMES[found[1]]:#x}" if found[1] in NAMES else found[0], line)


def trace(follower, items, source, conditions=()):
    """The lines of the trace. conditions: what is asked of it, behind what the record asks itself."""
    steps = [item for item in items if isinstance(item, Step)]
    if len(steps) > MOST_EVENTS:
        raise Broken(follower.lines[-1].number, f"{len(steps)} steps are more than a board's history holds; cut the record at a reset")
    _, _, _, hart, addr, opaque = follower.first().board.config
    yield f"# of the record {source}"
    yield from (f"# {line}" for line in follower.numbers.told())
    yield from map(condition, [*follower.record.conditions, *conditions])
    yield f"board {follower.record.harts} {PAGES} {max(len(steps), 1)} {hart} {addr:#x} {opaque:#x}"
    yield from (step.line() for step in steps)
    for name, count in sorted(Counter(follower.passed_over.values()).items()):
        yield f"# passed over: {count} of {name}"
