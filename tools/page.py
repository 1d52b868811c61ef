"""The page of one course, or of two beside each other: data for tools/timeline.html."""
import html
import json
import os
import re
from collections import defaultdict

from board_model import STATES
from holdings import FIELDS

HERE = os.path.dirname(os.path.realpath(__file__))
NAMES = (*STATES, "in a fence call")
COLOURS = ("#8fce8f", "#d8d8d8", "#bcd9f5", "#b5b5b5", "#c9b8ea", "#e0d5f5", "#a9c4f0", "#f5d98c")
KINDS = {"start": "#1f6fbf", "ipi": "#b5442e", "ssip": "#d88a78", "time": "#7a5b00", "fence": "#7a3fa0", "poll": "#1d7d3c"}
MEANING = {
    "start": "start to entry", "ipi": "IPI to wake", "ssip": "IPI to the end of its SSIP", "time": "time to wake", "fence": "fence to serve",
    "poll": "serve to poll",
}  # fmt: skip


class Table:
    """Values that are written once, and named by their places."""

    def __init__(self):
        self.places = {}

    def __call__(self, value):
        return self.places.setdefault(value, len(self.places))

    def values(self):
        return list(self.places)


def data_of(course, title):
    """What is drawn of a course."""
    kinds, labels, whys = list(KINDS), Table(), Table()
    held = [[[it.kind, it.begin, it.end, labels(it.text), *([it.stale] if it.stale else [])] for it in items] for items in course.holdings.items]
    causes = {
        place: [whys(tuple((text, -1 if to is None else to) for text, to in told)), *(-1 if it is None else it for it in (filled, changed))]
        for place, (told, filled, changed) in course.causes.of.items()
    }  # fmt: skip
    return {
        "title": title, "harts": course.harts, "segments": course.segments, "actors": course.actors, "resets": course.resets, "stale": course.stale,
        "other": sorted(set(course.other)), "times": course.times, "clock": course.clock if any(course.clock) else [],
        "arrows": [(*arrow[:4], kinds.index(arrow[4])) for arrow in course.arrows], "off": -1 if course.off is None else course.off,
        "values": [[values[name] for name in FIELDS] for values in course.holdings.values], "held": held, "labels": labels.values(),
        "causes": causes, "whys": whys.values(),
    }  # fmt: skip


def parting(one, other):
    """The first place at which two courses have another step or another answer, which one of them may not have at all."""
    pairs = [(list(zip(it.done, it.answers))) for it in (one, other)]
    return next((place for place, (a, b) in enumerate(zip(*pairs)) if a != b), min(map(len, pairs)))


def twins(one, other):
    """Of each step of a course the place in the other one where the same hart does the same thing as often; -1 without one."""
    places, found = defaultdict(list), []
    for place, done in enumerate(other.done):
        places[done].append(place)
    seen = defaultdict(int)
    for done in one.done:
        same = places.get(done, ())
        found.append(same[seen[done]] if seen[done] < len(same) else -1)
        seen[done] += 1
    return found


def page(courses, titles, name, about="", at=None):
    """The page of one or two courses. name: the page's; about: what stands below it; at: the place at which it opens."""
    with open(os.path.join(HERE, "timeline.html"), encoding="utf-8") as file:
        template = file.read()
    data = {
        "names": NAMES, "colours": COLOURS, "kinds": list(KINDS), "kindColours": list(KINDS.values()), "meaning": list(MEANING.values()), "fields": FIELDS,
        "courses": [data_of(course, title) for course, title in zip(courses, titles)], "parting": -1, "at": -1 if at is None else at,
    }  # fmt: skip
    if len(courses) == 2:
        data["parting"] = parting(*courses)
        for place in (0, 1):
            data["courses"][place]["twins"] = twins(courses[place], courses[1 - place])
    # (neither `</script` nor `<!--<script` may stand in a script)
    texts = "\n".join(text for course in courses for text in course.texts).replace("\\", "\\\\").replace("</", "<\\/").replace("<!", "<\\!")
    data = json.dumps(data, separators=(",", ":")).replace("<", "\\u003c")
    parts = {"TITLE": html.escape(name), "ABOUT": html.escape(about), "DATA": data, "TEXTS": texts}
    return re.sub("@(TITLE|ABOUT|DATA|TEXTS)@", lambda found: parts[found[1]], template)
