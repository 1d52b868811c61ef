"""The points that `test` and `explore` tell, read from their lines of the Test Anything Protocol."""
import contextlib
import json
import re

# How far was looked, as a point says it.
LOOKED = (
    (re.compile(r" in (?:some of )?all orders(?:: (?P<orders>[\d,]+))?"), {"all": True}),
    (re.compile(r" in (?:some of )?(?P<orders>[\d,]+) orders of unknown many, seed (?P<seed>\d+)(?:, of which the limit cut off (?P<cut>[\d,]+))?"), {"all": False}),
    (re.compile(r" in (?:some of )?(?P<runs>[\d,]+) runs on threads(?:, of which the limit cut off (?P<cut>[\d,]+))?"), {"all": False}),
    (re.compile(r" in the (?P<orders>[\d,]+) orders tried"), {"all": False}), (re.compile(r" in the (?P<runs>[\d,]+) runs"), {"all": False}),
    (re.compile(r"the limit cut off all (?P<cut>[\d,]+)"), {"all": False}),
)  # fmt: skip


class Point:
    """A point: its number, whether it holds, its text and file, what stands below it, and the line and the words of its condition
    (None: it has none)."""

    def __init__(self, number, is_ok, text, files):
        self.number, self.is_ok, self.text, self.details = number, is_ok, text, {}
        self.file = max((it for it in files if text.startswith(as_shown(it))), key=len, default=None)
        rest = text[len(self.file or "") :]
        found = re.match(r": line (\d+): (.*)", rest)
        self.line, self.condition, self.column, self.why = None, None, None, ""
        if found:
            self.line = int(found[1])
            self.condition, _, self.why = found[2].partition(": ")
        elif found := re.match(r":(\d+):(\d+): (.*)", rest):
            self.line, self.column, self.why = int(found[1]), int(found[2]), found[3]
        elif found := re.fullmatch(r": (no order ends stuck)(?:: (.*))?", rest):
            self.condition, self.why = found[1], found[2] or ""
        elif rest.startswith(": "):
            self.why = rest[2:]

    @property
    def stuck(self):
        return self.details.get("stuck", [])

    @property
    def orders(self):
        """How many of its orders fail, where that is told."""
        of = self.details.get("orders") or self.details.get("runs")
        return f"{self.details['failing']} of {of}" if of and "failing" in self.details else ""

    @property
    def looked(self):
        """How far was looked, where the point says it."""
        for pattern, known in LOOKED:
            if found := pattern.search(self.why):
                return known | {name: int(many.replace(",", "")) for name, many in found.groupdict().items() if many}
        return None

    def take(self, row):
        """A line below it."""
        *_, last = self.details.values() or (None,)
        if found := re.fullmatch(r"  (\w+):(?: (.*))?", row):
            self.details[found[1]] = [] if found[2] in (None, "|") else scalar(found[2])
        elif not isinstance(last, list):
            return
        elif found := re.fullmatch(r"    - (\w+): (.*)", row):
            last.append({found[1]: scalar(found[2])})
        elif found := re.fullmatch(r"    - (.*)", row):
            last.append(scalar(found[1]))
        elif (found := re.fullmatch(r"      (\w+): (.*)", row)) and last and isinstance(last[-1], dict):
            last[-1][found[1]] = scalar(found[2])
        else:
            last.append(row.strip())


def as_shown(name):
    """A name as a point has it."""
    return re.sub("[\\x00-\\x1f\\x7f-\\x9f]", "?", name)


def scalar(word):
    with contextlib.suppress(ValueError):
        return json.loads(word)
    return word.strip('"')


def read_points(lines, files):
    """What the lines tell, one after the other: points, each with all that stands below it, texts of comments, and the plan's count."""
    point, is_below = None, False
    for line in map(lambda it: it.rstrip("\n"), lines):
        if is_below and line != "  ...":
            point.take(line)
            continue
        is_below = line == "  ---" and point is not None
        if line in ("  ---", "  ..."):
            continue
        if point:
            yield point
            point = None
        if found := re.fullmatch(r"(not )?ok (\d+) - (.*)", line):
            point = Point(int(found[2]), not found[1], re.sub(r"\\([\\#])", r"\1", found[3]), files)
        elif line.startswith("# "):
            yield line[2:]
        elif found := re.fullmatch(r"1\.\.(\d+)", line):
            yield int(found[1])
    if point:
        yield point


def failing_points(lines, files):
    """The points that fail."""
    return [it for it in read_points(lines, files) if isinstance(it, Point) and not it.is_ok]
