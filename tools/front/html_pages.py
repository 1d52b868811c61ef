"""`--html DIR`: a page for each point that fails, which draws its order as tools/timeline does, below it one that passes where one
is found near it, and a page that lists them."""
import contextlib
import glob
import html
import os
import subprocess
import sys
import tempfile
from urllib.parse import quote

from kinds import kind_of_text
from points import failing_points

TOOLS = os.path.dirname(os.path.dirname(os.path.realpath(__file__)))
sys.path.append(TOOLS)

from course import Course, of_script, read_file  # noqa: E402
from page import page  # noqa: E402
from passing import Failing, NoOrder, near  # noqa: E402

# By this a page is known for one of an earlier run, which is taken away.
MARK = '<meta name="generator" content="sbiboard --html">'
HEAD = '<meta charset="utf-8">\n'
NO_RECORD = "no order of it is kept"


def is_file(path):
    return path is not None and os.path.isfile(path)


def read(path):
    with open(path, encoding="latin-1") as file:
        return file.read()


class Pages:
    """The pages of one run in a folder."""

    def __init__(self, program, folder):
        self.program, self.folder, self.rows = program, folder, []

    def write(self, points):
        os.makedirs(self.folder, exist_ok=True)
        for point in points:
            self.rows.append((point, *self.page_of(point)))
        self.put("index", self.index())

    def put(self, name, text):
        """Writes a page whole, or none."""
        path = os.path.join(self.folder, f"{name}.html")
        try:
            with open(path, "w", encoding="utf-8") as file:
                file.write(text.replace(HEAD, HEAD + MARK + "\n", 1))
        except OSError as error:
            with contextlib.suppress(OSError):
                os.remove(path)
            # (a write that fails doesn't name its file)
            raise OSError(error.errno, error.strerror, path) from None

    def page_of(self, point):
        """The name of a point's page and the step at which it opens, and what is said of it; without a page no name."""
        # (a trace that differs is drawn itself, with its own answers)
        record = point.details.get("record") or (point.file if "differing" in point.details else None)
        if not is_file(record):
            return None, None, NO_RECORD
        failing = self.failing(point, record)
        board, steps, states, _ = read_file(record, None)
        if failing:
            steps = self.with_lines(steps, failing, point.file)
        courses, titles, said = [Course(board, steps, states)], [f"fails: {os.path.basename(record)}"], ""
        passing = failing and self.passing(point, failing)
        if passing:
            courses.append(self.course_of(passing, failing, point.file))
            titles.append("passes: an order near it")
            said = f"beside an order that passes, whose first {passing.same} steps are the same"
        elif failing:
            said = "no order that passes was found near it"
        name, at = self.named(os.path.basename(record)), point.details.get("place", min(courses[0].other, default=0))
        about = [point.text, *([f"{point.orders} orders fail"] if point.orders else []), *(f"stuck: {it}" for it in point.stuck), *([said] if said else [])]
        self.put(name, page(courses, titles, os.path.basename(record), "\n".join(about), at))
        return name, at, said

    def course_of(self, order, failing, file):
        """The course of an order of a program."""
        trace = order.trace(failing.board_line, [])
        board, steps, _, _ = of_script(trace.encode())
        return Course(board, self.with_lines(steps, Failing(read(file), trace, 0), file), {})

    def with_lines(self, steps, followed, file):
        """Steps of an order, each with its line of the program."""
        source = read(file).splitlines()
        comments = [it.partition("#")[2].strip() for it in source]
        whys = [f"line {it}" + (f": {comments[it - 1]}" if comments[it - 1] else "") if it else "the firmware" for it in followed.lines()]
        return [(actor, op, said, why if actor is not None else "the clock") for (actor, op, said, _), why in zip(steps, whys)]

    def named(self, name):
        """A name that no page in the folder has, of this run or of somebody else, and not that of the list."""
        names = (name, *(f"{name}-{number}" for number in range(2, 1_000_000)))
        return next(it for it in names if it != "index" and not os.path.lexists(os.path.join(self.folder, f"{it}.html")))

    # ---- an order that passes

    def failing(self, point, record):
        """The order of a point's program that fails; None: it is none of a program that is at hand."""
        if record == point.file or not is_file(point.file):
            return None
        text = read(point.file)
        if kind_of_text(text.encode("latin-1")) != "program":
            return None
        # (a file that has changed meanwhile has no such order)
        with contextlib.suppress(NoOrder):
            return Failing(text, read(record), point.details.get("place", 0))
        return None

    def passing(self, point, failing):
        """An order of the point's program that passes, near the one that fails."""
        lines = [it.strip() for it in read(point.file).splitlines()]
        conditions = [it for at, it in enumerate(lines) if it.startswith("#!") and not (at == 0 and it.startswith("#!/"))]
        return near(failing, conditions, lines[point.line - 1] if point.line else None, self.judge)

    def judge(self, traces):
        """Of each trace the places of the conditions at its top that it breaks; None of one with which the board doesn't agree."""
        with tempfile.TemporaryDirectory(prefix="sbiboard-near.") as room:
            names = [f"{place}.trace" for place in range(len(traces))]
            for name, text in zip(names, traces):
                with open(os.path.join(room, name), "w", encoding="latin-1") as file:
                    file.write(text)
            words = ["sbiboard", "--failed", room, "--tap", os.path.join(room, "tap"), *names]
            how = {"stdin": subprocess.DEVNULL, "stdout": subprocess.DEVNULL, "stderr": subprocess.DEVNULL, "cwd": room}
            subprocess.run(words, executable=os.path.abspath(self.program), check=False, **how)
            points = failing_points(read(os.path.join(room, "tap")).splitlines(), names)
        broken = {name: [it.line if it.column is None else None for it in points if it.file == name] for name in names}
        return [None if None in broken[name] else {line - 1 for line in broken[name]} for name in names]

    # ---- the list

    def index(self):
        rows = []
        for point, name, at, said in self.rows:
            text = html.escape(point.text)
            link = f'<a href="{html.escape(url_of(name))}.html#{at + 1}">{text}</a>' if name else text
            record = html.escape(point.details.get("record", "")).replace("\n", " ")
            rows.append(f"<tr><td>{link}<td>{html.escape(point.orders)}<td>{record}<td>{html.escape(said)}</tr>")
        return INDEX.format(count=len(rows), rows="\n".join(rows))


def url_of(name):
    return quote(name.encode("utf-8", "surrogateescape"), safe="")


INDEX = """<!DOCTYPE html>
<html lang="en">
<head>
<meta charset="utf-8">
<title>sbiboard: points that fail</title>
<style>
body {{ font: 14px sans-serif; margin: 16px; color: #222; }}
td, th {{ text-align: left; vertical-align: top; padding: 3px 14px 3px 0; border-bottom: 1px solid #ddd; }}
</style>
</head>
<body>
<h1>Points that fail: {count}</h1>
<table>
<tr><th>point<th>orders<th>record<th>drawn</tr>
{rows}
</table>
</body>
</html>
"""


def is_own(path):
    """Whether a file is a page of an earlier run."""
    if not os.path.isfile(path):
        return False
    with open(path, "rb") as file:
        return MARK.encode() in file.read(400)


def others_list(folder):
    """The path at which the list of pages would overwrite something else; None: it wouldn't."""
    path = os.path.join(folder, "index.html")
    return path if os.path.lexists(path) and not is_own(path) else None


def take_away(folder):
    """Takes the pages of an earlier run out of a folder."""
    for path in filter(is_own, glob.glob(os.path.join(glob.escape(folder), "*.html"))):
        os.remove(path)


def draw(program, folder, points):
    """Draws the points that fail. Returns what is said of that."""
    failing = [it for it in points if not it.is_ok]
    if not failing:
        return "sbiboard: no point fails, so no page is written\n"
    pages = Pages(program, folder)
    pages.write(failing)
    drawn = sum(name is not None for _, name, _, _ in pages.rows)
    return f"sbiboard: {os.path.join(folder, 'index.html')} lists the points that fail ({len(failing)}, and {drawn} drawn)\n"
