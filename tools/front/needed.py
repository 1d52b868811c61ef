"""`explore --needed`: leaves out each fence of a program, each IPI, and each hart of their masks in turn, and prints which conditions
then fail. A condition is judged by `explore`, or by `test` if `explore` refuses it."""
import os
import shutil
import signal
import subprocess
import tempfile
import time
from collections import namedtuple

from board_model import ALL, IPI, RFENCE, number
from commands import FAILED, SECONDS
from kinds import MOST_BYTES, lines_of, why_unread
from points import Point, as_shown, read_points
from reading import BAD_FILE, STDIN, encoded, is_same, kept_input, output

# The calls that ask other harts for a fence, and the one that sends IPIs; the operations that are fences.
CALLS, FENCES = {(RFENCE, 0), (RFENCE, 1), (RFENCE, 2), (IPI, 0)}, (b"sfence", b"fencei")
# A mask has so many bits.
BITS = 64
# The verdicts on a condition.
HOLDS, FAILS, SAYS_NOTHING, NOT_JUDGED = "holds", "fails", "says nothing", "not judged"
# The statuses behind which there are points, and those of a table.
TOLD, NOT_OK, NOT_ALL_JUDGED = (0, 1, 8), 1, 8


class Stopped(Exception):
    """The program ended without points: its status, and what it said."""

    def __init__(self, status, said):
        super().__init__()
        self.status, self.said = status, said


# ---- what is left out

# What a change leaves out, what stands for it in a record's name, and the line in place of the program's (None: there is none).
Change = namedtuple("Change", "label mark line")
WITHOUT = Change("without it", "", b"")


def changes_of(line, harts):
    """The changes of a line: those of a fence or of a call that asks harts for one or sends IPIs; of others there are none."""
    words = line.partition(b"#")[0].split()
    if not words or words[0] not in (*FENCES, b"ecall"):
        return []
    if words[0] in FENCES:
        return [WITHOUT]
    eid, fid, mask, base = [*(number(it.decode()) for it in words[1:5]), 0, 0][:4]
    if (eid, fid) not in CALLS:
        return []
    if base == ALL and harts > BITS:
        return [WITHOUT, Change("without each hart", "", None)]
    return [WITHOUT, *(Change(f"mask without hart {hart}", f"-hart-{hart}", made) for hart, made in without_each(words, mask, base, harts))]


def without_each(words, mask, base, harts):
    """Each hart that a call names, with the call that names all others."""
    last = words[4:]
    if base == ALL:
        mask, base, last = (1 << harts) - 1, 0, [b"0", *words[5:]]
    for bit in range(BITS):
        if mask >> bit & 1:
            yield base + bit, b" ".join([*words[:3], b"%#x" % (mask & ~(1 << bit)), *last])


class Source:
    """A program's text, by its lines."""

    def __init__(self, text):
        self.lines = lines_of(text)
        words = [it.partition(b"#")[0].split() for it in self.lines]
        self.harts = next(number(it[1].decode()) for it in words if it)
        # Of each line the line of its block's head.
        self.heads, head = {}, None
        for at, it in enumerate(words, 1):
            head = at if it[:1] in ([b"at"], [b"clock"]) else head
            self.heads[at] = head

    def changes(self):
        """The lines of which something can be left out, each with its changes."""
        found = ((at, changes_of(it, self.harts)) for at, it in enumerate(self.lines, 1))
        return [(at, changes) for at, changes in found if changes]

    def shown(self, at):
        return " ".join(self.lines[at - 1].partition(b"#")[0].decode().split())

    def changed(self, at, change):
        """The text with a change. Its lines keep their numbers."""
        return b"\n".join([*self.lines[: at - 1], change.line, *self.lines[at:]])


# ---- judgements


def verdict_of(point):
    if point.is_ok:
        return HOLDS
    if is_some_without_step(point):
        return FAILS
    return next((it for it in (FAILS, NOT_JUDGED) if point.why.startswith(it)), SAYS_NOTHING)


def is_some_without_step(point):
    """Whether `some` isn't met since no order has a step of its actor and operation, which `explore` tells as vacuous."""
    return point.condition.split()[0] == "some" and point.why.startswith("vacuous")


def name_of(point):
    return f"line {point.line}" if point.line else f"'{point.condition}'"


class Judge:
    """Judges texts by the program of `test` and `explore`, in a folder of its own."""

    def __init__(self, program, room, name, given, until):
        self.program, self.room, self.name, self.until = os.path.abspath(program), room, name, until
        self.states = [f"--states={it}" for it in given.get("states", ())]

    def words(self, task):
        own = ["--no-outcomes", *self.states] if task == "explore" else []
        left = [] if self.until is None else [f"--seconds={max(0, int(self.until - time.monotonic()))}"]
        return [f"sbiboard {task}", *own, *left, "--failed", ".", "--", self.name]

    def told(self, task, text):
        """The points that a task tells of a text, and its comments."""
        with open(os.path.join(self.room, self.name), "wb") as file:
            file.write(text)
        how = {"stdin": subprocess.DEVNULL, "stdout": subprocess.PIPE, "stderr": subprocess.PIPE}
        found = subprocess.run(encoded(self.words(task)), executable=self.program, cwd=self.room, check=False, **how)
        if found.returncode not in TOLD:
            raise Stopped(found.returncode, found.stderr.decode("utf-8", "replace"))
        items = [*read_points(found.stdout.decode("utf-8", "surrogateescape").split("\n"), [self.name])]
        return [it for it in items if isinstance(it, Point)], [it for it in items if isinstance(it, str)]

    def judged(self, text, tasks=None):
        """
        The judgement of a text by `explore`, and by `test` if some condition needs it; or by these tasks (the one of each
        condition), which have judged the unchanged text.
        """
        found = {it: self.told(it, text) for it in ("explore", "test") if tasks is None and it == "explore" or it in (tasks or ())}
        if tasks is None:
            tasks = ["test" if it.why.endswith("use test") else "explore" for it in found["explore"][0]]
            if "test" in tasks:
                found["test"] = self.told("test", text)
        return Judgement(tasks, found)


class Judgement:
    """Of each condition its point and the task that tells it; why there are none; and whether some orders were cut off."""

    def __init__(self, tasks, found):
        points, comments = next(iter(found.values()))
        self.tasks, self.comments, self.why = tasks, comments, None
        wrong = next((it for it in points if it.condition is None), None)
        if wrong or any(len(it) != len(tasks) for it, _ in found.values()):
            self.why = (f"{wrong.line}:{wrong.column}: " if wrong and wrong.column else "") + (wrong.why if wrong else "other conditions")
            return
        self.points = [found[task][0][at] for at, task in enumerate(tasks)]
        self.cut = why_cut(found["test"][1]) if "test" in found else ""

    def verdict(self, at):
        """What is told of a condition; what orders that were cut off say isn't all that was asked for."""
        found = verdict_of(self.points[at])
        return NOT_JUDGED if found == HOLDS and self.tasks[at] == "test" and self.cut else found

    def said(self, at):
        """The same in words, where it doesn't hold in all orders."""
        point, found = self.points[at], self.verdict(at)
        if found == HOLDS:
            return "" if (point.looked or {}).get("all", True) else f"{name_of(point)} {point.why}"
        if found == NOT_JUDGED:
            return f"{name_of(point)}: " + (f"not judged: {self.cut}" if point.is_ok else point.why)
        return f"{name_of(point)} {found}" + (f": {point.why.partition(';')[0]}" if found == SAYS_NOTHING or is_some_without_step(point) else "")


def why_cut(comments):
    """Why `test` hasn't seen what it tried to its end, or nothing."""
    if any(it.startswith("cut short") for it in comments):
        return "the time ended it"
    ends = next((it for it in comments if it.startswith("ends: ")), "")
    many = next((it.split()[0] for it in ends.removeprefix("ends: ").split(", ") if it.endswith(" history-full")), "0")
    return f"the limit cut off {many} orders" if many != "0" else ""


# ---- the table


class Table:
    """The table of a file. `keep` keeps a record under the file's name and a mark, and says where; `tell` prints a line."""

    def __init__(self, judge, shown, keep, tell):
        self.judge, self.shown, self.keep, self.tell = judge, shown, keep, tell
        self.counts = dict.fromkeys((FAILS, HOLDS, NOT_JUDGED), 0)

    def make(self, text):
        """Prints the table of a text. Returns the status."""
        self.own = self.judge.judged(text)
        if self.own.why is not None:
            self.tell(f"{self.shown}{':' if self.own.why[:1].isdigit() else ': '}{self.own.why}")
            return NOT_OK
        self.tell(self.shown)
        verdicts = [self.own.verdict(at) for at in range(len(self.own.points))]
        self.asked = [at for at, it in enumerate(verdicts) if it == HOLDS]
        for at, it in enumerate(self.own.points):
            self.tell(f"  {self.of_own(at, it, verdicts[at])}")
        source = Source(text)
        rows, last = source.changes(), NOT_OK if {FAILS, SAYS_NOTHING} & {*verdicts} else NOT_ALL_JUDGED if NOT_JUDGED in verdicts else 0
        if not self.asked:
            self.tell("# no condition holds, so nothing is left out")
            return last
        if not rows:
            self.tell("# nothing to leave out: no fence and no IPI")
            return NOT_OK
        width = max(len(it.label) for _, changes in rows for it in changes)
        for at, changes in rows:
            self.tell(f"line {at}: {source.shown(at)}")
            for change in changes:
                self.tell(f"  {change.label:{width}}  {self.row(source, at, change)}")
        many = sum(self.counts.values())
        self.tell(f"# {many} change{'s' * (many != 1)}: with {self.counts[FAILS]} a condition fails, with {self.counts[HOLDS]} none does, {self.counts[NOT_JUDGED]} not judged")
        return NOT_OK if self.counts[HOLDS] else last or NOT_ALL_JUDGED * bool(self.counts[NOT_JUDGED])

    def of_own(self, at, point, verdict):
        """What is told of a condition as the file stands."""
        named = f"line {point.line}" if point.line else "no condition"
        why = f"not judged: {self.own.cut}" if point.is_ok and verdict == NOT_JUDGED else point.why or verdict
        return f"{named}: {point.condition}: {why} (by {self.own.tasks[at]})" + ("" if verdict == HOLDS else "; so it can't tell what is needed")

    def row(self, source, at, change):
        """What a change does, and counts it."""
        if f"line {source.heads[at]}: no order entered the block at " in {it.rpartition("0x")[0] for it in self.own.comments}:
            self.counts[HOLDS] += 1
            return "no order enters its block"
        found = self.judge.judged(source.changed(at, change), self.own.tasks) if change.line is not None else None
        if found is None or found.why is not None:
            self.counts[NOT_JUDGED] += 1
            return f"not judged: {found.why if found else 'no mask names all others'}"
        verdicts = {it: found.verdict(it) for it in self.asked}
        failing = [it for it in self.asked if verdicts[it] == FAILS]
        self.counts[FAILS if failing else NOT_JUDGED if NOT_JUDGED in verdicts.values() else HOLDS] += 1
        said = [found.said(it) + self.kept(found.points[it], f"without-{at}{change.mark}") for it in failing]
        said += [found.said(it) for it in self.asked if verdicts[it] in (NOT_JUDGED, SAYS_NOTHING)]
        return "; ".join([*said, *([] if failing else self.unnoticed(found, verdicts))])

    def kept(self, point, mark):
        record = point.details.get("record")
        return f" ({self.keep(os.path.join(self.judge.room, record), mark, point.line or 0)})" if record else ""

    def unnoticed(self, found, verdicts):
        """What is told where no condition fails, and all were judged."""
        if NOT_JUDGED in verdicts.values():
            return []
        if not self.own.points[0].line:
            return ["no order ends stuck, and there is no condition"]
        lines = ", ".join(str(self.own.points[it].line) for it in self.asked)
        none = "no condition fails" if len(self.asked) == len(self.own.points) else f"of the conditions in line{'s' * (',' in lines)} {lines} none fails"
        return [none, *filter(None, (found.said(it) for it in self.asked if verdicts[it] == HOLDS))]


# ---- the whole


class Needed:
    """A call with `--needed`."""

    def __init__(self, program, given):
        self.program, self.given, self.unwritten, self.files = program, given, False, [STDIN if it == "-" else it for it in given[""]]
        self.folder = given.get(FAILED.name, [FAILED.default])[0]
        seconds = given.get(SECONDS.name)
        self.until = time.monotonic() + int(seconds[0]) if seconds else None

    def run(self):
        statuses = set()
        with output() as out, tempfile.TemporaryDirectory(prefix="sbiboard-needed.") as room:
            for place, (file, name) in enumerate(zip(self.files, names_of(self.files))):
                own = os.path.join(room, str(place))
                os.mkdir(own)
                tell = lambda line: (out.write(line + "\n"), out.flush())
                table = Table(Judge(self.program, own, name, self.given, self.until), as_shown(file), lambda *how, of=name: self.keep(of, *how), tell)
                statuses.add(self.status_of(table, file))
        return BAD_FILE if self.unwritten else next((it for it in (NOT_OK, NOT_ALL_JUDGED) if it in statuses), 0)

    def status_of(self, table, file):
        try:
            with kept_input() if file == STDIN else open(file.encode(), "rb") as script:
                text = script.read(MOST_BYTES + 1)
        except OSError as error:
            table.tell(f"{table.shown}: {file != STDIN and why_unread(file.encode()) or error.strerror}")
            return NOT_OK
        return table.make(text)

    def keep(self, name, record, mark, line):
        """Keeps a record of a changed program. Returns where, or why it isn't kept."""
        path = os.path.join(self.folder, f"{name}.{mark}.{line}.failed")
        try:
            if any(is_same(path, it) for it in self.files):
                raise OSError(0, "it would replace a tested file")
            shutil.copyfile(record, path)
        except OSError as error:
            self.unwritten = True
            return f"unwritten: {as_shown(path)}: {error.strerror}"
        return as_shown(path)


def names_of(files):
    """The names of files without folders, each once: a later one of the same name has the next free number."""
    found = []
    for file in files:
        name = os.path.basename(file)
        found.append(next(it for it in (name, *(f"{name}~{number}" for number in range(2, len(files) + 2))) if it not in found))
    return found


def run_needed(program, given):
    """Prints the tables of the files. Returns the status, and what is said."""
    # (what is kept in a temporary folder is taken away before nobody reads on)
    signal.signal(signal.SIGPIPE, signal.SIG_IGN)
    try:
        return Needed(program, given).run(), ""
    except Stopped as stopped:
        return stopped.status, stopped.said
    except BrokenPipeError:
        signal.signal(signal.SIGPIPE, signal.SIG_DFL)
        os.kill(os.getpid(), signal.SIGPIPE)
        return BAD_FILE, ""
