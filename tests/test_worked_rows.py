"""The worked rows, whose files stand in `tests/rows`: each is replayed by the program. All that a replay prints must be a trace with
which `check` agrees.

A line `row NAME` begins a row. The lines after it are a schedule, written as a trace: the reply behind `->` is the one that the board
must give; a line without one may have any that is no refusal. Then one of these may follow:
- `ends STATUS`, and whole lines that must be printed; `lacks TEXT` names a text that must not be.
- `prints STATUS`, and all that must be printed. The schedule is replayed as it stands.
- `says`, and lines `OUTCOME | TEXT`: the schedule with the text after it, where `\\n` is a line feed, must end with that outcome, and
  print something only where it is good. A fault must also end the text's check.
- `checks`, and lines `SAID | TEXT`: the lines as they stand, with the text after them, are checked as a trace, which must print that
  line, or end with that outcome and print nothing.
- `each STATE`, and lines that are replayed one by one, each after the schedule. Hart 1 must be in that state after each, or in the
  state behind `#`.
"""
import os
import re

from .fixtures import Test, add, allocating, must, named, ran, shim, shown, write
from .replays import ROWS, parted, rows_in

# The state that the table shows of hart 1.
STATE = re.compile(r"^#\s+1\s+(\w+)", re.M)


def run_on(room, task, text):
    """How a task ends on a script: its status, what it prints, and what it says on standard error."""
    found = ran([task, write(os.path.join(room, "a.script"), text)])
    return found.returncode, found.stdout.decode(), found.stderr.decode()


def replayed(room, text, status):
    """What the replay of a schedule prints, which must end with this status, and be a trace that agrees with all its steps."""
    ended, printed, said = run_on(room, "replay", text)
    must(f"ended {ended}: {said}", ended == status)
    steps = sum(" -> " in it for it in printed.splitlines())
    must("not all steps were checked", run_on(room, "check", printed) == (0, f"agrees {steps}\n", ""))
    return printed


def answered(room, lines, status, wanted=()):
    """The same of a schedule with its replies, each of which must be given, and of lines that must be printed."""
    printed = replayed(room, "".join(f"{parted(it)[0]}\n" for it in lines), status)
    answers = printed.splitlines()
    must(f"{len(answers)} lines of {len(lines)}", len(answers) > len(lines) and answers[len(lines)].startswith("# time "))
    for line, answer in zip(lines, answers):
        reply = parted(line)[1]
        must(f"{line}: {answer}", "refused" not in answer if reply is None else parted(answer)[1] == reply)
    for it in wanted:
        must(f"not so: {it}", it[6:] not in printed if it.startswith("lacks ") else it in answers)
    return printed


def must_say(room, task, text, wanted):
    """What is said of a script is this: what the check of a trace prints, or else the outcome."""
    if task == "check" and wanted.startswith(("agrees ", "differs ")):
        found = run_on(room, task, text)
        must(f"{wanted}: {found}", found == (5 if wanted[0] == "d" else 0, f"{wanted}\n", ""))
        return
    status, printed, said = run_on(room, task, text)
    is_good = wanted == "good"
    must(f"{wanted}: {status}, {printed}{said}", (status, bool(printed), said) == (not is_good, is_good, "" if is_good else f"sbiboard: {wanted}\n"))
    if wanted.startswith("line "):
        must("the check finds another fault", run_on(room, "check", text) == (1, "", said))


def must_be_so(room, lines, kind, what, below):
    """A row is so."""
    cases = [it for it in below.split("\n") if it]
    must("no case", cases or kind not in ("each", "says", "checks"))
    if kind == "prints":
        printed = replayed(room, lines, int(what))
        must(f"printed {shown(printed)}", printed == below)
    elif kind == "each":
        for case in cases:
            state = case.partition("#")[2].strip() or what
            found = STATE.search(answered(room, [*lines.splitlines(), case], 0))
            must(f"{case}: {found and found[1]}", found and found[1] == state)
    elif kind in ("says", "checks"):
        for case in cases:
            wanted, bar, text = case.partition(" | ")
            must(f"{case}: no text", bar)
            must_say(room, "replay" if kind == "says" else "check", lines + text.replace("\\n", "\n"), wanted)
    else:
        answered(room, lines.splitlines(), int(what), cases)


# The most that an allocation takes, in bytes, on a board with a small limit.
LARGEST = 2_000_000


class WorkedRows(Test):
    @named("worked rows: allocations are small")
    def test_allocations_are_small(self):
        """On boards with small limits no replay asks for much memory at once."""
        made = shim(self.room)
        for name, lines, *_ in rows_in("harts.rows"):
            text = "".join(f"{parted(it)[0]}\n" for it in lines.splitlines())
            _, sizes = allocating(made, self.room, ["replay", write(os.path.join(self.room, "a.script"), text)])
            must(f"row {name}: {max(sizes)} bytes", max(sizes) <= LARGEST)


def of_file(file):
    """The test of a file's rows."""

    def each_row(room):
        rows = list(rows_in(file))
        must("no rows", rows)
        for name, *row in rows:
            try:
                must_be_so(room, *row)
            except AssertionError as why:
                raise AssertionError(f"row {name}: {why}") from None

    return each_row


for each in sorted(os.listdir(ROWS)):
    add(WorkedRows, f"worked rows: {each.removesuffix('.rows')}", of_file(each))
