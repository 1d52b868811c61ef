"""Orders from a seed, and conditions: the program behind `sbiboard test`."""
import os
import pty
import random
import shutil
import subprocess
import threading
from unittest import SkipTest

from . import programs, replays
from .expected_points import said_of
from .fixtures import HANG, NO_MEMORY, PROGRAM, ROOT, TESTER, Test, allocating, must, named, ran, read, shim, tester, told, told_of, write

# Hart 1 loads twice while hart 0, which started it, stores once.
RACE = """\
board 2 4 100 0 0x80000000 0x0
at 0x80000000
ecall 0x48534d 0 1 0x80001000 0x7
store 0x80002000 0x1
at 0x80001000
load 0x80002000
load 0x80002000
"""

# Three stores of hart 0 beside the entry and three loads of hart 1: 7 over 3.
LOADS_AND_STORES = RACE.replace("store 0x80002000 0x1\n", "store 0x80002000 1\nstore 0x80002000 2\nstore 0x80002000 3\n") + "load 0x80002000\n"

# An IPI wakes hart 1, where it comes behind its entry; before, it is asked of a hart that isn't started, and hart 1 waits for ever.
# A store and the IPI of hart 0 beside the entry and the `sie` of hart 1, 4 over 2, and behind them the `wfi` and the load.
WAKE = """\
board 2 4 100 0 0x80000000 0x0
at 0x80000000
ecall 0x48534d 0 1 0x80001000
store 0x80002000 0x1
ecall 0x735049 0 0x2 0
at 0x80001000
sie 0x2
wfi
load 0x80002000
"""

# Hart 1 is suspended with nothing enabled, and the IPI of hart 0, which waits until it runs, doesn't wake it.
SUSPENDED = """\
board 2 4 100 0 0x80000000 0x0
at 0x80001000
ecall 0x735049 0 0x1 0
  # it sleeps
ecall 0x48534d 3 0
at 0x80000000
sie 0x2
ecall 0x48534d 0 1 0x80001000
wfi
ecall 0x735049 0 0x2 0
"""

# Each hart makes a call that always fails: behind a fence call that a `poll` ends, and behind the `serve` of that fence.
FAILING_CALLS = """\
board 2 2 100 0 0x80000000 0x0
at 0x80000000
ecall 0x48534d 0 1 0x80001000 0
sie 0x2
wfi
clearssip
ecall 0x52464e43 1 0x2 0
ecall 0x735049 0 0x2 0
ecall 0x48534d 0 9 0x80001000
sip
at 0x80001000
sie 0x2
ecall 0x735049 0 0x1 0
wfi
ecall 0x48534d 0 8 0x80001000
sip
"""
FAILING_LINES = ["# line 9: each answer to 'ecall 0x48534d 0 9 0x80001000' was an error", "# line 15: each answer to 'ecall 0x48534d 0 8 0x80001000' was an error"]

# Harts 1 and 2, which have told hart 0 that they run, are asked for a fence, and serve it in either order; hart 2 loads once at any of
# seven places behind its IPI.
FENCE = """\
board 3 4 100 0 0x80000000 0x0
at 0x80000000
sie 0x2
ecall 0x48534d 0 1 0x80001000
wfi
clearssip
ecall 0x48534d 0 2 0x80001100
wfi
clearssip
ecall 0x52464e43 0 0x6 0
at 0x80001000
ecall 0x735049 0 0x1 0
at 0x80001100
ecall 0x735049 0 0x1 0
load 0x80002000
"""

# Programs, and how many orders each has.
COUNTED = ((RACE, 4), (LOADS_AND_STORES, 35), (WAKE, 6), (FENCE, 14))

# A condition of the race, and whether its records meet it.
ROWS = (
    ("some 1 load _ -> value 0x1", True), ("some 1 load _ -> value 0", True), ("some 1 load _ -> value 2", False),
    ("never 1 load 0x80002000 -> value 0x2", True), ("never _ load -> value 1", False), ("never c", True),
    ("never 1 load -> value 0 after 0 store", True), ("never 1 load -> value 1 after 0 store", False),
    ("each 0 store -> done", True), ("each 1 load _ -> value 0x0", False), ("end quiet", True), ("end off stuck", False),
    ("before 1 advance, 1 load", True), ("before 0 store, 1 load", False), ("before 0 store, 1 load -> value 1", True),
)  # fmt: skip

# A condition that can't be read, the column of what is wrong, and what it is.
FAULTS = (
    ("#! nevr 1 load", 4, "unknown condition"), ("#! never 1 laod", 12, "unknown word"), ("#! never 128 load", 10, "not a number"),
    ("#! never 1 load 0x", 17, "not a number"), ("#! never 1 load 1 2", 19, "too few or too many words"),
    ("#! each 1 load", 15, "too few or too many words"), ("#! before 0 store 1 load", 21, "not a number"),
    ("#! before 0 store", 18, "no comma"), ("  #! never 1 sip -> refused 2", 21, "no accepted step is refused"), ("#! end soon", 8, "unknown word"),
    ("#!", 3, "too few or too many words"), ("#! some", 8, "too few or too many words"), ("#! end", 7, "too few or too many words"),
    ("#! never # 1 load", 9, "too few or too many words"), ("#! never 1 load ->", 19, "too few or too many words"), ("#! never 1 load after", 22, "too few or too many words"),
    ("\t#!  never  x load", 13, "not a number"), ("#! never 0x80 load", 10, "not a number"), ("#! some 1 ecall 1 2 3 4 5 6 7 8 9", 33, "too few or too many words"),
    ("#! some 1 load -> valu 1", 19, "unknown word"), ("#! each 1 load -> value 1 2", 27, "too few or too many words"), ("#! some 1 load 0x8000000000000000000", 16, "not a number"),
    ("#! some 1 poll -> ret -9223372036854775809", 23, "not a number"), ("#! before 0 store,", 19, "too few or too many words"), ("#! before 0 store, 1 laod", 22, "unknown word"),
    ("#! never * load", 10, "any word is '_'"), ("#! some 1 *", 11, "any word is '_'"), ("#! before 0 store *, 1 load", 19, "any word is '_'"), ("#! each 1 load * -> value 1", 16, "any word is '_'"),
    ("#! never 1 load #! never 0 store", 17, "a condition stands alone on its line"), ("#! never 1 load#! never 0 store", 16, "a condition stands alone on its line"), ("#! #! never 1 load", 4, "a condition stands alone on its line"), ("#! end  #!", 9, "a condition stands alone on its line"),
    ("#! never 1 laod #! never 0 store", 12, "unknown word"), ("#! maybe", 9, "too few or too many words"), ("#! maybe maybe never 1 load", 10, "unknown condition"), ("#! perhaps never 1 load", 4, "unknown condition"),
    ("#!/usr/bin/env sbiboard", 3, "unknown condition"), ("#! NEVER 1 load", 4, "unknown condition"), ("#! end quiet, off", 8, "unknown word"),
    ("#! can", 7, "too few or too many words"), ("#! can quiet", 8, "unknown word"), ("#! can end soon", 12, "unknown word"), ("#! can end quiet history-full", 18, "unknown word"), ("#! can end soon history-full", 12, "unknown word"), ("#! can end history-full soon", 12, "unknown word"),
    ("#! can maybe end", 8, "unknown word"), ("#! maybe can", 13, "too few or too many words"), ("#! cann end", 4, "unknown condition"),
    ("#! never -> done", 10, "too few or too many words"), ("#! never after 0 sip", 10, "too few or too many words"), ("#! never 1 load -> value 1 -> value 2", 28, "too few or too many words"),
    ("#! before , 1 load", 11, "too few or too many words"), ("#! before 0 ->, 1", 13, "too few or too many words"), ("#! before 0 sip ,, 1", 17, "not a number"), ("#! before 0 store 1 2, 3, 4", 24, "unknown word"),
    ("#! some 1 load after 2", 16, "not a number"), ("#! each 1 load ->", 18, "too few or too many words"), ("#! end quiet end", 14, "unknown word"), ("\t #!   maybe   can end   quiet   soon#of", 34, "unknown word"),
)  # fmt: skip

# What can't be tested: a file's text, and what is said of it: the place, what is wrong, and the word.
HEAD = "board 1 1 9 0 0x80000000 0\n"
UNTESTED = (
    (HEAD + "0 ecal 0x10\n", ":2:3: unknown operation 'ecal' (fault 3)"),
    (HEAD + "\t0 sip ->  valu 1\n", ":2:12: unknown reply 'valu' (fault 3)"),
    (HEAD + "at 0x10\n poll # it is the firmware's\n", ":3:2: its block allows no operation 'poll' (fault 3)"),
    (HEAD + "clock\nsip\n", ":3:1: its block allows no operation 'sip' (fault 3)"),
    (HEAD + "128 sip\n", ":2:1: not a number, or too large: '128' (fault 4)"), (HEAD + "0 load  0X10\n", ":2:9: not a number, or too large: '0X10' (fault 4)"),
    (HEAD + "0 sfence - x\n", ":2:12: not a number, or too large: 'x' (fault 4)"), (HEAD + "0 sstatus 2\n", ":2:11: not a number, or too large: '2' (fault 4)"),
    (HEAD + "0 poll -> ret 0x1 2\n", ":2:15: not a number, or too large: '0x1' (fault 4)"),
    (HEAD + "0 poll -> ret -1 -2\n", ":2:18: not a number, or too large: '-2' (fault 4)"),
    ("board 1 1 9 0 0x80000000\n", ":1:25: a word is missing (fault 5)"), (HEAD + "0 # nothing\n", ":2:2: a word is missing (fault 5)"),
    (HEAD + "0 load 1 2\n", ":2:10: a word too many: '2' (fault 5)"), (HEAD + "0 store 1 -> done\n", ":2:11: a word is missing before '->' (fault 5)"),
    (HEAD + "0 sip ->\n", ":2:9: a word is missing (fault 5)"), (HEAD + "0 sip -> value\n", ":2:15: a word is missing (fault 5)"),
    (HEAD + "0 advance -> entry 1 2\n", ":2:23: a word is missing (fault 5)"), (HEAD + "0 advance -> entry 1 0 3 4\n", ":2:26: a word too many: '4' (fault 5)"),
    (HEAD + "0 sip -> done -> done\n", ":2:15: a word too many: '->' (fault 5)"), (HEAD + "at 1 2\n", ":2:6: a word too many: '2' (fault 5)"),
    (HEAD + "cut 1\n", ":2:5: a word too many: '1' (fault 5)"), (HEAD + "cut ->\n", ":2:7: a word is missing (fault 5)"),
    (HEAD + "cut -> bar\n", ":2:8: unknown reply 'bar' (fault 3)"),
    (HEAD + "cut -> done 1\n", ":2:13: a word too many: '1' (fault 5)"), (HEAD + "0 -> done\n", ":2:3: a word is missing before '->' (fault 5)"),
    (HEAD + "sip\n", ":2:1: a line of another kind: 'sip' (fault 6)"), (HEAD + "at 16\nat 0x10\n", ":3:4: a second block of '0x10' (fault 7)"),
    (HEAD + "clock\nclock\n", ":3:1: a second block of 'clock' (fault 7)"), ("bord 1\n", ":1:1: no board line, but 'bord' (fault 2)"),
    (HEAD + "0 sip\r", ":2:6: a carriage return before no line feed (fault 1)"), (HEAD + "0 sip\r\r\n", ":2:6: a byte that is neither printable ASCII nor a tab (fault 1)"),
    (HEAD + "0 s\rip\n", ":2:4: a byte that is neither printable ASCII nor a tab (fault 1)"), (HEAD + "0 sip # so\rand so\n", ":2:11: a byte that is neither printable ASCII nor a tab (fault 1)"),
    ("\ufeff" + HEAD, ":1:1: a byte order mark (fault 1)"), (HEAD + "0 sip # \u00e9\n", ":2:9: a byte that is neither printable ASCII nor a tab (fault 1)"),
    ("", ": the first line with words isn't a board line, or no line has words (fault 2)"),
    ("board 200 1 9 0 0x80000000 0\n", ": bad board: HARTS is 200, at most 128"), ("board 1 0 9 0 0x80000000 0\n", ": bad board: PAGES is 0, at least 1"),
    ("board 1 1 1000001 0 0x80000000 0\n", ": bad board: LIMIT is 1000001, at most 1000000"),
    ("board 2 1 9 2 0x80000000 0\n", ": bad board: BOOTHART is 2, at most 1"),
    ("board 1 1 9 0 0x70000000 0\n", ": bad board: BOOTADDR is 0x70000000, not an even address of the RAM"),
    ("board 1 1 9 0 0x70000000 0 17 40\n", ": bad board: BOOTADDR is 0x70000000, not an even address of the RAM"),
    ("board 1 1 9 0 0x80000000 0 17 40\n", ": bad board: ASIDLEN is 17, at most 16"),
    ("board 1 1 9 0 0x80000000 0 0 40\n", ": bad board: WIDTH is 40, not 39 or 48"),
)  # fmt: skip

# A schedule of a hart that enters.
SCHEDULE = HEAD + "0 advance\n0 sip\n"

# Pages 0x1000, to be fetched from, and 0x2000, to be loaded from, change places without a fence.
STALE = """\
board 1 8 100 0 0x80000000 0x0
0 advance
0 store 0x80001000 0x20000801
0 store 0x80002000 0x20000c01
0 store 0x80003008 0x20001049
0 store 0x80003010 0x20001443
0 store 0x80004000 0x11
0 store 0x80005000 0x22
0 satp 0x8000000000080001
0 fetch 0x1000
0 load 0x2000
0 fetch 0x1000
0 satp 0
0 store 0x80003008 0x20001449
0 store 0x80003010 0x20001043
0 satp 0x8000000000080001
0 fetch 0x1000
0 load 0x2000
0 sfence - -
0 fetch 0x1000
0 load 0x2000
0 satp 0
0 fetch 0x80005000
0 store 0x80005000 0x33
0 fetch 0x80005000
0 fencei
0 fetch 0x80005000
"""


def at_a_terminal(room, *words, seconds=HANG):
    """What a program of these words writes to a terminal, where both its standard output and its standard error are one."""
    ours, its = pty.openpty()
    child = subprocess.Popen(["sbiboard", *words], executable=TESTER, cwd=room, stdin=subprocess.DEVNULL, stdout=its, stderr=its)
    os.close(its)
    # (one that goes on and on is ended, and has told what it has)
    timer = threading.Timer(seconds, child.kill)
    timer.start()
    text = b""
    try:
        while piece := os.read(ours, 4096):
            text += piece
    except OSError:
        pass  # (the terminal ends so)
    os.close(ours)
    status = child.wait(seconds)
    timer.cancel()
    return status, text.decode().replace("\r\n", "\n")


def tour():
    """The commands of the tour on finding orders, in fours, and the text that the first of them prints."""
    text = read(os.path.join(ROOT, "docs/TOUR.md"))
    text = text[text.index("## Asking a question") : text.index("## All orders")]
    commands = [line.strip() for line in text.split("\n") if line.startswith("    ./sbiboard") or line.startswith("    sed ")]
    shown = text[text.index("```\nTAP") + len("```\n") :]
    return [commands[at : at + 4] for at in range(0, len(commands), 4)], shown[: shown.index("```")]


def must_be_as_by_seeds(room, command):
    """Orders of a seed fail as the tour says, and the first of them alone."""
    for words, told_of_it in (("--times 1000", ["  failing: 260", "  order: 5"]), ("--order 5", ["  failing: 1", "  order: 5"])):
        found = subprocess.run(["bash", "-c", f"{command} {words}"], cwd=room, capture_output=True, text=True, timeout=HANG)
        lines = found.stdout.splitlines()
        must(f"{words}: {found}", found.returncode == 1 and all(line in lines for line in told_of_it) and '  record: "./lost-wakeup.program.0-5.failed"' in lines)


class Orders(Test):
    programs = (PROGRAM, TESTER)

    def test_conditions_are_judged(self):
        """Each condition of the table is met, or isn't."""
        for asked, holds in ROWS:
            status, lines = told(self.room, f"#! {asked} # as it is\n{RACE}", "--times", "200")
            said = said_of(holds, asked.startswith("some"), "200 orders of unknown many, seed 0")
            point = f"{'' if holds else 'not '}ok 1 - race.program: line 1: {asked}{said}"
            must(f"{asked}: {status}, {lines[:3]}", status == (0 if holds else 1) and lines[0] == "TAP version 13" and lines[1] == point)
            must(f"{asked}: {lines}", f"# 1 points, {0 if holds else 1} failed" in lines)
        # (a dash stands for itself alone)
        for asked, holds in (("- 5", False), ("0x1000 -", False), ("- -", True), ("0x1000 5", True), ("_ 5", False), ("- _", False)):
            text = "board 1 1 10 0 0x80000000 0\n0 advance\n0 sfence - 5\n0 sfence 0x1000 -\n"
            status, lines = told(self.room, f"#! never 0 sfence {asked}\n{text}", name="a.sched")
            must(f"{asked}: {status}, {lines[:3]}", status == (0 if holds else 1))

    def test_points_are_told(self):
        """Each condition is a point, then come the plan and the summary; a pattern that met no step is told."""
        status, lines = told(self.room, f"#! never 0 sip\n{RACE}#! some 1 load -> value 1\n", "--times", "50")
        wanted = [
            "TAP version 13", "ok 1 - race.program: line 1: never 0 sip: holds in 50 orders of unknown many, seed 0",
            "# line 1: never met: no step has this actor and operation",
            "ok 2 - race.program: line 9: some 1 load -> value 1: holds in some of 50 orders of unknown many, seed 0", "1..2", "# 2 points, 0 failed", "# 1 files, 50 orders, 4 different records",
            "# ends: 0 off, 0 history-full, 50 quiet, 0 stuck",
        ]  # fmt: skip
        must(f"{lines}", status == 0 and lines == wanted)
        # (those of several files are summed)
        told(self.room, RACE, name="other.program")
        status, lines = told_of(self.room, "--times", "50", "race.program", "other.program")
        must(f"{lines}", status == 0 and "# 2 files, 100 orders, 8 different records" in lines)

    def test_bad_conditions_are_told(self):
        """A condition that can't be read is a point that fails, with its line, its column and the word there."""
        for line, column, why in FAULTS:
            status, lines = told(self.room, RACE + line + "\n")
            word = "".join(f": '{it}'" for it in line[column - 1 :].partition("#")[0].split()[:1])
            must(f"{line}: {lines}", status == 1 and lines[1] == f"not ok 1 - race.program:8:{column}: {why}{word}")
        # (what follows a condition behind a `#` is a comment, and so is a `#!` in one)
        for asked in ("#! never 9 load # as #! says", "#! never 9 load ##! so"):
            status, lines = told(self.room, RACE + asked + "\n")
            must(f"{asked}: {lines}", status == 1 and lines[1].endswith(": the board has no hart 9"))
        # (on the first line it makes a script that can be executed, and says nothing)
        status, lines = told(self.room, f"#!/usr/bin/env -S sbiboard test\n{RACE}", "--times", "3")
        must(f"{lines}", status == 0 and lines[1] == "ok 1 - race.program: no order ends stuck: holds in 3 orders of unknown many, seed 0")

    def test_conditions_behind_other_words_are_told(self):
        """A `#!` behind other words of a line asks nothing; it is a point that fails, in each task that judges, and a comment for all others."""
        rows = (("a.program", RACE, "store 0x80002000 0x1"), ("a.sched", SCHEDULE, "0 advance"), ("a.trace", replays.traced(SCHEDULE), "0 advance -> entry 0x80000000 0 0x0"))
        for name, text, row in rows:
            must(text, f"\n{row}\n" in text)
            for behind in (" #! never 0 store", "#!", "\t#! end quiet # so", " #!/usr/bin/env"):
                status, lines = told(self.room, "#! some 0 advance\n" + text.replace(f"\n{row}\n", f"\n{row}{behind}\n"), name=name)
                line = 2 + text[: text.index(f"\n{row}\n") + 1].count("\n")
                column = len(row) + 1 + len(behind) - len(behind.lstrip())
                must(f"{name}: {behind}: {lines}", status == 1 and lines[1] == f"not ok 1 - {name}:{line}:{column}: a condition stands alone on its line")
            # (another comment may have one)
            for behind in (" # as #! says", " ##!", " # !never 1 load"):
                status, lines = told(self.room, "#! some 0 advance\n" + text.replace(f"\n{row}\n", f"\n{row}{behind}\n"), name=name)
                must(f"{name}: {behind}: {lines}", status == 0 and not any("stands alone" in it for it in lines))

    def test_names_are_escaped(self):
        """No letter of a file's name means something in a point, or in a quoted value."""
        status, lines = told(self.room, "#! never 0 store\n" + RACE, name='a#b"c\\d\te.program')
        must(f"{lines}", status == 1 and lines[1].startswith('not ok 1 - a\\#b"c\\\\d?e.program: line 1: never 0 store'))
        must(f"{lines}", [line for line in lines if line.startswith('  record: "./a#b\\"c\\\\d?e.program.')])
        # (a name is as it is: blanks are a part of it, and nothing in it is a pattern)
        for name in (" a.program", "a.program ", " ", "a  b", "*", "%s", "~", "a\u00a0", "\u00e9.program", "'"):
            status, lines = told(self.room, RACE, name=name)
            must(f"{name!r}: {lines}", status == 0 and lines[1] == f"ok 1 - {name}: no order ends stuck: holds in all orders: 4")

    @named("files that can't be tested are told")
    def test_files_that_can_t_be_tested_are_told(self):
        """A file that can't be tested is a point that fails, and the others go on."""
        told(self.room, RACE)
        os.mkdir(os.path.join(self.room, "folder"))
        for text, why in UNTESTED:
            write(os.path.join(self.room, "a.sched"), text)
            status, lines = told_of(self.room, "--times", "3", "a.sched", "race.program")
            must(f"{text!r}: {lines}", status == 1 and lines[1:3] == [f"not ok 1 - a.sched{why}", "ok 2 - race.program: no order ends stuck: holds in 3 orders of unknown many, seed 0"])
        os.symlink("loop", os.path.join(self.room, "loop"))
        os.symlink("none", os.path.join(self.room, "leads nowhere"))
        why = {"none": "no such file", "folder": "is a directory", "": "no such file", "leads nowhere": "no such file", "none/x": "no such file", **dict.fromkeys(("race.program/x", "race.program/", "loop", "x" * 256, "x/" * 3_000), "can't be read")}
        for name in ("sbiboard", "sbiboard explore"):
            status, lines = told_of(self.room, *why, name=name)
            must(f"{lines}", status == 1 and lines[1 : 1 + len(why)] == [f"not ok {at} - {it}: {said}" for at, (it, said) in enumerate(why.items(), 1)])

    def test_files_that_may_not_be_read_are_told(self):
        """A file that may not be read is a point that fails; where root asks, who may read all, someone else asks."""
        told(self.room, RACE)
        path = os.path.join(self.room, "race.program")
        os.chmod(path, 0)
        copy = shutil.copy(TESTER, os.path.join(self.room, "tester"))
        os.chmod(self.room, 0o777)
        os.chmod(copy, 0o755)
        above = os.path.dirname(self.room)
        kept = os.stat(above).st_mode
        os.chmod(above, kept | 0o111)
        try:
            other = {"user": 65534, "group": 65534, "extra_groups": []} if os.getuid() == 0 else {}
            found = subprocess.run(["sbiboard", "race.program"], executable=copy, cwd=self.room, capture_output=True, text=True, timeout=HANG, **other)
        finally:
            os.chmod(above, kept)
        must(f"{found}", found.returncode == 1 and found.stdout.splitlines()[1] == "not ok 1 - race.program: permission denied")

    def test_carriage_returns_change_nothing(self):
        """With a carriage return before each line feed the same is told, of conditions, faults, blocks and what is odd alike."""
        asked = "#! end quiet\n#! never 1 load -> value 0x9\n \n"
        odd = RACE.replace("at 0x80001000\n", "at 0x80001000\necall 0x48534d 0 9 0x80001000\nwfi\n")
        texts = [asked + RACE, asked + SUSPENDED, asked + odd, odd, asked + odd + "#! behind 0 sip\n", "#! nevr\n" + RACE, RACE + "#! end\n", RACE + "#! each 0 sip\n"]
        texts += [text for text, _ in UNTESTED]
        for name in sorted(os.listdir(os.path.join(ROOT, "examples/orders"))):
            with open(os.path.join(ROOT, "examples/orders", name), encoding="utf-8") as file:
                texts.append(file.read().partition("\n")[2] if name == "forgotten-hart.program" else file.read())
        for text in texts:
            for words in (["--times", "20"], []):
                whole = told(self.room, text, *words)
                must(f"{text!r}: {whole}", told(self.room, text.replace("\n", "\r\n"), *words) == whole)

    def test_want_of_memory_of_a_test(self):
        """Each allocation refused in turn: no memory, after whole points at most, or all is told as it is, where it can do without."""
        made = shim(self.room)
        write(os.path.join(self.room, "race.program"), f"#! never 1 load -> value 1\n#! end quiet\n{RACE}")
        words = ["--times", "3", "--jobs", "1", "race.program"]
        whole, sizes = allocating(made, self.room, words, program=TESTER, cwd=self.room)
        must(f"{whole}", whole.returncode in (0, 1) and sizes)
        refused = 0
        for number in range(1, len(sizes) + 1):
            found, _ = allocating(made, self.room, words, number, program=TESTER, cwd=self.room)
            if found.returncode == 6:
                refused += 1
                must(f"{number}: {found}", found.stderr == NO_MEMORY and whole.stdout.startswith(found.stdout))
            else:
                must(f"{number}: {found}", (found.returncode, found.stdout, found.stderr) == (whole.returncode, whole.stdout, whole.stderr))
        must(f"{refused} of {len(sizes)} are told", refused > 50)

    def test_many_differences_of_a_trace_are_told_soon(self):
        """A trace of which each line differs is compared in a time that grows with its length alone."""
        many = 20_000
        status, lines = told(self.room, f"board 1 1 {many} 0 0x80000000 0x0\n0 advance -> gone\n" + "0 sip -> value 1\n" * (many - 1), name="a.trace")
        must(f"{lines[:9]}", status == 1 and lines[3] == f"  differing: {many}" and lines[-6].startswith("      got: "))

    def test_all_orders_of_small_programs_are_met(self):
        """Of small programs all orders are met by one job, and no other: as many as can be counted."""
        for text, many in COUNTED:
            _, lines = told(self.room, "#! never 0 sip\n" + text, "--times", "2000", "--jobs", "1")
            must(f"{many}: {lines}", f"# 1 files, 2000 orders, {many} different records" in lines)

    def test_a_seed_is_one_order(self):
        """What is told depends on the seed alone, and an order alone is the one that was tried among others."""
        text = "#! never 1 load -> value 1\n" + RACE
        first, again = (told(self.room, text, "--seed", "7") for _ in range(2))
        must("two runs of one seed differ", first == again)
        must("another seed tells the same", told(self.room, text, "--seed", "8") != first)
        # (a seed whose first order holds)
        for seed in map(str, range(7, 99)):
            order = next(line.split()[1] for line in told(self.room, text, "--seed", seed)[1] if line.startswith("  order:"))
            if order != "0":
                break
        must("the first order fails whatever the seed", order != "0")
        path = os.path.join(self.room, f"race.program.{seed}-{order}.failed")
        record = read(path)
        os.remove(path)
        must("the order alone meets the condition", told(self.room, text, "--seed", seed, "--order", order)[0] == 1)
        must("the order alone has another record", read(path) == record)
        status, lines = told_of(self.room, os.path.basename(path))
        must(f"{lines}", status == 0 and lines[1] == f"ok 1 - {os.path.basename(path)} (6 lines)")
        checked = ran(["check", path])
        must(f"{checked}", checked.returncode == 0 and checked.stdout.startswith(b"agrees "))

    def test_failing_orders_are_counted(self):
        """A failing point tells how many orders fail, and the first of them with the steps around the one that fails."""
        _, lines = told(self.room, "#! end off\n" + RACE, "--times", "40", "--failed", self.room)
        wanted = ["  ---", "  seed: 0", "  failing: 40", "  orders: 40", "  order: 0", f'  record: "{self.room}/race.program.0-0.failed"', "  place: 5", "  steps: |"]
        must(f"{lines}", lines[2:10] == wanted and lines[10].startswith("    0 0 advance -> entry") and lines[15].startswith("    5 1 load"))
        # (a record has its file's name, and not its folder's)
        os.mkdir(os.path.join(self.room, "folder"))
        _, lines = told(self.room, "#! end off\n" + RACE, "--times", "40", name="folder/race.program")
        must(f"{lines}", '  record: "./race.program.0-0.failed"' in lines and os.path.exists(os.path.join(self.room, "race.program.0-0.failed")))
        _, lines = told(self.room, "#! some 1 load -> value 9\n" + RACE, "--times", "40")
        must(f"{lines}", lines[2:7] == ["  ---", "  seed: 0", "  failing: 40", "  orders: 40", "  ..."])

    @named("orders of a program of 10,000 blocks")
    def test_orders_of_a_program_of_10_000_blocks(self):
        """In each order each of 10,000 blocks is entered where its address is asked for."""
        places = list(range(10_000))
        random.Random(2).shuffle(places)
        text, addresses = programs.hops(places)
        asked = f"#! some 0 advance -> entry {addresses[-1]:#x}\n#! some 0 sip -> value 0x2\n#! end quiet\n"
        status, lines = told(self.room, asked + text, "--times", "4")
        must(f"status {status}: {lines[-5:]}", status == 0)

    def test_orders_that_end_stuck_fail(self):
        """Without conditions a program fails where an order ends stuck; with some, these alone are judged."""
        status, lines = told(self.room, WAKE, "--times", "1000")
        must(f"{lines}", status == 1 and lines[1] == "not ok 1 - race.program: no order ends stuck: fails in some of 1,000 orders of unknown many, seed 0")
        must(f"{lines}", "    - \"hart 1: line 8 'wfi': SSIP is 0, STIP is 0, SSIE is 1, STIE is 0\"" in lines)
        status, lines = told(self.room, SUSPENDED, "--times", "1000")
        must(f"{lines}", "    - \"hart 1: line 5 'ecall 0x48534d 3 0': SSIP is 1, STIP is 0, SSIE is 0, STIE is 0\"" in lines)
        status, lines = told(self.room, "#! end quiet stuck\n" + WAKE, "--times", "1000")
        must(f"{lines}", status == 0 and lines[1] == "ok 1 - race.program: line 1: end quiet stuck: holds in 1,000 orders of unknown many, seed 0")

    def test_orders_that_the_limit_cut_off_are_spared(self):
        """An order that the limit cut off is judged by its end only where the condition names that."""
        text = RACE.replace(" 100 ", " 5 ")
        status, lines = told(self.room, "#! end quiet\n#! end off history-full\n#! end history-full\n" + text, "--times", "30")
        must(f"{lines}", status == 1 and lines[-1] == "# ends: 0 off, 30 history-full, 0 quiet, 0 stuck")
        points = ["not ok 1 - race.program: line 1: end quiet: no order ends: the limit cut off all 30", *(f"ok {at} - race.program: line {at}: {it}: holds in 30 orders of unknown many, seed 0" for at, it in ((2, "end off history-full"), (3, "end history-full")))]
        must(f"{lines}", lines[1:4] == points)
        must("a full history ends off", told(self.room, "#! end history-full\n" + RACE, "--times", "1000")[0] == 1)

    def test_all_differences_of_a_trace_are_told(self):
        """A trace goes on behind a line that differs, with the board's own answer."""
        text = "board 1 1 10 0 0x80000000 0x0\n0 advance -> gone\n0 ecall 0x10 0 -> ret 0 0x1000001 # 1.1\n0 sip -> value 0\n0 poll -> done\n"
        status, lines = told(self.room, text, name="a.trace")
        call = "0 ecall 0x10 0x0 0x0 0x0 0x0 0x0 0x0 0x0 -> ret 0 0x1000000"
        wanted = [
            "not ok 1 - a.trace (4 lines)", "  ---", "  differing: 3", "  lines:",
            "    - line: 2", '      wanted: "0 advance -> gone"', '      got: "0 advance -> entry 0x80000000 0 0x0"',
            "    - line: 3", '      wanted: "0 ecall 0x10 0 -> ret 0 0x1000001"', f'      got: "{call}"',
            "    - line: 5", '      wanted: "0 poll -> done"', '      got: "0 poll -> refused 2"', "  ...",
        ]  # fmt: skip
        must(f"{lines}", status == 1 and lines[1 : 1 + len(wanted)] == wanted)

    def test_schedules_are_replayed_and_judged(self):
        """A schedule's own record is judged by its conditions; an end is a program's alone."""
        text = "board 1 1 10 0 0x80000000 0x0\n0 advance\n0 poll\n0 ecall 0x10 0\n"
        status, lines = told(self.room, text, name="a.sched")
        must(f"{lines}", status == 0 and lines[1:3] == ["ok 1 - a.sched (3 lines)", "# line 3: refused 2"])
        status, lines = told(self.room, "#! each 0 ecall -> ret 0 0x1000001\n#! some 0 advance\n#! end quiet\n" + text, name="a.sched")
        wanted = [
            "# line 6: refused 2", "not ok 1 - a.sched: line 1: each 0 ecall -> ret 0 0x1000001", "  ---", '  record: "./a.sched.failed"', "  place: 1", "  steps: |",
            "    0 0 advance -> entry 0x80000000 0 0x0", "    1 0 ecall 0x10 0x0 0x0 0x0 0x0 0x0 0x0 0x0 -> ret 0 0x1000000", "  ...",
            "ok 2 - a.sched: line 2: some 0 advance", "not ok 3 - a.sched: line 3: end quiet", "  ---", '  reason: "only a program has an end"', "  ...",
        ]  # fmt: skip
        must(f"{lines}", status == 1 and lines[1 : 1 + len(wanted)] == wanted)
        # (six steps before the one that fails, and six behind it)
        steps = "".join(f"0 sie {k}\n" for k in range(1, 20))
        status, lines = told(self.room, f"#! never 0 sie 9\nboard 1 1 100 0 0x80000000 0x0\n0 advance\n{steps}", name="a.sched")
        must(f"{lines}", status == 1 and [it.split()[0] for it in lines if it.startswith("    ")] == [str(k) for k in range(3, 16)])
        # (what was cut off is judged, too)
        status, lines = told(self.room, "#! some 0 advance\n#! never 0 ecall after 0 advance\n" + text.replace("0 poll", "cut"), name="a.sched")
        must(f"{lines}", status == 1 and lines[1] == "ok 1 - a.sched: line 1: some 0 advance" and lines[2].startswith("not ok 2 - "))

    def test_stale_accesses_are_told(self):
        """Accesses that used a translation or a word that isn't there any more are told by their lines, and no others."""
        status, lines = told(self.room, STALE, name="a.sched")
        found = [it for it in lines if it.startswith("# line ")]
        translation, word = "stale: a walk gives another translation", "stale: memory has another word"
        must(f"{lines}", status == 0 and found == [f"# line 17: {translation}", f"# line 18: {translation}", f"# line 25: {word}"])

    def test_statuses_of_tests(self):
        """2 for what isn't asked rightly, or isn't there yet; 7 for a record that can't be written."""
        told(self.room, RACE)
        for words in ([], ["--times"], ["--times", "x", "race.program"], ["--order", "1", "--times", "2", "race.program"], ["--jobs", "x", "race.program"]):
            found = tester(self.room, *words)
            must(f"{words}: {found}", found.returncode == 2 and found.stdout == "" and found.stderr.startswith("error: "))
        told(self.room, "#! end off\n" + RACE)
        found = tester(self.room, "--times", "1000", "--failed", "nowhere", "race.program")
        must(f"{found}", found.returncode == 7 and found.stderr.startswith("sbiboard: nowhere/race.program.0-0.failed: "))
        for name, words in (("sbiboard", ["race.program"]), ("sbiboard explore", ["race.program"]), ("sbiboard", ["--help"]), ("sbiboard explore", ["-h"])):
            with open("/dev/full", "w") as full:
                found = tester(self.room, *words, name=name, stdout=full)
            must(f"{name} {words}: {found}", found.returncode == 7 and (found.stderr == "" or found.stderr.startswith("sbiboard: ")))

    def test_points_are_written_into_a_file_too(self):
        """--tap writes the same points into a file, and --seconds ends by itself and says so."""
        status, lines = told(self.room, f"#! end off\n{RACE}", "--tap", "points.tap", "--times", "20")
        must(f"{lines}", status == 1 and read(os.path.join(self.room, "points.tap")).splitlines() == lines)
        status, lines = told(self.room, RACE, "--seconds", "1", "--times", "1000000000")
        must(f"{lines}", status == 0 and lines[-1] == "# cut short: not all orders were tried")
        # (it takes the place of no file that is tested, under whatever name)
        os.link(os.path.join(self.room, "race.program"), os.path.join(self.room, "linked"))
        others = [write(os.path.join(self.room, f"{at}.program"), RACE) for at in range(3)]
        for path in ("race.program", "./race.program", "linked"):
            for at in range(len(others) + 1):
                files = [*others[:at], "race.program", *others[at:]]
                found = tester(self.room, "--tap", path, *files)
                must(f"{files}: {found}", found.returncode == 7 and found.stderr.startswith(f"sbiboard: {path}: ") and found.stdout == "")
                must(path, read(os.path.join(self.room, "race.program")) == RACE)
        for path in ("nowhere/points.tap", "/dev/full"):
            found = tester(self.room, "--tap", path, "race.program")
            must(f"{found}", found.returncode == 7 and found.stderr.startswith(f"sbiboard: {path}: "))
        status, lines = told(self.room, f"#! end off\n{RACE}", "--seconds", "0")
        must(f"{lines}", status == 8 and lines[1] == "not ok 1 - race.program: line 1: end off: not judged: no time" and "1..1" in lines)

    @named("records that can't be written are told")
    def test_records_that_can_t_be_written_are_told(self):
        """Where a record can't be written, its point says so, all points are told all the same, those of later files too, and the status is 7."""
        told(self.room, "#! end off\n#! some 0 sip\nboard 1 1 9 0 0x80000000 0\nat 0x80000000\nsip\n", name="a.program")
        told(self.room, f"#! never 0 advance\n{HEAD}0 advance\n", name="b.sched")
        for name, words in (("sbiboard", ["--times", "5"]), ("sbiboard", ["--times", "5", "--threads"]), ("sbiboard", []), ("sbiboard explore", [])):
            files = ["a.program", "b.sched"] if name == "sbiboard" else ["a.program"]
            whole, found = [tester(self.room, *words, "--failed", folder, *files, name=name) for folder in (".", "nowhere")]
            must(f"{words}: {whole}", whole.returncode == 1 and not whole.stderr and "unwritten" not in whole.stdout)
            lines = found.stdout.splitlines()
            kept = [it for it in lines if not it.startswith('  unwritten: "No such file or directory')]
            records = [at for at, it in enumerate(lines) if it.startswith('  record: "nowhere/')]
            must(f"{words}: {found}", kept == whole.stdout.replace('  record: "./', '  record: "nowhere/').splitlines())
            must(f"{words}: {found}", records and all(lines[at + 1] not in kept for at in records) and len(lines) == len(kept) + len(records))
            first = lines[records[0]].split('"')[1]
            must(f"{words}: {found}", found.returncode == 7 and found.stderr.startswith(f"sbiboard: {first}: ") and found.stderr.count("\n") == 1)
        # (that of a later file, behind one that fails and one that holds)
        told(self.room, f"#! never 0 advance\n{HEAD}0 advance -> gone\n", name="c.trace")
        told(self.room, HEAD + "0 advance\n", name="d.sched")
        for files, first in ((["d.sched", "b.sched"], "b.sched"), (["d.sched", "d.sched", "c.trace", "b.sched"], "c.trace")):
            found = tester(self.room, "--failed", "nowhere", *files)
            must(f"{files}: {found}", found.returncode == 7 and found.stderr.startswith(f"sbiboard: nowhere/{first}.failed: ") and found.stderr.count("\n") == 1)
        # (that of a run alone: a folder has its name)
        os.mkdir(os.path.join(self.room, "c.program.threads-0.failed"))
        os.link(os.path.join(self.room, "a.program"), os.path.join(self.room, "c.program"))
        found = tester(self.room, "--times", "5", "--threads", "c.program")
        must(f"{found}", found.returncode == 7 and found.stderr.startswith("sbiboard: ./c.program.threads-0.failed: ") and found.stdout.count("  unwritten: ") == 1)

    def test_any_number_of_jobs_tells_the_same(self):
        """What is told doesn't depend on the processors, nor on how many orders are tried at a time."""
        text = "#! never 1 load -> value 1\n#! some 1 load -> value 0\n" + LOADS_AND_STORES
        whole = told(self.room, text, "--times", "3000", "--seed", "5", "--jobs", "1")
        for words in (["--jobs", "4"], ["--jobs", "3"], ["--jobs", "200"], ["--jobs", "0"], ["--jobs", str(1 << 32)], ["--jobs", str((1 << 64) - 1)], []):
            must(f"{words}", told(self.room, text, "--times", "3000", "--seed", "5", *words) == whole)
        command = [TESTER, "--times", "3000", "--seed", "5", "race.program"]
        alone = subprocess.run(command, cwd=self.room, capture_output=True, text=True, timeout=HANG, preexec_fn=lambda: os.sched_setaffinity(0, [min(os.sched_getaffinity(0))]))
        must(f"one processor: {alone}", (alone.returncode, alone.stdout.splitlines()) == whole)

    def test_odd_programs_are_told(self):
        """Blocks that no order entered, entries without a block, and calls that were always answered by an error are told."""
        text = RACE.replace("at 0x80001000\n", "ecall 0x48534d 0 9 0x80001000 # no such hart\nat 0x80003000\nat 0x80001004\n")
        _, lines = told(self.room, "#! end quiet\n" + text, "--times", "50")
        wanted = [
            "# line 6: each answer to 'ecall 0x48534d 0 9 0x80001000' was an error", "# line 7: no order entered the block at 0x80003000",
            "# line 8: no order entered the block at 0x80001004", "# a hart was entered at 0x80001000, where no block is",
        ]  # fmt: skip
        must(f"{lines}", [line for line in lines if line.startswith(("# line", "# a "))] == wanted)
        _, lines = told(self.room, "#! end quiet\n" + RACE, "--times", "50")
        must(f"{lines}", not [line for line in lines if line.startswith(("# line", "# a "))])
        # (the firmware's steps are in no block)
        _, lines = told(self.room, FAILING_CALLS, "--times", "50")
        must(f"{lines}", [line for line in lines if line.startswith(("# line", "# a "))] == FAILING_LINES)
        # (a call that hart 0 makes well, and then hart 1 in vain)
        once = "#! end quiet\nboard 2 2 100 0 0x80001000 0x0\nat 0x80001000\necall 0x48534d 0 1 0x80001000 0\n"
        status, lines = told(self.room, once, "--times", "50")
        must(f"{lines}", status == 0 and not [line for line in lines if line.startswith(("# line", "# a "))])

    def test_runs_on_threads_are_judged_too(self):
        """With --threads a program is run as often on real threads, and each condition is judged by these runs, too."""
        status, lines = told(self.room, "#! end quiet\n#! never 1 load -> value 2\n" + RACE, "--times", "20", "--threads")
        asked, reaches = ("1: end quiet", "2: never 1 load -> value 2"), ("20 orders of unknown many, seed 0", "20 runs on threads")
        points = [f"ok {n} - race.program: line {line}: holds in {reach}" for n, (reach, line) in enumerate(((reach, line) for reach in reaches for line in asked), 1)]
        must(f"{lines}", status == 0 and [line for line in lines if line.startswith("ok ")] == points and "# ends: 0 off, 0 history-full, 40 quiet, 0 stuck" in lines)
        status, lines = told(self.room, "#! end off\n" + RACE, "--times", "3", "--threads")
        must(f"{lines}", status == 1 and "  runs: 3" in lines and '  record: "./race.program.threads-0.failed"' in lines)
        checked = ran(["check", os.path.join(self.room, "race.program.threads-0.failed")])
        must(f"{checked}", checked.returncode == 0)
        # (of one order there is one record of the seed's orders, and one of the runs)
        told(self.room, "board 1 1 9 0 0x80000000 0\nat 0x80000000\nsip\n", name="one.program")
        for files in (["one.program"], ["one.program", "one.program"]):
            status, lines = told_of(self.room, "--times", "4", "--threads", *files)
            must(f"{lines}", status == 0 and f"# {len(files)} files, {8 * len(files)} orders, {2 * len(files)} different records" in lines)
        status, lines = told(self.room, RACE, "--times", "3", "--threads")
        must(f"{lines}", status == 0 and lines[2] == "ok 2 - race.program: no order ends stuck: holds in 3 runs on threads")

    def test_a_terminal_is_told_plainly(self):
        """At a terminal there is a plain text in place of points, and the progress where it takes long; --tap writes points all the same."""
        told(self.room, "#! end quiet # as it is\n#! end off\n" + RACE)
        status, text = at_a_terminal(self.room, "--times", "10", "--tap", "points.tap", "race.program")
        lines = text.split("\n")
        must(f"{text}", status == 1 and lines[0] == "ok    race.program: line 1: end quiet: holds in 10 orders of unknown many, seed 0")
        must(f"{text}", lines[1] == "FAIL  race.program: line 2: end off: fails in some of 10 orders of unknown many, seed 0")
        must(f"{text}", not any(it.strip().startswith("1..") for it in lines))
        must(f"{text}", "      failing: 10" in lines and "2 points, 1 failed" in lines and "TAP" not in text and "---" not in text and lines[-2].startswith("time: "))
        must("no points", read(os.path.join(self.room, "points.tap")).startswith("TAP version 13\nok 1 - "))
        _, text = at_a_terminal(self.room, "--times", "1000000000", "--seconds", "4", "race.program")
        must(f"{text}", " of 1000000000 orders, " in text and " a second, " in text and "\r\x1b[K" in text)

    def test_points_are_read_by_others(self):
        """Perl's reader of points finds as many, and those that fail, by the command of the documents."""
        if shutil.which("prove") is None:
            raise SkipTest("prove is missing")
        for condition, status in (("end quiet", 0), ("end off", 1)):
            told(self.room, f"#! {condition}\n#! some 1 load\n{RACE}", "--times", "20", "--tap", "points.tap")
            found = subprocess.run(["prove", "-e", "sed 1s/14/13/", "points.tap"], cwd=self.room, capture_output=True, text=True, timeout=HANG)
            must(f"{found}", found.returncode == status and "Files=1, Tests=2" in found.stdout and "Parse errors" not in found.stdout)

    def test_the_tour_on_finding_orders(self):
        """The commands of the tour, as they are written: the first fails, its record agrees and is replayed, and the mended program passes."""
        os.symlink(os.path.join(ROOT, "examples"), os.path.join(self.room, "examples"))
        write(os.path.join(self.room, "sbiboard"), f'#!/bin/bash\nif [ "$1" = test ]; then shift; exec {TESTER} "$@"; fi\nexec {PROGRAM} "$@"\n')
        os.chmod(os.path.join(self.room, "sbiboard"), 0o755)
        fours, shown = tour()
        for four in fours:
            for command, wanted in zip(four, (1, 0, 0, 0)):
                found = subprocess.run(["bash", "-c", command], cwd=self.room, capture_output=True, text=True, timeout=HANG)
                must(f"{command}: {found.returncode}, {found.stdout[:2000]} {found.stderr}", found.returncode == wanted)
                if "test examples/orders/lost-wakeup" in command:
                    must(f"{command}: {found.stdout}", found.stdout.startswith(shown) and "# orders: 5, quiet 4, stuck 1" in found.stdout)
                    must_be_as_by_seeds(self.room, command)
        made = {**os.environ, "PATH": f"{self.room}:{os.environ['PATH']}"}
        found = subprocess.run(["examples/orders/forgotten-hart.program"], cwd=self.room, capture_output=True, text=True, timeout=HANG, env=made)
        must(f"{found}", found.returncode == 1 and len(fours) == 3)
