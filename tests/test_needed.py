"""`explore --needed`: which conditions fail without each fence, each IPI and each hart of their masks, beside what the judge says of all
orders of each changed program."""
import os
import re
import shutil
import signal
import subprocess
import tempfile

import board_model
from board_model import IPI, RFENCE, number, words_of
from program_model import Program

from . import judge
from .all_orders import Orders
from .any_tlb import marks_of_all_orders
from .fixtures import DATA, EXAMPLES, HANG, ROOT, TESTER, Test, explored, must, read, write
from .marked_orders import MarkedOrders, steps_of
from .test_wrapper import clone, put
from .test_wrapper import ran as called

# As tools/front/kinds.py has it.
MOST_BYTES = 16_777_216
# The programs whose tables are judged, and those whose tables are stored.
JUDGED = sorted([*(f"orders/{it}" for it in os.listdir(os.path.join(EXAMPLES, "orders"))), *(it for it in os.listdir(EXAMPLES) if it.endswith(".program"))])
STORED = ("orders/lost-wakeup.program", "orders/forgotten-hart.program", "shootdown.program")
# Mended twins whose conditions ask of marks.
MARKED = ("forgotten-hart", "right-taken-away", "global-page", "asid-used-again")
MENDED = (" 1 0x2 0 0x1000 ", " 1 0x6 0 0x1000 ")
# Hart 0 waits until hart 1 has stored, which says so by an IPI.
WAITS = """\
#! each 0 load 0x80002000 -> value 0x1
board 2 4 40 0 0x80000000 0
at 0x80000000
sie 0x2
ecall 0x48534d 0 1 0x80000100
wfi
load 0x80002000
at 0x80000100
store 0x80002000 1
ecall 0x735049 0 0x1
"""
# Hart 0 resumes and suspends for ever, and hart 1 switches the board off once it is told to.
ENDLESS = """\
#! end off
board 2 4 40 0 0x80000000 0
at 0x80000000
ecall 0x48534d 0 1 0x80000100
ecall 0x735049 0 0x2
sie 0x20
ecall 0x54494d45 0 0
ecall 0x48534d 3 0x80000000 0x80000200
at 0x80000200
ecall 0x48534d 3 0x80000000 0x80000200
at 0x80000100
sie 0x2
wfi
ecall 0x53525354 0 0 0
"""
# Of two translations one is read, and behind the fence nothing tells which.
MERGES = """\
#! end quiet
board 2 6 60 0 0x80000000 0
at 0x80000000
store 0x80001000 0x20000801
store 0x80002000 0x20000c01
store 0x80003008 0x200010c7
ecall 0x48534d 0 1 0x80000100
store 0x80003008 0x200014c7
at 0x80000100
satp 0x8000500000080001
load 0x1000
sfence - -
sie 0x2
sstatus 0
sie 0x20
sstatus 0
"""
QUIET = "board 1 1 9 0 0x80000000 0\nat 0x80000000\n"
# In place of the tester: it writes down its words and its file's size, and prints what stands in FOLDER for the file and the task,
# with the IPI of WAITS in it or without. (Only `explore` is asked with --no-outcomes.)
STAND_IN = """\
#!/bin/bash
name="${@: -1}" task=test
case " $* " in *" --no-outcomes "*) task=explore;; esac
echo "$(stat -c %s "$name") $*" >> FOLDER/calls
sleep PAUSE
kind=without; grep -q "0x735049 0 0x1" "$name" && kind=with
for it in "FOLDER/$name.$task.$kind" "FOLDER/$name.$task" "FOLDER/$task.$kind" "FOLDER/$task"; do
    [ -f "$it" ] && exec sed "s/NAME/$name/" "$it"
done
exit 6
"""
USE_TEST = "the program fetches, and only records tell its marks: use test"


class Table:
    """A printed table: the file, its conditions by their lines (0: none), the rows (the line and what is left out) with their words, and
    the last line."""

    def __init__(self, lines):
        self.file, self.conditions, self.rows, self.last, line = lines[0], {}, {}, None, None
        for it in lines[1:]:
            if it.startswith("# "):
                self.last = it
            elif found := re.fullmatch(r"line (\d+): (.*)", it):
                line = int(found[1])
                must(f"line {line} twice", (line, "") not in self.rows)
                self.rows[line, ""] = found[2]
            elif line is None and (found := re.fullmatch(r"  (?:line (\d+)|no condition): (.*)", it)):
                self.conditions[int(found[1] or 0)] = found[2]
            else:
                label, _, words = it[2:].partition("  ")
                must(f"{it!r} twice, or not a row", it.startswith("  ") and (line, label) not in self.rows)
                self.rows[line, label] = words.strip()

    def changes(self):
        return {key: words for key, words in self.rows.items() if key[1]}


def tables(out):
    """The tables that are printed: each begins with a file, and ends with a comment."""
    found, lines = [], []
    for it in out.splitlines():
        lines.append(it)
        if it.startswith("# "):
            found.append(Table(lines))
            lines = []
    must(f"{lines}", not lines)
    return found


def changed(text):
    """Each change of a program, by its line and its words, with the changed text: by the model's reading of calls alone."""
    lines = text.split("\n")
    harts = number(next(words_of(it) for it in lines if words_of(it))[1])
    with_line = lambda at, line: "\n".join([*lines[:at], line, *lines[at + 1 :]])
    for at, words in enumerate(map(words_of, lines)):
        if words[:1] in (["sfence"], ["fencei"]):
            yield (at + 1, "without it"), with_line(at, "")
        if words[:1] != ["ecall"]:
            continue
        eid, fid, mask, base, *rest = (*map(number, words[1:]), 0, 0)
        if eid == RFENCE and fid <= 2 or eid == IPI and fid == 0:
            yield (at + 1, "without it"), with_line(at, "")
            named = board_model.targets(mask, base, harts) or ()
            for hart in named:
                left = sum(1 << it for it in named if it != hart)
                yield (at + 1, f"mask without hart {hart}"), with_line(at, " ".join(map(str, ["ecall", eid, fid, left, 0, *rest])))


def asks_of_marks(text):
    """Whether a condition asks which accesses are stale or unsteady."""
    return re.search(r"^#! .*\b(steady|stale|unsteady)\b", text, re.M) is not None


def judged(text):
    """Of each condition of a text, by its line (0: none), what all orders say: it holds, fails or says nothing."""
    orders, found = (MarkedOrders if asks_of_marks(text) else Orders)(text), {}
    verdicts = judge.Verdicts(orders)
    asked = judge.conditions(text)
    for it in asked or [None]:
        fewest, word = verdicts.fewest(it), it.word if it else "end"
        ends = any(True for _ in orders.over)
        if it and word != "some" and not it.maybe and judge.lacking(it, verdicts.steps) or word == "end" and not ends and not (it and it.maybe):
            found[it.line if it else 0] = "says nothing"
        else:
            found[it.line if it else 0] = "holds" if (fewest is None) != (word == "some") else "fails"
    return found


def told_of(words):
    """The lines whose conditions a row says to fail, and to say nothing (0: there is no condition)."""
    failing = {int(it) for it in re.findall(r"line (\d+) fails", words)} | ({0} if "'no order ends stuck' fails" in words else set())
    return failing, {int(it) for it in re.findall(r"line (\d+) says nothing", words)}


class Needed(Test):
    programs = (TESTER,)

    def setUp(self):
        super().setUp()
        self.front = clone(self.room)
        out = os.path.join(self.room, "clone/crates/sbiboard_test/out")
        os.makedirs(out)
        shutil.copy(TESTER, out)
        self.work = os.path.join(self.room, "work")
        os.mkdir(self.work)

    def asked(self, *words, front=None, **how):
        """What the script prints with `--needed` in a folder of its own."""
        return called(self.room, ["bash", "-c", 'cd work; exec "$@"', "-", front or self.front, "explore", "--needed", *words], seconds=10 * HANG, **how)

    def table(self, text, *words, name="a.program", wanted=None):
        write(os.path.join(self.work, name), text)
        status, out, said = self.asked(*words, name)
        found = tables(out)
        must(f"{text}: status {status}, {out}, {said}", not said and len(found) == 1 and found[0].file == name and wanted in (None, status))
        return status, found[0]

    def must_be_judged(self, name, text):
        """A table is what the judge says of each changed program, and its records are orders of these that break the conditions."""
        status, table = self.table(text, name=name)
        own = judged(text)
        must(f"{name}: {table.conditions}, and not {own}", {it: words.rpartition(" (by explore)")[0] != "" for it, words in table.conditions.items()} == dict.fromkeys(own, True))
        for line, words in table.conditions.items():
            must(f"{name}: line {line}: {words}, and not {own[line]}", (": fails" in words, "can't tell" in words) == (own[line] == "fails", own[line] != "holds"))
        asked, unnoticed, wanted = [it for it in own if own[it] == "holds"], 0, dict(changed(text))
        if not asked:
            must(f"{name}: {table.rows}, {table.last}", not table.rows and table.last == "# no condition holds, so nothing is left out" and status == 1)
            return table
        must(f"{name}: {table.rows}, and not {list(wanted)}", list(table.changes()) == list(wanted))
        for key, other in wanted.items():
            words, found = table.rows[key], judged(other)
            failing, silent = ({it for it in asked if found[it] == how} for how in ("fails", "says nothing"))
            is_entered = "no order enters its block" not in words
            must(f"{name}: {key}: {words}, and not {failing}, {silent}", told_of(words) == (failing, silent) and is_entered or not is_entered and not failing | silent)
            is_told = not is_entered or ("no condition" in words or "of the conditions in line" in words)
            must(f"{name}: {key}: {words}", is_told == (not failing))
            unnoticed += not failing
            for line, record in re.findall(r"(?:line (\d+)|'no order ends stuck') fails \(([^)]*)\)", words):
                self.must_break(other, int(line or 0), record, key)
        counts = f"with {len(wanted) - unnoticed} a condition fails, with {unnoticed} none does, 0 not judged"
        if not wanted:
            must(f"{name}: {table.last}", table.last == "# nothing to leave out: no fence and no IPI" and status == 1)
            return table
        must(f"{name}: {table.last}", table.last == f"# {len(wanted)} change{'s' * (len(wanted) != 1)}: {counts}")
        must(f"{name}: status {status}", status == (1 if unnoticed or len(asked) < len(own) else 0))
        return table

    def must_break(self, text, line, record, key):
        """A record is of an order of the changed program that breaks the condition, and is named after both."""
        mark = f".without-{key[0]}" + (f"-hart-{key[1].rpartition(' ')[2]}" if key[1] != "without it" else "")
        must(record, record.endswith(f"{mark}.{line}.failed"))
        printed = read(os.path.join(self.work, record))
        followed = judge.Followed(Program(text), printed)
        asked = next((it for it in judge.conditions(text) if it.line == line), None)
        steps = steps_of(re.sub(" -> .*", "", printed)) if asks_of_marks(text) else followed.steps
        must(f"{record}: {printed}", followed.end == "stuck" if asked is None else not judge.holds(asked, steps, followed.end))

    def test_needed__tables_of_the_examples(self):
        """Of each example, each change is told with the conditions that then fail in all orders, by the judge; and each record breaks its condition."""
        for it in JUDGED:
            self.must_be_judged(os.path.basename(it), read(os.path.join(EXAMPLES, it)))
        text = read(os.path.join(EXAMPLES, "orders/forgotten-hart.program")).replace(*MENDED)
        table = self.must_be_judged("mended.program", text)
        at = 1 + text[: text.index(MENDED[1])].count("\n")
        must(f"{table.rows}", told_of(table.rows[at, "mask without hart 1"])[0] == {4} and told_of(table.rows[at, "mask without hart 2"])[0] == {3, 4, 5} and told_of(table.rows[at, "without it"]) == ({3, 5}, {4}))

    def test_needed__stored_tables(self):
        """The whole output of some examples is stored."""
        for it in STORED:
            shutil.copy(os.path.join(EXAMPLES, it), self.work)
            status, out, said = self.asked(os.path.basename(it))
            must(f"{it}: {status}, {out}, {said}", out == read(os.path.join(DATA, f"{os.path.basename(it)}.needed")) and not said)

    def test_needed__marks(self):
        """A condition that `explore` doesn't judge is judged by `test`, which is told; beside it `explore` judges the others."""
        for name in MARKED:
            first, asked, rest = read(os.path.join(EXAMPLES, "tlb", f"{name}.mended.program")).split("\n", 2)
            text, mark = "\n".join([first, asked, "#! end quiet", rest]), "unsteady" if "steady" in asked else asked.split()[-1]
            _, table = self.table(text)
            task = "test" if self.is_refused(text) else "explore"
            must(f"{name}: {table.conditions}", table.conditions[2].endswith(f" (by {task})") and ": holds in " in table.conditions[2] and table.conditions[3].endswith(" (by explore)"))
            must(f"{name}: {table.rows}", len(table.changes()) == len([*changed(text)]) > 0)
            for key, other in changed(text):
                marked = any(it[0] == mark for it in marks_of_all_orders(other)[0])
                is_stuck = judged(other.replace(f"{asked}\n", "\n"))[3] == "fails"
                words, failing = table.rows[key], told_of(table.rows[key])[0]
                must(f"{name}: {key}: {words}", failing == ({2} if marked else set()) | ({3} if is_stuck else set()))
                must(f"{name}: {key}: {words}", failing or re.fullmatch("no condition fails" + "; line 2 holds in .* orders of unknown many, seed 0" * (task == "test"), words))

    def is_refused(self, text):
        """Whether `explore` refuses a condition of a text."""
        return any(it.endswith("use test") for it in explored(self.room, text)[1])

    # ---- what is told for what it is

    def row(self, text, key, *words, wanted=None):
        """What is told of a change."""
        return self.table(text, *words, wanted=wanted)[1].rows[key]

    def test_needed__what_no_condition_fails_without(self):
        """Where no condition fails, that is told with its reason, and the status is 1: no condition holds, none stands there, none says anything, no order enters the block."""
        status, table = self.table("#! end stuck\n" + WAITS)
        must(f"{table.conditions}", status == 1 and table.conditions[1] == "end stuck: fails (by explore); so it can't tell what is needed")
        must(f"{table.rows}", told_of(table.rows[11, "without it"]) == (set(), {2}) and table.rows[11, "without it"].endswith("; of the conditions in line 2 none fails"))
        status, table = self.table(WAITS.replace("each 0 load 0x80002000 -> value 0x1", "never 0 load"))
        must(f"{table.rows} {table.last}", status == 1 and not table.rows and table.last == "# no condition holds, so nothing is left out")
        status, table = self.table(WAITS.replace("#! each 0 load 0x80002000 -> value 0x1\n", ""))
        must(f"{table.conditions}", status == 0 and table.conditions == {0: "no order ends stuck: holds in all orders (by explore)"} and table.rows[9, "without it"].startswith("'no order ends stuck' fails (./a.program.without-9.0.failed)"))
        must("no condition asks", self.row(WAITS.partition("\n")[2].replace("wfi\n", ""), (8, "without it"), wanted=1) == "no order ends stuck, and there is no condition")
        must("no order ends", self.row(ENDLESS, (5, "without it"), wanted=1) == "line 1 says nothing: no order ends; no condition fails")
        must("a block that no order enters", self.row(WAITS + "at 0x80000200\nfencei\n", (12, "without it"), wanted=1) == "no order enters its block")
        for text in (QUIET + "sip\necall 0x52464e43 3 0x1\necall 0x735049 1 0x1\necall 0x10 0\n", QUIET, QUIET.partition("at")[0]):
            status, table = self.table("#! end quiet\n" + text)
            must(f"{text}: {table.rows} {table.last}", status == 1 and not table.rows and table.last in ("# nothing to leave out: no fence and no IPI", "# no condition holds, so nothing is left out"))

    def test_needed__what_wasn_t_judged(self):
        """What the limits of states, of time or of the history cut off is told as not judged, with status 8: never as what no condition misses."""
        for words, why in ((("--states", "3"), "more than 3 states"), (("--seconds", "0"), "no time")):
            status, table = self.table(WAITS, *words)
            must(f"{table.conditions} {table.last}", status == 8 and f": not judged: {why}" in table.conditions[1] and table.conditions[1].endswith("; so it can't tell what is needed") and not table.rows)
        few, more = (len(Orders(it).points) for it in (MERGES, MERGES.replace("sfence - -", "")))
        must(f"{few} {more}", few < more and self.row(MERGES, (12, "without it"), "--states", str(more), wanted=1) == "no condition fails")
        found = self.row(MERGES, (12, "without it"), "--states", str(few), wanted=8)
        must(found, found.startswith(f"line 1: not judged: more than {few} states"))
        # (a condition that fails all the same is told)
        both = "#! never 1 sstatus 0 -> done\n" + MERGES
        must("one that fails", "can't tell" in self.table(both)[1].conditions[1])
        text = read(os.path.join(EXAMPLES, "tlb/forgotten-hart.mended.program"))
        steps = max(text.count("\n") - 10, 20)
        status, table = self.table(text.replace("3 16 100", f"3 16 {steps}"))
        if self.is_refused(text):
            must(f"{status} {table.conditions}", status == 8 and re.search(r": not judged: the limit cut off [\d,]+ orders \(by test\)", table.conditions[2]))

    def test_needed__what_can_t_be_read(self):
        """What is no program is told as `explore` tells it, and the other files have their tables."""
        write(os.path.join(self.work, "a.program"), WAITS)
        write(os.path.join(self.work, "b.program"), "board 1 1 9 0 0x80000000 0\nat 0x80000000\n sipp\n")
        write(os.path.join(self.work, "c.program"), "#! never 1 laod\n" + QUIET + "fencei\n")
        write(os.path.join(self.work, "d.sched"), "board 1 1 9 0 0x80000000 0\n0 advance\n")
        write(os.path.join(self.work, "e.program"), "board 200 1 9 0 0x80000000 0\nat 0x80000000\nfencei\n")
        os.mkdir(os.path.join(self.work, "folder"))
        status, out, said = self.asked("b.program", "c.program", "d.sched", "e.program", "none", "folder", "a.program")
        first = out[: out.index("a.program\n")].splitlines()
        must(f"{out} {said}", status == 1 and not said and len(first) == 6 and len(tables(out[out.index("a.program\n") :])) == 1)
        for line, wanted in zip(first, ("b.program:3:2: unknown operation 'sipp'", "c.program:1:12: unknown word: 'laod'", "d.sched: only a program has orders", "e.program: bad board: ", "none: no such file", "folder: is a directory")):
            must(f"{line}, and not {wanted}", line.startswith(wanted))

    def test_needed__masks(self):
        """A mask of no hart is one; a base of all harts becomes a mask; for more than 64 harts there is none."""
        text = "#! end quiet\nboard 3 1 20 0 0x80000000 0\nat 0x80000000\necall 0x52464e43 0 {}\n"
        for args, harts in (("0 0", ()), ("0x1 0", (0,)), ("0x3 1", (1, 2)), ("5", (0, 2)), ("0 0xffffffffffffffff", (0, 1, 2)), ("18446744073709551615 18446744073709551615", (0, 1, 2)), ("0x2 9", (10,))):
            _, table = self.table(text.format(args))
            must(f"{args}: {table.rows}", list(table.changes()) == [(4, "without it"), *((4, f"mask without hart {it}") for it in harts)])
        _, table = self.table(text.replace("3 1 20", "65 1 20").format("0 0xffffffffffffffff"), wanted=1)
        must(f"{table.rows}", table.rows[4, "without each hart"] == "not judged: no mask names all others" and table.last.endswith("with 0 a condition fails, with 1 none does, 1 not judged"))

    # ---- words, files and records

    def test_needed__records(self):
        """Records go into the folder of --failed, under names that no other file's have; where one can't be written, or would replace a file, that is told, with status 7."""
        for name in ("one", "two", "out"):
            os.mkdir(os.path.join(self.work, name))
        for name in ("one", "two"):
            write(os.path.join(self.work, name, "a.program"), WAITS.replace("each 0", "never 1 poll\n#! each 0"))
        status, out, _ = self.asked("--failed", "out", "one/a.program", "two/a.program", "-")
        must(f"{status} {out}", "out/a.program.without-11.2.failed" not in out)
        text = WAITS.replace("#! each 0 load 0x80002000 -> value 0x1", "#! end quiet")
        for name in ("one", "two"):
            write(os.path.join(self.work, name, "a.program"), text)
        status, out, said = self.asked("--failed", "out", "one/a.program", "two/a.program")
        names = sorted(os.listdir(os.path.join(self.work, "out")))
        must(f"{status} {out} {names}", status == 0 and names == sorted(f"a.program{it}.without-10{hart}.1.failed" for it in ("", "~2") for hart in ("", "-hart-0")) and all(out.count(f" fails (out/{it})") == 1 for it in names))
        status, out, _ = self.asked("--failed", "none", "one/a.program")
        must(f"{status} {out}", status == 7 and out.count("line 1 fails (unwritten: none/a.program.without-10.1.failed: No such file or directory)") == 1 and tables(out)[0].last.startswith("# 2 changes: with 2"))
        for name in ("a.program", "a.program.without-10.1.failed"):
            write(os.path.join(self.work, name), text)
        status, out, _ = self.asked("a.program", "a.program.without-10.1.failed")
        must(f"{status} {out}", status == 7 and "line 1 fails (unwritten: ./a.program.without-10.1.failed: it would replace a tested file)" in out and read(os.path.join(self.work, "a.program.without-10.1.failed")) == text)

    def test_needed__words(self):
        """It stands beside the limits of `explore` alone; standard input is a file; so is a name that begins like an option or has odd letters."""
        write(os.path.join(self.work, "a.program"), WAITS)
        for words in (["--tap", "x"], ["--tap-version", "14"], ["--junit", "x"], ["--html", "x"], ["--json"], ["--explain"]):
            status, out, said = self.asked(*words, "a.program")
            must(f"{words}: {said}", (status, out) == (2, "") and re.match(f"error: the argument '--needed' cannot be used with '{words[0]}( <\\w+>)?'\n\nUsage: sbiboard explore --needed <FILE>...\n", said))
        whole = self.asked("a.program")[1]
        must(whole, self.asked("--no-outcomes", "--states=900", "--seconds", "100", "--failed=.", "a.program")[1] == whole)
        with_input = [*"bash -c".split(), 'cd work; "$@" < a.program', "-", self.front, "explore", "--needed", "-"]
        status, out, said = called(self.room, with_input, seconds=10 * HANG)
        must(f"{out} {said}", not said and out == whole.replace("a.program\n", "/dev/stdin\n", 1).replace("./a.program.", "./stdin."))
        for name in ("-x.program", "a b:\t'c'.program"):
            write(os.path.join(self.work, name), WAITS)
            status, out, said = self.asked("--", name)
            must(f"{out} {said}", not said and out == whole.replace("a.program", name.replace("\t", "?")))

    def test_needed__ways_out(self):
        """Where nobody reads on it ends by SIGPIPE, and on a full device with status 7; it leaves no folder. --try and an installed copy do the same."""
        write(os.path.join(self.work, "a.program"), WAITS)
        whole = self.asked("a.program")
        call = [self.front, "explore", "--needed", "work/a.program"]
        status, out, said = called(self.room, ["bash", "-c", '{ sleep 0.3; "$@"; } | true; echo "${PIPESTATUS[0]}"', "-", *call], seconds=10 * HANG)
        must(f"{out} {said}", out == f"{128 + signal.SIGPIPE}\n" and said == "")
        for behind in ("> /dev/full", ">&-"):
            status, out, said = called(self.room, ["bash", "-c", f'"$@" {behind}', "-", *call], seconds=10 * HANG)
            must(f"{behind}: {status} {said}", (status, said) == (7, "sbiboard: input or output failed\n"))
        must("a folder is left", not [it for it in os.listdir(self.room) if it.startswith("sbiboard-")])
        tried = called(self.room, ["bash", "-c", 'cd work; exec "$@"', "-", self.front, "--try", "explore", "--needed", "a.program"], seconds=10 * HANG, RT_PROGRAM=TESTER)
        must(f"{tried}", tried[:2] == whole[:2])
        must("installed", called(self.room, [self.front, "--install", "new"], SBIBOARD_PROGRAM=TESTER)[0] == 0)
        if not os.path.exists(os.path.join(self.room, "new/sbiboard-tester")):
            shutil.copy(TESTER, os.path.join(self.room, "new/sbiboard-tester"))
        must("an installed copy", self.asked("a.program", front=os.path.join(self.room, "new/sbiboard")) == whole)

    def test_needed__a_program_that_ends_otherwise(self):
        """A program that ends without points ends the table with its status, and what it said is said."""
        write(os.path.join(self.work, "a.program"), WAITS)
        tester = os.path.join(self.room, "clone/crates/sbiboard_test/out/sbiboard_test")
        put(tester, "#!/bin/bash\necho 'sbiboard: no memory' >&2\nexit 6\n")
        must("no memory", self.asked("a.program") == (6, "", "sbiboard: no memory\n"))

    def test_needed__the_tour(self):
        """The command of the tour on needed fences prints the lines that stand there, and so does that of the page of bugs."""
        os.symlink(EXAMPLES, os.path.join(self.work, "examples"))
        os.symlink(self.front, os.path.join(self.work, "sbiboard"))
        for page, head in (("docs/TOUR.md", "## Which fence is needed"), ("docs/TLB_BUGS.md", "## Which fence is needed")):
            text = read(os.path.join(ROOT, page)).partition(head)[2].partition("\n## ")[0]
            command = next(it.strip() for it in text.split("\n") if it.startswith("    "))
            shown = [it for it in text.split("```\n")[1].split("\n") if it and it != "..."]
            found = subprocess.run(["bash", "-c", command], cwd=self.work, capture_output=True, text=True, timeout=10 * HANG)
            must(f"{page}: {found}, and not {shown}", not found.stderr and shown and all(it in found.stdout.splitlines() for it in shown))


def points(*told, comments=()):
    """The output of a tester with these points: of each whether it holds, and its words behind the file's name."""
    lines = [f"{'ok' if is_ok else 'not ok'} {at} - NAME: {words}" for at, (is_ok, words) in enumerate(told, 1)]
    return "\n".join(["TAP version 14", *lines, f"1..{len(told)}", *(f"# {it}" for it in comments)]) + "\n"


class NeededByAStandIn(Test):
    """What the script makes of a tester's points, whatever program they are of."""

    programs = ()

    def asked(self, told, files, *words, pause=0):
        """The status, the tables, and of each call of the tester its words, behind the size of its file."""
        with tempfile.TemporaryDirectory(dir=self.room) as room:
            front, folder = clone(room), os.path.join(room, "told")
            for name, text in told.items():
                put(os.path.join(folder, name), text)
            for name, text in files.items():
                put(os.path.join(room, "work", name), text)
            put(os.path.join(room, "clone/crates/sbiboard_test/out/sbiboard_test"), STAND_IN.replace("FOLDER", folder).replace("PAUSE", str(pause)))
            status, out, said = called(room, ["bash", "-c", 'cd work; exec "$@"', "-", front, "explore", "--needed", *words, *files], seconds=10 * HANG)
            must(f"{out} {said}", not said)
            return status, out, read(os.path.join(folder, "calls")).splitlines()

    def table(self, told, text, *words):
        status, out, _ = self.asked(told, {"a.program": text}, *words)
        return status, tables(out)[0]

    def test_needed__what_was_cut_off(self):
        """What `test` hasn't seen to its end isn't judged, whether the time or the limit of a history cut it off: as the file stands, and behind a change."""
        text, holds = WAITS.replace("each 0 load 0x80002000 -> value 0x1", "steady"), (True, "line 1: steady: holds in 5 orders of unknown many, seed 0")
        explore = points((False, f"line 1: steady: not judged: {USE_TEST}"))
        for comment, why in (("cut short: not all orders were tried", "the time ended it"), ("ends: 3 quiet, 2 history-full", "the limit cut off 2 orders")):
            cut = points(holds, comments=[comment])
            status, table = self.table({"explore": explore, "test": cut}, text)
            must(f"{table.conditions} {table.rows}", status == 8 and table.conditions == {1: f"steady: not judged: {why} (by test); so it can't tell what is needed"} and not table.rows)
            status, table = self.table({"explore": explore, "test.with": points(holds), "test.without": cut}, text)
            must(f"{table.conditions} {table.rows}", table.conditions == {1: "steady: holds in 5 orders of unknown many, seed 0 (by test)"} and {*table.changes().values()} == {f"line 1: not judged: {why}"})
            must(f"{status} {table.last}", status == 8 and table.last == "# 2 changes: with 0 a condition fails, with 0 none does, 2 not judged")
        status, table = self.table({"explore": explore, "test": points(holds, comments=["ends: 5 quiet"])}, text)
        must(f"{table.conditions} {table.rows}", table.rows[10, "without it"] == "no condition fails; line 1 holds in 5 orders of unknown many, seed 0")

    def test_needed__points_of_two_tasks(self):
        """Of each condition the point is that of the task which judges it; where a task tells other points, nothing is judged."""
        text = WAITS.replace("#! each 0 load 0x80002000 -> value 0x1", "#! steady\n#! end quiet")
        explore = points((False, f"line 1: steady: not judged: {USE_TEST}"), (True, "line 2: end quiet: holds in all orders"))
        test = [(True, "line 1: steady: holds in 5 orders of unknown many, seed 0"), (True, "line 2: end quiet: holds in 5 orders of unknown many, seed 0")]
        _, table = self.table({"explore": explore, "test": points(*test)}, text)
        must(f"{table.conditions}", table.conditions == {1: f"{test[0][1][8:]} (by test)", 2: "end quiet: holds in all orders (by explore)"})
        status, out, _ = self.asked({"explore": explore, "test": points(*test, (False, "line 3: a comment"))}, {"a.program": text})
        must(f"{status} {out}", (status, out) == (1, "a.program: other conditions\n"))
        _, table = self.table({"explore": explore, "test.with": points(*test), "test.without": points(test[0])}, text)
        must(f"{table.rows}", table.rows[11, "without it"] == "not judged: other conditions")

    def test_needed__how_long_is_left(self):
        """Each call has what is left of --seconds, and none once they are over; what is too long is handed on to be refused."""
        holds = {"explore": points((True, "line 1: end quiet: holds in all orders"))}
        text = WAITS.replace("each 0 load 0x80002000 -> value 0x1", "end quiet")
        for given in (1, 900):
            _, _, calls = self.asked(holds, {"a.program": text}, "--seconds", str(given), pause=1.1)
            seconds = [int(re.search(r"--seconds=(-?\d+)", it)[1]) for it in calls]
            must(f"{seconds}", len(seconds) == 3 and (seconds == [0, 0, 0] if given == 1 else 900 > seconds[0] > seconds[1] > seconds[2] > 800))
        for more in (0, 1, 9):
            _, _, calls = self.asked(holds, {"a.program": QUIET + "#" * (MOST_BYTES + more - len(QUIET))})
            must(f"{more}: {calls}", [int(it.split()[0]) for it in calls] == [MOST_BYTES + min(more, 1)])

    def test_needed__statuses_of_several_files(self):
        """A file of which something fails counts before one of which something isn't judged, wherever they stand."""
        told = {
            "a.program.explore": points((True, "line 1: end quiet: holds in all orders")), "a.program.explore.without": points((False, "line 1: end quiet: fails")),
            "b.program.explore": points((False, "line 1: end quiet: not judged: more than 3 states")), "c.program.explore": points((False, "line 1: end quiet: fails")),
        }  # fmt: skip
        text = WAITS.replace("each 0 load 0x80002000 -> value 0x1", "end quiet")
        for names, wanted in (("a", 0), ("b", 8), ("c", 1), ("ab", 8), ("bc", 1), ("cb", 1), ("bca", 1)):
            status, out, _ = self.asked(told, {f"{it}.program": text for it in names})
            must(f"{names}: {status}, {out}", status == wanted)

    def test_needed__masks_of_64_harts(self):
        """A base of all ones becomes a mask as long as the harts fit one."""
        text = "#! end quiet\nboard {} 1 20 0 0x80000000 0\nat 0x80000000\necall 0x52464e43 0 0 0xffffffffffffffff\n"
        told = {"explore": points((True, "line 1: end quiet: holds in all orders"))}
        for harts in (63, 64):
            _, table = self.table(told, text.format(harts))
            must(f"{harts}: {table.rows}", list(table.changes()) == [(4, "without it"), *((4, f"mask without hart {it}") for it in range(harts))])
        _, table = self.table(told, text.format(65))
        must(f"{table.rows}", list(table.changes()) == [(4, "without it"), (4, "without each hart")])
