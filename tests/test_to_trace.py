"""tools/to-trace, with stored records, broken ones, random ones and a fresh one: its traces, which the program checks, its reports and its options."""
import glob
import os
import re
import subprocess

import agree
from board_model import spelled_answer
from follow import Follower
from records import read as read_record
from rules import RULES
from states import Difference, Step

from . import fixtures, random_records, test_recorder
from .fixtures import EXAMPLES, RECORDS, ROOT, Test, add, checked, must, named, ran, read, read_bytes, script, shown
from .replays import printed, steps

TO_TRACE = os.path.join(ROOT, "tools/to-trace")
# The stored records, and the statuses of their reports.
STORED = {"survey": 5, "wrong-answers": 5, "hangs": 5, "entries": 5, **dict.fromkeys(("u-boot", "kernel", "boot-hart", "newer", "far-pages", "interrupted", "interrupts"), 0)}


def tool(words, status=0):
    """What a tool prints, and what it says."""
    found = subprocess.run(words, stdin=subprocess.DEVNULL, stdout=subprocess.PIPE, stderr=subprocess.PIPE, timeout=120)
    must(f"{os.path.basename(words[0])}: status {found.returncode}, not {status}; it said {shown(found.stderr)}", found.returncode == status)
    return found.stdout, found.stderr


def printed_by(words, status=0):
    """The same as texts."""
    return [it.decode() for it in tool(words, status)]


def stored(name):
    return read_bytes(os.path.join(RECORDS, name))


def record(name):
    return os.path.join(RECORDS, f"{name}.record")


# ---- stored records


def is_as_stored(room, name, status):
    """The report is the stored one, with this status; of the trace the program says what the report does."""
    made = os.path.join(room, "trace")
    report, _ = tool([TO_TRACE, "--report", "--out", made, record(name)], status)
    must(f"the report differs from {name}.report: {shown(report)}", report == stored(f"{name}.report"))
    trace, _ = tool([TO_TRACE, record(name)])
    must("with --report the trace is another one", trace == read_bytes(made))
    for line in trace.splitlines():
        must(f"{line} doesn't say where it came from", b" -> " not in line or re.search(rb"  # .*(line [0-9]+|put in: the firmware goes on|put in: as before)", line))
    must_be_checked(room, trace)


def must_be_checked(room, trace):
    """The program answers each line as the model does, up to the first that differs from what was recorded."""
    lines = trace.decode().split("\n")
    said = lambda at: lines[at - 1].partition(" -> ")[2].partition("#")[0].strip()
    for at, *_, answer in steps(trace.decode()):
        if spelled_answer(answer) != said(at):
            checked(room, trace, 5, f"differs at line {at}: {spelled_answer(answer)}\n".encode(), b"")
            return
    checked(room, trace, 0, b"agrees %d\n" % trace.count(b" -> "), b"")


# ---- what is put in

TWO = """record 2
0 entry 0x80000000 0 0 time=7 sie=0 sip=0 sstatus=0
0 call 0x48534d 0 1 0x80000000 0 0 0 0 time=8 sie=0 sip=0 sstatus=0
0 ret 0 0 time=9
1 entry 0x80000000 1 0 time=9 sie=0 sip=0 sstatus=0
"""
IPI = "0 call 0x735049 0 2 0 0 0 0 0 time=10\n0 ret 0 0 time=11\n"
SLEEP = "1 call 0x48534d 3 0 0 0 0 0 0"
PUT_IN = [
    # An IPI that comes late: SSIP is 0 at the call, and wakes the hart all the same.
    (TWO + IPI + SLEEP + " sie=2 sip=0\n1 ret 0 0 sie=2 sip=2\n", ["1 sie 0x2 -> done", "1 advance -> moved 6"], ["clearssip"]),
    # One that was seen, and then cleared.
    (TWO + IPI + "1 call 0x10 0 0 0 0 0 0 0 sie=2 sip=0\n1 ret 0 0x1000000\n", ["1 sie 0x2 -> done", "1 clearssip -> done"], []),
    # sstatus.SIE; the time, where a timer is set and where it comes.
    (
        TWO + "1 call 0x54494d45 0 20 0 0 0 0 0 time=12 sie=0x20 sip=0 sstatus=1\n1 ret 0 0\n" + SLEEP + " time=15\n1 ret 0 0 time=30\n",
        ["c tick 0x7 -> done", "c tick 0x5 -> done", "1 sstatus 1 -> done", "c tick 0x12 -> done", "1 advance -> ret 0 0x0"],
        [],
    ),
    # Without notes: a hart that woke had enabled what woke it, and its time had come.
    (
        "record 1\n0 entry 0x80000000 0 0\n0 call 0x54494d45 0 20 0 0 0 0 0\n0 ret 0 0\n" + SLEEP.replace("1 call", "0 call") + "\n0 ret 0 0\n",
        ["0 sie 0x22 -> done", "c tick 0x14 -> done", "0 advance -> ret 0 0x0"],
        [],
    ),
    # A reset by no call, after which the clock begins anew.
    (
        "record 1\n0 entry 0x80000000 0 5 time=100\nm reset\n0 entry 0x80000000 0 5 time=30\n0 call 0x54494d45 0 50 0 0 0 0 0 time=40\n0 ret 0 0\n",
        ["0 ecall 0x53525354 0x0 0x1 0x0 0x0 0x0 0x0 0x0 -> gone", "c tick 0xa -> done", "0 ecall 0x54494d45 0x0 0x78 0x0 0x0 0x0 0x0 0x0 -> ret 0 0x0"],
        [],
    ),
    # A stop and a suspend that another hart doesn't see yet are done at the end.
    *(
        (TWO + f"1 call 0x48534d {fid} 0 0 0 0 0 0\n0 call 0x48534d 2 1 0 0 0 0 0\n0 ret 0 0\n", ["0 ecall 0x48534d 0x2 0x1 0x0 0x0 0x0 0x0 0x0 -> ret 0 0x0", f"1 ecall 0x48534d {fid:#x} 0x0 0x0 0x0 0x0 0x0 0x0 -> {done}"], [])
        for fid, done in ((1, "gone"), (3, "waiting"))
    ),
    # A register that can't be so is none that the guest wrote.
    (TWO + "1 call 0x10 0 0 0 0 0 0 0 sstatus=2\n1 ret 0 0x1000000\n", ["1 ecall 0x10 0x0 0x0 0x0 0x0 0x0 0x0 0x0 -> ret 0 0x1000000"], ["sstatus"]),
]

# What no order and no rule explains: the line, what it is, the answers here and there.
OTHERWISE = [
    (TWO + "0 call 0x48534d 2 1 0 0 0 0 0\n0 ret 0 1\n", 6, "0 ecall 0x48534d 0x2 0x1 0x0 0x0 0x0 0x0 0x0", "ret 0 0x0", "ret 0 0x1"),
    (TWO + IPI.replace("ret 0", "ret -6"), 6, "0 ecall 0x735049 0x0 0x2 0x0 0x0 0x0 0x0 0x0", "ret 0 0x0", "ret -6 0x0"),
    (TWO + SLEEP + "\n1 ret 0 0\n", 7, "1 resumes", "refused 3", "ret 0 0x0"),
]

# ---- broken records

ENTRY = "record 2\n0 entry 0x80000000 0 0\n"
CALL = "0 call 0x10 0 0 0 0 0 0 0\n"
# Hart 1 was in a call when the machine was reset.
RESET = ENTRY + "1 entry 0x80000000 1 0\n" + CALL.replace("0 call", "1 call") + "m reset\n0 entry 0x80000000 0 0\n"
BROKEN = [
    ("", 1, "the first line must be 'record HARTS'"),
    ("record 0\n", 1, "a board has 1 to 128 harts"),
    ("records 2\n", 1, "the first line must be 'record HARTS', and not 'records 2'"),
    ("record 2\n", 1, "nothing was recorded"),
    (ENTRY + "0 call 0x10 0 0 0", 3, "the last line has no line feed: it is cut"),
    (ENTRY + "0 call 0x10 0 0 0\n", 3, "'call' has 8 numbers, and here are 4: is the line cut?"),
    (ENTRY + "0 call\n", 3, "'call' has 8 numbers, and here are 0: is the line cut?"),
    (ENTRY + "0\n", 3, "a line is HART call, HART ret or HART entry"),
    (ENTRY + "0 cal\n", 3, "a line is HART call, HART ret or HART entry, and not 'cal'"),
    (ENTRY + "1 entry 0x80000000 1 0\n2 entry 0x80000000 2 0\n", 4, "there is no hart 2: the record has 2, and 2 others act before it"),
    ("record 2 1 3\n0 entry 0x80000000 0 0\n", 2, "there is no hart 0: the record has 1 3"),
    ("record 2 1\n", 1, "the record has 2 harts, and the list 1 ids"),
    ("record 2 1 1\n", 1, "the record has 2 harts, and the list 1 ids"),
    (ENTRY + "m end off\n0 ret 0 0\n", 4, "a line behind the record's end"),
    (ENTRY + "m end\n", 3, "the machine's lines are 'm reset', 'm store ADDRESS VALUE' and 'm end limit|off|closed'"),
    (ENTRY + "m end of\n", 3, "the machine's lines are 'm reset', 'm store ADDRESS VALUE' and 'm end limit|off|closed'"),
    (ENTRY + CALL + "0 ret - 0\n", 4, "'-' is no number"),
    (ENTRY + "0 ret 0 0\n", 3, "a reply without its call: hart 0 is in none"),
    (ENTRY + CALL + "0 ret 0 0\n0 ret 0 0\n", 5, "a reply without its call: hart 0 is in none"),
    (
        ENTRY + CALL + CALL, 4, "hart 0 calls inside its call of line 3, which has not returned; where an interrupt was taken right behind "
        "its return, '0 ret A0 A1' belongs before this line, or '0 ret - -' where its answer wasn't seen",
    ),
    (ENTRY + CALL.replace("0 call", "1 call"), 3, "hart 1 has not entered before this line"),
    (RESET + CALL.replace("0 call", "1 call"), 7, "hart 1 has not entered since the reset of line 5"),
    (RESET + "1 ret 0 0\n", 7, "hart 1 has not entered since the reset of line 5"),
    (RESET.replace("m reset\n0 entry 0x80000000 0 0\n", "m reset\n") + CALL, 6, "hart 0 has not entered since the reset of line 5"),
    (ENTRY + "0 call 0x10 0 0 0 0 0 0 zero\n", 3, "'zero' is no number"),
    (ENTRY + "0 ret -0x1 0\n", 3, "a reply without its call: hart 0 is in none"),
    (ENTRY + CALL + "0 ret 0 -1\n", 4, "'-1' is no number"),
    (ENTRY + CALL + "0 ret 0 0x10000000000000000\n", 4, "0x10000000000000000 is more than 64 bits"),
    *((ENTRY + CALL + f"0 ret {it} 0\n", 4, f"{it} is no error: errors are -2^63 to 2^63-1") for it in ("0xfffffffffffffffe", "9223372036854775808", "-0x8000000000000001", "-0x1ffffffffffffffff")),
    (ENTRY + "0 entry 0x10000000000000000 0 0\n", 3, "0x10000000000000000 is more than 64 bits"),
    (ENTRY + "0 entry 0 0 0 tim=4\n", 3, "'tim=4' is no note; notes are time=, sie=, sip=, sstatus=, satp=, sstc=, pc=, ra=, ra2=, ra3=, ra4=, ra5=, ra6=, ra7=, ra8=, firmware="),
    (ENTRY + "0 entry 0 0 0 time=4 time=4\n", 3, "a second note time="),
    (ENTRY + CALL.replace("\n", " time=9\n") + "0 ret 0 0 time=8\n", 4, "hart 0's time goes back, from 0x9 to 0x8"),
    (ENTRY + "m stop\n", 3, "the machine's lines are 'm reset', 'm store ADDRESS VALUE' and 'm end limit|off|closed'"),
    ("record 1\nm reset\n", 2, "the first line of a hart is the entry of the one that boots"),
    ("record 1\n0 entry 0x80000000 0 \xe9\n", 2, "a byte that isn't ASCII"),
]

# What the page's tables have of the kernel, the survey and U-Boot.
COUNTED = [
    ("calls", "107 226 44 1191"), ("entries", "7 12 2 57"), ("agree", "113 164 18 1191"), ("break the standard", "0 3 0 0"), ("are unexplained", "0 0 0 0"),
    ("are followed by no entry", "0 1 0 0"), ("are left open by the standard", "1 55 8 56"), ("are a restriction of this board", "0 8 20 1"),
    ("can't be judged", "0 4 0 0"), ("are not compared", "0 3 0 0"),
]  # fmt: skip


class ToTrace(Test):
    def test_model__the_steps_of_examples_and_random_schedules(self):
        """The model answers each step as the program does, also where the history is cut, and has the same table behind them."""
        texts = [read(path) for path in sorted(glob.glob(os.path.join(EXAMPLES, "*.sched")))]
        made = [agree.Maker(seed).text for seed in range(60)]
        for text in texts + made + [agree.with_cuts(text, seed) for seed, text in enumerate(made)]:
            lines = ran(["replay", script(self.room, text.encode())]).stdout.decode().splitlines()
            for mine, program in zip(printed(text), lines, strict=True):
                must(f"the model has {mine!r}, the program {program!r}", mine == program)

    def test_calls_that_are_passed_over(self):
        """What is left out by name can be passed over: then U-Boot agrees, and so does the kernel without that."""
        trace, _ = tool([TO_TRACE, "--ignore", "legacy,pmu,impl", record("u-boot")])
        for line in (b"# passed over: 10 of impl", b"# passed over: 18 of legacy", b"# passed over: 2 of pmu"):
            must(f"the trace lacks {line!r}", line in trace.splitlines())
        checked(self.room, trace, 0, b"agrees %d\n" % trace.count(b" -> "), b"")
        report, _ = tool([TO_TRACE, "--ignore", "legacy,pmu,impl", "--report", record("u-boot")])
        must(f"the report is {shown(report)}", report.startswith(b"calls 44, entries 2: 16 agree\n  30 are passed over\ncompared: 16 of 46, 34.8 %\n"))
        trace, _ = tool([TO_TRACE, record("kernel")])
        checked(self.room, trace, 0, b"agrees %d\n" % trace.count(b" -> "), b"")

    def test_addresses(self):
        """A page outside of the board's RAM has a place of its own, by order or by maps; a hart can't begin at an odd address."""
        text = b"record 2\n0 entry 0x40000000 0 0\n0 call 0x48534d 0 1 0x70000ff0 5 0 0 0\n0 ret 0 0\n1 entry 0x70000ff0 1 5\n"
        for words, places in (
            ((), (b"0x80000000 0 0x0", b"0x80001ff0 1 0x5")),
            (("--map", "0x40000000=0x80000000"), (b"0x80000000 0 0x0", b"0x80001ff0 1 0x5")),
            (("--map", "0x40000000=0x80003000", "--map", "0x70000000=0x80009000"), (b"0x80003000 0 0x0", b"0x80009ff0 1 0x5")),
        ):
            trace, _ = tool([TO_TRACE, *words, script(self.room, text)])
            must(f"with {words} the trace is {shown(trace)}", [line.partition(b"entry ")[2].partition(b"  #")[0] for line in trace.splitlines() if b"entry" in line] == list(places))
            checked(self.room, trace, 0, b"agrees 3\n", b"")
        _, told = tool([TO_TRACE, script(self.room, text.replace(b"0x40000000", b"0x40000001"))], 1)
        must(f"it said {shown(told)}", b"line 2: hart 0 enters at 0x40000001, where no hart can begin" in told)

    def test_steps_that_are_put_in(self):
        """What a record shows only by its effects is put in, and the program agrees."""
        for text, there, not_there in PUT_IN:
            path = script(self.room, text.encode())
            trace = tool([TO_TRACE, path])[0]
            steps = [line.partition("  #")[0] for line in trace.decode().split("\n") if " -> " in line]
            places = [steps.index(step) if step in steps else -1 for step in there]
            must(f"of {text!r} the steps are {steps}", -1 not in places and places == sorted(places) and not any(word in step for step in steps for word in not_there))
            must(f"of {text!r} something differs", b"\nunexplained: 0\n" in tool([TO_TRACE, "--report", path])[0])
            must(f"of {text!r} a time isn't told to be another one: {shown(trace)}", (b", its time by the board's clock" in trace) == ("time=30\n0 call 0x54494d45" in text))
            checked(self.room, trace, 0, b"agrees %d\n" % len(steps), b"")

    def test_differences(self):
        """What differs is told with its line, and status 5; the trace has what was recorded, and the program differs there first."""
        for text, at, what, here, there in OTHERWISE:
            path = script(self.room, text.encode())
            report, _ = tool([TO_TRACE, "--report", path], 5)
            must(f"of {text!r} the report is {shown(report)}", f"\n    line {at}: {what}: here {here}, there {there}\n" in report.decode())
            must_be_checked(self.room, tool([TO_TRACE, path])[0])

    def test_broken_records(self):
        for text, at, why in BROKEN:
            path = script(self.room, text.encode("latin-1"))
            _, told = tool([TO_TRACE, path], 1)
            must(f"of {text!r} it said {shown(told)}, not line {at}: {why}", told.decode() == f"to-trace: {path}: line {at}: {why}\n")

    def test_cut_records(self):
        """A stored record that was cut at any byte: an error with its line, or a trace; never a failure of the tool."""
        whole = stored("kernel.record")
        for at in range(0, len(whole), 997):
            path = script(self.room, whole[:at])
            found = subprocess.run([TO_TRACE, path], stdin=subprocess.DEVNULL, stdout=subprocess.PIPE, stderr=subprocess.PIPE, timeout=60)
            is_error = found.returncode == 1 and re.fullmatch(rb"to-trace: .*: line [0-9]+: .*\n", found.stderr)
            must(f"cut at byte {at}: status {found.returncode}, and it said {shown(found.stderr)}", not (found.returncode != 0 and not is_error))

    def test_random_records(self):
        """Calls that overlap in any way have an order in which this board answers all: it is found, and the program agrees."""
        without = []
        for seed in range(1000, 1000 + fixtures.MANY // 5):
            made = random_records.Maker(seed)
            if len(made.lines) < 2:
                continue
            follower = Follower(read_record(made.text.encode()))
            items = follower.follow().items()
            if any(isinstance(item, Difference) for item in items):
                without.append(seed)
            elif seed % 5 == 0:
                first = follower.first().board.config
                steps = [item.line() + "\n" for item in items if isinstance(item, Step)]
                trace = f"board {first[0]} {first[1]} {len(steps)} {first[3]} {first[4]:#x} {first[5]:#x}\n" + "".join(steps)
                checked(self.room, trace.encode(), 0, b"agrees %d\n" % len(steps), b"")
        must(f"no order was found for the records of {len(without)} seeds: {without}", not without)

    @named("rules in docs/FIRMWARE.md")
    def test_rules_in_docs_FIRMWARE_md(self):
        """Each rule of a report stands in the page on real firmware, in the section that the report names."""
        sections = dict(part.split("\n", 1) for part in re.split(r"^## ", read(os.path.join(ROOT, "docs/FIRMWARE.md")), flags=re.M)[1:])
        for sentence, section in RULES.values():
            must(f"docs/FIRMWARE.md, {section}, has no row '{sentence}'", f"\n| {sentence} |" in sections.get(section, ""))

    @named("counts in docs/FIRMWARE.md")
    def test_counts_in_docs_FIRMWARE_md(self):
        """The page's counts are those of the stored records."""
        printed = tool([os.path.join(ROOT, "tools/measure-firmware"), "--stored"])[0].decode().split("\n")
        totals = {}
        for sentence, section in RULES.values():
            row = next((line for line in printed if line.startswith(f"{section}: {sentence}"[:92])), None)
            totals[sentence] = sum(map(int, row[92:].split())) if row else 0
        rows = {cells[1].strip(): cells for cells in (line.split("|") for line in read(os.path.join(ROOT, "docs/FIRMWARE.md")).split("\n")) if len(cells) == 7}
        for sentence, total in totals.items():
            found = re.search(r"\(([0-9]+)[^()]*\) $", rows[sentence][3])
            must(f"docs/FIRMWARE.md has {rows[sentence][3]!r} of '{sentence}', and the records {total}", (int(found[1]) if found else 0) == total)
        for sentence, cells in rows.items():
            must(f"docs/FIRMWARE.md counts '{sentence}', which no rule of the tools is", not (sentence not in totals and re.search(r"\([0-9]+[^()]*\) $", cells[3])))
        numbers = " ".join(printed)
        for title, wanted in COUNTED:
            must(f"the table of docs/FIRMWARE.md has {title} {wanted}, and the records another one", f"{title} {wanted}" in re.sub(" +", " ", numbers))

    def test_a_fresh_record(self):
        """The kernel of the examples, built and recorded here and now, agrees."""
        test_recorder.must_have_qemu()
        made = os.path.join(self.room, "kernel.record")
        tool([os.path.join(ROOT, "examples/kernel/build"), self.room])
        test_recorder.recorded_off(os.path.join(self.room, "kernel.elf"), made)
        tool([TO_TRACE, "--report", made])
        trace, _ = tool([TO_TRACE, made])
        checked(self.room, trace, 0, b"agrees %d\n" % trace.count(b" -> "), b"")


for name, status in STORED.items():
    add(ToTrace, f"stored record: {name}", lambda room, name=name, status=status: is_as_stored(room, name, status))
