"""What the script makes of what the programs read and print: JSON lines, JUnit XML, points of both versions, the board at a line, what
each step changed, and faults explained."""
import glob
import json
import os
import random
import re
import shutil
import signal
import subprocess
import sys
import time
from unittest import SkipTest
from xml.etree import ElementTree

import board_model
from board_model import START_PENDING, STATES, spelled_answer, spelled_step

from . import all_orders, grammar
from .fixtures import EVERY, EXAMPLES, PROGRAM, ROOT, TESTER, Test, must, read, read_bytes
from .replays import below, board_line, spelled_fence, steps, table
from .test_wrapper import clone, must_end, put

BOARD = "board 2 4 100 0 0x80000000 0x0\n"
SCHEDULES = sorted(glob.glob(os.path.join(EXAMPLES, "*.sched")))
TRACE = "board 1 1 9 0 0x80000000 0x0\n0 advance -> entry 0x80000000 0 0x0\n007 sip -> value 0x2 # wrong\n"

# Scripts with the points that are read of them: the line, the condition, whether it holds, the words of `looked`, and what `why` begins with.
RACE = "board 2 4 100 0 0x80000000 0x0\nat 0x80000000\nstore 0x80001000 0x1\necall 0x48534d 0 1 0x80000100 0\nload 0x80001000\nat 0x80000100\nstore 0x80001000 0x2\n"
POINTS = (
    (["test"], "#! end quiet\n" + RACE, (1, "end quiet", True, {"all", "orders"}, "holds in all orders: ")),
    (["test"], "#! never 0 load 0x80001000 -> value 0x2 # no\n" + RACE, (1, "never 0 load 0x80001000 -> value 0x2", False, {"all", "orders"}, "fails in some of all orders: ")),
    (["test"], "#! some 0 load 0x80001000 -> value 0x3\n" + RACE, (1, "some 0 load 0x80001000 -> value 0x3", False, {"all", "orders"}, "fails in all orders: ")),
    (["test", "--seed", "3", "--times", "20"], "#! end quiet\n" + RACE, (1, "end quiet", True, {"all", "orders", "seed"}, "holds in 20 orders of unknown many, seed 3")),
    (["test", "--times", "0"], "#! end quiet\n" + RACE, (1, "end quiet", False, None, "not judged: no order tried")),
    (["test", "--times", "5"], "#! never 0 load 8 -> value 1\n" + RACE, (1, "never 0 load 8 -> value 1", False, {"all", "orders"}, "vacuous: no step is '0 load 8' in the 5 orders tried")),
    (["test"], "#! never 9 sip\n" + RACE, (1, "never 9 sip", False, None, "the board has no hart 9")), (["test"], RACE, (None, "no order ends stuck", True, {"all", "orders"}, "holds in all orders: ")),
    (["explore"], "#! end quiet\n" + RACE, (1, "end quiet", True, {"all"}, "holds in all orders")), (["explore", "--states", "2"], "#! end quiet\n" + RACE, (1, "end quiet", False, None, "not judged: more than 2 states")),
    (["explore"], BOARD + "0 advance\n", (None, None, False, None, "only a program has orders")), (["test"], BOARD + "0 advance\n", (None, None, True, None, "holds")),
    (["test"], TRACE, (None, None, False, None, "fails")), (["test"], BOARD + "0 fly\n", (2, None, False, None, "unknown operation 'fly' (fault 3)")),
)  # fmt: skip

# Of its orders the limit of seven events cuts some off; and one that goes on and on.
CUT = "board 2 2 7 0 0x80000000 0\nat 0x80000000\necall 0x48534d 0 1 0x80001000\necall 0x53525354 0 0 0\nat 0x80001000\nsip\nsip\nsip\nsip\n"
ENDLESS = "board 1 1 50 0 0x80000000 0\nat 0x80000000\necall 0x53525354 0 2 0\n"

# Lines behind a board of two harts that are wrong, with the column and what is told, in part. A word that is told is in the line.
SCHEDULE, OF_TRACE, PROGRAMS = "a.sched", "a.trace", "a.program"
WRONG = (
    (SCHEDULE, "0 ecal 1 2", 3, "unknown operation 'ecal' (fault 3): did you mean 'ecall'?"), (SCHEDULE, "0 SIP", 3, "did you mean 'sip'?"), (SCHEDULE, "h1 sip", 1, "an actor is c, or the number of a hart: did you mean '1'?"),
    (SCHEDULE, "C tick 1", 1, "did you mean 'c'?"), (SCHEDULE, "sip", 1, "a step begins with its actor"), (SCHEDULE, "128 sip", 1, "an actor is c, or the number of a hart: at most 127"), (SCHEDULE, "2 sip", 1, "the board has no hart 2: its harts are 0 to 1"), (SCHEDULE, "0x7f sip", 1, "the board has no hart 0x7f: its harts are 0 to 1"),
    (SCHEDULE, "0 load 80001000", 8, "80001000 is decimal, 0x4c4b7e8, and in no page of the RAM: did you mean '0x80001000'?"), (SCHEDULE, "0 load 0X10", 8, "did you mean '0x10'?"), (SCHEDULE, "0 load 8000a000", 8, "did you mean '0x8000a000'?"),
    (SCHEDULE, "0 load 1_000", 8, "did you mean '1000'?"), (SCHEDULE, "0\u00a0sip", 2, "a blank that only looks like one"), (SCHEDULE, "0 load", 7, "a word is missing (fault 5): it is 'load VA'"), (SCHEDULE, "0 value 1", 3, "before a reply an arrow stands"),
    (OF_TRACE, "1 load 0x1000 -> 0x11", 18, "no reply word stands before it: did you mean 'value 0x11'?"), (OF_TRACE, "1 sip -> 0x2", 10, "did you mean 'value 0x2'?"), (OF_TRACE, "0 advance -> 1", 14, "did you mean 'moved 1'?"), (OF_TRACE, "0 ecall 0x10 0 -> 0x1000000", 19, "did you mean 'ret 0 0x1000000'?"),
    (OF_TRACE, "0 sip -> valu 1", 10, "unknown reply 'valu' (fault 3): did you mean 'value'?"), (OF_TRACE, "0 sip ->", 9, "behind the arrow a reply is wanted"),
    (OF_TRACE, "1 fetch 0x1000 -> 0x11", 19, "did you mean 'value 0x11'?"), *((SCHEDULE, f"{word} sip", 1, "an actor is c, or the number of a hart: did you mean '1'?") for word in ("hart1", "H1:", "cpu_1", "CPU1:", "core1", "+1", "hart_1:")),
    *((SCHEDULE, f"{word} tick 1", 1, "did you mean 'c'?") for word in ("clk", "timer")), (SCHEDULE, "0 load +16", 8, "did you mean '16'?"), (SCHEDULE, "0 store 0x80000000 +1_6", 20, "did you mean '16'?"), (SCHEDULE, "0 sfence 1_6 -", 10, "did you mean '16'?"),
    (PROGRAMS, "ecal 1 2", 1, "did you mean 'ecall'?"), (PROGRAMS, "poll", 1, "the firmware of a program does it by itself"), (PROGRAMS, "tick 1", 1, "'tick' stands in the block of the clock"), (PROGRAMS, "at 80001000", 4, "did you mean '0x80001000'?"),
    (PROGRAMS, "#! nevr 0 sip", 4, "unknown condition: 'nevr': did you mean 'never'?"), (PROGRAMS, "#! never 0 laod 1", 12, "unknown word: 'laod': did you mean 'load'?"), (PROGRAMS, "at 0x80000000", 4, "a second block of '0x80000000' (fault 7)"),
    (PROGRAMS, "amoswp 0x80000000 1", 1, "unknown operation 'amoswp' (fault 3): did you mean 'amoswap'?"), (SCHEDULE, "1 stre1 0x80000000 1", 3, "did you mean 'store1'?"), (SCHEDULE, "1 stor 0x80000000 1", 3, "unknown operation 'stor' (fault 3): did you mean 'store'?"), (PROGRAMS, "#! never 0 amoadd.W", 12, "did you mean 'amoadd.w'?"),
    (SCHEDULE, "0 sip -> value 0", 1, "(fault 6): it has a reply, and the first step has none, as in a schedule"), (OF_TRACE, "0 sip", 1, "(fault 6): it has no reply, and the first step has one, as in a trace"),
    *((OF_TRACE, line, 1, "(fault 6): the arrow is '->', between blanks") for line in ("0 sip => value 0", "0 sip->value 0", "0 load 0x80000000-> value 0", "0 sip = value 0", "0 sip > value 0")), (OF_TRACE, "1 sfence - -", 1, "it has no reply"),
    (SCHEDULE, "0 sip => value 0", 7, "(fault 5): the arrow is '->', between blanks"), (SCHEDULE, "0 sip->value", 3, "(fault 3): the arrow is '->', between blanks"), *((PROGRAMS, line, 1, "an operation of a program has no actor") for line in ("0 sip", "c tick 1", "0 sip -> done", "cut")),
    *((name, line, 1, f"a block is of a program, and this script begins with a step, as a {kind} does") for name, kind in ((SCHEDULE, "schedule"), (OF_TRACE, "trace")) for line in ("at 0x80000000", "clock")), (SCHEDULE, "0 cut", 3, "a cut stands alone, without an actor"),
    (SCHEDULE, "0 sip 1", 7, "it is 'sip'"), (SCHEDULE, "cut 1", 5, "it is 'cut'"), (SCHEDULE, "0 ecall 1", 10, "it is 'ecall EID FID [A0 .. A5]'"), (OF_TRACE, "0 sip 1 -> done", 7, "it is 'sip'"), (OF_TRACE, "0 sip -> done 1", 15, "it is 'done'"), (OF_TRACE, "0 poll -> ret 0", 16, "it is 'ret ERROR VALUE'"),
    *((PROGRAMS, f"#! {asked}", column, meant) for asked, column, meant in (
        ("before 1 serve 1 load", 19, "too few or too many words: '1': it is 'before PATTERN , PATTERN'"), ("each 1 load", 15, "it is 'each STEP -> REPLY'"), ("maybe each 1 load", 21, "it is 'each STEP -> REPLY'"), ("end", 7, "it is 'end END ..'"), ("never 1 sip after", 21, "it is 'never PATTERN [after PATTERN]'"),
        ("always 1 sip", 4, "a condition begins with never, some, each, before, end, can end, steady, firm or lenient"), ("can quiet", 8, "did you mean 'can end quiet'?"), ("can end history-full", 12, "a limit ends no order"), ("never stael", 10, "did you mean 'stale'?"), ("never hart1 load", 10, "did you mean '1'?"),
        ("never C tick 1", 10, "did you mean 'c'?"), ("never 1 load => value 1", 17, "the arrow is '->', between blanks"), ("never 1 load 0X10", 17, "did you mean '0x10'?"), ("never 1 ecall HSM 0", 18, "did you mean '0x48534d', the id of HSM?"),
        ("never 1 load 80002000 -> value 1", 17, "80002000 is decimal, 0x4c4bbd0, and in no page of the RAM: did you mean '0x80002000'?"), ("before 1 load 80002000, 1 sip", 18, "did you mean '0x80002000'?"),
    )), (SCHEDULE, "0 ecall RFENCE 1", 9, "did you mean '0x52464e43', the id of RFENCE?"), (PROGRAMS, "at", 3, "it is 'at ADDR'"), (PROGRAMS, "clock 1", 7, "it is 'clock'"), (PROGRAMS, "store 1", 8, "it is 'store VA VALUE'"), (PROGRAMS, "amocas 1 2", 11, "it is 'amocas VA OLD NEW'"), (SCHEDULE, "0 sip # \u00e4", 9, "a script is ASCII, its comments too"),
)  # fmt: skip
# A line without a fault, of each kind.
RIGHT = {SCHEDULE: "0 sip", OF_TRACE: "0 sip -> value 0x0", PROGRAMS: "at 0x80000000\nsip"}
TASK = {SCHEDULE: "replay", OF_TRACE: "check", PROGRAMS: "run"}
# Lines of a schedule whose decimal numbers are meant so: ticks, and addresses that hexadecimal would be none of the RAM's four pages either.
GOOD = ("c tick 80001000", "0 load 80004000", "0 load 7999999", "0 store 90000000 1", "1 sip")


class Made(Test):
    """Tests of the script in a clone that has the programs."""

    programs = (PROGRAM, TESTER)

    def setUp(self):
        super().setUp()
        self.front = clone(self.room)
        for path in self.programs:
            out = os.path.join(self.room, "clone/crates", os.path.basename(path), "out")
            os.makedirs(out)
            shutil.copy(path, out)

    def called(self, *words, stdin=b"", within=()):
        """The status, and what is printed and said; or those of words before the call."""
        path = os.path.join(self.room, "bin") + ":" + os.environ.get("PATH", "")
        found = subprocess.run([*within, self.front, *words], input=stdin, capture_output=True, timeout=300, cwd=self.room, env={"PATH": path, "RT_LOG": os.path.join(self.room, "rt.log"), "TMPDIR": self.room})
        must(f"{words}: a build began", not os.path.exists(os.path.join(self.room, "rt.log")))
        return found.returncode, found.stdout.decode(), found.stderr.decode()

    def put(self, name, text):
        put(os.path.join(self.room, name), text)
        return name

    def json(self, *words, **how):
        """The status, and the objects of what is printed, of which the first names the version, and the last the status."""
        status, out, said = self.called(*words, **how)
        found = [json.loads(it) for it in out.splitlines()]
        must(f"{words}: {out} {said}", (found[0]["format"], found[0]["version"], found[0]["task"]) == ("sbiboard", 1, words[0]) and (found[-1]["kind"], found[-1]["status"]) == ("end", status))
        return status, found[1:-1], said


def numbers_of(text):
    """The numbers of the board line, as JSON has them: addresses as texts, and all of them."""
    words, names = board_line(text).split()[1:], ("harts", "pages", "limit", "boot_hart", "boot_addr", "boot_opaque", "asidlen", "width")
    return {name: it if it.startswith("0x") else int(it) for name, it in zip(names, [*words, *["16", "39"][len(words) - 6 :]])}


class JsonLines(Made):
    def must_be_board(self, found, board):
        """The last objects are the board's table: each hart with what it has."""
        hexed = lambda *numbers: [f"{it:#x}" for it in numbers]
        totals, *harts = found
        must(f"{totals}", (totals["kind"], totals["events"], totals["asked"], totals["time"], totals["power"]) == ("table", board.events, board.asked, f"{board.time:#x}", "off" if board.is_off else "on"))
        must(f"{harts}", [it["hart"] for it in harts] == [*range(len(board.harts))])
        pending = sum(hart.state == START_PENDING for hart in board.harts)
        must(f"{totals}", [totals[it] for it in ("starts", "entries", "pending", "applied", "waiting")] == [board.starts, board.entries, pending, board.applied, sum(len(hart.waiting) for hart in board.harts)])
        must(f"{totals}", totals["reset"] == (board.last_reset and dict(zip(("type", "reason"), hexed(*board.last_reset)))))
        for h, (it, hart) in enumerate(zip(harts, board.harts)):
            out, deadline = (None if hart.outstanding is None else len(hart.outstanding)), (None if hart.deadline is None else f"{hart.deadline:#x}")
            wanted = {"state": STATES[hart.state], "wait": len(hart.waiting), "out": out, "ss": int(bool(hart.ssip)), "st": int(board.is_due(h)), "ie": f"{hart.sie:#x}", "se": hart.sstatus, "satp": f"{hart.satp:#x}", "deadline": deadline}
            must(f"{it}, and not {wanted}", {name: it[name] for name in wanted} == wanted)
            is_to_enter = any(line.startswith("# entry ") for line in below(h, hart))
            must(f"{it}", it["entry"] == (dict(zip(("address", "opaque"), hexed(*hart.kept))) if is_to_enter else None))
            tlb = [[*hexed(page), level, *hexed(asid), is_global, *hexed(pa), "".join(letter if has else "-" for letter, has in zip("rwxd", rights))] for _, (page, level, asid, is_global, pa, *rights) in hart.tlb]
            must(f"{it['tlb']} {tlb}", [[*entry.values()] for entry in it["tlb"]] == tlb)
            must(f"{it['ic']}", [[*entry.values()] for entry in it["ic"]] == [hexed(at, word) for _, at, word in hart.words])
            must(f"{it['fences']}", [(fence["from"], fence["what"]) for fence in it["fences"]] == [(caller, spelled_fence(fence)) for caller, fence in hart.waiting])

    def test_json__a_replay_has_each_step_and_the_board(self):
        """Each step is there with its line, actor, operation, operands and reply, and each hart as the model has it behind the last."""
        own = self.put("every.sched", "board 2 1 9999 1 0x80000000 7 5 48\n1 advance\n" + EVERY.decode())
        for path in [*SCHEDULES, os.path.join(self.room, own)]:
            done = [*steps(read(path))]
            (status, found, said), plain = self.json("replay", "--json", path), self.called("replay", path)
            must(f"{path}: {status} {said}", (status, said) == plain[::2] and found[0]["kind"] == "board" and len(done) > 0)
            must(f"{path}: {found[0]}", found[0] == {"kind": "board"} | numbers_of(read(path)))
            wanted = [(line, *([None] if actor is None and op == ("cut",) else []), *spelled_step(actor, op).split(), spelled_answer(answer).split()) for line, _, actor, op, answer in done]
            told = [(it["line"], *([None] if it["actor"] is None else [str(it["actor"])]), it["operation"], *it["operands"], it["reply"]) for it in found if it["kind"] == "step"]
            must(f"{path}: {told}, and not {wanted}", told == wanted)
            self.must_be_board(found[1 + len(done) :], done[-1][1])

    def test_json__a_faulty_script_has_no_step(self):
        """A script with a fault has a status and what is said, and nothing else; nor has one that isn't there."""
        for name, text in (("a.sched", BOARD + "0 fly\n"), ("b.sched", TRACE), ("c.sched", "board 0 1 9 0 0x80000000 0x0\n")):
            self.put(name, text)
            plain = self.called("replay", name)
            status, found, said = self.json("replay", "--json", name)
            must(f"{name}: {status} {found} {said}", (status, found, said) == (1, [], plain[2]))
        must(f"{self.json('replay', '--json', 'none')}", self.json("replay", "--json", "none") == (7, [], "sbiboard: input or output failed\n"))

    def test_json__a_check_has_its_verdict(self):
        """A check tells how many lines agree, or which line differs, what it wants and what the board answers; also from standard input."""
        self.put("a.trace", TRACE.replace("007", "0"))
        for words, how in ((["a.trace"], {}), (["/dev/stdin"], {"stdin": TRACE.replace("007", "0").encode()})):
            status, (found,), _ = self.json("check", "--json", *words, **how)
            must(f"{found}", status == 5 and found == {"kind": "verdict", "line": 3, "actor": 0, "operation": "sip", "operands": [], "agrees": False, "wanted": ["value", "0x2"], "reply": ["value", "0x0"]})
        self.put("a.trace", TRACE)
        status, (found,), _ = self.json("check", "a.trace", "--json")
        must(f"{found}", (status, found["actor"], found["reply"]) == (5, 7, ["refused", "2"]))
        self.put("a.trace", TRACE.rpartition("007")[0])
        must("it agrees", self.json("check", "--json", "a.trace")[:2] == (0, [{"kind": "verdict", "agrees": True, "lines": 1}]))

    def test_json__each_point_is_read(self):
        """Each point has its line, its condition, whether it holds, why, and how far was looked; and as many as the plan says."""
        for (task, *words), text, (line, condition, is_ok, looked, why) in POINTS:
            self.put("race: line 7: x#\\y", text)
            status, found, _ = self.json(task, "--json", *words, "race: line 7: x#\\y")
            point, *others = [it for it in found if it["kind"] == "point"]
            must(f"{text}: {point}", (point["file"], point["line"], point["condition"], point["ok"]) == ("race: line 7: x#\\y", line, condition, is_ok) and point["why"].startswith(why))
            must(f"{text}: {point}", (set(point["looked"]) if point["looked"] else None) == looked and (not looked or "orders" not in looked or point["looked"]["orders"] > 1))
            must(f"{text}: {status} {found}", not others and {"kind": "plan", "points": 1} in found and (status == 0) == is_ok)
            must(f"{text}: {point}", point["column"] == (3 if "fly" in text else None))

    def test_json__how_far_was_looked(self):
        """Each point has how far was looked: at all orders and how many these are, or at how many of which seed, at how many runs, and how many the limit cut off."""
        many = sum(all_orders.Orders(RACE).ends.values())
        some, runs = {"all": False, "orders": 4, "seed": 9}, {"all": False, "runs": 4}
        cut = re.search(r"# ends: \d+ off, (\d+) history-full", self.called("test", "--times", "300", self.put("cut.program", CUT))[1])
        for words, text, wanted in (
            (["test"], RACE, [{"all": True, "orders": many}]), (["test"], "#! some 0 advance\n#! some 0 wfi\n" + RACE, [{"all": True, "orders": many}] * 2), (["explore"], RACE, [{"all": True}]),
            (["explore"], "#! some 0 advance\n#! some 0 fencei\n" + RACE, [None, {"all": True}]), (["test"], ENDLESS, [None]), (["test"], "#! never 9 sip\n" + RACE, [None]),
            (["test", "--times", "4", "--seed", "9", "--threads"], RACE, [some, runs]), (["test", "--times", "4", "--seed", "9", "--threads"], "#! some 0 load _ -> value 9\n" + RACE, [some, runs]),
            (["test", "--times", "2000", "--seed", str((1 << 64) - 1)], RACE, [{"all": False, "orders": 2_000, "seed": (1 << 64) - 1}]),
            (["test", "--times", "300"], "#! end off\n#! never 0 wfi\n" + CUT, [{"all": False, "orders": 300, "seed": 0, "cut": int(cut[1])}, {"all": False, "orders": 300, "seed": 0}]),
            (["test", "--times", "9", "--threads"], "#! end quiet\n" + RACE.replace(" 100 ", " 2 "), [{"all": False, "cut": 9}] * 2),
            (["test", "--times", "5", "--threads"], "#! never 0 load 8 -> value 1\n" + RACE, [{"all": False, "orders": 5}, {"all": False, "runs": 5}]),
        ):  # fmt: skip
            _, found, _ = self.json(words[0], "--json", *words[1:], self.put("a.program", text))
            looked = [it["looked"] for it in found if it["kind"] == "point"]
            must(f"{words} {text}: {looked}, and not {wanted}", looked == wanted)
        must(f"{cut}", 0 < int(cut[1]) < 300)

    def test_json__names_that_begin_alike(self):
        """A point is one of the file whose name it has, also where another file's name begins so, in any order; so it is in the XML."""
        names = ["a", "a.sched", "a.sched: line 1: x", "a.sched:2:3: unknown"]
        for name in names:
            self.put(name, "#! never 0 sip\n" + BOARD + "0 advance\n" if name.endswith("x") else BOARD + "0 fly\n" if name.endswith("n") else BOARD + "0 advance\n")
        for files in (names, names[::-1], [*names[2:], *names[:2]]):
            _, found, _ = self.json("test", "--json", *files)
            points = [it for it in found if it["kind"] == "point"]
            must(f"{files}: {points}", [it["file"] for it in points] == files and [it["line"] for it in points if it["line"]] == [{"x": 1, "n": 2}[name[-1]] for name in files if name[-1] in "xn"])
            self.called("test", "--junit", "made.xml", *files)
            root = ElementTree.parse(os.path.join(self.room, "made.xml")).getroot()
            must(f"{files}", [(it.get("name"), it.get("tests")) for it in root] == [(name, "1") for name in files])

    def test_json__what_stands_below_a_point(self):
        """A point that fails has its record, the steps around the place and who waits; a trace each line that differs."""
        shutil.copy(os.path.join(EXAMPLES, "orders/lost-wakeup.program"), self.room)
        self.put("a.trace", TRACE)
        _, found, _ = self.json("test", "--json", "lost-wakeup.program", "a.trace")
        first, _, trace = [it for it in found if it["kind"] == "point"]
        details = first["details"]
        must(f"{first}", first["record"] == "./lost-wakeup.program.2.failed" and os.path.exists(os.path.join(self.room, first["record"])) and details["stuck"] == ["hart 1: line 16 'wfi': SSIP is 0, STIP is 0, SSIE is 1, STIE is 0"])
        must(f"{first}", details["steps"][-1].split()[0] == str(details["place"]) and len(details["steps"]) > 3)
        must(f"{trace}", trace["details"] == {"differing": 1, "lines": [{"line": 3, "wanted": "007 sip -> value 0x2", "got": "7 sip -> refused 2"}]})
        # (points are told one by one, and comments between them)
        must(f"{found}", [it["kind"] for it in found][2:4] == ["comment"] * 2 and "orders: 5, quiet 4, stuck 1" in [it.get("text") for it in found])


class Xml(Made):
    def junit(self, *words):
        status, out, said = self.called("test", "--junit", "made.xml", *words)
        return status, out, said, ElementTree.parse(os.path.join(self.room, "made.xml")).getroot()

    def test_junit__each_point_is_a_case(self):
        """Each point is a case of its file's suite: one that fails is a failure, and what wasn't judged or read an error; the points are printed as always."""
        self.put("a & <b>.program", "#! end quiet\n#! never 0 load 0x80001000 -> value 0x2\n#! some 0 load 0x80001000 -> value 0x1\n" + RACE)
        self.put("bad.sched", BOARD + "0 fly\n")
        self.put("a.trace", TRACE)
        files = ["a & <b>.program", "bad.sched", "a.trace", "none"]
        status, out, _, root = self.junit(*files)
        must_end(self.called("test", *files)[:2], status, out)
        must(f"{out}", status == 1 and (root.get("tests"), root.get("failures"), root.get("errors")) == ("6", "2", "2") and out.count("\nok ") + out.count("not ok ") == 6)
        must("suites", [it.get("name") for it in root] == files and [it.get("tests") for it in root] == ["3", "1", "1", "1"])
        kinds = {it.get("name"): {part.tag for part in it} for it in root[0]}
        must(f"{kinds}", kinds == {"line 1: end quiet": {"system-out"}, "line 2: never 0 load 0x80001000 -> value 0x2": {"failure"}, "line 3: some 0 load 0x80001000 -> value 0x1": {"system-out"}})
        details = re.findall(r"(?m)^(\w+): ", root[0][1][0].text)
        must(f"{details}", details == ["length", "record", "place", "steps"] and root[0][1][0].text.count(" -> ") > 3)
        must("texts", "record: ./a & <b>.program.2.failed" in root[0][1][0].text and root[1][0][0].get("message") == "unknown operation 'fly' (fault 3)" and root[3][0][0].tag == "error")
        *_, root = self.junit("--times", "0", "a & <b>.program")
        must("what isn't judged", [part.tag for it in root[0] for part in it] == ["error"] * 3 and root.get("errors") == "3")

    def test_junit__points_that_are_cut_off(self):
        """Where not all points are told a case says so, and an older file isn't left; a file that can't be written is told before a test begins."""
        self.put("made.xml", "<testsuites tests='1' failures='0'/>")
        put(os.path.join(self.room, "clone/crates/sbiboard_test/out/sbiboard_test"), "#!/bin/bash\nexit 6\n")
        status, _, _, root = self.junit("a.sched")
        must("an error", status == 6 and root.get("errors") == "1" and "status 6" in root[0][0][0].get("message"))
        # (points of which there is no plan aren't all, whatever the status)
        for ends in (0, 1, 6, 7):
            said = "TAP version 13\\nok 1 - a.sched (1 lines)\\n"
            put(os.path.join(self.room, "clone/crates/sbiboard_test/out/sbiboard_test"), f'#!/bin/bash\nwhile [ "$1" != --tap ]; do shift; done\nprintf "{said}" | tee "$2"\nexit {ends}\n')
            status, out, _, root = self.junit("a.sched")
            errors = [it.get("message") for it in root.iter("error")]
            must(f"{ends}: {out} {errors}", status == ends and (root.get("tests"), root.get("errors")) == ("2", "1") and errors == [f"not all points were told: the program ended with status {ends}"])
        status, out, said = self.called("test", "--junit", "none/made.xml", "a.sched")
        must(f"{said}", (status, out) == (7, "") and said.startswith("sbiboard: none/made.xml: "))

    def test_junit__a_file_that_is_needed(self):
        """--junit names no FILE, by whatever path, and not the file of --tap: nothing is tested or written, as with --tap."""
        for name, text in (("a.sched", BOARD + "0 sip\n"), ("a.program", RACE)):
            self.put(name, text)
            os.symlink(name, os.path.join(self.room, "to " + name))
            os.link(os.path.join(self.room, name), os.path.join(self.room, "as " + name))
        for words, named in (
            (["test", "--junit", "a.sched", "a.sched"], "a.sched"), (["test", "--junit=./a.sched", "a.sched"], "./a.sched"), (["test", "--junit", "to a.sched", "a.program", "a.sched"], "to a.sched"),
            (["test", "--junit", "as a.sched", "a.sched"], "as a.sched"), (["explore", "a.program", "--junit=a.program"], "a.program"), (["test", "--junit", "x", "--tap", "./x", "a.sched"], "x"),
            (["test", "--tap", "a.sched", "a.sched"], "a.sched"),
        ):  # fmt: skip
            must_end(self.called(*words), 7, "", f"sbiboard: {named}: entity already exists\n")
            must(f"{words}: a file changed", (read(os.path.join(self.room, "a.sched")), read(os.path.join(self.room, "a.program"))) == (BOARD + "0 sip\n", RACE) and not os.path.exists(os.path.join(self.room, "x")))

    def test_junit__what_can_t_be_written(self):
        """A write of the XML that fails names its file; where nobody reads the points, the script ends by SIGPIPE, and the XML says that they aren't all told."""
        self.put("a.sched", BOARD + "0 sip\n")
        status, _, said = self.called("test", "--junit", "/dev/full", "a.sched")
        must(f"{status} {said}", (status, said) == (7, "sbiboard: /dev/full: No space left on device\n"))
        within = ["bash", "-c", '{ sleep 0.3; "$@"; } | true; echo "${PIPESTATUS[0]}"', "-"]
        _, out, _ = self.called("test", "--junit", "made.xml", "a.sched", within=within)
        must(f"{out}", out == "141\n" and "not all points were told" in read(os.path.join(self.room, "made.xml")))

    def test_junit__a_run_that_is_interrupted(self):
        """A run that is interrupted leaves no XML, and no older one; where it goes on, all is written at once."""
        self.put("a.sched", BOARD + "0 sip\n")
        put(os.path.join(self.room, "clone/crates/sbiboard_test/out/sbiboard_test"), "#!/bin/bash\n: > began\nexec sleep 60\n")
        for ending, is_whole in ((signal.SIGINT, True), (signal.SIGTERM, False), (signal.SIGKILL, True)):
            self.put("made.xml", "<testsuites tests='1' failures='0'/>")
            child = subprocess.Popen(
                [self.front, "test", "--junit", "made.xml", "a.sched"], stdin=subprocess.DEVNULL, stdout=subprocess.DEVNULL, stderr=subprocess.DEVNULL, cwd=self.room,
                start_new_session=True, preexec_fn=lambda: signal.signal(signal.SIGINT, signal.SIG_DFL),
            )  # fmt: skip
            until = time.monotonic() + 20
            while not os.path.exists(os.path.join(self.room, "began")) and time.monotonic() < until:
                time.sleep(0.05)
            (os.killpg if is_whole else os.kill)(child.pid, ending)
            must(f"{ending}: {child.returncode}", child.wait(15) == -ending and not glob.glob(os.path.join(self.room, "made.xml*")))
            os.remove(os.path.join(self.room, "began"))
        put(os.path.join(self.room, "clone/crates/sbiboard_test/out/sbiboard_test"), "#!/bin/bash\n[ ! -e made.xml ]\n")
        self.junit("a.sched")
        must("what is left", glob.glob(os.path.join(self.room, "made.xml*")) == [os.path.join(self.room, "made.xml")])

    def test_junit__a_link(self):
        """Where FILE is a link, the XML is written where it leads, whether there is something or not, and the link stays."""
        self.put("a.sched", BOARD + "0 sip\n")
        self.put("b.sched", BOARD + "0 fly\n")
        os.symlink("real.xml", os.path.join(self.room, "made.xml"))
        for name, errors in (("b.sched", "1"), ("a.sched", "0"), ("b.sched", "1")):
            *_, root = self.junit(name)
            must(f"{name}", root.get("errors") == errors and os.readlink(os.path.join(self.room, "made.xml")) == "real.xml" and os.path.isfile(os.path.join(self.room, "real.xml")))
            must("more is left", not glob.glob(os.path.join(self.room, "*.new")))

    def test_names_with_control_characters(self):
        """A name with control characters, which a point shows as `?`, is the file's name in JSON and in the XML."""
        for name in ("a\tb.sched", "a\nb.sched", "a\x7fb\x85.sched"):
            self.put(name, BOARD + "0 fly\n")
            _, found, _ = self.json("test", "--json", name)
            must(f"{found}", [(it["file"], it["line"]) for it in found if it["kind"] == "point"] == [(name, 2)])
            *_, root = self.junit(name)
            must(f"{name!r}", [it.get("name") for it in root] == [name])
        # (XML can't have all of them)
        for name, as_xml in (("a\x01b.sched", "a?b.sched"), ("a\x1b[2Jb.sched", "a?[2Jb.sched"), ("a\x0bb\x0c.sched", "a?b?.sched"), ("a\ufffeb.sched", "a?b.sched")):
            self.put(name, "#! never 0 advance\n" + BOARD + "0 advance\n")
            _, found, _ = self.json("test", "--json", name)
            must(f"{found}", [it["file"] for it in found if it["kind"] == "point"] == [name])
            *_, root = self.junit(name)
            must(f"{name!r}", [it.get("name") for it in root] == [as_xml] and f"record: ./{as_xml}.failed" in root[0][0][0].text and root[0][0].get("classname") == as_xml)

    def test_json__what_was_said(self):
        """The last line has the status and what standard error has, and the first is there, also where nothing could be read or written."""
        self.put("a.sched", BOARD + "0 sip\n")
        shutil.copy(os.path.join(EXAMPLES, "orders/lost-wakeup.program"), self.room)
        for words in (
            ["test", "--json", "--tap", "a.sched", "a.sched"], ["test", "--json", "--failed", "none", "lost-wakeup.program"], ["explore", "--json", "--junit", "none/x", "lost-wakeup.program"],
            ["check", "--json", "none"], ["replay", "--json", "none"], ["replay", "--json", "--explain", "none"],
        ):  # fmt: skip
            status, out, said = self.called(*words)
            found = [json.loads(it) for it in out.splitlines()]
            must(f"{words}: {found}", status == 7 and found[0] == {"format": "sbiboard", "version": 1, "task": words[0], "files": words[-1:]} and said and found[-1] == {"kind": "end", "status": 7, "said": said.strip()})

    def test_standard_input_that_is_closed(self):
        """Where standard input is closed, `-` is a file that can't be read."""
        for words in (["test"], ["test", "--json"], ["test", "--junit", "made.xml"], ["explore"], ["explore", "--json"], ["run"], ["replay", "--json"], ["replay", "--at", "1"], ["check", "--explain"]):
            status, out, said = self.called(*words, "-", within=["bash", "-c", '"$@" <&-', "-"])
            must(f"{words}: {out} {said}", (status, said) == (7, "sbiboard: -: Bad file descriptor\n") and ('"kind": "end"' in out) == ("--json" in words))

    def test_points_of_both_versions(self):
        """Points are of version 13; --tap-version 14 writes its first line, in the file of --tap too, and nothing else is otherwise."""
        self.put("a.trace", TRACE)
        plain, same = self.called("test", "a.trace"), self.called("test", "--tap-version", "13", "a.trace")
        must(f"{plain}", plain[1].startswith("TAP version 13\nnot ok 1 - a.trace (2 lines)\n") and plain == same)
        later = self.called("test", "--tap-version=14", "--tap", "points", "a.trace")
        must(f"{later}", later == (1, plain[1].replace("version 13", "version 14"), "") and read(os.path.join(self.room, "points")) == later[1])
        # (the file of --tap stays as it is where nothing was tested: it may be a script)
        self.put("points", "an older file\n")
        for named, words in (("a.trace", ["a.trace"]), ("a.trace", ["./a.trace", "--json"])):
            status, _, said = self.called("test", "--tap-version=14", "--tap", named, *words)
            must(f"{named}: {said}", (status, read(os.path.join(self.room, named))) == (7, TRACE))
        status, out, said = self.called("test", "--tap-version", "12", "a.trace")
        must(f"{said}", (status, out) == (2, "") and said.startswith("error: invalid value '12' for '--tap-version <VERSION>'\n  [possible values: 13, 14]"))

    def test_prove_reads_the_points(self):
        """prove takes the script as a test, and fails where a point does."""
        if shutil.which("prove") is None:
            raise SkipTest("prove is missing")
        self.put("good.sched", BOARD + "0 advance\n")
        self.put("bad.sched", "#! each 0 advance -> done\n" + BOARD + "0 advance\n")
        for name, status, end in (("good.sched", 0, "Result: PASS\n"), ("bad.sched", 1, "Result: FAIL\n")):
            found = subprocess.run(["prove", "-e", f"{self.front} test", name], capture_output=True, text=True, timeout=60, cwd=self.room)
            must(f"{found}", found.returncode == status and found.stdout.endswith(end) and "Parse errors" not in found.stdout)

    def test_standard_input_is_a_file(self):
        """`-` is standard input for each task, once, with what the script does besides. A file of that name is `./-`."""
        program, schedule = BOARD + "at 0x80000000\nsip\n", BOARD + "0 advance\n"
        self.put("-", "no script\n")
        for task, words, name, text in (
            ("run", [], "a.program", program), ("replay", ["--explain"], "a.sched", schedule + "0 fly\n"), ("replay", ["--at", "2", "--diff"], "a.sched", schedule), ("check", ["--json"], "a.trace", TRACE),
        ):  # fmt: skip
            self.put(name, text)
            plain, found = self.called(task, *words, name), self.called(task, *words, "-", stdin=text.encode())
            must(f"{task} {words}: {found}", found == (plain[0], *(it.replace(name, "/dev/stdin") for it in plain[1:])))
            must(f"{task} {words}", self.called(task, *words, "--", "-", within=["bash", "-c", f'"$@" < {name}', "-"]) == found)
        must("the file of this name", self.called("replay", "./-")[0] == 1)
        must_end(self.called("run", "--keep", "a.program", "-", within=["bash", "-c", '"$@" < a.program', "-"]), 7, "", "sbiboard: input or output failed\n")
        must("it was kept over the program", read(os.path.join(self.room, "a.program")) == program)
        text = "#! end quiet\n" + RACE
        self.put("a.program", text)
        for task in ("test", "explore"):
            plain, found = self.called(task, "a.program"), self.called(task, "-", stdin=text.encode())
            must(f"{found}", found == (0, plain[1].replace("a.program", "/dev/stdin"), "") and "ok 1 - /dev/stdin: line 1: end quiet: holds" in found[1])
        # (as long as a script may be, and a byte longer)
        for more, is_good in ((0, True), (1, False), (70_000, False)):
            text = (schedule + "#" * (16_777_216 - len(schedule) + more)).encode()
            status, found, _ = self.json("test", "--json", "-", stdin=text)
            must(f"{more}: {found}", (status == 0) == is_good and (found[0]["ok"], "(fault 8)" in found[0]["why"]) == (is_good, not is_good))
            status, found, said = self.json("replay", "--json", "-", stdin=text)
            must(f"{more}: {found} {said}", (status, said) == ((0, "") if is_good else (1, "sbiboard: line 0: fault 8\n")) and bool(found) == is_good)
        status, found, said = self.json("test", "--json", "--explain", "-", stdin=(BOARD + "0 fly\n0 sipp\n").encode())
        must(f"{found} {said}", status == 1 and found[0]["why"].startswith("unknown operation 'fly'") and said.splitlines()[1] == "/dev/stdin:3:3: unknown operation 'sipp' (fault 3): did you mean 'sip'?")


class Boards(Made):
    def setUp(self):
        super().setUp()
        self.text = "# first\n\nboard 2 1 9999 1 0x80000000 7\n1 advance\n" + "".join(f"{it}\n#\n" if at % 9 == 0 else it + "\n" for at, it in enumerate(EVERY.decode().splitlines()))
        self.put("every.sched", self.text)
        self.boards = {}
        for line, board, *step in steps(self.text):
            self.boards[line] = (board.copy(), step)

    def test_replay__the_board_at_a_line(self):
        """--at prints the table behind a line, which is the model's, also behind one without words."""
        of, lines = random.Random(4), [*range(4, self.text.count("\n") + 1)]
        for line in [4, lines[-1], *of.sample(lines, 10)]:
            last = max(it for it in self.boards if it <= line)
            must_end(self.called("replay", "--at", str(line), "every.sched"), 0, "".join(it + "\n" for it in table(self.boards[last][0])), "")
        status, found, _ = self.json("replay", "--json", "--at", "4", "every.sched")
        must(f"{found}", [it["kind"] for it in found] == ["board", "table", "hart", "hart"] and found[1]["events"] == 1)

    def test_replay__what_each_step_changed(self):
        """--diff tells below each step what the table has otherwise than before, and nothing else: the output is a trace that agrees. With --at it is one step."""
        status, out, said = self.called("replay", "--diff", "every.sched")
        plain = self.called("replay", "every.sched")[1]
        must(f"{status} {said}", (status, said) == (0, "") and "".join(it for it in out.splitlines(keepends=True) if not it.startswith("# ~ ")) == plain)
        must_end(self.called("check", self.put("diff.trace", out)), 0, f"agrees {len(self.boards)}\n", "")
        told, before = re.split(r"(?m)^(?=\S+ \w+.* -> |cut -> )", out)[1:], table(self.first())
        must("steps", len(told) == len(self.boards))
        for (line, (board, _)), block in zip(self.boards.items(), told):
            behind = table(board)
            rows = lambda it: sorted(" ".join(row[2:].split()) for row in it if re.match("# (entry|tlb|ic|fence) ", row))
            changed = [it[4:] for it in block.splitlines()[1:] if it.startswith("# ~ ")]
            for sign, old, new in (("gone: ", before, behind), ("new: ", behind, before)):
                wanted = rows(old)
                for it in rows(new):
                    wanted[:] = [other for at, other in enumerate(wanted) if other != it or at != wanted.index(it)]
                must(f"line {line}: {changed}, and not {sign}{wanted}", sorted(it[len(sign) :] for it in changed if it.startswith(sign)) == wanted)
            harts = [row.split() for row in before if re.match("# +[0-9]", row)], [row.split() for row in behind if re.match("# +[0-9]", row)]
            other = [old[1] for old, new in zip(*harts) if old[2:11] != new[2:11]]
            must(f"line {line}: {changed}, and not of harts {other}", [it.split()[1].rstrip(":") for it in changed if it.startswith("hart ")] == other)
            must(f"line {line}: {changed}", any(it.startswith("board: ") for it in changed) == (before[:2] != behind[:2]))
            before = behind
        # (the JSON of each step has the same changes)
        changes = [[it[4:] for it in block.splitlines()[1:] if it.startswith("# ~ ")] for block in told]
        status, found, _ = self.json("replay", "--json", "--diff", "every.sched")
        must(f"{found}", status == 0 and [it["changes"] for it in found if it["kind"] == "step"] == changes and len({tuple(it) for it in changes}) > 20)
        one = self.called("replay", "--diff", "--at", "4", "every.sched")[1]
        must(f"{one}", one == told[0] and "# ~ hart 1: state START_PENDING -> STARTED\n" in one)

    def first(self):
        """The board before the first step."""
        from board_model import board_of

        return board_of(self.text.splitlines()[2].split())

    def test_replay__lines_that_there_are_not(self):
        """A line before the board's or behind the last is a fault, and so is what has no replay, with what is said of that."""
        last = self.text.count("\n")
        for line in (0, 2, last + 1, 10**15):
            must_end(self.called("replay", "--at", str(line), "every.sched"), 2, "", f"sbiboard: --at {line}: every.sched has a board from line 3 on, and {last} lines\n")
        must_end(self.called("replay", "--at", "-1", "every.sched")[:2], 2, "")
        for line in (3, next(it for it in range(4, last) if it not in self.boards)):
            must_end(self.called("replay", "--diff", "--at", str(line), "every.sched"), 2, "", f"sbiboard: --at {line} --diff: this line of every.sched has no step\n")
            must_end(self.called("replay", "--at", str(line), "every.sched")[::2], 0, "")
        self.put("bad.sched", BOARD + "0 advance\n0 fly\n")
        must_end(self.called("replay", "--at", "2", "bad.sched"), 1, "", "sbiboard: line 3: fault 3\n")
        self.put("long.sched", BOARD + "0 sip\n" * 10_001)
        must_end(self.called("replay", "--diff", "long.sched"), 2, "", "sbiboard: --diff tells of at most 10,000 steps, and long.sched has 10,001: --at LINE --diff tells of one\n")
        must_end(self.called("replay", "--diff", "--at", "9000", "long.sched")[:2], 0, "0 sip -> refused 2\n")
        # (10,000 steps are told, each with a run of its own: here no step is)
        sys.path.insert(0, os.path.join(ROOT, "tools/front"))
        from commands import DIFF
        from reading import MOST_DIFFED, Replay

        class Script:
            file, text, asks = "long.sched", b"", lambda _, option: option == DIFF

        for many, wanted in ((MOST_DIFFED, 0), (MOST_DIFFED + 1, 2)):
            replay = Replay(Script(), range(1, many + 2), 0, "", "")
            replay.lines = list
            must(f"{many} steps", MOST_DIFFED == 10_000 and replay.tell()[0] == wanted)


class Explained(Made):
    def told(self, task, name, text):
        """The lines that are said of a script, each without the name; the status is that of a call without --explain."""
        self.put(name, text)
        plain, found = self.called(task, name), self.called(task, "--explain", name)
        must(f"{name}: {found}, and not {plain}", found[:2] == plain[:2])
        lines = found[2].splitlines()
        must(f"{lines}", all(it.startswith(f"{name}:") or it.startswith("sbiboard: ") for it in lines))
        # (where a script's fault is told so, its number alone isn't)
        must(f"{lines}", found[0] != 1 or len({it.startswith("sbiboard: ") for it in lines}) < 2)
        return [it[len(name) + 1 :] for it in lines if it.startswith(f"{name}:")]

    def test_explain__each_fault_is_told_for_what_it_is(self):
        """Each wrong line is told with its line and column and what may be meant, by its own task or by `test`, and every fifth by both; the line beside it isn't, nor is a right script."""
        for place, (name, wrong, column, meant) in enumerate(WRONG):
            text = f"{BOARD}{RIGHT[name]}\n{wrong}\n"
            at, tasks = text.count("\n"), (TASK[name], "test")
            for task in tasks if place % 5 == 0 else tasks[place % 2 :][:1]:
                told = self.told(task, name, text)
                must(f"{task} {wrong!r}: {told}", len(told) == 1 and told[0].startswith(f"{at}:{column}: ") and meant in told[0])
        told = self.told("test", PROGRAMS, f"{BOARD}{RIGHT[PROGRAMS]}\n#! never 1 sip -> refused 3\n")
        must(f"{told}", told == ["4:19: no accepted step is refused: 'refused'"])
        for name, text in (*RIGHT.items(), (SCHEDULE, "\n".join(GOOD)), (PROGRAMS, "#! maybe never 0 load 0x80002000 -> value 80002000\nat 0x80000000\nsip")):
            for task in (TASK[name], "test"):
                must(f"{task} {name} {text}", self.told(task, name, f"{BOARD}{text}\n") == [])

    def test_explain__all_faults_of_a_file(self):
        """All faults of a file are told, sorted, also behind a faulty board line; at most twenty; of lines of another kind the first, with the others."""
        text = "\ufeffbord 2 4 100 0 0x80000000\n" + "".join(f"0 fly{at}\n0 sip\n" for at in range(5))
        must(f"{self.told('replay', 'a.sched', text)}", [it.split(":")[0] for it in self.told("replay", "a.sched", text)] == ["1", "1", "2", "4", "6", "8", "10"])
        told = self.told("replay", "a.sched", BOARD + "".join(f"0 fly{at}\n" for at in range(50)))
        must(f"{told}", [int(it.split(":")[0]) for it in told] == [*range(2, 22)])
        told = self.told("replay", "a.sched", BOARD + "0 sip\n" + "0 sip -> done\n" * 30 + "0 fly\n")
        must(f"{told}", [it.split(":")[0] for it in told] == ["3", "33"] and told[0].endswith(" (also 29 more lines, from line 4 on)"))
        told = self.told("check", OF_TRACE, BOARD + "0 sipp -> done\n0 wfi\n0 sip -> done\nhart0 sip\n1 wfi\nhart1 sip -> done\n")
        must(f"{told}", [it.split(":")[0] for it in told] == ["2", "3", "5"] and told[1].endswith("as in a trace (also line 6)") and told[2].endswith(": did you mean '0'? (also line 7)"))
        must("BOOTADDR", self.told("replay", "a.sched", "board 1 1 9 0 80000000 0\n0 sip\n") == ["1:15: bad board: BOOTADDR is 0x4c4b400, not an even address of the RAM: did you mean '0x80000000'?"])
        for name, text in ((SCHEDULE, ""), (OF_TRACE, "# none\n"), (SCHEDULE, "0 advance\n")):
            told = self.told(TASK[name], name, text)
            must(f"{told}", len(told) == 1 and told[0].endswith("(fault 2): a script begins with 'board HARTS PAGES LIMIT BOOTHART BOOTADDR BOOTOPAQUE [ASIDLEN WIDTH]'"))
        # (a file of 16-bit characters, with a mark or without one, in either order)
        for coding, column in (("utf-16", 1), ("utf-16-be", 1), ("utf-16-le", 2)):
            told = self.told("replay", "a.sched", (BOARD + "0 sip\n").encode(coding))
            must(f"{coding}: {told}", any(it.startswith(f"1:{column}: ") and it.endswith(": the file is UTF-16: save it as ASCII") for it in told))
        # (each number of the board's line is told where it stands)
        good = ["2", "4", "100", "0", "0x80000000", "0x0", "16", "39"]
        for place, name, bad in ((0, "HARTS", "200"), (1, "PAGES", "0"), (2, "LIMIT", "1000001"), (3, "BOOTHART", "2"), (4, "BOOTADDR", "0x70000000"), (6, "ASIDLEN", "17"), (7, "WIDTH", "40")):
            line = " ".join(["  board", *good[:place], bad, *good[place + 1 :]])
            for task in ("replay", "test"):
                told = self.told(task, "a.sched", f"# first\n{line}\n0 sip\n")
                must(f"{name}: {told}", len(told) == 1 and told[0].startswith(f"2:{len(' '.join(['  board', *good[:place]])) + 2}: bad board: {name} is {bad}"))
        # (of several files those of each, and twenty are as many as may be)
        for name, many in (("a.sched", 19), ("b.sched", 20), ("c.sched", 21)):
            self.put(name, BOARD + "".join(f"0 fly{at}\n" for at in range(many)))
        said = self.called("test", "--explain", "a.sched", "b.sched", "c.sched")[2].splitlines()
        must(f"{said}", [it.split(":")[0] for it in said] == ["a.sched"] * 19 + ["b.sched"] * 20 + ["c.sched"] * 20)

    def test_explain__kinds_and_files(self):
        """A script of another kind is told with the task that takes it, and a file that can't be opened with the cause."""
        self.put("a.trace", TRACE)
        behind = " Without its replies it is a schedule: sed 's/ -> .*//'"
        must("a trace", self.told("replay", "a.trace", TRACE) == ["2:1: a trace, and replay takes a schedule: did you mean 'check' or 'test'?" + behind, "3:1: the board has no hart 007: its harts are 0 to 0"])
        of_kind = {"schedule": (BOARD + "0 advance\n", "replay"), "trace": (BOARD + "0 advance -> gone\n", "check"), "program": (BOARD + "at 0x80000000\nsip\n", "run")}
        for task, takes in (("replay", "schedule"), ("run", "program"), ("explore", "program")):
            for kind, (text, other) in of_kind.items():
                told = self.told(task, "a.any", text)
                must(f"{task}: {told}", told == ([] if kind == takes else [f"2:1: a {kind}, and {task} takes a {takes}: did you mean '{other}' or 'test'?" + (behind if (task, kind) == ("replay", "trace") else "")]))
        for name, why in (("none", "no such file"), (".", "is a directory"), ("a.trace/x", "can't be read")):
            for task in ("run", "replay", "check"):
                must_end(self.called(task, "--explain", name), 7, "", f"sbiboard: {name}: {why}\n")
                must_end(self.called(task, name), 7, "", "sbiboard: input or output failed\n")
        path = os.path.join(self.room, "clone/crates/sbiboard_cli/out/sbiboard_cli")
        os.remove(path)
        for task, name, status, said in (("replay", "none", 7, "sbiboard: none: no such file\n"), ("replay", "a.trace", 1, f"a.trace:2:1: a trace, and replay takes a schedule: did you mean 'check' or 'test'?{behind}\n")):
            must_end(self.called(task, "--explain", name), status, "", said)

    def test_explain__the_first_fault_is_the_proved_one(self):
        """Of scripts that are changed at random the fault that a page of the formats finds first is told, with its number, also where `test` isn't built."""
        of, texts = random.Random(5), []
        words = ["->", "cut", "at 16", "clock", "tick 1", "0 sip", "128 sip", "0 sstatus 2", "c poll", "0 sfence - 0xg", "18446744073709551616", "sip", "fly", "board 1"]
        for path in sorted(glob.glob(os.path.join(EXAMPLES, "*.*")))[:18]:
            for _ in range(2):
                lines = read_bytes(path).decode().split("\n")
                lines[of.randrange(len(lines))] = of.choice((of.choice(words), of.choice(lines) + " " + of.choice(words)))
                texts.append("\n".join(lines))
        faulty = 0
        for is_built in (True, False):
            if not is_built:
                os.remove(os.path.join(self.room, "clone/crates/sbiboard_test/out/sbiboard_test"))
            for text in texts:
                try:
                    grammar.judged(text.encode())
                except grammar.Fault as fault:
                    self.put("a.sched", text)
                    lines = self.called("replay", "--explain", "a.sched")[2].splitlines()
                    must(f"{fault.line} {fault.number}: {lines}", any(re.match(rf"a\.sched:{fault.line or 1}:\d+: .*\(fault {fault.number}\)", it) for it in lines))
                    faulty += 1
        must(f"{faulty} of {len(texts)}", faulty >= len(texts) // 2)


class Tables(Test):
    programs = ()

    def test_the_words_of_scripts_stand_once(self):
        """The words that are meant are those of the page of formats, as the tests' own reader has them."""
        sys.path.insert(0, os.path.join(ROOT, "tools/front"))
        from explain import CONDITIONS, EXTENSIONS
        from kinds import ENDS, MARKS, OPERATIONS, REPLIES, RULES

        from . import test_editors

        must(f"{OPERATIONS}", OPERATIONS == grammar.COUNTS and REPLIES == grammar.REPLIES)
        must(f"{RULES} {ENDS}", set(RULES) == test_editors.RULES | {"after", "maybe"} and set(ENDS) == test_editors.ENDS and set(MARKS) == test_editors.MARKS)
        must(f"{CONDITIONS}", set(CONDITIONS) == test_editors.RULES)
        must(f"{EXTENSIONS}", {int(it, 16): getattr(board_model, name) for name, it in EXTENSIONS.items()} == {it: it for it in board_model.EXTENSIONS})
