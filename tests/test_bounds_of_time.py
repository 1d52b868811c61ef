"""Looks and tries that a bound cuts off: of time and of states, what is told then, and the progress that a terminal is told meanwhile."""
import os
import pty
import re
import subprocess
import threading
import time
from unittest import SkipTest

from . import programs
from .fixtures import HANG, PROGRAM, TESTER, Test, explored, must, read, tester, told, write
from .test_few_states import beside
from .test_orders import LOADS_AND_STORES, RACE, at_a_terminal

# How many states LOADS_AND_STORES has.
STATES = 22
WAITS = "never 0 sip after 1 load -> value 2"
SEEN, UNSEEN = f"# states: {STATES}, steps: 33", "# not all orders were seen: "
# Words of `explore`, conditions each with what is said of it (None: it was not judged), the status, and a line of what was found.
BOUNDS = (
    (["--seconds", "0"], [("never 0 sip", None), ("some 0 advance", None), ("end quiet", None), ("each 0 store -> done", None)], 8, UNSEEN + "1 states, 0 steps"),
    (["--seconds", "0"], [], 8, UNSEEN + "1 states, 0 steps"),
    (["--states", "5"], [], 8, UNSEEN),
    (["--states", "5"], [("some 0 advance", "holds")], 8, UNSEEN),
    (["--states", "5"], [("some 0 advance", "holds"), ("never 0 sip", None)], 8, UNSEEN),
    (["--states", "5"], [("never 0 advance", "fails")], 1, UNSEEN),
    (["--states", "5"], [("end off", None), ("never 0 advance", "fails")], 1, UNSEEN),
    # (what this one waits for makes more states)
    (["--states", str(STATES)], [(WAITS, None)], 8, SEEN),
    (["--states", str(STATES)], [("never 0 sip", "holds in all orders"), (WAITS, None)], 8, SEEN),
    (["--states", str(STATES)], [("never 0 sip", "holds in all orders"), ("end quiet", "holds in all orders")], 0, SEEN),
    (["--states", "1000"], [(WAITS, "holds in all orders"), ("some 0 sip", "fails in all orders")], 1, SEEN),
    (["--states", "1000", "--seconds", "100"], [(WAITS, "holds in all orders")], 0, SEEN),
)


def point_of(number, about, said, why):
    if said is None:
        return f"not ok {number} - a.program: {about}: not judged: {why}"
    return f"{'not ok' if said.startswith('fails') else 'ok'} {number} - a.program: {about}: {said}"


# A program with a block that no order enters, an entry without a block, and a call whose every answer is an error.
ODD = RACE.replace("at 0x80001000\n", "ecall 0x48534d 0 9 0x80001000\nat 0x80003000\n")

# ---- time

ENDLESS = ["--times", "1000000000", "--jobs", "1"]
# More states than are seen within seconds.
WIDE = beside(3_000, 3_000).replace("board 2 1 1000 ", "board 2 1 1000000 ")

# Harts that each start the next one: a run on threads takes many times as long as an order.
CHAIN = programs.chain(64).text.decode()


# ---- progress


def watched(room, name, words, out_is_one, err_is_one, seconds=200):
    """The status, and what goes to standard output and to standard error, each of which is a terminal or a pipe."""
    pairs = [pty.openpty() if is_one else os.pipe() for is_one in (out_is_one, err_is_one)]
    child = subprocess.Popen([name, *words], executable=TESTER, cwd=room, stdin=subprocess.DEVNULL, stdout=pairs[0][1], stderr=pairs[1][1])
    found = [b"", b""]

    def read(at):
        try:
            while piece := os.read(pairs[at][0], 4096):
                found[at] += piece
        except OSError:
            pass  # (a terminal ends so)

    readers = [threading.Thread(target=read, args=(at,)) for at in (0, 1)]
    for _, its in pairs:
        os.close(its)
    for it in readers:
        it.start()
    try:
        status = child.wait(seconds)
    finally:
        child.kill()
        for it in readers:
            it.join()
        for ours, _ in pairs:
            os.close(ours)
    return status, *(text.decode().replace("\r\n", "\n") for text in found)


def must_be_taken_back(text):
    """The lines of the progress, each of which takes the place of the one before; the last one of each look is taken back."""
    *lines, last = text.split("\r\x1b[K")[1:] or [None]
    must(f"{text!r}", any(lines) and last == "" and text.startswith("\r\x1b[K"))
    return [it for it in lines if it]


class BoundsOfTime(Test):
    programs = (PROGRAM, TESTER)

    def test_bounds_of_explore_are_told(self):
        """Where a bound cuts off the look for a condition, or for what is found, the point or that line says so, and without a failure the status is 8."""
        wrong = []
        for words, asked, wanted, line in BOUNDS:
            status, lines = explored(self.room, "".join(f"#! {it}\n" for it, _ in asked) + LOADS_AND_STORES, "--no-outcomes", *words)
            points = [it for it in lines if it.startswith(("ok ", "not ok "))]
            abouts = [(f"line {at}: {it}", said) for at, (it, said) in enumerate(asked, 1)] or [("no order ends stuck", None)]
            why = "no time" if words[:2] == ["--seconds", "0"] else f"more than {words[1]} states, none of those seen breaks it"
            expected = [point_of(at, about, said, why) for at, (about, said) in enumerate(abouts, 1)]
            is_cut = lines[-1] == "# cut short: not all orders were seen"
            if status != wanted or points != expected or not any(it.startswith(line) for it in lines) or is_cut != (line != SEEN or None in [said for _, said in asked]):
                wrong.append((words, asked, status, points, lines[-3:]))
        must(f"{wrong}", not wrong)

    def test_what_was_not_tried_is_not_told(self):
        """Where nothing was tried, nothing is said of blocks, calls and patterns; each point says that it wasn't."""
        asked = ("never 0 poll", "some 1 load", "end quiet")
        for text in (ODD, "".join(f"#! {it}\n" for it in asked) + ODD):
            abouts = [f"race.program: line {at}: {it}" for at, it in enumerate(asked, 1)] if text.startswith("#!") else ["race.program: no order ends stuck"]
            wanted = ["TAP version 13", *(f"not ok {at} - {it}: not judged: no time" for at, it in enumerate(abouts, 1)), f"1..{len(abouts)}", f"# {len(abouts)} points, 0 failed, {len(abouts)} not judged"]
            wanted += ["# 1 files, 0 orders, 0 different records", "# ends: 0 off, 0 history-full, 0 quiet, 0 stuck", "# cut short: not all orders were tried"]
            for words in (["--seconds", "0"], ["--seconds", "0", "--times", "9"], ["--seconds", "0", "--seed", "3"]):
                status, lines = told(self.room, text, *words)
                must(f"{words}: status {status}, {lines}", status == 8 and lines == wanted)

    def test_points_of_explore_are_written_into_a_file_too(self):
        """`explore --tap` writes the points into a file, those that fail and those of files that can't be tested too."""
        for text in (RACE, "#! end off\n#! some 1 load\n" + RACE, "board\n"):
            status, lines = explored(self.room, text, "--tap", "points.tap")
            must(f"status {status}, {lines}", read(os.path.join(self.room, "points.tap")).splitlines() == lines)
            os.remove(os.path.join(self.room, "points.tap"))

    def test_times_are_told_at_a_terminal(self):
        """At a terminal the last line is how long it took, in seconds with one digit behind the point, of `test` and of `explore`."""
        for text, words in ((RACE, ["race.program"]), ("board\n", ["race.program"]), (RACE, [*ENDLESS, "--seconds", "1", "race.program"])):
            told(self.room, text, "--times", "1")
            begun = time.monotonic()
            _, shown = at_a_terminal(self.room, *words)
            spent = time.monotonic() - begun
            found = re.fullmatch(r"time: (\d+\.\d) s", shown.split("\n")[-2])
            must(f"{words}: {shown}", found and float(found[1]) <= spent + 0.1 and float(found[1]) >= (1 if "--seconds" in words else 0))
        _, shown, _ = watched(self.room, "sbiboard explore", ["race.program"], True, False)
        must(f"{shown}", re.fullmatch(r"time: \d+\.\d s", shown.split("\n")[-2]))

    def test_seconds_are_seconds(self):
        """--seconds N ends after N seconds, and not much later, whatever is looked at: orders of a seed, all orders, a condition's too."""
        told(self.room, RACE, "--times", "1")
        write(os.path.join(self.room, "wide.program"), "#! never 0 sip after 1 load\n" + WIDE)
        for name, words in (("sbiboard", [*ENDLESS, "--seconds", "3", "race.program"]), ("sbiboard explore", ["--states", "100000000", "--seconds", "1", "wide.program"])):
            begun, seconds = time.monotonic(), int(words[words.index("--seconds") + 1])
            found = tester(self.room, *words, name=name, timeout=200)
            spent = time.monotonic() - begun
            # (a look reads the clock every 1,024 turns)
            must(f"{words}: {spent:.1f} s, {found}", seconds <= spent < (seconds + 2.5 if name == "sbiboard" else 20) and "# cut short: not all orders were " in found.stdout)
        # (the look of the condition is what was cut off)
        must(f"{found}", found.returncode == 8 and "not ok 1 - wide.program: line 1: never 0 sip after 1 load: not judged: no time\n" in found.stdout)

    def test_seconds_of_runs_are_kept(self):
        """--seconds ends runs on threads, too: as many as were made are told, and the summary says that not all were."""
        write(os.path.join(self.room, "chain.program"), "#! end off\n" + CHAIN)
        found = tester(self.room, "--times", "3000", "--threads", "--seconds", "2", "chain.program", timeout=200)
        lines = found.stdout.splitlines()
        if lines[2:5] != ["  ---", "  seed: 0", "  failing: 3000"]:
            raise SkipTest("orders take all the time here")
        runs = next((int(it.split()[1]) for it in lines if it.startswith("  runs: ")), 0)
        must(f"{lines}", 0 < runs < 3000 and f"  failing: {runs}" in lines and "  run: 0" in lines)
        must(f"{lines}", f"# ends: 0 off, 0 history-full, {3000 + runs} quiet, 0 stuck" in lines and lines[-1] == "# cut short: not all orders were tried")

    def test_progress_of_orders_is_told(self):
        """Where standard error is a terminal the progress is told there: how many of how many, how many a second, and how long the others take."""
        told(self.room, RACE, "--times", "1")
        write(os.path.join(self.room, "chain.program"), CHAIN)
        for words, name in (([*ENDLESS, "--seconds", "4", "race.program"], "orders"), (["--times", "3000", "--threads", "--seconds", "5", "chain.program"], "runs")):
            begun = time.monotonic()
            _, out, said = watched(self.room, "sbiboard", words, False, True)
            spent = time.monotonic() - begun
            if name == "runs" and " runs, " not in said:
                raise SkipTest("orders take all the time here")
            must(f"{out}", out.startswith("TAP version 13\n"))
            lines = [re.fullmatch(rf"(\d+) of (\d+) (orders|runs), (\d+) a second, (\d+) s to go", it) for it in must_be_taken_back(said)]
            must(f"{said!r}", all(lines) and name in [it[3] for it in lines])
            for it in lines:
                tried, of, rate, left = (int(it[place]) for place in (1, 2, 4, 5))
                must(f"{it[0]}", of == int(words[1]) and left == (of - tried) // max(rate, 1) and tried <= of)
                # (nothing is told in the first two seconds; runs are counted from their own first one on)
                must(f"{it[0]}, of {spent:.1f} s", tried / spent - 1 <= rate <= tried / 2)

    def test_progress_of_a_look_is_told(self):
        """So is that of a look at all orders: how many states had their turn, and how many wait."""
        write(os.path.join(self.room, "wide.program"), WIDE)
        words = ["--states", "100000000", "--seconds", "3", "wide.program"]
        _, out, said = watched(self.room, "sbiboard explore", words, False, True)
        lines = must_be_taken_back(said)
        must(f"{lines}", all(re.fullmatch(r"\d+ states, \d+ that wait, \d+ a second", it) for it in lines) and out.startswith("TAP version 13\n"))
        # (of two harts side by side as many states wait as one had so far: of n states some root of 2 n)
        counts = [[int(word) for word in re.findall(r"\d+", it)] for it in lines]
        must(f"{lines}", all(0 < waits and waits**2 < 16 * states + 1_000 for states, waits, _ in counts) and max(counts)[0] > 1_000)

    def test_no_progress_but_at_a_terminal(self):
        """Where standard error is no terminal, nothing goes there, also where standard output is one; and nothing is told of what is soon done."""
        told(self.room, RACE, "--times", "1")
        long = [*ENDLESS, "--seconds", "3", "race.program"]
        for name, words, out_is_one, err_is_one in (
            ("sbiboard", long, True, False), ("sbiboard", long, False, False), ("sbiboard", ["race.program"], False, True), ("sbiboard explore", ["race.program"], False, True),
        ):  # fmt: skip
            _, out, said = watched(self.room, name, words, out_is_one, err_is_one)
            must(f"{words}: {said!r}", said == "" and "\x1b" not in out and out.startswith("TAP version 13\n") != out_is_one)
