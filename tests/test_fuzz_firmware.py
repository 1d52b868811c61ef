"""tools/fuzz-firmware: stored records of its payload, each wrong answer that would have to be seen, its words, and a run under QEMU."""
import argparse
import contextlib
import gzip
import importlib.machinery
import importlib.util
import io
import os
import re
import shutil
import signal
import subprocess
import time
from collections import Counter
from unittest import SkipTest, mock

import fuzzing
from reports import FAULTS
from rules import TOLD
from standard import FUNCTIONS

from .fixtures import RECORDS, ROOT, Test, must, read, read_bytes, shown, write

TOOL = os.path.join(ROOT, "tools/fuzz-firmware")
LOADER = importlib.machinery.SourceFileLoader("fuzz_firmware", TOOL)
fuzz = importlib.util.module_from_spec(importlib.util.spec_from_loader("fuzz_firmware", LOADER))
LOADER.exec_module(fuzz)
# Stored records of whole runs, whose one fault is that ids are cut; and of one in which a fence hangs.
WHOLE, HANGS = ("fuzz-whole", "fuzz-two-harts"), "fuzz-hangs"
CUT, HANGING, BREAKS = "a hart id is all 64 bits", "calls that don't return", "breaks the standard"
TELL = 0x8000001


def asked_of(text):
    seed, operations = (int(word, 16) for word in re.search(r"# fuzz: seed (0x\w+), operations (0x\w+)", text).groups())
    harts = int(re.search(r"^record (0x\w+)", text, re.M)[1], 16)
    return fuzzing.Asked(seed, harts, operations // harts, 6)


def verdict(text):
    return fuzzing.Verdict(text, asked_of(text))


def without_cuts(found):
    return {key for key in found.faults if CUT not in key[1]}


# ---- wrong answers, put into a stored record of a whole run


def replies(text, eid, fid, error="0x0"):
    """The calls of a function that returned so, each with its return: as texts."""
    lines = text.split("\n")
    for at, line in enumerate(lines):
        if re.match(rf"\d call {eid:#x} {fid:#x} ", line):
            hart = line[0]
            reply = next((it for it in lines[at + 1 :] if it.startswith(f"{hart} ")), "")
            if reply.startswith(f"{hart} ret {error} "):
                yield line, reply


def with_reply(text, pair, words):
    line, reply = pair
    return text.replace(f"{line}\n", f"{line}\n", 1).replace(f"{reply}\n", f"{' '.join([*words, *reply.split()[4:]])}\n" if words else "", 1)


def first(text, *function):
    return next(replies(text, *function))


def hangs(text):
    """A hart's last call doesn't return: the payload gives up."""
    line, reply = list(replies(text, 0x52464E43, 1))[-1]
    hart, lines = line[0], text.split("\n")
    at = lines.index(line)
    kept = lines[: at + 1] + [it for it in lines[at + 1 :] if not it.startswith(f"{hart} ") and "0x53525354 0x0 0x0 0x0" not in it]
    return "\n".join(kept).replace("m end off", "m end limit").replace(", whole", ", given up")


def half_served(text, number):
    """One hart of those that were named sees nothing: it tells another value."""
    found = next(it for it in re.findall(rf"^\d call {TELL:#x} {number:#x} (\S+) \S+ .*$", text, re.M) if it != "0x0")
    line = re.search(rf"^\d call {TELL:#x} {number:#x} {found} {found} .*$", text, re.M)[0]
    return text.replace(line, line.replace(f" {found} {found} ", f" {found} 0x0 ", 1), 1)


def told_otherwise(text, number):
    """A hart tells a 1 where a 0 is right: an IPI too many, a register that changed, a satp."""
    line = re.search(rf"^\d call {TELL:#x} {number:#x} 0x0 0x0 .*$", text, re.M)[0]
    return text.replace(line, line.replace(f" {number:#x} 0x0 0x0 ", f" {number:#x} 0x0 0x1 ", 1), 1)


def never_enters(text):
    """A hart that was started doesn't enter, and does nothing more."""
    line = re.findall(r"^\d entry 0x80200100 .*$", text, re.M)[-1]
    entry, lines = line[0], text.split("\n")
    at = lines.index(line)
    return "\n".join(it for place, it in enumerate(lines) if place < at or not it.startswith(f"{entry} "))


def wrong_answers(text):
    """Each: what is wrong, the record, and words of the fault by which it must be seen."""
    ipi, status, timer, start = (first(text, *it) for it in ((0x735049, 0), (0x48534D, 2), (0x54494D45, 0), (0x48534D, 0)))
    hart = ipi[0][0]
    yield "a garbage error", with_reply(text, ipi, [hart, "ret", "-0x4d", "0x0"]), "an error is one of the list"
    yield "an error of another function", with_reply(text, ipi, [hart, "ret", "-0x6", "0x0"]), "one of those that the function's section names"
    yield "a state that isn't one", with_reply(text, status, [status[0][0], "ret", "0x0", "0x9"]), "a state is 0 to 6"
    yield "another state", with_reply(text, status, [status[0][0], "ret", "0x0", "0x1"]), "hart_get_status"
    yield "an error of the timer", with_reply(text, timer, [timer[0][0], "ret", "-0x3", "0x0"]), "set_timer"
    yield "a start that is refused", with_reply(text, start, [start[0][0], "ret", "-0x3", "0x0"]), "hart_start"
    yield "a hang", hangs(text), "remote_sfence_vma"
    yield "an IPI that reaches half of its mask", half_served(text, TOLD.index("ipis")), "an IPI that succeeds"
    yield "a fence that reaches half of its mask", half_served(text, TOLD.index("fences")), "a remote fence that succeeds"
    yield "a timer that doesn't come", half_served(text, TOLD.index("timers")), "STIP is 1"
    yield "an IPI that reaches another hart", told_otherwise(text, TOLD.index("ipis")), "an IPI that succeeds"
    yield "a timer's interrupt that stays", told_otherwise(text, TOLD.index("timers")), "STIP is 1"
    yield "a register that changes", told_otherwise(text, TOLD.index("registers")), "changes no register"
    yield "a satp at an entry", told_otherwise(text, TOLD.index("no satp")), "satp is 0"
    yield "another a0 at an entry", re.sub(r"^(\d entry \S+) 0x\w+ (0x\w*5eed\w+)", r"\1 0x7 \2", text, 1, re.M), "an entry"
    yield "another a1 at an entry", re.sub(r"^(\d entry \S+ \S+) 0x(\w*)5eed0(\w)", r"\1 0x9\g<2>5eed0\3", text, 1, re.M), "an entry"
    yield "SIE at an entry", re.sub(r"^(\d entry .*5eed.*sstatus=)0", r"\g<1>1", text, 1, re.M), "sstatus.SIE is 0"
    yield "a hart that never enters", never_enters(text), "hart_start"
    yield "a run that was cut", text[: text.index("\n", len(text) // 2) + 1] + "m end off\n", "harts that didn't come to the end"
    yield "a run that says that it was given up", text.replace(", whole", ", given up"), "harts that didn't come to the end"
    yield "nothing", "", "the payload"


# ---- what is summed of several seeds


class Judged:
    """Runs whose verdicts are known: `found` has the faults of seeds, and all runs try the same functions."""

    def __init__(self, found, tried):
        self.found, self.tried, self.seen, self.reduced, self.is_stopped = found, tried, [], [], False

    def stop(self):
        self.is_stopped = True

    def smaller(self, verdict, key, most):
        """Half of the operations show the first fault, and none fewer the others."""
        self.reduced.append((verdict.asked.seed, key, most))
        return self.run(verdict.asked.but(checks=0, kept=verdict.asked.all()[::2])) if len(self.reduced) == 1 else verdict

    def run(self, asked):
        self.seen.append(asked.seed)
        made = fuzzing.Verdict("", asked)
        made.faults, made.others = {key: f"line {asked.seed}" for key in self.found.get(asked.seed, ())}, Counter({("left open", ""): 3})
        made.tried, made.compared, made.total, made.text = self.tried, 7, 9, "record 4\n"
        return made


KEY, OTHER = ("breaks the standard", "an error is one of the list"), ("breaks the standard", "a state is 0 to 6")


class Small(fuzzing.Runs):
    """Runs that show a fault where these operations are kept, and another one where others are."""

    def __init__(self, needed, seconds=60):
        self.needed, self.made, self.seconds = needed, 0, seconds

    def run(self, asked):
        self.made += 1
        kept, made = set(asked.all()), fuzzing.Verdict("", asked)
        made.faults = {KEY: "it"} if self.needed <= kept else {OTHER: "another"} if kept else {}
        return made


class FuzzFirmware(Test):
    programs = ()

    def test_fuzz__stored_records(self):
        """Of a firmware that cuts ids nothing else is told, and all was compared that can be; of one that hangs the fences are."""
        for name in WHOLE:
            text = read(os.path.join(RECORDS, f"{name}.record"))
            found = verdict(text)
            must(f"{name}: {found.faults}", not without_cuts(found) and found.compared > 0.9 * found.total > 60)
        text = read(os.path.join(RECORDS, f"{HANGS}.record"))
        must(f"{verdict(text).faults}", any(kind == HANGING and "fence" in what for kind, what in verdict(text).faults))

    def test_fuzz__each_wrong_answer_is_seen(self):
        """With each of these wrong answers in a stored record it isn't green any more, and by the right fault."""
        text = read(os.path.join(RECORDS, "fuzz-whole.record"))
        before = without_cuts(verdict(text))
        must(f"{before}", not before)
        for what, wrong, words in wrong_answers(text):
            must(f"{what}: the record is the same", wrong != text)
            found = without_cuts(fuzzing.Verdict(wrong, asked_of(text)))
            must(f"{what}: {found}", any(words in sentence for _, sentence in found))

    def test_fuzz__the_image(self):
        """Its numbers stand where the payload has them, and another image is refused."""
        image = b"x" * 10 + fuzzing.MARK + bytes(8 * len(fuzzing.FIELDS) + fuzzing.MOST_HARTS * fuzzing.MOST_OPERATIONS // 8) + b"y"
        made = fuzzing.image_of(image, fuzzing.Asked(0x1234, 3, 7, kept=[(2, 65)]))
        must("another length, or another end", len(made) == len(image) and made[:26] == image[:26] and made[-1:] == b"y")
        at = 26 + 8 * len(fuzzing.FIELDS) + 8 * (2 * 4 + 1)
        must("the seed, or what is kept", made[26:28] == b"\x34\x12" and made[at] == 2 and sum(made[at - 72 : -1]) == 2)
        for wrong in (b"none", image + image):
            try:
                fuzzing.image_of(wrong, fuzzing.Asked(1))
            except fuzzing.Broken:
                continue
            raise AssertionError("an image without its mark, or with two, passes")
        source = read(os.path.join(ROOT, "examples/kernel/fuzz.c"))
        must("the fields are others", ", ".join(fuzzing.FIELDS) + ", kept[HARTS]" in source and f"OPERATIONS = {fuzzing.MOST_OPERATIONS}" in source)

    def test_fuzz__words(self):
        """What it refuses; what it says of a console's text, and of one without a record."""
        console = os.path.join(self.room, "console")
        text = read(os.path.join(RECORDS, "fuzz-whole.record"))
        asked = asked_of(text)
        words = ["--seeds", str(asked.seed), "--operations", str(asked.operations), "--read", console]
        silent = "the console ended before the payload printed its record; the last line is 'OpenSBI v1.1'"
        for printed, status, said in ((b"OpenSBI v1.1\r\n\r\n" + text.replace("\n", "\r\n").encode(), 0, "faults: 0\n"), (b"OpenSBI v1.1\r\n\r\n", 5, "faults: 1\n"), (b"OpenSBI v1.1\n", 5, silent)):
            write(console, printed)
            found = subprocess.run([TOOL, *words], stdin=subprocess.DEVNULL, capture_output=True, text=True, timeout=60)
            must(f"status {found.returncode}, and it said {found.stdout} {found.stderr}", found.returncode == status and said in found.stdout)
        # (of several runs that a console has printed the last is judged)
        runs = [f"OpenSBI v1.1\n\n{it}" for it in (next(wrong_answers(text))[1], text)]
        for printed, status in (("".join(runs), 0), ("".join(runs[::-1]), 5)):
            write(console, printed.replace("\n", "\r\n"))
            found = subprocess.run([TOOL, *words], stdin=subprocess.DEVNULL, capture_output=True, text=True, timeout=60)
            must(f"of two runs: status {found.returncode}, not {status}, and it said {found.stdout} {found.stderr}", found.returncode == status)
        none, image = os.path.join(self.room, "none"), write(os.path.join(self.room, "image"), "another image")
        files = [[name, none] for name in ("--bios", "--image", "--read")] + [["--image", image, "--write", none], ["--image", image, "--keep", os.path.join(image, "in it")]]
        for wrong in (["--seeds", "5-4"], ["--seeds", "1", "--harts", "9"], ["--seeds", "1", "--operations", "0"], ["--seeds", "1", "--jobs", "0"], ["--seeds", "1-2", "--read", image], ["--seeds", "1-2", "--write", none], ["--seeds", "1", "--write", none, "--read", image], *(["--seeds", "1", *it] for it in files)):
            found = subprocess.run([TOOL, *wrong], stdin=subprocess.DEVNULL, capture_output=True, text=True, timeout=60)
            must(f"{wrong}: {found}", found.returncode == 1 and found.stderr.startswith("fuzz-firmware: ") and found.stderr.count("\n") == 1)

    def test_fuzz__open_calls_explain(self):
        """A hart that a fence under way woke, a suspend seen only at its hart's entry, a start of a hart that enters meanwhile, and one of a
        hart that stops while another one is woken: nothing is unexplained."""
        for name, breaks in (("fuzz-woken", 1), ("fuzz-suspended", 1), ("fuzz-entering", 1), ("fuzz-starting", 0)):
            with gzip.open(os.path.join(RECORDS, f"{name}.record.gz")) as file:
                path = write(os.path.join(self.room, name), file.read())
            found = subprocess.run([os.path.join(ROOT, "tools/to-trace"), "--report", path], stdin=subprocess.DEVNULL, capture_output=True, timeout=100)
            told = (b"\nbreaks the standard: %d\n" % breaks, b"\nunexplained: 0\n")
            must(f"{name}: {shown(found.stdout)}", found.returncode == (5 if breaks else 0) and all(it in found.stdout for it in told))

    def test_fuzz__a_silent_run(self):
        """Of a run that prints no record it is told how it ended, and what the console had last."""
        image = write(os.path.join(self.room, "image"), fuzzing.MARK + bytes(8 * len(fuzzing.FIELDS) + fuzzing.MOST_HARTS * fuzzing.MOST_OPERATIONS // 8))
        machine = os.path.join(self.room, "qemu-system-riscv64")
        words = [TOOL, "--seeds", "1", "--image", image, "--seconds", "1", "--runs", "0", "--keep", self.room]
        for behind, ended in (("exec sleep 60", "1 s were over"), ("exit 0", "the machine was switched off"), ("exit 1", "QEMU ended")):
            write(machine, f"#!/bin/sh\necho OpenSBI; echo '# fuzz: begun'; echo\n{behind}\n")
            os.chmod(machine, 0o755)
            found = subprocess.run(words, stdin=subprocess.DEVNULL, capture_output=True, text=True, timeout=60, env=os.environ | {"PATH": f"{self.room}:{os.environ['PATH']}"})
            said = f"1 seeds: nothing was printed: the payload; the first is 1: {ended} before the payload printed its record; the last line is '# fuzz: begun'\n"
            must(f"status {found.returncode}, and it said {found.stdout} {found.stderr}", found.returncode == 5 and said in found.stdout)

    def test_fuzz__an_interrupted_run(self):
        """A run that is ended by a signal ends its machine, and tells how far it came: that is no success."""
        image = write(os.path.join(self.room, "image"), fuzzing.MARK + bytes(8 * len(fuzzing.FIELDS) + fuzzing.MOST_HARTS * fuzzing.MOST_OPERATIONS // 8))
        machine, begun = os.path.join(self.room, "qemu-system-riscv64"), os.path.join(self.room, "begun")
        write(machine, f"#!/bin/sh\n[ -e {begun} ] || {{ echo $$ > {begun}; exit 0; }}\necho $$ > {begun}.again\nexec sleep 60\n")
        os.chmod(machine, 0o755)
        words = [TOOL, "--seeds", "3-9", "--image", image, "--runs", "0", "--keep", self.room]
        for by in (signal.SIGINT, signal.SIGTERM):
            run = subprocess.Popen(words, stdin=subprocess.DEVNULL, stdout=subprocess.PIPE, text=True, env=os.environ | {"PATH": f"{self.room}:{os.environ['PATH']}"})
            until = time.monotonic() + 60
            while not (os.path.exists(f"{begun}.again") and read(f"{begun}.again")) and time.monotonic() < until:
                time.sleep(0.05)
            run.send_signal(by)
            said = run.communicate(timeout=60)[0]
            must(f"{by}: status {run.returncode}, and it said {said}", run.returncode == 5 and "\nstopped in seed 4, before the end\nseeds 1, calls and entries 0, " in said)
            with self.assertRaises(ProcessLookupError):
                os.kill(int(read(f"{begun}.again")), 0)
            os.remove(begun)
            os.remove(f"{begun}.again")

    def test_fuzz__what_is_summed(self):
        """Of several seeds each is tried, and each fault is told with how many have it and the first; a function that no run tried is told, and is no success."""
        every = Counter({function.name: 2 for function in FUNCTIONS.values()})
        one, other = ("breaks the standard", "an error is one of the list"), ("calls that don't return", "get_spec_version")
        for words, found, tried, status, lines in (
            ("7", {}, every, 0, ["seeds 1, calls and entries 9, of which 7 were compared", "faults: 0", "  1 seeds: left open"]),
            ("3-6", {}, every, 0, ["seeds 4, calls and entries 36, of which 28 were compared", "faults: 0", "  4 seeds: left open"]),
            ("0x3-0x4", {}, every - Counter({"hart_start": 2}), 3, ["seeds 2, calls and entries 18, of which 14 were compared", "faults: 0", "  2 seeds: left open", "never tried: hart_start"]),
            ("1-4", {2: [one], 4: [one, other]}, every, 5, ["faults: 2", f"  2 seeds: {one[0]}: {one[1]}; the first is 2: line 2", f"  1 seeds: {other[0]}: {other[1]}; the first is 4: line 4"]),
            ("4-4", {4: [other]}, Counter(), 5, ["faults: 1", f"  1 seeds: {other[0]}: {other[1]}; the first is 4: line 4", "never tried: hart_start"]),
        ):  # fmt: skip
            runs, given = Judged(found, tried), argparse.Namespace(seeds=fuzz.seeds(words), harts=4, operations=40, checks=6, ticks=5, uart=6, jobs=1, runs=0, keep=self.room, every=False, gdb=False)
            with contextlib.redirect_stdout(io.StringIO()) as said:
                ended = fuzz.fuzzed(runs, given)
            first, last = (int(it, 0) for it in (words.partition("-")[0], words.rpartition("-")[2]))
            must(f"{words}: {runs.seen}", runs.seen == [*range(first, last + 1)])
            must(f"{words}: status {ended}, {said.getvalue()}", ended == status and all(it in said.getvalue().splitlines() for it in lines))
            must(f"{words}: {os.listdir(self.room)}", {f"seed-{seed}.record" for seed in found} == set(os.listdir(self.room)))
            for it in os.listdir(self.room):
                os.remove(os.path.join(self.room, it))
        # (one that is interrupted is no success, though all was tried and nothing is wrong; and it ends what runs)
        given.seeds, runs = fuzz.seeds("1-4"), Judged({}, every)
        with contextlib.redirect_stdout(io.StringIO()) as said, mock.patch.object(runs, "run", lambda asked, run=runs.run: fuzz.interrupted() if asked.seed == 3 else run(asked)):
            ended = fuzz.fuzzed(runs, given)
        must(f"status {ended}, {said.getvalue()}", ended == 3 and runs.is_stopped and said.getvalue().startswith("stopped in seed 3, before the end\nseeds 2, "))

    def test_fuzz__the_table_stands_before_what_is_reduced(self):
        """The first record of each fault is reduced once the table is printed, of calls that hang one; where that is interrupted, it is
        said, and the table stands."""
        every = Counter({function.name: 2 for function in FUNCTIONS.values()})
        given = argparse.Namespace(seeds=fuzz.seeds("1-4"), harts=2, operations=3, checks=6, ticks=5, uart=6, jobs=1, runs=9, keep=self.room, every=False, gdb=False)
        for is_interrupted in (False, True):
            runs = Judged({2: [KEY], 3: [KEY, OTHER, (HANGING, "set_timer")], 4: [OTHER, (HANGING, "send_ipi")]}, every)
            smaller = mock.patch.object(runs, "smaller", side_effect=KeyboardInterrupt) if is_interrupted else contextlib.nullcontext()
            with contextlib.redirect_stdout(io.StringIO()) as said, smaller:
                ended = fuzz.fuzzed(runs, given)
            lines = said.getvalue().splitlines()
            at = next(at for at, it in enumerate(lines) if it.startswith("seeds 4, "))
            behind = [it for it in lines[at:] if "small" in it or "reduced" in it]
            must(f"status {ended}, {lines}", ended == 5 and len(lines[:at]) == 4 and behind == lines[-len(behind) :])
            if is_interrupted:
                must(f"{behind}", behind == ["stopped before all records were reduced"])
                continue
            must(f"{runs.reduced}", runs.reduced == [(2, KEY, 9), (3, OTHER, 9), (3, (HANGING, "set_timer"), 9)])
            small = f"seed 2: {KEY[0]}: {KEY[1]}: small: 3 of 6 operations (0:0 0:1 0:2), checks 0: "
            must(f"{behind}", len(behind) == 3 and behind[0].startswith(small) and behind[1] == f"seed 3: {OTHER[0]}: {OTHER[1]}: no smaller run shows it")
            must(f"{behind}", read(behind[0].removeprefix(small)) == "record 4\n")

    def test_fuzz__seeds_side_by_side(self):
        """With --jobs several seeds run at once, each with an image of its own, and they are told in their order."""
        image = write(os.path.join(self.room, "image"), fuzzing.MARK + bytes(8 * len(fuzzing.FIELDS) + fuzzing.MOST_HARTS * fuzzing.MOST_OPERATIONS // 8))
        machine, begun = os.path.join(self.room, "qemu-system-riscv64"), os.path.join(self.room, "begun")
        os.mkdir(begun)
        # (each waits for its neighbour's beginning, and the first of two also for the other's end; each prints the seed of its image)
        write(machine, f"""#!/bin/bash
seed=$(od -An -tu8 -j{len(fuzzing.MARK)} -N8 "${{@: -1}}" | tr -d ' ')
touch {begun}/$seed
until [ -e {begun}/$((seed % 2 ? seed + 1 : seed - 1)) ]; do sleep 0.01; done
until [ $((seed % 2)) = 0 ] || [ -e {begun}/$((seed + 1)).over ]; do sleep 0.01; done
[ "$seed" = "$(od -An -tu8 -j{len(fuzzing.MARK)} -N8 "${{@: -1}}" | tr -d ' ')" ] && echo "seed $seed"
touch {begun}/$seed.over
""")
        os.chmod(machine, 0o755)
        words = [TOOL, "--seeds", "5-10", "--image", image, "--jobs", "2", "--seconds", "30", "--runs", "0", "--every", "--keep", self.room]
        found = subprocess.run(words, stdin=subprocess.DEVNULL, capture_output=True, text=True, timeout=200, env=os.environ | {"PATH": f"{self.room}:{os.environ['PATH']}"})
        said = "  6 seeds: nothing was printed: the payload; the first is 5: the machine was switched off before the payload printed its record; the last line is 'seed 5'\n"
        must(f"status {found.returncode}, and it said {found.stdout} {found.stderr}", found.returncode == 5 and said in found.stdout and not found.stderr)
        must(f"{os.listdir(self.room)}", {f"seed-{seed}.record" for seed in range(5, 11)} < set(os.listdir(self.room)))
        given = argparse.Namespace(harts=4, jobs=None)
        for processors, harts, jobs in ((4, 4, 1), (8, 4, 2), (11, 4, 2), (2, 4, 1), (3, 1, 3)):
            given.harts = harts
            with mock.patch.object(os, "sched_getaffinity", lambda _, processors=processors: set(range(processors))):
                must(f"{processors} processors, {harts} harts: {fuzz.jobs(given)}", fuzz.jobs(given) == jobs)

    def test_fuzz__how_far_it_is(self):
        """Each minute it is said on standard error how many seeds are over, and about how long the others take."""
        with mock.patch.object(fuzz.time, "monotonic", side_effect=[100, 159, 160, 219, 250]), contextlib.redirect_stderr(io.StringIO()) as said:
            progress, table = fuzz.Progress(30), fuzz.Table()
            for table.runs, table.seeds in ((2, {}), (4, {}), (8, {KEY: [1]}), (10, {KEY: [1]})):
                progress.tell(table)
        lines = ["fuzz-firmware: 4 of 30 seeds, faults: 0, about 6 min left", "fuzz-firmware: 10 of 30 seeds, faults: 1, about 5 min left"]
        must(f"{said.getvalue()}", said.getvalue().splitlines() == lines)

    def test_fuzz__the_same_faults_by_gdb(self):
        """A fault that comes with a call alone must be in both runs of a seed, unless one of them hung before the call."""
        call, order = ("breaks the standard", "an error is one of the list"), ("calls that don't return", "get_spec_version")
        every = Counter({function.name: 2 for function in FUNCTIONS.values()})
        for printed, other, said in (
            ([call], [call], "the same faults"), ([], [call], f"other faults: {[call]}"), ([], [], "the same faults"), ([], [order], f"the same faults, but for what hangs on the order: {[order]}"),
            ([call], [], f"other faults: {[call]}"), ([call], [order], f"the same faults, but for what hangs on the order: {sorted([call, order])}"), ([order], [call], f"the same faults, but for what hangs on the order: {sorted([call, order])}"),
            ([], [call, order], f"other faults: {[call]}, but for what hangs on the order: {[order]}"),
        ):  # fmt: skip
            runs, given = Judged({3: printed}, every), argparse.Namespace(seeds=fuzz.seeds("3"), harts=4, operations=40, checks=6, ticks=5, uart=6, jobs=1, runs=0, keep=self.room, every=False, gdb=True)
            by_gdb = Judged({3: other}, every).run(fuzzing.Asked(3))
            with contextlib.redirect_stdout(io.StringIO()) as text, mock.patch.object(fuzz, "by_gdb", lambda *_, by_gdb=by_gdb: by_gdb):
                ended = fuzz.fuzzed(runs, given)
            is_other = said.startswith("other")
            must(f"{printed} {other}: status {ended}, {text.getvalue()}", f"seed 3: by gdb {said}\n" in text.getvalue() and ended == (5 if printed else 3 if is_other else 0))

    def test_fuzz__what_is_made_small(self):
        """A run of a fault is made small: what is left shows the same fault, and of the operations those alone that it needs."""
        for needed in ({(2, 5)}, {(0, 0), (3, 9)}, {(1, 2), (1, 3), (2, 7)}):
            runs = Small(needed)
            found = runs.smaller(runs.run(fuzzing.Asked(1, 4, 10)), KEY, 400)
            must(f"{needed}: {sorted(found.asked.all())} in {runs.made} runs", set(found.asked.all()) == needed and KEY in found.faults and found.asked.checks == 0 and runs.made <= 401)
        runs = Small({(0, 0), (3, 9)})
        found = runs.smaller(runs.run(fuzzing.Asked(1, 4, 10)), KEY, 3)
        must(f"{sorted(found.asked.all())} in {runs.made} runs", runs.made <= 4 and KEY in found.faults)
        # (nor is there a new run once the time is over)
        runs = Small({(0, 0), (3, 9)}, 0)
        found = runs.smaller(runs.run(fuzzing.Asked(1, 4, 10)), KEY, 400)
        must(f"{sorted(found.asked.all())} in {runs.made} runs", runs.made <= 2 and KEY in found.faults)

    def image(self):
        """The payload, built here and now; or the test is skipped."""
        for name in ("qemu-system-riscv64", "riscv64-linux-gnu-gcc", "/usr/lib/riscv64-linux-gnu/opensbi/generic/fw_dynamic.bin"):
            if shutil.which(name) is None and not os.path.isfile(name):
                raise SkipTest(f"{name} is missing")
        subprocess.run([os.path.join(ROOT, "examples/kernel/build"), self.room], check=True, timeout=60)
        return os.path.join(self.room, "fuzz.elf")

    def test_fuzz__a_warden_that_hangs(self):
        """Where the hart that wakes the others hangs in a call, another one prints the record: it has this call, and says what was waited for."""
        runs = fuzzing.Runs(self.image(), None, self.room, 90)
        found = runs.run(fuzzing.Asked(2, 4, 10, flags=fuzzing.HANGS))
        must(f"{found.faults}: {found.text[:200]}", any(kind == HANGING and what == "get_spec_version" for kind, what in found.faults))
        awaited = re.match(r"# fuzz: seed 0x2, operations 0x\w+, given up: waited for hart (0x\w)\n", found.text)
        must(f"{found.text[:200]}", awaited and found.text.endswith("m end limit\n"))
        last = re.findall(rf"^{int(awaited[1], 16)} .*$", found.text, re.M)[-1]
        must(f"{last}", last.split()[1:4] == ["call", "0x10", "0x0"])

    def test_fuzz__a_fresh_run(self):
        """Two seeds under QEMU, here and now, with small images for fewer operations: whole but for what the page tells."""
        found = subprocess.run([TOOL, "--seeds", "2-3", "--image", self.image(), "--operations", "10", "--runs", "0", "--seconds", "90", "--keep", self.room], stdin=subprocess.DEVNULL, capture_output=True, timeout=200)
        must(f"status {found.returncode}, and it said {shown(found.stderr)}", found.returncode in (3, 5) and b"\nfaults: " in b"\n" + found.stdout)
        told = re.findall(r"^  \d+ seeds: ([^:]*): (\w+)", found.stdout.decode(), re.M)
        must(f"{told}", not any(kind in ("unexplained", "the record can't be read") for kind, _ in told))
        must("nothing was compared", int(re.search(rb"of which (\d+) were compared", found.stdout)[1]) > 50)


must("a fault has no title", len(FAULTS) == 5 and len(FUNCTIONS) == 21 and read_bytes(TOOL)[:2] == b"#!")
