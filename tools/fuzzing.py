"""Runs of examples/kernel/fuzz.c: its image with a seed, the record that it prints, and the faults that this shows."""
import contextlib
import os
import re
import signal
import struct
import subprocess
import tempfile
import threading
import time
from collections import Counter

import liveness
from records import Broken, read
from reports import CLASSES, FAULTS, Report
from rules import TELLS
from standard import FUNCTIONS
from traces import followed

MARK = b"fuzz-parameters\0"
FIELDS = ("seed", "harts", "operations", "checks", "flags", "uart", "limit")
MOST_HARTS, MOST_OPERATIONS = 8, 256
QUIET, REBOOTS, NOWHERE, HANGS = 1, 2, 4, 8
# What each hart tells in a whole run, by the numbers of rules.TOLD; of fences those tell that one asked.
TOLD_BY_EACH, FENCES = {5: "IPIs", 7: "timers", 8: "registers"}, 6
# For how many limits of a run a fault is made small: a run in which all harts hang takes a whole one.
LIMITS = 5
SILENT, GIVEN_UP, NOT_READ = "nothing was printed", "given up", "the record can't be read"


class Asked:
    """What a run is asked: the seed and its numbers. kept: pairs of a hart and an operation's number, or None for all."""

    def __init__(self, seed, harts=4, operations=40, checks=6, flags=None, limit=30_000_000, kept=None, uart=0x10000000):
        self.seed, self.harts, self.operations, self.checks, self.limit, self.kept, self.uart = seed, harts, operations, checks, limit, kept, uart
        self.flags = (0 if seed % 32 else NOWHERE) if flags is None else flags

    def but(self, **others):
        return Asked(**(self.__dict__ | others))

    def all(self):
        return [(hart, at) for at in range(self.operations) for hart in range(self.harts)] if self.kept is None else list(self.kept)


def image_of(image, asked):
    """The image's bytes with these numbers in it."""
    if image.count(MARK) != 1:
        raise Broken(1, "the image isn't that of examples/kernel/fuzz.c")
    data, at = bytearray(image), image.index(MARK) + len(MARK)
    struct.pack_into(f"<{len(FIELDS)}Q", data, at, *(getattr(asked, name) for name in FIELDS))
    words = [[(1 << 64) - 1 if asked.kept is None else 0] * (MOST_OPERATIONS // 64) for _ in range(MOST_HARTS)]
    for hart, number in asked.kept or ():
        words[hart][number // 64] |= 1 << number % 64
    struct.pack_into(f"<{MOST_HARTS * MOST_OPERATIONS // 64}Q", data, at + 8 * len(FIELDS), *(word for row in words for word in row))
    return bytes(data)


def record_in(console, end):
    """The record that a console's text has; empty where it has none. One that says no end ends as the machine did."""
    text = console.decode("ascii", errors="replace").replace("\r", "")
    at = text.rfind("\n# fuzz: seed ")
    if at < 0:
        return ""
    lines = [line for line in text[at + 1 :].split("\n")[:-1] if re.match(r"# fuzz|record |[0-9m] ", line)]
    ends = [] if lines[-1].startswith("m end") else [f"m end {end}"]
    return "\n".join([*lines, *ends]) + "\n"


def silence(console, end=None, seconds=0):
    """What is said of a run without a record: how it ended, and the last line that the console has."""
    ended = {"off": "the machine was switched off", "closed": "QEMU ended", "limit": f"{seconds:g} s were over"}.get(end, "the console ended")
    *_, last = ["", *filter(str.strip, console.decode("ascii", errors="replace").splitlines())]
    return f"{ended} before the payload printed its record; the last line is {last!r}"


class Verdict:
    """What one record says: `faults`, keys of a class and a sentence, each with its first text; the other groups, and what was tried."""

    def __init__(self, text, asked, silence=""):
        self.text, self.asked = text, asked
        self.faults, self.others, self.tried, self.compared, self.total = {}, Counter(), Counter(), 0, 0
        if not text:
            self.faults[SILENT, "the payload"] = silence
            return
        try:
            self.judge(read(text.encode()))
        except Broken as broken:
            self.faults[NOT_READ, re.sub(r"[0-9]+", "N", str(broken))] = str(broken)

    def judge(self, record):
        follower, items = followed(record)
        report = Report(follower, items)
        for kind, found in report.items.items():
            for item in found:
                if kind in FAULTS:
                    self.faults.setdefault((CLASSES[kind][1], item.sentence or function_in(record, item.at)), f"line {item.at}: {item.text}")
                else:
                    self.others[CLASSES[kind][1], item.sentence] += 1
        self.compared, self.total = report.compared, len(report.classes)
        for line in record.lines:
            if line.kind == "call":
                self.tried[name_of(line.numbers)] += 1
                if line.numbers[0] == TELLS:
                    self.tried["tells", line.hart, line.numbers[1]] += 1
        self.look_at_the_end(report)

    def look_at_the_end(self, report):
        """A run that wasn't whole is a fault, whatever its calls say."""
        harts = range(self.asked.harts)
        lacks = [f"hart {hart} tells nothing of {what}" for hart in harts for number, what in TOLD_BY_EACH.items() if not self.has_told(hart, number)]
        lacks += [] if any(self.has_told(hart, FENCES) for hart in harts) else ["nobody tells of fences"]
        wanted = f"operations {self.asked.harts * self.asked.operations:#x}, whole"
        if not any(report.items[kind] for kind in (liveness.RETURN, liveness.ENTER)) and (wanted not in self.text or lacks):
            self.faults[GIVEN_UP, "harts that didn't come to the end"] = "; ".join([self.text.partition("\n")[0], *lacks[:1]])

    def has_told(self, hart, number):
        return self.asked.checks < 3 and number != 8 or self.tried["tells", hart, number] > 0


def name_of(numbers):
    function = FUNCTIONS.get(numbers[:2])
    return function.name if function else "others"


def function_in(record, number):
    """The function of the call at this line, or that returns there."""
    for line in record.lines:
        at = None if line.reply is None else record.lines[line.reply].number
        if line.kind == "call" and number in (line.number, at):
            return name_of(line.numbers)
    return "an entry"


class Stopped(Exception):
    """The runs are to end."""


class Runs:
    """Runs of one image and firmware, with their files in a folder. Several may go on at once."""

    def __init__(self, image, bios, room, seconds):
        with open(image, "rb") as file:
            self.image = file.read()
        self.bios, self.room, self.seconds, self.made = bios, room, seconds, 0
        self.lock, self.children, self.is_stopped = threading.Lock(), {}, False

    def run(self, asked):
        """The verdict on a run."""
        self.made += 1
        with self.image_of(asked) as path:
            console, end = self.printed_by(path, asked)
        return Verdict(record_in(console, end), asked, silence(console, end, self.seconds))

    @contextlib.contextmanager
    def image_of(self, asked):
        """A file with the image that has these numbers."""
        with tempfile.TemporaryDirectory(dir=self.room) as folder:
            path = os.path.join(folder, "fuzz.elf")
            with open(path, "wb") as file:
                file.write(image_of(self.image, asked))
            yield path

    def printed_by(self, path, asked):
        """What the console has of a run under QEMU, and how it ended, in a record's words."""
        words = ["qemu-system-riscv64", "-machine", "virt", "-smp", str(asked.harts), "-m", "128", "-display", "none", "-monitor", "none", "-serial", "stdio"]
        with self.child([*words, "-bios", self.bios or "default", "-kernel", path], signal.SIGKILL, stderr=subprocess.STDOUT) as machine:
            try:
                said, _ = machine.communicate(timeout=self.seconds)
                if self.is_stopped:
                    raise Stopped
                return said, "closed" if machine.returncode else "off"
            except subprocess.TimeoutExpired:
                machine.kill()
                return machine.communicate()[0], "limit"

    @contextlib.contextmanager
    def child(self, words, by, **how):
        """A child that `stop` ends by this signal."""
        with self.lock:
            if self.is_stopped:
                raise Stopped
            child = subprocess.Popen(words, stdin=subprocess.DEVNULL, **({"stdout": subprocess.PIPE} | how))
            self.children[child] = by
        try:
            yield child
        finally:
            with self.lock:
                del self.children[child]
                child.send_signal(by)
            child.wait()

    def stop(self):
        """Ends what runs, and lets nothing begin."""
        with self.lock:
            self.is_stopped = True
            for child, by in self.children.items():
                child.send_signal(by)

    def smaller(self, verdict, key, most):
        """A verdict of the same fault on fewer operations, by bisection, in at most so many runs, and no new one behind LIMITS limits of one."""
        end, best = (self.made + most, time.monotonic() + LIMITS * self.seconds), verdict
        for asked in (best.asked.but(checks=0),):
            best = self.again(asked, key, end) or best
        size = (len(best.asked.all()) + 1) // 2
        while size:
            at = 0
            while at < len(best.asked.all()) and not self.is_over(end):
                kept = best.asked.all()
                found = self.again(best.asked.but(kept=kept[:at] + kept[at + size :]), key, end)
                best, at = (found, at) if found else (best, at + size)
            size //= 2
        return best

    def is_over(self, end):
        runs, until = end
        return self.made >= runs or time.monotonic() > until

    def again(self, asked, key, end):
        """The same fault, in one of three runs; harts may go in another order each time."""
        for _ in range(3):
            if self.is_over(end):
                return None
            verdict = self.run(asked)
            if key in verdict.faults:
                return verdict
            if not any(kind in (SILENT, GIVEN_UP) for kind, _ in verdict.faults) and not is_of_order(key):
                return None
        return None


def is_of_order(key):
    """Whether a fault may depend on the order in which harts go: others come with the call alone."""
    return not key[0].startswith("breaks")


def first_of_groups(first):
    """Of faults with their first verdicts those to make small: each rule that is broken, and the first of each class that may depend on
    the order: one fault shows itself in many calls."""
    kept = {}
    for key, verdict in first.items():
        kept.setdefault(key[0] if is_of_order(key) else key, (key, verdict))
    return kept.values()


def may_lack(verdict, key):
    """Whether a run of the same seed may lack a fault that another run has: by the order of its harts, or since a hart hung before it."""
    return is_of_order(key) or any(is_of_order(other) for other in verdict.faults)
