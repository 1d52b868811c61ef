#!/usr/bin/env python3
"""Compares the program with plain Rust on random schedules and their traces: status, output and standard error, byte
for byte.

usage: bench/agree.py [--count N] [--seed N] [PROGRAM]

PROGRAM is a built `sbiboard` (default: the one that `./sbiboard` builds). The examples come first, and then --count
random schedules (default 1000), each of a seed of its own from --seed on (default 0), a third of them with cuts. Each is replayed; what plain Rust
prints of a replay is checked as a trace, and so is the same with one of its replies changed. A schedule that differs is
kept in the folder that the last line but one names. The last line is 'N agree, N differ'.
"""
import argparse
import glob
import os
import random
import subprocess
import sys
import tempfile

from replay import BUILT, ROOT, plain_rust

HSM, RFENCE, IPI, TIME, SRST = 0x48534D, 0x52464E43, 0x735049, 0x54494D45, 0x53525354
ALL = (1 << 64) - 1
SATP = [8 << 60 | asid << 44 | 0x80001 for asid in (5, 5, 6)]
# Bits of leaves, mostly good ones, and some flags of pointers.
LEAF = [0xC7, 0xCF, 0xCF, 0xE7, 0xEF, 0xC3, 0xCB, 0x47, 0x87, 0xD7, 0xC5, 0x4B, 0]
POINTER = [1, 1, 1, 0x21, 0x301, 0x11, 0x41, 0x81]
# What changes a part of a word in one step, with its bytes.
FUNCTIONS = ("swap", "add", "and", "or", "xor", "min", "max", "minu", "maxu")
CHANGES = {f"amo{it}{width}": size for it in FUNCTIONS for width, size in (("", 8), (".w", 4))} | {"amocas": 8, "store1": 1, "store2": 2, "store4": 4}
# The largest positive numbers and the smallest negative ones of 4 bytes, in each half, and of 8; -1; and 0.
EDGES = (0, 1, 0x7FFFFFFF, 0x80000000, 0xFFFFFFFF, 0x7FFFFFFF_FFFFFFFF, 0x80000000_00000000, 0x80000000_7FFFFFFF, 0x7FFFFFFF_80000000, ALL)
SIZES = [0, 1, 2, 0xFFF, 0x1000, 0x1001, 0x2000, 0x200000, 0x40000000, ALL - 0xFFF, ALL - 1, ALL]


class Maker:
    """A random schedule of a board: `text`."""

    def __init__(self, seed):
        self.any = random.Random(seed)
        self.harts = self.any.choice([1, 2, 2, 3, 3, 3, 4, 4, 6, 8, 8, self.any.choice([65, 127, 128])])
        self.pages = self.any.choice([6, 8, 12, 16])
        steps = self.any.choice([50, 200, 400])
        limit = self.any.choice([1_000_000, 1_000_000, 1_000_000, steps // 3])
        self.boot = self.any.randrange(self.harts)
        self.lines = [f"board {self.harts} {self.pages} {limit} {self.boot} 0x80000000 {self.any.getrandbits(8)}"]
        self.open()
        self.kinds = [(make, self.any.choice([0.3, 1, 1, 3]) * often) for make, often in KINDS]
        while len(self.lines) < steps:
            makes, often = zip(*self.kinds)
            self.any.choices(makes, often)[0](self)
        self.text = "".join(line + "\n" for line in self.lines)

    def add(self, actor, *words):
        self.lines.append(" ".join(self.spelled(word) for word in (actor, *words)))

    def spelled(self, word):
        if isinstance(word, str):
            return word
        return f"{word:#x}" if self.any.random() < 0.8 else str(word)

    def hart(self):
        return self.any.randrange(min(self.harts, 8) if self.any.random() < 0.95 else self.harts)

    def open(self):
        """Most harts are started, and most have page tables and translate."""
        self.add(self.boot, "advance")
        for hart in range(self.harts):
            if self.any.random() < 0.95:
                self.add(self.boot, "ecall", HSM, 0, hart, 0x80000000, hart)
                self.add(hart, "advance")
        if self.any.random() < 0.9:
            for at, entry in ((0x80001000, 0x20000801), (0x80002000, 0x20000C01), (0x80002008, 0x200000CF), (0x80001010, 0x200000CF)):
                self.add(self.boot, "store", at, entry)
            for page in range(8):
                self.add(self.boot, "store", 0x80003000 + 8 * page, self.any.choice([0x80004, 0x80005]) << 10 | self.any.choice(LEAF[:5]))
            for hart in range(min(self.harts, 8)):
                if self.any.random() < 0.8:
                    self.add(hart, "satp", self.any.choice(SATP))

    def address(self):
        """Mostly in a mapped page, else at an edge, or any."""
        page = 0x1000 * self.any.randrange(8)
        word = 8 * self.any.choice([0, 0, 0, 1, 511])
        base = self.any.choice([0] * 8 + [0x200000, 0x80000000, 0x80000000, ALL - 0x7FFF, 0x4000000000])
        offset = 0 if self.any.random() < 0.95 else self.any.randrange(8)
        return self.any.getrandbits(64) if self.any.random() < 0.02 else (base + page + word + offset) & ALL

    def entry(self):
        if self.any.random() < 0.1:
            return self.any.getrandbits(64)
        if self.any.random() < 0.2:
            return self.any.choice([0x80001, 0x80002, 0x80003]) << 10 | self.any.choice(POINTER)
        frame = self.any.choice([0x80000, 0x80004, 0x80005, 0x80000 + self.pages - 1, 0x80000 + self.pages, 0x80200])
        return frame << 10 | self.any.choice(LEAF)

    def access(self):
        name = self.any.choice(["load", "load", "load", "fetch", "fetch", "store", "store", *["change"] * 3])
        va, count = self.address(), int(name == "store")
        if name == "change":
            name = self.any.choice([*CHANGES])
            va, count = va + self.any.randrange(0, 8, CHANGES[name]) & ALL, 1 + (name == "amocas")
        numbers = [self.any.choice([*EDGES, *EDGES, self.any.randrange(256), self.any.getrandbits(64)]) for _ in range(count)]
        if name == "amocas" and self.any.random() < 0.5:
            # (what most words are at first)
            numbers[0] = 0
        self.add(self.hart(), name, va, *numbers)

    def map(self):
        """A hart writes an entry of a page table, by physical addresses."""
        hart, table = self.hart(), self.any.choice([0x80003000] * 4 + [0x80001000, 0x80002000])
        self.add(hart, "satp", 0)
        self.add(hart, "store", table + 8 * self.any.choice([*range(8), 511]), self.entry())
        self.add(hart, "satp", self.any.choice(SATP + [self.any.getrandbits(64)]))

    def hosts(self):
        """A mask and a base."""
        base = self.any.choice([0, 0, 0, self.any.randrange(self.harts), ALL, self.harts, ALL - 1])
        bits = min(max(self.harts - base, 1), 64)
        return self.any.getrandbits(64 if self.any.random() < 0.05 else bits), base

    def serve(self):
        """Most harts serve, and most poll."""
        for name in ("serve", "poll"):
            for hart in self.any.sample(range(self.harts), min(self.harts, 8)):
                if self.any.random() < 0.8:
                    self.add(hart, name)

    def ask(self):
        function = self.any.choice([0, 1, 1, 1, 2, 2, 2, self.any.randrange(8)])
        start = self.any.choice([0, self.address() & ~0xFFF, self.address(), self.address() | 0xFFF])
        size = self.any.choice(SIZES + [0x1000] * 6 + [-start & ALL, 1 - start & ALL])
        asid = self.any.choice([5, 5, 6, 0x10005, self.any.getrandbits(64)])
        words = [*self.hosts(), start, size, asid][: self.any.choice([2, 4, 5, 5, 5])]
        self.add(self.hart(), "ecall", RFENCE, function, *words)
        if self.any.random() < 0.7:
            self.serve()

    def fence(self):
        va = self.any.choice(["-", self.address(), self.address() | 0xFFF])
        asid = self.any.choice(["-", "-", 5, 6, 0x10005])
        self.add(self.hart(), *self.any.choice([["sfence", va, asid]] * 3 + [["fencei"]]))

    def interrupt(self):
        hart = self.hart()
        self.add(hart, *self.any.choice([
            ["ecall", IPI, 0, *self.hosts()],
            ["ecall", TIME, 0, self.any.choice([0, 5, 20, ALL, ALL - 1, self.any.getrandbits(64)])],
            ["sie", self.any.choice([0, 2, 0x20, 0x22, ALL])],
            ["sstatus", self.any.choice(["0", "0", "1"])],
            ["sip"], ["clearssip"], ["wfi"],
        ]))  # fmt: skip

    def tick(self):
        self.add("c", "tick", self.any.choice([0, 1, 5, 20, 20, 1 << 62, ALL]))

    def live(self):
        """A hart stops or is suspended, goes on, and is started again."""
        hart, other = self.hart(), self.hart()
        addr = self.any.choice([0x80000000, 0x80000100, 0x80000001, 0x80000000 + 4096 * self.pages, 0])
        self.add(hart, "sstatus", "0")
        self.add(hart, "sie", self.any.choice([0x22, 0x22, 2, 0]))
        kind = self.any.choice([0, 0, 0x80000000, 0x80000000, 1, 0x10000000, 0xFFFFFFFF80000000, self.any.getrandbits(32)])
        self.add(hart, "ecall", HSM, *self.any.choice([[1], [3, kind, addr, self.any.getrandbits(64)]]))
        for _ in range(3):
            self.add(hart, "advance")
            self.add(other, "ecall", *self.any.choice([[HSM, 2, hart], [HSM, 0, hart, addr, self.any.getrandbits(8)], [IPI, 0, 0, ALL]]))
        self.add(hart, "advance")

    def reset(self):
        if self.any.random() < 0.5:
            kind = self.any.choice([0, 1, 1, 2, 2, 3, 0xF0000000, 0x100000002, self.any.getrandbits(64)])
            reason = self.any.choice([0, 1, 2, 0xDFFFFFFF, 0xE0000000, ALL, self.any.getrandbits(64)])
            self.add(self.hart(), "ecall", SRST, self.any.choice([0, 0, 0, 1]), kind, reason)
            for hart in (self.boot, *range(min(self.harts, 4))):
                self.add(hart, "advance")
                self.add(self.boot, "ecall", HSM, 0, hart, 0x80000000)

    def odd(self):
        """What is mostly refused, or unknown."""
        actor = self.any.choice(["c", min(self.harts, 127), 127, self.hart()])
        self.add(actor, *self.any.choice([["poll"], ["serve"], ["advance"], ["wfi"], ["tick", 1], ["load", 0], ["fencei"]]))
        extension = self.any.choice([0x10, 0x10, HSM, RFENCE, SRST, 8, 1 << 32 | 0x10])
        self.add(self.hart(), "ecall", extension, self.any.choice([3, 4, 7, 1 << 32]), self.any.choice([0x10, SRST, RFENCE, 9]))


def with_cuts(text, seed):
    """The schedule with cuts of the history at some of its places: at few, at many, or behind each step."""
    any_of = random.Random(seed)
    often = any_of.choice([0.01, 0.1, 1])
    board, *steps = text.splitlines(keepends=True)
    return board + "".join(step + ("cut\n" if any_of.random() < often else "") for step in steps)


def made(seed):
    """A random schedule of this seed; each third one has cuts."""
    text = Maker(seed).text
    return with_cuts(text, seed) if seed % 3 == 2 else text


KINDS = [
    (Maker.access, 40), (Maker.map, 6), (Maker.ask, 8), (Maker.serve, 3), (Maker.fence, 6),
    (Maker.interrupt, 6), (Maker.tick, 2), (Maker.live, 1), (Maker.reset, 0.4), (Maker.odd, 2),
]  # fmt: skip


REPLIES = """ret 0 0|ret -3 0x0|ret 0 0x1|waiting|gone|served|done|entry 0x80000000 0 0|value 0x0|value 0x11|fault 13|moved 1
moved 4|refused 2|refused 3|refused 4""".replace("\n", "|").split("|")


def changed(trace, seed):
    """The trace with another reply in one of its lines."""
    any_of = random.Random(seed)
    lines = trace.decode().splitlines()
    steps = [at for at, line in enumerate(lines) if " -> " in line]
    if steps:
        at = any_of.choice(steps)
        lines[at] = lines[at].partition(" -> ")[0] + " -> " + any_of.choice(REPLIES)
    return "\n".join(lines).encode()


def ran(program, task, path):
    """Status, output and standard error of a run."""
    run = subprocess.run(["sbiboard", task, path], executable=program, capture_output=True, timeout=120)
    return run.returncode, run.stdout, run.stderr


def is_same(programs, task, path):
    one, other = (ran(program, task, path) for program in programs)
    return one == other


def trace_is_same(programs, trace, folder, is_good):
    """Both check a trace alike, and find that it agrees where it is good."""
    path = os.path.join(folder, "checked.trace")
    with open(path, "wb") as file:
        file.write(trace)
    return is_same(programs, "check", path) and (not is_good or ran(programs[1], "check", path)[0] == 0)


def all_same(programs, path, folder, seed):
    """Both replay a schedule alike, and check alike what is printed of it, and that with a change."""
    status, trace, _ = ran(programs[1], "replay", path)
    if not is_same(programs, "replay", path):
        return False
    if status not in (0, 3):
        return True
    return trace_is_same(programs, trace, folder, True) and trace_is_same(programs, changed(trace, seed), folder, False)


def options():
    parser = argparse.ArgumentParser(description="Compares the program with plain Rust on random schedules and their traces.")
    parser.add_argument("program", nargs="?", default=BUILT)
    parser.add_argument("--count", type=int, default=1000, help="how many random schedules")
    parser.add_argument("--seed", type=int, default=0, help="the seed of the first one")
    return parser.parse_args()


def main():
    chosen = options()
    if not os.path.exists(chosen.program):
        sys.exit(f"{chosen.program} isn't built: ./sbiboard builds it")
    folder = tempfile.mkdtemp(prefix="sbiboard-agree-")
    plain = plain_rust(folder)
    paths = sorted(glob.glob(os.path.join(ROOT, "examples/*.sched")))
    differ = 0
    for number in range(len(paths) + chosen.count):
        path = paths[number] if number < len(paths) else os.path.join(folder, f"{chosen.seed + number - len(paths)}.sched")
        if number >= len(paths):
            with open(path, "w") as file:
                file.write(made(chosen.seed + number - len(paths)))
        if not all_same((chosen.program, plain), path, folder, number):
            differ += 1
            print(f"differs: {path}")
        elif number >= len(paths):
            os.remove(path)
    for name in (plain, os.path.join(folder, "checked.trace")):
        os.remove(name)
    if differ == 0:
        os.rmdir(folder)
    else:
        print(f"kept in {folder}")
    print(f"{len(paths) + chosen.count - differ} agree, {differ} differ")
    sys.exit(1 if differ else 0)


if __name__ == "__main__":
    main()
