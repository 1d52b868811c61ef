#!/usr/bin/env python3
"""Times `sbiboard explore` beside plain Rust, and compares how many states and steps both find.

usage: bench/explore.py [--runs N] [--random N] [--agree] [PROGRAM]

PROGRAM is a built program of `test` (default: the one that `./sbiboard test` builds); plain Rust is `bench/baseline.rs`, which
is built here with rustc. It finds the same states and steps on its own board, by words of the same values: first both explore
the examples, --random programs (default 40; those of at most three harts whose states are few) and the programs that are timed,
and must count the same states, steps and orders, by their ends.

The programs that are timed have three harts with page tables, of which one changes a leaf and asks for a fence of the others,
once and more often, beside loads. `explore` also judges their condition and counts orders; plain Rust does neither. The bytes are those
of the program's peak above that of a program with two states, by its states. Of --runs runs (default 5), in turns, the fastest
counts, by the clock on the wall: look at the load that is printed. Where there is valgrind it counts instructions, which a busy
machine doesn't change. With --agree nothing is timed.
"""
import argparse
import glob
import os
import re
import shutil
import subprocess
import sys
import tempfile
import time

from replay import ROOT, plain_rust

sys.path.append(ROOT)

from tests import programs  # noqa: E402

BUILT = os.path.join(ROOT, "crates/sbiboard_test/out/sbiboard_test")

# The states that may be found of a program that is timed, and of a random one.
MOST, FEW = 1_000_000, 20_000


def shootdown(times, loads, harts=3):
    """Hart 0 maps a page, starts the others, which load from it, and changes its leaf so often, with a fence of them each time."""
    lines = ["#! never _ load 0x1000 -> fault 5", f"board {harts} 8 1000 0 0x80000000 0x0", "at 0x80000000"]
    lines += ["store 0x80001000 0x20000801", "store 0x80002000 0x20000c01", "store 0x80003008 0x200010cf"]
    lines += [f"ecall 0x48534d 0 {hart} 0x80000100" for hart in range(1, harts)]
    for time_of in range(times):
        lines += [f"store 0x80003008 {0x200010CF + 0x400 * (1 + time_of % 2):#x}", f"ecall 0x52464e43 1 {(1 << harts) - 2:#x} 0 0x1000 0x1000"]
    lines += ["at 0x80000100", "satp 0x8000000000080001", *["load 0x1000"] * loads]
    return "\n".join(lines) + "\n"


# The first is the one that the peaks of the others are measured above.
PROGRAMS = {
    "two states": "#! never _ load 0x1000 -> fault 5\nboard 3 8 1000 0 0x80000000 0x0\n",
    "one change, two loads": shootdown(1, 2),
    "two changes, three loads": shootdown(2, 3),
    "three changes, six loads": shootdown(3, 6),
}


# ---- what is run: `sbiboard explore` and plain Rust, in a folder


class Explorers:
    """The commands that explore a file, with so many states at most; the program tells what it is by its name."""

    def __init__(self, room, tester):
        self.room = room
        self.env = {**os.environ, "PATH": f"{room}:{os.environ['PATH']}"}
        os.symlink(tester, os.path.join(room, "sbiboard explore"))
        self.plain = plain_rust(room)

    def commands(self, text, most):
        with open(os.path.join(self.room, "a.program"), "w", encoding="ascii") as file:
            file.write(text)
        return ["sbiboard explore", "--no-outcomes", "--states", str(most), file.name], [self.plain, "explore", file.name, str(most)]

    def run(self, command):
        """What it prints, and the seconds that it takes."""
        begun = time.monotonic()
        found = subprocess.run(command, cwd=self.room, env=self.env, stdout=subprocess.PIPE, stderr=subprocess.DEVNULL, text=True, check=False)
        return found.stdout, time.monotonic() - begun

    def peak(self, command):
        """Its peak of memory in bytes. (That of a child of this script is never below the script's own; `time` takes little.)"""
        found = subprocess.run(["time", "-f", "%M", *command], cwd=self.room, env=self.env, capture_output=True, text=True, check=False)
        return int(found.stderr.split()[-1]) * 1024

    def instructions(self, command):
        """
        As valgrind counts them. To it an instruction that copies or fills many bytes is one for each of them, so the C library is told
        to use none.
        """
        env = self.env | {"GLIBC_TUNABLES": "glibc.cpu.x86_rep_movsb_threshold=1000000000:glibc.cpu.x86_rep_stosb_threshold=1000000000"}
        counting = ["valgrind", "--tool=cachegrind", "--cache-sim=no", "--cachegrind-out-file=/dev/null"]
        found = subprocess.run([*counting, *command], cwd=self.room, env=env, capture_output=True, text=True, check=False)
        if counted := re.search(r"I +refs: +([\d,]+)", found.stderr):
            return int(counted[1].replace(",", ""))
        return sys.exit(found.stderr)

    def agreed(self, text, most):
        """The lines that both print of the orders, the states and the steps; none where there are more states."""
        told = [self.run(command)[0].splitlines() for command in self.commands(text, most)]
        own, plain = ([line for line in lines if line.startswith(("# orders: ", "# states: "))] for lines in told)
        if own != plain:
            sys.exit(f"explore counts {own}, and plain Rust {plain}, of\n{text}")
        return own


# ---- both count the same


def agree(explorers, randoms):
    """Both count the same orders, states and steps of the examples, of those that are timed, and of so many random programs."""
    shipped = [*glob.glob(os.path.join(ROOT, "examples", "*.program")), *glob.glob(os.path.join(ROOT, "examples", "orders", "*.program"))]
    counted = [explorers.agreed(read(path), MOST) for path in shipped] + [explorers.agreed(text, MOST) for text in PROGRAMS.values()]
    wanted = len(counted) + randoms
    for seed in range(20 * randoms):
        program = programs.RandomProgram(seed)
        found = program.harts <= 3 and explorers.agreed(program.text().decode(), FEW)
        counted += [found] if found else []
        if len(counted) == wanted:
            break
    states = sum(int(re.match(r"# states: (\d+)", found[1])[1]) for found in counted)
    print(f"both count the same orders, states and steps of {len(counted)} programs, of {states:,} states in sum", flush=True)


def read(path):
    with open(path, encoding="ascii") as file:
        return file.read()


# ---- the table

TIMES = ("states", "steps", "seconds", "plain Rust", "ratio", "states a minute")
BYTES = ("bytes a state", "plain Rust")
INSTRUCTIONS = ("instructions a step", "plain Rust", "ratio")


def times_cells(explorers, commands, states, steps, runs):
    found = [[explorers.run(command)[1] for command in commands] for _ in range(runs)]
    own, plain = map(min, zip(*found))
    return [f"{states:,}", f"{steps:,}", f"{own:.3f}", f"{plain:.3f}", f"{own / plain:.2f}", f"{60 * states / own:,.0f}"]


def print_rows(explorers, runs):
    has_time, has_valgrind = (bool(shutil.which(it)) for it in ("time", "valgrind"))
    heads = ("program", *TIMES, *BYTES * has_time, *INSTRUCTIONS * has_valgrind)
    print("| " + " | ".join(heads) + " |")
    print("|---" * len(heads) + "|")
    (_, least), *timed = PROGRAMS.items()
    if has_time:
        peaks = [explorers.peak(command) for command in explorers.commands(least, MOST)]
    for name, text in timed:
        states, steps = map(int, re.findall(r"\d+", explorers.agreed(text, MOST)[1]))
        commands = explorers.commands(text, MOST)
        row = [name, *times_cells(explorers, commands, states, steps, runs)]
        if has_time:
            row += [f"{(explorers.peak(command) - peak) / states:,.0f}" for command, peak in zip(commands, peaks)]
        if has_valgrind:
            own, plain = (explorers.instructions(command) / steps for command in commands)
            row += [f"{own:,.0f}", f"{plain:,.0f}", f"{own / plain:.2f}"]
        print("| " + " | ".join(row) + " |", flush=True)


def main():
    parser = argparse.ArgumentParser(description=__doc__, formatter_class=argparse.RawDescriptionHelpFormatter)
    parser.add_argument("--runs", type=int, default=5)
    parser.add_argument("--random", type=int, default=40)
    parser.add_argument("--agree", action="store_true")
    parser.add_argument("program", nargs="?", default=BUILT)
    asked = parser.parse_args()
    print(f"load {os.getloadavg()[0]:.1f}, {os.cpu_count()} processors")
    with tempfile.TemporaryDirectory() as room:
        explorers = Explorers(room, os.path.abspath(asked.program))
        agree(explorers, asked.random)
        if not asked.agree:
            print_rows(explorers, asked.runs)


if __name__ == "__main__":
    main()
