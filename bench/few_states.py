#!/usr/bin/env python3
"""Times what `sbiboard test` does of programs with few states: a look at all orders, beside 1,000 orders of a seed.

usage: bench/few_states.py [--runs N] [--jobs J] [PROGRAM]

PROGRAM is a built program of `test` (default: the one that `./sbiboard test` builds). The programs are the examples, harts
that load beside each other, on boards of several sizes, and the shootdowns of `bench/explore.py`. `explore` counts the orders
once, and asks each condition once more, as `test` does where the states are few. Of a program of
more states 2,000 are looked at. Of --runs runs (default 9) the fastest counts, by the clock on the wall: look at the load
that is printed.
"""
import argparse
import glob
import os
import re
import subprocess
import tempfile
import time

from explore import BUILT, ROOT, shootdown

# How many states are looked at, of programs that have more.
STATES = "2000"

# The seconds of a run after which it isn't run again.
LONG = 2


def beside(harts, loads, pages=4):
    """Hart 0 starts the others, and each loads so often."""
    lines = [f"board {harts} {pages} 10000 0 0x80000000 0x0", "at 0x80000000", *[f"ecall 0x48534d 0 {hart} 0x80000100" for hart in range(1, harts)]]
    return "\n".join([*lines, *["load 0x80000000"] * loads, "at 0x80000100", *["load 0x80000000"] * loads]) + "\n"


def programs():
    """The name and the text of each program."""
    for path in sorted(glob.glob(os.path.join(ROOT, "examples/**/*.program"), recursive=True)):
        with open(path, encoding="utf-8") as file:
            yield os.path.basename(path), file.read()
    for harts, loads, pages in ((2, 30, 1), (2, 30, 8), (2, 30, 64), (2, 30, 256), (2, 8, 256), (4, 4, 8), (8, 1, 8), (8, 1, 256), (32, 1, 8), (128, 1, 8)):
        yield f"{harts} harts, {loads} loads, {pages} pages", beside(harts, loads, pages)
    yield "two changes, three loads", shootdown(2, 3)


def measured(command, tester, room, runs):
    """The fewest seconds of so many runs, and what is printed."""
    best, found = None, None
    for _ in range(runs):
        begun = time.monotonic()
        found = subprocess.run(command, executable=tester, cwd=room, capture_output=True, text=True, check=False)
        spent = time.monotonic() - begun
        best = spent if best is None else min(best, spent)
        if spent > LONG:
            break
    return best, found.stdout


def main():
    parser = argparse.ArgumentParser(description=__doc__, formatter_class=argparse.RawDescriptionHelpFormatter)
    parser.add_argument("--runs", type=int, default=9)
    parser.add_argument("--jobs", default="1")
    parser.add_argument("program", nargs="?", default=BUILT)
    asked = parser.parse_args()
    tester = os.path.abspath(asked.program)
    print(f"load {os.getloadavg()[0]:.1f}, {os.cpu_count()} processors")
    print("| program | states | steps | conditions | ms of all orders | ms of 1,000 orders | states in that time |")
    print("|---|---|---|---|---|---|---|")
    with tempfile.TemporaryDirectory() as room:
        with open(os.path.join(room, "nothing.sched"), "w", encoding="ascii") as file:
            file.write("board 1 1 10 0 0x80000000 0x0\n0 advance\n")
        start, _ = measured(["sbiboard", "nothing.sched"], tester, room, asked.runs)
        for name, text in programs():
            with open(os.path.join(room, "a.program"), "w", encoding="utf-8") as file:
                file.write(text)
            whole, said = measured(["sbiboard explore", "--no-outcomes", "--states", STATES, "a.program"], tester, room, asked.runs)
            seeds, _ = measured(["sbiboard", "--times", "1000", "--jobs", asked.jobs, "a.program"], tester, room, asked.runs)
            found = re.search(r"^# (?:states: |not all orders were seen: )(\d+)(?: states)?, (?:steps: )?(\d+)(?: steps)?$", said, re.MULTILINE)
            if not found:
                raise SystemExit(said)
            whole, seeds = max(whole - start, 1e-6), seeds - start
            # (each condition explores once, or the want of any does, and the orders are counted once more)
            conditions = len(re.findall(r"^(?:not )?ok ", said, re.MULTILINE))
            equal = (1 + conditions) * int(found[1]) * seeds / whole
            print(f"| {name} | {int(found[1]):,} | {int(found[2]):,} | {conditions} | {1000 * whole:.1f} | {1000 * seeds:.1f} | {equal:,.0f} |", flush=True)


if __name__ == "__main__":
    main()
