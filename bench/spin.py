#!/usr/bin/env python3
"""Times `sbiboard explore` beside SPIN (package `spin`), and compares how many states and steps both find.

usage: bench/spin.py [--runs N] [--harts N] [--agree] [PROGRAM]

PROGRAM is a built program of `test` (default: the one that `./sbiboard test` builds). The programs are those of `shootdown` in
`bench/explore.py`: hart 0 starts so many others, changes a leaf once, and asks for a fence of those that load from its page, twice
each. SPIN has `bench/shootdown.pml` of them, a model by hand, without what follows from the rest of a state; `explore` also judges
a condition and counts orders. Both must find the same states and steps, of 2 harts up to --harts (default 5, at most 6).

SPIN's verifier is built as one that stores each state whole, without reduction, breadth first (-DSAFETY -DNOREDUCE -DBFS), and as
one on all processors, with its default reduction, which keeps a hash of each state alone (-DBFS_PAR). Of --runs runs (default 3), in
turns, the fastest counts, by the clock on the wall: look at the load that is printed. The bytes of a state are SPIN's own figure,
and explore's peak above that of two states. With --agree nothing is timed.
"""
import argparse
import os
import re
import shutil
import subprocess
import sys
import tempfile

from explore import BUILT, PROGRAMS, ROOT, Explorers, shootdown

MODEL = os.path.join(ROOT, "bench/shootdown.pml")
WHOLE, PARALLEL = ("-DSAFETY", "-DNOREDUCE", "-DBFS"), ("-DSAFETY", "-DBFS_PAR")
MOST = 4_000_000


def verifier(room, harts, flags):
    """SPIN's verifier of the model, built in a folder of its own."""
    own = os.path.join(room, f"{harts}{''.join(flags)}")
    os.mkdir(own)
    for command in (["spin", "-a", f"-DHARTS={harts}", "-DCHANGES=1", "-DLOADS=2", MODEL], ["gcc", "-O3", *flags, "-o", "pan", "pan.c"]):
        subprocess.run(command, cwd=own, stdout=subprocess.DEVNULL, check=True)
    return [os.path.join(own, "pan"), "-E", *([f"-u{os.cpu_count()}"] if flags == PARALLEL else [])]


def counts(said):
    """The states and the steps that SPIN's verifier tells. (Its transitions count the beginning, too.)"""
    states, transitions = (int(re.search(rf"(\d+) {it}", said)[1]) for it in ("states, stored", "transitions"))
    return states, transitions - 1


def seconds(explorers, commands, runs):
    """What each prints, and the fewest seconds that it takes."""
    found = [[explorers.run(command) for command in commands] for _ in range(runs)]
    return [(min(said for said, _ in its), min(spent for _, spent in its)) for its in zip(*found)]


def agreed(explorers, own, spin, harts):
    """The states and steps that both count."""
    told = tuple(map(int, re.search(r"# states: (\d+), steps: (\d+)", explorers.run(own)[0]).groups()))
    by_spin = counts(explorers.run(spin)[0])
    if told != by_spin:
        sys.exit(f"explore counts {told} of {harts} harts, and SPIN {by_spin}")
    return told


def row(explorers, own, whole, parallel, counted, runs, least):
    (_, mine), (said, alone), (beside, _) = seconds(explorers, (own, whole, parallel), runs)
    states, steps = counted
    kept = float(re.search(r"([\d.]+)\s+equivalent memory", said)[1]) * 2**20 / states
    spent = max(float(re.search(r"elapsed time ([\d.]+)", beside)[1]), 0.01)
    bytes_of = (explorers.peak(own) - least) / states
    return f"{states:,}", f"{steps:,}", f"{mine:.3f}", f"{states / mine:,.0f}", f"{bytes_of:,.0f}", f"{alone:.3f}", f"{states / alone:,.0f}", f"{kept:,.0f}", f"{spent:.2f}"


def main():
    parser = argparse.ArgumentParser(description=__doc__, formatter_class=argparse.RawDescriptionHelpFormatter)
    parser.add_argument("--runs", type=int, default=3)
    parser.add_argument("--harts", type=int, choices=range(2, 7), default=5)
    parser.add_argument("--agree", action="store_true")
    parser.add_argument("program", nargs="?", default=BUILT)
    asked = parser.parse_args()
    if missing := [it for it in ("spin", "gcc", *["time"] * (not asked.agree)) if shutil.which(it) is None]:
        sys.exit(f"not found: {' '.join(missing)}")
    print(f"load {os.getloadavg()[0]:.1f}, {os.cpu_count()} processors")
    if not asked.agree:
        print("| harts | states | steps | seconds | states a second | bytes a state | SPIN: seconds | states a second | bytes a state | on all processors: seconds |")
        print("|---" * 10 + "|")
    with tempfile.TemporaryDirectory() as room:
        explorers = Explorers(room, os.path.abspath(asked.program))
        least = None if asked.agree else explorers.peak(explorers.commands(PROGRAMS["two states"], MOST)[0])
        for harts in range(2, asked.harts + 1):
            whole = verifier(room, harts, WHOLE)
            own = explorers.commands(shootdown(1, 2, harts), MOST)[0]
            counted = agreed(explorers, own, whole, harts)
            if asked.agree:
                print(f"both count the same {counted[0]:,} states and {counted[1]:,} steps of {harts} harts", flush=True)
            else:
                print(f"| {harts} | " + " | ".join(row(explorers, own, whole, verifier(room, harts, PARALLEL), counted, asked.runs, least)) + " |", flush=True)


if __name__ == "__main__":
    main()
