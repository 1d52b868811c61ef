#!/usr/bin/env python3
"""Measures what cuts of the history cost: memory of a long schedule with and without them, and the time of a cut.

usage: bench/cuts.py [PROGRAM]

PROGRAM is a built `sbiboard_cli` (default: the one that `rt ci` or `./sbiboard` leaves). It prints two tables.

The first is of a schedule of some 16 MB, replayed to /dev/null: with a history for all of its events, and with a history for
1,000 which is cut after each 1,000 lines. It has the largest resident memory of the process, and its processor time. A replay
keeps its lines; with cuts its board keeps two histories of the limit at most.

The second is of a cut itself: the processor time of replays of 1,000 and of 3,000 lines `cut`, on boards of 1 and 128 harts,
with 1 and 256 pages, and a history for 1 event and for 1,000,000; and of that the time of one.
"""
import argparse
import os
import subprocess
import sys
import tempfile
from itertools import chain, repeat

ROOT = os.path.dirname(os.path.dirname(os.path.abspath(__file__)))
PROGRAM = os.path.join(ROOT, "crates/sbiboard_cli/out/sbiboard_cli")

STEP = "0 ecall 0x10 0\n"
STEPS = 900_000
EACH = 1_000

# How often each replay runs; the least of its times counts.
TIMES = 3


def measured(program, path):
    """The processor time of a replay, in seconds, and its largest resident memory, in KiB."""
    with open(os.devnull, "wb") as nothing:
        child = subprocess.Popen([program, "replay", path], stdin=subprocess.DEVNULL, stdout=nothing)
        _, status, used = os.wait4(child.pid, 0)
        child.returncode = os.waitstatus_to_exitcode(status)
    if child.returncode:
        sys.exit(f"{path}: status {child.returncode}")
    return used.ru_utime + used.ru_stime, used.ru_maxrss


def least(program, path):
    runs = [measured(program, path) for _ in range(TIMES)]
    return min(time for time, _ in runs), max(memory for _, memory in runs)


def written(room, name, lines):
    path = os.path.join(room, name)
    with open(path, "w", encoding="ascii") as file:
        file.writelines(lines)
    return path


def board(harts, pages, limit):
    return f"board {harts} {pages} {limit} 0 0x80000000 0x0\n0 advance\n"


def print_long(program, room):
    # (in pieces: a child's largest memory is no less than that of this process when it began)
    whole = written(room, "whole.sched", chain([board(1, 1, 1_000_000)], repeat(STEP * EACH, STEPS // EACH)))
    parts = written(room, "parts.sched", chain([board(1, 1, EACH + 1)], repeat(STEP * EACH + "cut\n", STEPS // EACH)))
    print(f"| schedule of {STEPS:,} steps | limit | resident memory, MiB | processor time, s |")
    print("|---|---:|---:|---:|")
    for name, path, limit in (("without a cut", whole, 1_000_000), (f"cut after each {EACH:,} steps", parts, EACH + 1)):
        time, memory = least(program, path)
        print(f"| {name}, {os.path.getsize(path) / 1e6:.1f} MB | {limit:,} | {memory / 1024:.1f} | {time:.2f} |")


def print_each(program, room):
    few, many = 1_000, 3_000
    print("\n| harts | pages | limit | time of a cut, µs | resident memory, MiB |")
    print("|---:|---:|---:|---:|---:|")
    for harts in (1, 128):
        for pages in (1, 256):
            for limit in (1, 1_000_000):
                head = board(harts, pages, limit)
                short = written(room, "few.sched", [head, "cut\n" * few])
                long = written(room, "many.sched", [head, "cut\n" * many])
                (less, _), (more, memory) = least(program, short), least(program, long)
                print(f"| {harts} | {pages} | {limit:,} | {(more - less) / (many - few) * 1e6:.1f} | {memory / 1024:.1f} |")


def main():
    words = argparse.ArgumentParser(usage="%(prog)s [PROGRAM]")
    words.add_argument("program", nargs="?", default=PROGRAM)
    program = words.parse_args().program
    if not os.path.exists(program):
        sys.exit(f"{program} isn't built: rt ci or ./sbiboard leaves it")
    print(f"load: {os.getloadavg()[0]:.1f}\n")
    with tempfile.TemporaryDirectory() as room:
        print_long(program, room)
        print_each(program, room)


if __name__ == "__main__":
    main()
