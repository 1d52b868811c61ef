#!/usr/bin/env python3
"""Runs the rows of the lock many times, and compares what each run prints with its stored output.

usage: bench/storms.py [--runs N] [PROGRAM]

PROGRAM is a built `thread_rows` (default: the one that `rt ci` leaves). It takes N runs (default 1,000), one after
another, each with a time limit of a minute that only a hang meets. In each, threads of their own make the steps of up to
128 harts and the clock on one locked board: storms of IPIs, fences of all by all, rests that end. The rows look up each
receipt in the closed record, and make the record's steps again on a new board; what they print doesn't depend on the order
of the threads. The last line is 'N passed, N failed'; the status is 1 where a run failed.
"""
import argparse
import os
import subprocess
import sys
import time

ROOT = os.path.dirname(os.path.dirname(os.path.abspath(__file__)))
CRATE = os.path.join(ROOT, "crates/thread_rows")


def failure(program, wanted):
    """Why a run is none that must be; None for a good one."""
    try:
        run = subprocess.run([program, "locks"], stdin=subprocess.DEVNULL, capture_output=True, timeout=60)
    except subprocess.TimeoutExpired:
        return "no end after a minute"
    if run.returncode != 0:
        return f"status {run.returncode}: {run.stderr.decode(errors='replace').strip()}"
    return None if run.stdout == wanted else f"printed {run.stdout!r}"


def main():
    words = argparse.ArgumentParser(usage="%(prog)s [--runs N] [PROGRAM]")
    words.add_argument("--runs", type=int, default=1000)
    words.add_argument("program", nargs="?", default=os.path.join(CRATE, "out/thread_rows"))
    chosen = words.parse_args()
    if not os.path.exists(chosen.program):
        sys.exit(f"{chosen.program} isn't built: rt ci leaves it")
    with open(os.path.join(CRATE, "stdout"), "rb") as file:
        text = file.read()
    # (the rows of the lock stand between two lines that are names of parts)
    wanted = text[text.index(b"locks\n") : text.index(b"memory\n")]
    passed, failed, began = 0, 0, time.monotonic()
    for run in range(chosen.runs):
        why = failure(chosen.program, wanted)
        if why is None:
            passed += 1
        else:
            failed += 1
            print(f"run {run + 1}: {why}")
    print(f"{time.monotonic() - began:.0f} s")
    print(f"{passed} passed, {failed} failed")
    return 1 if failed else 0


if __name__ == "__main__":
    sys.exit(main())
