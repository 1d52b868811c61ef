#!/usr/bin/env python3
"""Times calls on a board behind a lock beside plain Rust, and prints the table of docs/SPEED.md.

usage: bench/lock.py [--runs N] [--calls N] [--threads N,..] [--instructions] [PROGRAM]

PROGRAM is a built `thread_rows` (default: the one of this checkout, which is proved and built first where that is needed, by
`rt run`); plain Rust is `bench/baseline.rs`, whose board stands behind std::sync::Mutex, with a condvar, seats and receipts
that are made as ours are (`bench/baseline/lock.rs`). Both open a board of eight harts, start all, and then have so many of
them make --calls calls in sum (default 800,000), each on a thread of its own: they read sip, or send IPIs to all harts. A
receipt is dropped as soon as it is there. Both tell how long that took, from before the first thread is started until after
the last has ended, and how many events there were, which must be the same number. They take turns, --runs times (default 9),
and of each the median counts, in calls a second; the ratio is our time over plain Rust's.

Look at the load that is printed: on a busy machine the threads wait for processors. --instructions counts what one thread
takes a call, by valgrind, in the place of time: the difference between runs of more calls and fewer.
"""
import argparse
import os
import re
import shutil
import statistics
import subprocess
import sys
import tempfile

from replay import HUGE_PAGES, ROOT, plain_rust

CRATE = os.path.join(ROOT, "crates/thread_rows")
BUILT = os.path.join(CRATE, "out/thread_rows")
WORKLOADS = (("sip", "reads of sip"), ("ipi", "IPIs to all harts"))
# Events that start eight harts.
STARTS = 15
FEW, MORE = 10_000, 110_000


def build():
    """Proves and builds the rows, where that is needed, and runs them once."""
    subprocess.run(["rt", "run"], cwd=CRATE, stdout=subprocess.DEVNULL, stderr=subprocess.DEVNULL, check=True)


def said(command):
    """What a run prints: the numbers of its events and of its nanoseconds."""
    pages = {"GLIBC_TUNABLES": os.environ.get("GLIBC_TUNABLES", HUGE_PAGES["GLIBC_TUNABLES"])}
    run = subprocess.run(command, stdout=subprocess.PIPE, env=os.environ | pages, text=True, check=True)
    return run.stdout


def seconds(command, calls):
    """How long the calls of one run take. All are accepted."""
    text = said(command)
    named = re.search(r"events: (\d+), nanoseconds: (\d+)", text) or re.fullmatch(r"(\d+) (\d+)\n", text)
    if not named or int(named.group(1)) != calls + STARTS:
        sys.exit(f"{' '.join(command)}: {text}")
    return int(named.group(2)) / 1e9


def commands(program, plain, threads, calls, op):
    words = [str(threads), str(calls // threads), op]
    return [program, "locks", *words], [plain, "lock", *words]


def speeds(pair, calls, runs):
    """The median of the calls a second of each, which take turns."""
    rounds = [[calls / seconds(command, calls) for command in pair] for _ in range(runs)]
    return [statistics.median(column) for column in zip(*rounds)]


def times(program, plain, chosen):
    print("| workload | threads | calls a second | plain Rust | ratio |")
    print("|---" * 5 + "|")
    for op, name in WORKLOADS:
        for threads in chosen.threads:
            calls = chosen.calls // threads * threads
            own, other = speeds(commands(program, plain, threads, calls, op), calls, chosen.runs)
            print(f"| {name} | {threads} | {own:,.0f} | {other:,.0f} | {other / own:.2f} |", flush=True)


def instructions(command):
    """How many instructions a run takes."""
    counted = ["valgrind", "--tool=callgrind", "--callgrind-out-file=/dev/null", *command]
    text = subprocess.run(counted, stdout=subprocess.DEVNULL, stderr=subprocess.PIPE, text=True, check=True).stderr
    return int(re.search(r"Collected : (\d+)", text).group(1))


def print_instructions(program, plain):
    print("| workload | instructions a call | plain Rust | ratio |")
    print("|---" * 4 + "|")
    for op, name in WORKLOADS:
        few, more = (commands(program, plain, 1, calls, op) for calls in (FEW, MORE))
        own, other = ((instructions(b) - instructions(a)) / (MORE - FEW) for a, b in zip(few, more))
        print(f"| {name} | {own:,.0f} | {other:,.0f} | {own / other:.2f} |", flush=True)


def numbers(text):
    return [int(word) for word in text.split(",")]


def options():
    parser = argparse.ArgumentParser(description="Times calls on a board behind a lock beside plain Rust.")
    parser.add_argument("program", nargs="?", help="a built thread_rows")
    parser.add_argument("--runs", type=int, default=9, help="how many runs of each, of which the median counts")
    parser.add_argument("--calls", type=int, default=800_000, help="how many calls in sum, at most 999,985")
    parser.add_argument("--threads", type=numbers, default=[1, 2, 4, 8], help="as 1,2,4,8 (the default)")
    parser.add_argument("--instructions", action="store_true", help="count instructions by valgrind, not time")
    return parser.parse_args()


def main():
    chosen = options()
    needed = ["rustc"] + ["valgrind"] * chosen.instructions + ["rt"] * (not chosen.program)
    missing = [tool for tool in needed if not shutil.which(tool)]
    if missing:
        sys.exit(f"{' and '.join(missing)} not found")
    if not chosen.program:
        build()
    print(f"load {os.getloadavg()[0]:.1f} on {os.cpu_count()} processors", file=sys.stderr)
    with tempfile.TemporaryDirectory() as folder:
        program, plain = os.path.abspath(chosen.program or BUILT), plain_rust(folder)
        if chosen.instructions:
            print_instructions(program, plain)
        else:
            times(program, plain, chosen)


if __name__ == "__main__":
    main()
