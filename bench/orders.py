#!/usr/bin/env python3
"""Times `sbiboard test`: how many orders of a program it tries in a second, on one processor and on more.

usage: bench/orders.py [--runs N] [--times N] [--jobs 1,4] [--limits N,..] [PROGRAM]

PROGRAM is a built program of `test` (default: the one that `./sbiboard test` builds); plain Rust is `bench/baseline.rs`, which
is built here with rustc, and makes a new board for each order. The program that is tried has 8 harts
and some 100 events, and three conditions, which are judged of each order. A board is begun anew for each order and not made
anew, so a row should not depend on LIMIT. Of --runs runs (default 5) the fastest counts, by the clock on the wall: a busy
machine slows them, so look at the load that is printed.
"""
import argparse
import os
import re
import subprocess
import tempfile
import time

ROOT = os.path.dirname(os.path.dirname(os.path.abspath(__file__)))
RUSTC = ["rustc", "--edition", "2024", "--check-cfg", "cfg(whole)", "-C", "opt-level=3", "-C", "codegen-units=1", "-C", "target-cpu=x86-64"]
BUILT = os.path.join(ROOT, "crates/sbiboard_test/out/sbiboard_test")


def program(limit):
    """Hart 0 starts seven others; each stores, loads and asks for a fence of some harts, and the clock ticks."""
    lines = ["#! never _ load 0x80002000 -> value 0x99", "#! each _ poll -> ret 0 _", "#! end quiet history-full"]
    lines += [f"board 8 4 {limit} 0 0x80000000 0x0", "at 0x80000000", "sie 0x2"]
    lines += [f"ecall 0x48534d 0 {hart} 0x80001000 0" for hart in range(1, 8)]
    lines += ["store 0x80002000 0x1", "ecall 0x52464e43 1 0x3e 0 0x1000 0x1000", "load 0x80002000"]
    lines += ["at 0x80001000", "store 0x80002008 0x2", "load 0x80002000", "ecall 0x52464e43 1 0x7 0 0x1000 0x1000", "sip", "clearssip", "load 0x80002008", "store 0x80002000 0x3"]
    return "\n".join([*lines, "clock", "tick 1", "tick 1", "tick 1"]) + "\n"


def measured(command, room, runs):
    """The fewest seconds of so many runs, and what is said of the orders."""
    best = None
    for _ in range(runs):
        begun = time.monotonic()
        found = subprocess.run(command, cwd=room, capture_output=True, text=True, check=False)
        spent = time.monotonic() - begun
        if found.returncode != 0:
            raise SystemExit(found.stdout + found.stderr)
        best = spent if best is None else min(best, spent)
    return best, re.search(r"\d+ orders, \d+ different records", found.stdout).group()


def main():
    parser = argparse.ArgumentParser(description=__doc__, formatter_class=argparse.RawDescriptionHelpFormatter)
    parser.add_argument("--runs", type=int, default=5)
    parser.add_argument("--times", type=int, default=40_000)
    parser.add_argument("--jobs", default="1,4")
    parser.add_argument("--limits", default="200,1000000")
    parser.add_argument("program", nargs="?", default=BUILT)
    asked = parser.parse_args()
    tester = os.path.abspath(asked.program)
    print(f"load {os.getloadavg()[0]:.1f}, {os.cpu_count()} processors")
    print("| LIMIT | jobs | orders a second | plain Rust | of |")
    print("|---|---|---|---|---|")
    with tempfile.TemporaryDirectory() as room:
        plain = os.path.join(room, "plain")
        subprocess.run([*RUSTC, os.path.join(ROOT, "bench/baseline.rs"), "-o", plain], check=True)
        for limit in asked.limits.split(","):
            with open(os.path.join(room, "orders.program"), "w", encoding="ascii") as file:
                file.write(program(limit))
            for jobs in asked.jobs.split(","):
                words = ["--times", str(asked.times), "--jobs", jobs, "orders.program"]
                seconds, said = measured([tester, *words], room, asked.runs)
                other, _ = measured([plain, "orders", "orders.program", str(asked.times), jobs], room, asked.runs)
                print(f"| {limit} | {jobs} | {asked.times / seconds:,.0f} | {asked.times / other:,.0f} | {said} |", flush=True)


if __name__ == "__main__":
    main()
