#!/usr/bin/env python3
"""Times programs on threads beside plain Rust, and prints the table of docs/SPEED.md.

usage: bench/run.py [--runs N] [--programs NAME,..] [--harts N,..] [--wakes] [PROGRAM]

PROGRAM is a built `sbiboard` (default: the one that `./sbiboard` builds), which does `run FILE`; plain Rust is
`bench/baseline.rs`, which does the same with std::thread::scope, one std::sync::Mutex round its board and one condvar
(`bench/baseline/threads.rs`): a view, a choice by it, and a call, each with the lock, rests by the number of events, and the
record, the table and the end printed. Both write to a file, on which PROGRAM's `check` must agree line by line, and which
must end as it should. They take turns, --runs times (default 5), and of each column the median counts.

The programs are of --harts harts (default 2, 8, 32, 128), of which hart 0 starts the others:
- *independent*: each reads sip and stores to a word of its own, by turns: no thread has to wait for another.
- *ipis*: each sends IPIs to all harts and clears its own, by turns: the same, but each IPI goes to all.
- *fences*: each asks fences of all addresses of all harts, one after another: a call returns when all have served it.
- *alone*: hart 0 alone is started; it interrupts itself, suspends and resumes, over and over, beside harts that do nothing.

An event is a line of the record. Events a second are by the clock on the wall, for the whole process: the file is read, the
threads are started, and the record is written in it. The processor's time, in user and system and of all threads, is beside
it, in microseconds an event. The ratios are the program's time over plain Rust's. Look at the load that is printed: on a
busy machine the threads wait for processors.

--wakes counts in the place of time. Calls of futex with FUTEX_WAKE are counted by `strace -f -e trace=futex`, in a run of each:
those that wake everyone, which the condvar's notify_all makes, how many threads they woke, and those that wake one, which a
lock makes that is given back while others wait for it. strace slows each call down and so changes who rests when; the events of
that run stand beside them. How often threads gave their processor up to wait is what the system counts for the process
(ru_nvcsw), for each event, in a run without strace.
"""
import argparse
import os
import re
import shutil
import statistics
import subprocess
import sys
import tempfile
import time
from collections import Counter

from replay import BUILT, HUGE_PAGES, numbers, plain_rust, words

ALL = "0xffffffffffffffff"
BASE = 0x8000_0000
# A page of blocks' addresses, and one of words.
PAGES, WORDS = 2, BASE + 4096
# How many threads FUTEX_WAKE wakes at most where it wakes everyone.
EVERYONE = "2147483647"
# A run that takes longer hangs.
MOST_SECONDS = 300


# ---- programs


def independent(hart, turn):
    return f"store {WORDS + 8 * hart:#x} {turn:#x}" if turn % 2 else "sip"


def ipis(hart, turn):
    return "clearssip" if turn % 2 else f"ecall 0x735049 0 0 {ALL}"


def fences(hart, turn):
    return f"ecall 0x52464e43 1 0 {ALL}"


def alone(hart, turn):
    return ("ecall 0x735049 0 1 0", "ecall 0x48534d 3 0", "clearssip")[turn % 3]


def one_event(harts):
    return 1


def fence_events(harts):
    """A fence is asked, served by all others, and ended."""
    return harts + 1


def sleep_events(harts):
    """Of three operations one is a suspend, with three steps of the firmware."""
    return 2


# Each with the events of an operation, and about how many there are in sum.
PROGRAMS = (
    (independent, one_event, 500_000),
    (ipis, one_event, 300_000),
    (fences, fence_events, 150_000),
    (alone, sleep_events, 30_000),
)


def lines_of(program, harts, operations):
    starts = [f"ecall 0x48534d 0 {hart} {BASE + 16 * hart:#x} 0" for hart in range(1, harts)]
    for hart in range(harts):
        yield f"at {BASE + 16 * hart:#x}"
        yield from starts if hart == 0 else []
        yield from (program(hart, turn) for turn in range(operations))


def lines_alone(operations):
    """Each round is of three operations."""
    yield f"at {BASE:#x}"
    yield "sie 0x2"
    yield from (alone(0, turn) for turn in range(operations // 3 * 3))


def written(folder, program, harts, operations, most):
    """The file of a program, which has at most so many events."""
    path = os.path.join(folder, f"{program.__name__}-{harts}.program")
    lines = lines_alone(operations) if program is alone else lines_of(program, harts, operations)
    with open(path, "w") as file:
        file.write(f"board {harts} {PAGES} {most} 0 {BASE:#x} 0\n")
        file.writelines(line + "\n" for line in lines)
    return path


# ---- runs


def ran(command, output):
    """Runs a command that ends well: its seconds on the wall, those of the processor, and how often its threads waited."""
    pages = {"GLIBC_TUNABLES": os.environ.get("GLIBC_TUNABLES", HUGE_PAGES["GLIBC_TUNABLES"])}
    with open(output, "wb") as sink:
        began = time.perf_counter()
        child = subprocess.Popen(["timeout", "--foreground", str(MOST_SECONDS), *command], stdout=sink, env=os.environ | pages)
        _, status, usage = os.wait4(child.pid, 0)
        took = time.perf_counter() - began
    child.returncode = os.waitstatus_to_exitcode(status)
    if child.returncode:
        sys.exit(f"{' '.join(command)}: status {child.returncode}")
    return took, usage.ru_utime + usage.ru_stime, usage.ru_nvcsw


def events_of(program, output, is_exact, most):
    """How many events a run's record has, with which `check` agrees."""
    said = subprocess.run([program, "check", output], stdout=subprocess.PIPE, text=True).stdout
    agreed = re.fullmatch(r"agrees (\d+)\n", said)
    with open(output, "rb") as file:
        file.seek(-len("# end quiet\n"), os.SEEK_END)
        is_quiet = file.read() == b"# end quiet\n"
    if not agreed or not is_quiet or is_exact and int(agreed.group(1)) != most - 1:
        sys.exit(f"{output}: check {said!r}, quiet {is_quiet}")
    return int(agreed.group(1))


def each_run(folder, pair, path, is_exact, most):
    """What one run of each gives: its events and its measures."""
    output = os.path.join(folder, "record.trace")
    for program in pair:
        measures = ran([program, "run", path], output)
        yield events_of(pair[0], output, is_exact, most), *measures


def times_row(folder, pair, path, is_exact, most, chosen):
    speeds, micros = [[], []], [[], []]
    for _ in range(chosen.runs):
        for which, (events, took, processor, _) in enumerate(each_run(folder, pair, path, is_exact, most)):
            speeds[which].append(events / took)
            micros[which].append(processor * 1e6 / events)
    own, plain = map(statistics.median, speeds)
    own_micros, plain_micros = map(statistics.median, micros)
    return [f"{own:,.0f}", f"{plain:,.0f}", f"{plain / own:.2f}",
            f"{own_micros:.2f}", f"{plain_micros:.2f}", f"{own_micros / plain_micros:.2f}"]


def counted(path):
    """Of a log of futex: calls that wake all who wait, how many threads these woke, and calls that wake one."""
    calls, woken, pending = Counter(), Counter(), {}
    with open(path) as file:
        for line in file:
            thread = line.split(maxsplit=1)[0]
            if wake := re.search(r"FUTEX_WAKE_PRIVATE, (\d+)", line):
                pending[thread] = wake.group(1) == EVERYONE
                calls[pending[thread]] += 1
            if "futex" in line and "<unfinished" not in line:
                done = re.search(r"= (\d+)$", line)
                woken[pending.pop(thread, None)] += int(done.group(1)) if done else 0
    return calls[True], woken[True], calls[False]


def wakes(folder, program, checker, path, is_exact, most):
    """The events of a run, and what is counted of its log of futex."""
    output, log = os.path.join(folder, "record.trace"), os.path.join(folder, "log")
    ran(["strace", "-f", "-qq", "-e", "trace=futex", "-e", "signal=none", "-o", log, program, "run", path], output)
    return events_of(checker, output, is_exact, most), *counted(log)


def wakes_row(folder, pair, path, is_exact, most, chosen):
    runs = list(each_run(folder, pair, path, is_exact, most))
    row = []
    for program, (events, _, _, waits) in zip(pair, runs):
        traced, notified, woken, handed = wakes(folder, program, pair[0], path, is_exact, most)
        row += [f"{traced:,}", f"{notified:,}", f"{woken:,}", f"{handed:,}", f"{waits / events:.2f}"]
    return row


# ---- the table


TIMES = ("events a second", "plain Rust", "ratio", "µs of processor an event", "plain Rust", "ratio")
COUNTS = ("notified", "woken", "lock handed on", "waits an event")
WAKES = ("events", *COUNTS, "plain Rust: events", *COUNTS)


def print_rows(folder, pair, chosen):
    heads, row_of = (WAKES, wakes_row) if chosen.wakes else (TIMES, times_row)
    print("| program | harts | " + " | ".join(heads) + " |")
    print("|---" * (2 + len(heads)) + "|")
    for program, events_each, total in PROGRAMS:
        if chosen.programs and program.__name__ not in chosen.programs:
            continue
        for harts in chosen.harts:
            busy = 1 if program is alone else harts
            operations = max(1, total // (busy * events_each(harts)))
            most = 2 * harts + busy * operations * events_each(harts)
            path = written(folder, program, harts, operations, most)
            # Of fences, those aren't asked of a hart that wasn't entered yet.
            is_exact = events_each is one_event
            row = [program.__name__, str(harts), *row_of(folder, pair, path, is_exact, most, chosen)]
            print("| " + " | ".join(row) + " |", flush=True)


def options():
    parser = argparse.ArgumentParser(description="Times programs on threads beside plain Rust.")
    parser.add_argument("program", nargs="?", default=BUILT, help="a built sbiboard")
    parser.add_argument("--runs", type=int, default=5, help="how many runs of each, of which the median counts")
    parser.add_argument("--programs", type=words, help="as independent,fences (default: all)")
    parser.add_argument("--harts", type=numbers, default=[2, 8, 32, 128], help="as 2,8,32,128 (the default)")
    parser.add_argument("--wakes", action="store_true", help="count wake-ups, not time")
    return parser.parse_args()


def main():
    chosen = options()
    if not os.path.exists(chosen.program):
        sys.exit(f"{chosen.program} isn't built: ./sbiboard builds it")
    missing = [tool for tool in ["rustc"] + ["strace"] * chosen.wakes if not shutil.which(tool)]
    if missing:
        sys.exit(f"{' and '.join(missing)} not found")
    print(f"load {os.getloadavg()[0]:.1f} on {os.cpu_count()} processors", file=sys.stderr)
    with tempfile.TemporaryDirectory() as folder:
        print_rows(folder, (os.path.abspath(chosen.program), plain_rust(folder)), chosen)


if __name__ == "__main__":
    main()
