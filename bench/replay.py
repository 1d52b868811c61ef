#!/usr/bin/env python3
"""Times the program beside plain Rust, and prints the table of docs/SPEED.md.

usage: bench/replay.py [--runs N] [--instructions|--branches] [--whole] [--tasks replay,check] [--workloads NAME,..]
                       [--harts N,..] [--lines N,..] [PROGRAM]

PROGRAM is a built `sbiboard` (default: the one that `./sbiboard` builds); plain Rust is `bench/baseline.rs`, which
is built here with rustc. It does the same work: `bench/agree.py` compares the two byte for byte, on all examples, on
random schedules and on their traces. Here, too, both first run each script once, and must print the same bytes. Then
they take turns over all rows, --runs times (default 9), and of each the fastest run counts: the runs of a row lie far
apart, so that none is slow alone where the machine is for a while. A workload is a schedule, which is
replayed, and then what that prints, which is checked as a trace. Time is the processor's, of the whole process,
in user and system: reading the file and writing the output are in it, waiting for a processor isn't. A busy machine
still slows both by its caches, so look at the load that is printed. Memory is the peak, divided by the lines, so that
of few lines much of it is the process's own; it can't be told below that of this script: there it stands behind a `<`.
"Huge pages" is the same with GLIBC_TUNABLES=glibc.malloc.hugetlb=1, which has the C library ask for them; it changes
both, and the ratio is the program's time over plain Rust's, both with it.

A step should be constant work, so a row's speed should depend neither on the number of harts nor on how long the
history is: rows of 100,000 lines differ in their harts, and rows of 128 harts in their lines. (Of 10,000 lines a large
part is the start of the process.) --harts and --lines choose other ones. A script has at most 16,777,216 bytes, so
workloads of longer lines end at 500,000 lines, and of a longer trace the lines that fit are checked.
Plain Rust keeps an event in 32 bytes, and its numbers in a list beside it; with --whole in 80 with its numbers, as a
history does that hands out events by reference, which the program's is.
--instructions counts instructions by valgrind in the place of time, in some minutes: a busy machine doesn't change them.
--branches counts branches that cachegrind's model of a processor mispredicts, conditional and indirect ones.
"""
import argparse
import filecmp
import os
import random
import re
import shutil
import subprocess
import sys
import tempfile
from itertools import count, islice

ROOT = os.path.dirname(os.path.dirname(os.path.abspath(__file__)))
BUILT = os.path.join(ROOT, "crates/sbiboard_cli/out/sbiboard_cli")
RUSTC = ["rustc", "--edition", "2024", "--check-cfg", "cfg(whole)", "-C", "opt-level=3", "-C", "codegen-units=1", "-C", "target-cpu=x86-64"]
PLAIN_PAGES = {"GLIBC_TUNABLES": ""}
HUGE_PAGES = {"GLIBC_TUNABLES": "glibc.malloc.hugetlb=1"}
MOST_BYTES = 16_777_216


# ---- workloads


def started(harts, lines, pages=1):
    """All harts are started and entered: 2 * harts lines with the board's."""
    yield f"board {harts} {pages} {lines} 0 0x80000000 0x0"
    yield "0 advance"
    for hart in range(1, harts):
        yield f"0 ecall 0x48534d 0 {hart} 0x80000000 0"
        yield f"{hart} advance"


def mapped(harts, lines, mode=8, superpage=False, more=0):
    """All harts are started, and run with the same 32 pages: those of even ids in address space 5, the others in 6.

    With a superpage the 2 MiB behind them are the RAM. More pages have pages of the RAM of their own."""
    first, *others = started(harts, lines, pages=(16 if mode == 8 else 17) + more)
    yield first if mode == 8 else f"{first} 16 48"
    yield from others
    root = 0x80001
    if mode == 9:
        root = 0x80010
        yield f"0 store {root << 12:#x} 0x20000401"
    yield "0 store 0x80001000 0x20000801"
    yield "0 store 0x80002000 0x20000c01"
    if superpage:
        yield f"0 store 0x80002008 {0x80000 << 10 | 0xCF:#x}"
    for page in range(32):
        yield f"0 store {0x80003000 + 8 * page:#x} {(0x80004 + page % 12) << 10 | 0xCF:#x}"
    for page in range(more):
        yield f"0 store {0x80003000 + 8 * (32 + page):#x} {(0x80010 + page) << 10 | 0xCF:#x}"
    for hart in range(harts):
        yield f"{hart} satp {mode << 60 | (5 + hart % 2) << 44 | root:#x}"


def calls(harts, lines):
    """The harts in turn call the functions of the Base extension, and one that it lacks."""
    yield from started(harts, lines)
    for turn in count():
        yield f"{turn % harts} ecall 0x10 {turn % 8}"


def refusals(harts, lines):
    """The harts in turn try to advance, of which one is STARTED and the others are STOPPED: nothing is recorded."""
    yield f"board {harts} 1 1000 0 0x80000000 0x0"
    yield "0 advance"
    for turn in count():
        yield f"{turn % harts} advance"


def ipis(harts, lines):
    """The harts in turn send an IPI to all harts and clear their own."""
    yield from started(harts, lines)
    for turn in count():
        yield f"{turn % harts} ecall 0x735049 0 0 0xffffffffffffffff"
        yield f"{turn % harts} clearssip"


def timers(harts, lines):
    """The harts in turn set their timers, time goes on, and they look at what is pending."""
    yield from started(harts, lines)
    for turn in count():
        yield f"{turn % harts} ecall 0x54494d45 0 {turn + 64}"
        yield "c tick 1"
        yield f"{turn % harts} sip"


def loads_that_hit(harts, lines):
    """The harts in turn load from 8 pages, which their TLBs have."""
    yield from mapped(harts, lines)
    for turn in count():
        yield f"{turn % harts} load {turn // harts % 8 << 12:#x}"


def loads_that_walk(harts, lines, mode=8):
    """The harts in turn load from 32 pages, of which their TLBs have 16 others: three levels are walked each time."""
    yield from mapped(harts, lines, mode)
    for turn in count():
        yield f"{turn % harts} load {turn // harts % 32 << 12:#x}"


def loads_that_walk_under_sv48(harts, lines):
    """The same by Sv48: four levels are walked each time."""
    yield from loads_that_walk(harts, lines, mode=9)


def accesses(harts, lines):
    """The harts in turn load from 8 pages, and sometimes store, fetch, load by a superpage, and drop a page: many fills and walks."""
    yield from mapped(harts, lines, superpage=True)
    for turn in count():
        hart, step = turn % harts, turn // harts
        page = step % 8 << 12
        yield f"{hart} load {page | 8 * (step % 512):#x}"
        if step % 4 == 1:
            yield f"{hart} store {page | 0xF00:#x} {turn:#x}"
        if step % 4 == 2:
            yield f"{hart} fetch {page:#x}"
        if step % 4 == 3:
            yield f"{hart} load {0x200000 | step % 16 << 12:#x}"
            yield f"{hart} sfence {page:#x} -"


def many_fills(harts, lines):
    """Two harts load, store and fetch at random in 96 pages, fence, and write satp: what comes next can't be foreseen."""
    rng = random.Random(96)
    yield from mapped(2, lines, more=64)
    while True:
        hart, va = rng.randrange(2), rng.randrange(96) << 12 | 8 * rng.randrange(512)
        op = rng.choice(("load", "load", "load", "store", "fetch", "sfence", "satp"))
        if op == "store":
            yield f"{hart} store {va:#x} {rng.getrandbits(64):#x}"
        elif op == "sfence":
            yield f"{hart} sfence {rng.choice((f'{va:#x}', '-'))} {rng.choice(('5', '6', '-'))}"
        elif op == "satp":
            yield f"{hart} satp {8 << 60 | rng.choice((5, 6)) << 44 | 0x80001:#x}"
        else:
            yield f"{hart} {op} {va:#x}"


def amos(harts, lines):
    """The harts in turn do AMOs on 8 and 4 bytes of a page, which their TLBs have."""
    yield from mapped(harts, lines)
    for turn in count():
        hart, va = turn % harts, 0x3000 | turn % 512 * 8
        yield f"{hart} amoadd {va:#x} {turn:#x}"
        yield f"{hart} amoor.w {va | 4:#x} {1 << turn % 31:#x}"


def stores(harts, lines):
    """The harts in turn store to 8 pages, which their TLBs have."""
    yield from mapped(harts, lines)
    for turn in count():
        yield f"{turn % harts} store {turn // harts % 8 << 12 | turn % 512 * 8:#x} {turn:#x}"


def fences_and_loads(harts, lines):
    """The harts in turn drop a page from their TLBs and load from it."""
    yield from mapped(harts, lines)
    for turn in count():
        page = turn // harts % 8 << 12
        yield f"{turn % harts} sfence {page:#x} -"
        yield f"{turn % harts} load {page:#x}"


def full_fences(harts, lines):
    """The harts in turn ask a fence of all addresses of all harts, which serve it, and then it returns."""
    yield from mapped(harts, lines)
    for turn in count():
        caller = turn % harts
        yield f"{caller} ecall 0x52464e43 1 0 0xffffffffffffffff"
        yield from (f"{hart} serve" for hart in range(harts) if hart != caller)
        yield f"{caller} poll"


def crossing_fences(harts, lines):
    """All harts ask a fence of all harts before anyone serves: a queue at each hart, with the fences of all others."""
    yield from mapped(harts, lines)
    while True:
        yield from (f"{hart} ecall 0x52464e43 1 0 0xffffffffffffffff" for hart in range(harts))
        yield from (f"{hart} serve" for _ in range(harts - 1) for hart in range(harts))
        yield from (f"{hart} poll" for hart in range(harts))


def fences_of_a_page(harts, lines, fid=1, asid=""):
    """The harts in turn fence a page of four neighbours, which serve it and load from that page after it has returned."""
    yield from mapped(harts, lines)
    for turn in count():
        caller, page = turn % harts, turn // harts % 8 << 12
        first = max(0, min(caller + 1, harts - 4))
        targets = [hart for hart in range(first, min(first + 4, harts)) if hart != caller]
        mask = sum(1 << hart - first for hart in targets)
        yield f"{caller} ecall 0x52464e43 {fid} {mask:#x} {first} {page:#x} 0x1000{asid}"
        yield from (f"{hart} serve" for hart in targets)
        yield f"{caller} poll"
        yield from (f"{hart} load {page:#x}" for hart in targets)


def fences_of_an_asid(harts, lines):
    """The same in address space 5, in which half of the neighbours run: the others keep their entries."""
    yield from fences_of_a_page(harts, lines, fid=2, asid=" 5")


WORKLOADS = (
    (calls, 1_000_000),
    (refusals, 1_000_000),
    (ipis, 500_000),
    (timers, 500_000),
    (loads_that_hit, 500_000),
    (loads_that_walk, 500_000),
    (loads_that_walk_under_sv48, 500_000),
    (accesses, 500_000),
    (many_fills, 500_000),
    (stores, 500_000),
    (amos, 300_000),
    (fences_and_loads, 500_000),
    (full_fences, 1_000_000),
    (crossing_fences, 100_000),
    (fences_of_a_page, 500_000),
    (fences_of_an_asid, 500_000),
)


def schedule(folder, workload, harts, lines):
    """The file of a workload."""
    path = os.path.join(folder, f"{workload.__name__}-{harts}-{lines}.sched")
    if not os.path.exists(path):
        with open(path, "w") as file:
            file.writelines(line + "\n" for line in islice(workload(harts, lines), lines))
        if os.path.getsize(path) > MOST_BYTES:
            sys.exit(f"{workload.__name__}: {lines} lines are more bytes than a script may have")
    return path


def trace(plain, path):
    """The file of the trace that a schedule's replay prints, or of as many of its lines as a script may have, and their number."""
    made = path + ".trace"
    run(plain, "replay", path, PLAIN_PAGES, made)
    with open(made, "rb") as file:
        text = file.read(MOST_BYTES)
    whole = text[: text.rindex(b"\n") + 1]
    with open(made, "wb") as file:
        file.write(whole)
    return made, whole.count(b" -> ")


# ---- runs


def plain_rust(folder, whole=False):
    """Builds plain Rust in this folder, with whole events if it is to be."""
    made = os.path.join(folder, "baseline")
    chosen = ["--cfg", "whole"] * whole
    subprocess.run([*RUSTC, *chosen, "-o", made, os.path.join(ROOT, "bench/baseline.rs")], check=True)
    return made


def run(program, task, path, pages, output=os.devnull):
    """The seconds of the processor that one run takes, and its peak of memory in bytes."""
    with open(output, "wb") as sink:
        child = subprocess.Popen([program, task, path], stdout=sink, env=os.environ | pages)
        _, status, used = os.wait4(child.pid, 0)
    if status != 0:
        sys.exit(f"{program} {task} {path}: status {os.waitstatus_to_exitcode(status)}")
    return used.ru_utime + used.ru_stime, used.ru_maxrss * 1024


def agree(programs, task, path):
    """Both programs print the same bytes."""
    outputs = [f"{path}.{i}" for i in range(len(programs))]
    for program, output in zip(programs, outputs):
        run(program, task, path, PLAIN_PAGES, output)
    if not filecmp.cmp(*outputs, shallow=False):
        sys.exit(f"{path}: the outputs differ: {' '.join(outputs)}")
    for output in outputs:
        os.remove(output)


def fastest(programs, rows, runs):
    """Of each row the fastest of the runs of each program, without huge pages and with them, in turns over all rows."""
    variants = [(program, pages) for program in programs for pages in (PLAIN_PAGES, HUGE_PAGES)]
    rounds = [[[run(program, task, path, pages) for program, pages in variants] for _, task, path, _ in rows] for _ in range(runs)]
    return [[min(column) for column in zip(*row)] for row in zip(*rounds)]


def least_memory():
    """The peak that a process shows whatever it does, in bytes: that of this script, which starts it."""
    child = subprocess.Popen(["true"])
    return os.wait4(child.pid, 0)[2].ru_maxrss * 1024


def instructions(program, task, path):
    """How many instructions a run takes."""
    command = ["valgrind", "--tool=callgrind", "--callgrind-out-file=/dev/null", program, task, path]
    said = subprocess.run(command, stdout=subprocess.DEVNULL, stderr=subprocess.PIPE, text=True, check=True).stderr
    return int(re.search(r"Collected : (\d+)", said).group(1))


def mispredicted(program, task, path):
    """How many branches of a run are mispredicted."""
    command = ["valgrind", "--tool=cachegrind", "--branch-sim=yes", "--cachegrind-out-file=/dev/null", program, task, path]
    said = subprocess.run(command, stdout=subprocess.DEVNULL, stderr=subprocess.PIPE, text=True, check=True).stderr
    return int(re.search(r"Mispredicts: +([0-9,]+)", said).group(1).replace(",", ""))


# ---- tables


def times_cells(found, lines):
    (own, memory), (own_huge, _), (plain, plain_memory), (plain_huge, _) = found
    speeds = [f"{lines / seconds:,.0f}" for seconds in (own, own_huge, plain, plain_huge)]
    least = least_memory() + (1 << 20)
    peaks = [("" if peak > least else "< ") + f"{max(peak, least) / lines:,.0f}" for peak in (memory, plain_memory)]
    return speeds + [f"{own_huge / plain_huge:.2f}"] + peaks


def counted_cells(counted, programs, task, path, lines):
    own, plain = (counted(program, task, path) / lines for program in programs)
    digits = 0 if counted is instructions else 1
    return [f"{own:,.{digits}f}", f"{plain:,.{digits}f}", f"{own / plain:.2f}"]


TIMES = ("lines a second", "with huge pages", "plain Rust", "with huge pages", "ratio", "peak bytes a line", "plain Rust")
INSTRUCTIONS = ("instructions a line", "plain Rust", "ratio")
BRANCHES = ("mispredicted branches a line", "plain Rust", "ratio")


def sizes(most, chosen):
    """How many harts and lines the rows of a workload have."""
    if chosen.harts or chosen.lines:
        lines = [min(n, most) for n in chosen.lines or [100_000]]
        return [(harts, n) for harts in chosen.harts or [128] for n in lines]
    return dict.fromkeys([(1, 100_000), (64, 100_000), (128, 10_000), (128, 100_000), (128, most)])


def rows_of(programs, folder, chosen):
    """Each row's first cells, its task, its file and its lines; both programs print the same of it."""
    for workload, most in WORKLOADS:
        if chosen.workloads and workload.__name__ not in chosen.workloads:
            continue
        name = workload.__name__.replace("_", " ")
        for harts, lines in sizes(most, chosen):
            path = schedule(folder, workload, harts, lines)
            for task in chosen.tasks:
                given, count = (path, lines) if task == "replay" else trace(programs[1], path)
                agree(programs, task, given)
                yield [name, task, str(harts), f"{count:,}"], task, given, count


def print_rows(programs, folder, chosen):
    rows = list(rows_of(programs, folder, chosen))
    counted, heads = (instructions, INSTRUCTIONS) if chosen.instructions else (mispredicted, BRANCHES) if chosen.branches else (None, TIMES)
    print("| workload | task | harts | lines | " + " | ".join(heads) + " |")
    print("|---" * (4 + len(heads)) + "|")
    times = None if counted else fastest(programs, rows, chosen.runs)
    for place, (first, task, path, count) in enumerate(rows):
        cells = times_cells(times[place], count) if times else counted_cells(counted, programs, task, path, count)
        print("| " + " | ".join(first + cells) + " |", flush=True)


def numbers(text):
    return [int(word) for word in text.split(",")]


def words(text):
    return text.split(",")


def options():
    parser = argparse.ArgumentParser(description="Times the program beside plain Rust, and prints the table of docs/SPEED.md.")
    parser.add_argument("program", nargs="?", default=BUILT)
    parser.add_argument("--runs", type=int, default=9, help="how many runs of each, of which the fastest counts")
    counting = parser.add_mutually_exclusive_group()
    counting.add_argument("--instructions", action="store_true", help="count instructions by valgrind, not time")
    counting.add_argument("--branches", action="store_true", help="count mispredicted branches by valgrind, not time")
    parser.add_argument("--whole", action="store_true", help="plain Rust keeps events of 80 bytes, with their numbers")
    parser.add_argument("--tasks", type=words, default=words("replay,check"), help="as replay,check (the default)")
    parser.add_argument("--workloads", type=words, help="as calls,full_fences (default: all)")
    parser.add_argument("--harts", type=numbers, help="as 1,64,128 (the default), each 1 to 128")
    parser.add_argument("--lines", type=numbers, help="as 10000,100000 (default: these and the workload's most)")
    return parser.parse_args()


def main():
    chosen = options()
    if not os.path.exists(chosen.program):
        sys.exit(f"{chosen.program} isn't built: ./sbiboard builds it")
    needed = ["rustc"] + ["valgrind"] * (chosen.instructions or chosen.branches)
    missing = [tool for tool in needed if not shutil.which(tool)]
    if missing:
        sys.exit(f"{' and '.join(missing)} not found")
    print(f"load {os.getloadavg()[0]:.1f} on {os.cpu_count()} processors", file=sys.stderr)
    with tempfile.TemporaryDirectory() as folder:
        print_rows((os.path.abspath(chosen.program), plain_rust(folder, chosen.whole)), folder, chosen)


if __name__ == "__main__":
    main()
