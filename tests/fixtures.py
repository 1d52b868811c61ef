"""What the tests share: where the built programs are, a folder for each test, how programs are run and what a run must be, the
library that refuses an allocation, and scripts that many tests use."""
import glob
import os
import re
import shutil
import subprocess
import tempfile
import unittest
from concurrent.futures import ThreadPoolExecutor

HERE = os.path.dirname(os.path.realpath(__file__))
ROOT = os.path.dirname(HERE)
DATA, RECORDS = os.path.join(HERE, "program-data"), os.path.join(HERE, "records-data")
EXAMPLES = os.path.join(ROOT, "examples")
SHIM = os.path.join(DATA, "refuse.c")
FAILED_IO = b"sbiboard: input or output failed\n"
NO_MEMORY = b"sbiboard: no memory\n"
FULL = b"sbiboard: history full\n"
STUCK = b"sbiboard: stuck\n"
WRONG_KIND = b"sbiboard: wrong kind of script\n"
BAD_BOARD = b"sbiboard: bad board\n"
BOARD = b"board 2 1 10 0 0x80000000 0\n"

# One byte more than a script may have.
TOO_LONG = 16_777_217

TASKS = ("run", "replay", "check")

# How many times a program is run whose threads may go in many orders.
RUNS_OF_EACH = 500

# How many random programs are judged.
MANY = 600

# The seconds that only a hang takes; a slower build of the program is given more.
HANG = int(os.environ.get("HANG_SECONDS", "120"))


def program_of(crate):
    """The program that is built of this crate."""
    return os.path.join(ROOT, "crates", crate, "out", crate)


# The parts of programs of rows whose first line is their name, and whose word shows them alone.
PARTS = ("devices", "locks", "memory", "threads")


def rows_of(crate, part):
    """What a program of rows must print of a part."""
    lines = read(os.path.join(ROOT, "crates", crate, "stdout")).splitlines()
    begin = lines.index(part)
    end = next((at for at, it in enumerate(lines) if at > begin and it in PARTS), len(lines))
    return lines[begin:end]


# The program, and the one behind `sbiboard test` and `sbiboard explore`.
PROGRAM, TESTER = program_of("sbiboard_cli"), program_of("sbiboard_test")


class Test(unittest.TestCase):
    """Tests that run these programs, each in a folder of its own, `room`."""

    programs = (PROGRAM,)

    @classmethod
    def setUpClass(cls):
        for it in cls.programs:
            if not os.access(it, os.X_OK):
                raise AssertionError(f"there is no built program, {os.path.relpath(it, ROOT)}: rt ci leaves it, or ./sbiboard")

    def setUp(self):
        folder = tempfile.TemporaryDirectory(prefix="sbiboard-test-")
        self.addCleanup(folder.cleanup)
        self.room = os.path.realpath(folder.name)

    def shortDescription(self):
        """The test's name: that of its method, with `: ` for `__` and a blank for `_`, or the one that it was given."""
        named = getattr(getattr(self, self._testMethodName), "named", None)
        return named or self._testMethodName.removeprefix("test_").replace("__", ": ").replace("_", " ")


def named(name):
    """Gives a test a name that no method can have."""

    def name_it(method):
        method.named = name
        return method

    return name_it


def add(cls, name, test):
    """Adds a test of this name to a class, of a function of a folder."""
    setattr(cls, "test_" + re.sub(r"\W+", "_", name).strip("_"), named(name)(lambda self: test(self.room)))


# ---- files


def read(path):
    with open(path, encoding="utf-8") as file:
        return file.read()


def read_bytes(path):
    with open(path, "rb") as file:
        return file.read()


def write(path, text):
    """Writes a text or bytes. Returns the path."""
    with open(path, "wb") as file:
        file.write(text.encode() if isinstance(text, str) else text)
    return path


def example_programs():
    """The paths of all examples that are programs."""
    return sorted(glob.glob(os.path.join(EXAMPLES, "*.program")) + glob.glob(os.path.join(EXAMPLES, "orders", "*.program")))


def script(room, text):
    """Returns the name of a file of this text."""
    return write(os.path.join(room, "a.sched"), text)


def stored(name):
    return read_bytes(os.path.join(DATA, name))


# ---- runs


def must(what, holds):
    """Fails, and says what is wrong, where it doesn't hold."""
    if not holds:
        raise AssertionError(what)


def ran(words, program=PROGRAM, **how):
    """Runs the program under the name that users know, with nothing of the caller's environment that could change it; or another."""
    how.setdefault("stdout", subprocess.PIPE)
    how.setdefault("stderr", subprocess.PIPE)
    how.setdefault("env", {"PATH": os.environ.get("PATH", "")})
    how.setdefault("timeout", 60)
    how.setdefault("stdin", subprocess.DEVNULL)
    return subprocess.run(["sbiboard", *words], executable=program, **how)


def tester(room, *words, name="sbiboard", timeout=HANG, **how):
    """Runs the program behind `test`, or `explore` by its name, in a folder."""
    how = {"stdout": subprocess.PIPE, "stderr": subprocess.PIPE, **how}
    return subprocess.run([name, *words], executable=TESTER, cwd=room, text=True, timeout=timeout, **how)


def told_of(room, *words, name="sbiboard"):
    """The status, and the lines that `test` tells, which says nothing."""
    found = tester(room, *words, name=name)
    must(f"{words}: {found.stderr!r}", not found.stderr)
    return found.returncode, found.stdout.splitlines()


def told(room, text, *words, name="race.program"):
    """The same of a file of this text."""
    write(os.path.join(room, name), text)
    return told_of(room, *words, name)


def explored(room, text, *words):
    """What `explore` tells of a program of this text."""
    write(os.path.join(room, "a.program"), text)
    return told_of(room, *words, "a.program", name="sbiboard explore")


def shown(text):
    return repr(text[:400]) + (".." if len(text) > 400 else "")


def must_be(found, status, out, said):
    """Fails where a run ended otherwise. None for a text: it isn't looked at."""
    if found.returncode != status:
        raise AssertionError(f"status {found.returncode}, not {status}; it said {shown(found.stderr or b'')}")
    for name, is_there, wanted in (("printed", found.stdout, out), ("said", found.stderr, said)):
        if wanted is not None and is_there != wanted:
            raise AssertionError(f"it {name} {shown(is_there)}, not {shown(wanted)}")


def must_have(text, *wanted):
    for it in wanted:
        must(f"{shown(text)} lacks {it!r}", it in text)


def replayed(room, text, status, out, said, **how):
    must_be(ran(["replay", script(room, text)], **how), status, out, said)


def checked(room, text, status, out, said, **how):
    must_be(ran(["check", script(room, text)], **how), status, out, said)


def must_agree(room, printed):
    """What a replay printed is a trace that agrees, with all lines that have a reply."""
    checked(room, printed, 0, b"agrees %d\n" % printed.count(b" -> "), b"")

# How a run ends with each end, and what it says.
ENDS_OF_RUNS = {"quiet": (0, b""), "off": (0, b""), "history-full": (3, FULL), "stuck": (4, STUCK)}


def must_run(room, path, end, place=0):
    """Runs the program of this file, which must have this end, if one is given. What it prints is a trace that agrees, with its
    last line and without it; the same steps are replayed with the same answers, to the same board. Returns what it printed."""
    found = ran(["run", path], timeout=HANG)
    *lines, last = found.stdout.splitlines(keepends=True) or [b""]
    must(f"status {found.returncode}, and the last line is {last}, not the end {end}", last in [b"# end %s\n" % it.encode() for it in ENDS_OF_RUNS if end in (it, None)])
    status, said = ENDS_OF_RUNS[last.decode().split()[2]]
    must_be(found, status, None, said)
    events = [it for it in lines if b" -> " in it]
    record, steps = b"".join(lines), [it.partition(b" -> ")[0] + b"\n" for it in events]
    agrees = b"agrees %d\n" % len(events)
    own = os.path.join(room, str(place))
    for task, text, out in (("check", record, agrees), ("check", found.stdout, agrees), ("replay", b"".join([lines[0], *steps]), record)):
        must_be(ran([task, write(own, text)]), 0, out, b"")
    return found.stdout


def at_once(function, items):
    """What it returns of each, some at once."""
    with ThreadPoolExecutor(os.cpu_count()) as threads:
        return list(threads.map(function, items))


def many_runs(room, of, run):
    """Runs it many times, some at once, with the number of each; the first that is wrong is told, with its program."""
    with ThreadPoolExecutor(os.cpu_count()) as threads:
        runs = [threads.submit(run, place) for place in range(RUNS_OF_EACH)]
        try:
            for it in runs:
                it.result()
        except (AssertionError, subprocess.SubprocessError) as wrong:
            threads.shutdown(cancel_futures=True)
            raise AssertionError(f"a run of {of}: {wrong}") from None

ONE_BOARD = b"board 1 1 10 0 0x80000000 0x0\n"

TWO_HARTS = b"""\
board 2 4 100 0 0x80000000 0x0
at 0x80000000
ecall 0x48534d 0 1 0x80001000 0x7
at 0x80001000
ecall 0x48534d 1
"""

TRACE = b"board 1 1 10 0 0x80000000 0x0\n0 advance -> entry 0x80000000 0 0x0\n0 ecall 0x10 0 -> ret 0 0x1000000\n"

# A trace that differs, of which the line on standard output is the news.
DIFFERS = TRACE.replace(b"0x1000000", b"0x2000000")

SHORT = BOARD + b"0 advance\n"

# More than the program keeps before it writes.
LONG = BOARD + b"0 advance\n" * 10_000

# What is asked for goes to standard output, and what is wrong with it to standard error.
ASKED = (["--help"], ["--version"], *[[task, "--help"] for task in TASKS])

# Every operation, accepted and refused: calls, registers, starts, stops, suspends of both kinds, interrupts, the clock,
# accesses, fences and reboots.
EVERY = b"""\
0 advance
1 ecall 0x10 0
1 ecall 0x10 3 0x10
1 ecall 0x10 7
1 ecall 0x9 0
1 sie 0x22
1 sstatus 1
1 ecall 0x48534d 1
1 sstatus 0
1 sip
1 wfi
1 ecall 0x48534d 0 0 0x80000001 5
1 ecall 0x48534d 0 9 0x80000100 5
1 ecall 0x48534d 0 0 0x80000100 5
1 ecall 0x48534d 0 0 0x80000100 5
1 ecall 0x48534d 2 0
1 ecall 0x735049 0 0x1 0
0 advance
0 sip
0 sie 0x2
1 ecall 0x735049 0 0xff 0
1 ecall 0x735049 0 0 0xffffffffffffffff
0 wfi
0 clearssip
1 clearssip
1 ecall 0x54494d45 0 1
c tick 1
c tick 0xffffffffffffffff
c advance
1 wfi
1 ecall 0x54494d45 0 0xffffffffffffffff
0 ecall 0x48534d 3 5
0 ecall 0x48534d 3 0x80000000 0x80000200 6
0 advance
0 advance
1 ecall 0x735049 0 1 0
0 advance
0 advance
0 ecall 0x48534d 3 0
0 advance
0 advance
0 advance
0 clearssip
1 store 0x80000008 0x22
1 store 0x80000004 0
1 amoadd 0x80000008 0
1 amocas 0x80000008 0 1
1 amomin.w 0x80000004 1
1 store1 0x80000007 1
1 store2 0x80000007 1
1 store4 0x80000004 1
1 amoswap 0x80000004 0
1 load 0x80000008
1 load 0
1 fetch 0x80000008
1 fetch 0x80000008
1 fencei
1 satp 0x8000500000080000
1 load 0x1000
1 fetch 0x8000000000
1 sfence 0x1000 5
1 sfence - -
1 satp 0
0 ecall 0x52464e43 1 0x3 0 0x1000 0x1000
0 poll
0 load 0x80000008
1 ecall 0x52464e43 0 0x1 0
0 serve
1 serve
0 poll
1 poll
1 poll
1 serve
0 ecall 0x52464e43 2 0x2 0 0 0 0x10005
1 serve
0 poll
1 ecall 0x52464e43 1 0x4 0
1 ecall 0x52464e43 1 0x1 0 3 0xfffffffffffffffe
1 ecall 0x52464e43 3 0x1 0
1 ecall 0x52464e43 1 0 0xffffffffffffffff
0 ecall 0x48534d 1
1 poll
0 sip
0 load 0x80000008
0 advance
2 sip
2 sfence - 1
c fencei
c poll
c serve
2 serve
1 ecall 0x10 3 0x53525354
1 ecall 0x53525354 1
1 ecall 0x53525354 0 3
1 ecall 0x53525354 0 0xf0000000
1 ecall 0x53525354 0 0 2
1 ecall 0x48534d 0 0 0x80000100 5
0 advance
0 ecall 0x52464e43 1 0x2 0
1 ecall 0x53525354 0 1 1
0 poll
0 advance
1 advance
1 ecall 0x53525354 0 2 0xe0000000
1 advance
"""

# The end of a board, after which each step is refused.
LAST = b"1 advance\n1 ecall 0x53525354 0 0 0\n1 advance\n2 sip\nc tick 1\n"


def every(steps, limit):
    """A schedule of so many steps of every operation, which answer the same in each round."""
    lines = EVERY.splitlines(keepends=True)
    rounds = b"1 advance\n" + EVERY * (steps // len(lines) + 1)
    return b"board 2 1 %d 1 0x80000000 7\n" % limit + b"".join(rounds.splitlines(keepends=True)[:steps])


def compilers():
    """The commands that could compile C here: the machine's, and the toolchain's, which has no C library's headers."""
    yield ["cc"]
    rt = subprocess.run(["rt", "doc"], capture_output=True, timeout=60) if shutil.which("rt") else None
    if rt and rt.returncode == 0:
        kit = os.path.dirname(os.fsdecode(rt.stdout.strip()))
        yield [os.path.join(kit, "toolchain/bin/clang"), "--target=x86_64-unknown-linux-gnu", "-nostdlib", "-fuse-ld=lld"]


def shim(room):
    """Compiles what refuses a chosen allocation and lists the sizes of all."""
    made = os.path.join(room, "refuse.so")
    for words in compilers():
        if shutil.which(words[0]):
            subprocess.run([*words, "-shared", "-fPIC", "-O1", "-o", made, SHIM], check=True, timeout=60)
            return made
    raise unittest.SkipTest("there is no C compiler")


def allocating(made, room, words, refused=0, thread=0, pass_fds=(), program=PROGRAM, cwd=None, **told):
    """Runs the program with that allocation or thread refused, and returns the run and the sizes of the allocations."""
    with open(os.path.join(room, "sizes"), "w+b") as sizes:
        env = {"LD_PRELOAD": made, "SIZES": str(sizes.fileno()), "REFUSED": str(refused), "THREAD": str(thread), **told}
        found = ran(words, program, env=env, pass_fds=[sizes.fileno(), *pass_fds], timeout=HANG, cwd=cwd)
        sizes.seek(0)
        return found, [int(it) for it in sizes.read().split()]


def calling(made, room, words, pass_fds=(), **how):
    """Runs the program, and returns the run, the sizes of its allocations, and for each kind of call of the system, by its letter
    (o, r, w: open, read, write), what each of them answered: for reads and writes the bytes moved. For t and T, where the start of
    a thread begins and ends, it is how many allocations there were."""
    with open(os.path.join(room, "calls"), "w+b") as calls:
        found, sizes = allocating(made, room, words, pass_fds=[calls.fileno(), *pass_fds], CALLS=str(calls.fileno()), **how)
        calls.seek(0)
        made_calls = [it.split() for it in calls.read().decode().splitlines()]
        return found, sizes, {kind: [int(moved) for it, moved in made_calls if it == kind] for kind in "orwtT"}


def piping(text, piece, run):
    """Runs with the number of a descriptor, from which the text comes through a pipe, so many bytes at a time."""
    reading, writing = os.pipe()

    def write():
        with os.fdopen(writing, "wb", buffering=0) as pipe:
            for at in range(0, len(text), piece):
                pipe.write(text[at : at + piece])

    with ThreadPoolExecutor(1) as writer:
        written = writer.submit(write)
        try:
            return run(reading)
        finally:
            os.close(reading)
            written.result()
