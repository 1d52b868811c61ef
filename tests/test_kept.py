"""Records that are kept while a run goes on: whole, of a run that was killed, and where they can't be written."""
import os
import random
import resource
import signal
import subprocess
import time
from unittest import SkipTest

from . import programs
from .fixtures import (
    BAD_BOARD, BOARD, FAILED_IO, FULL, HANG, ONE_BOARD, PROGRAM, ROOT, STUCK, TRACE, TWO_HARTS, WRONG_KIND, Test, allocating, must, must_be, piping, ran,
    read_bytes, script, shim, shown, write,
)  # fmt: skip

# How many runs are killed.
KILLS = 100

# The system takes a write in pieces of so many bytes of a file, and a kill may come between two of them.
PAGE = 4_096

# What the guides say that drops the last line of a file where it has no line feed.
MENDS = """[ -z "$(tail -c 1 kept.trace)" ] || sed -i '$d' kept.trace"""


def working(harts, times):
    """A program of harts that each do so many operations: lines of three lengths, and no two harts stand at one line for long."""
    lines = [f"board {harts} 1 1000000 0 0x80000000 0x0", "at 0x80000000"]
    lines += [f"ecall 0x48534d 0 {it} 0x80000100 {it}" for it in range(1, harts)]
    body = ["sip", "ecall 0x10 0", "store 0x80000200 0x123456789abcdef"]
    body = (body * (times // len(body) + 1))[:times]
    return "\n".join([*lines, *body, "at 0x80000100", *body, ""]).encode()


def kept_of(printed):
    """What is kept of a run that printed this: the board line, and the events."""
    lines = printed.splitlines(keepends=True)
    return b"".join([*lines[:1], *[it for it in lines if b" -> " in it]])


def read(path):
    return read_bytes(path)


def kept_run(room, path, status, said, *words):
    """Runs a program with `--keep`; what is kept are the lines that it printed. Returns what it printed."""
    kept = os.path.join(room, "kept")
    found = ran(["run", *(words or ["--keep", kept]), path], timeout=HANG, cwd=room)
    must_be(found, status, None, said)
    must(f"it kept {shown(read(kept))}, and printed {shown(found.stdout)}", read(kept) == kept_of(found.stdout))
    return found.stdout


ENDED = {"quiet": (0, b""), "off": (0, b""), "history-full": (3, FULL), "stuck": (4, STUCK)}


def limited(most):
    """What sets the size that a file may have; a write behind it then fails, as on a full disk."""

    def limit():
        signal.signal(signal.SIGXFSZ, signal.SIG_IGN)
        resource.setrlimit(resource.RLIMIT_FSIZE, (most, most))

    return limit


def mended(path, cut):
    """The command of the guides drops what stands behind the last line feed, and else nothing."""
    subprocess.run(["sh", "-c", MENDS.replace("kept.trace", path)], check=True, timeout=HANG)
    wanted = cut[: cut.rfind(b"\n") + 1]
    must(f"mended {shown(cut[-200:])} is {shown(read(path)[-200:])}", read(path) == wanted)


def traced(room, path):
    """How many calls of the system write into the file, as strace tells."""
    told = os.path.join(room, "told")
    try:
        subprocess.run(
            ["strace", "-f", "-e", "trace=write", "-o", told, PROGRAM, "run", "--keep", os.path.join(room, "kept"), path],
            check=True,
            timeout=HANG,
            stdout=subprocess.DEVNULL,
            stdin=subprocess.DEVNULL,
        )
    except FileNotFoundError:
        raise SkipTest("there is no strace") from None
    return [it for it in read(told).splitlines() if b" -> " in it]


class KeptRecords(Test):
    def test_a_kept_record_is_the_record(self):
        """What is kept of a run is what it prints of the record, of each end, with 1 to 8 harts and with 128; and it is a trace."""
        some = [(TWO_HARTS, "quiet"), (ONE_BOARD + b"at 0x80000000\nwfi\n", "stuck"), (BOARD, "quiet")]
        some += [(working(harts, 3_000 // harts), "quiet") for harts in range(1, 9)]
        some += [(it.text, it.end) for it in programs.MANY.values()]
        for text, end in some:
            path = script(self.room, text)
            for words in ([], ["--keep=kept"], ["--keep", "kept", "--"]):
                printed = kept_run(self.room, path, *ENDED[end], *words)
            kept = read(os.path.join(self.room, "kept"))
            must_be(ran(["check", "kept"], cwd=self.room), 0, b"agrees %d\n" % (kept.count(b"\n") - 1), b"")
            must(f"{shown(text)}: its record is {shown(kept)}", printed.startswith(kept))

    def test_a_kept_record_and_its_file(self):
        """FILE2 stands before FILE or behind it; what it had is dropped; and it may be a stream."""
        path, kept = script(self.room, TWO_HARTS), os.path.join(self.room, "kept")
        printed = ran(["run", path]).stdout
        for words in (["--keep", kept, path], ["--keep=" + kept, path], [path, "--keep", kept], [path, f"--keep={kept}", "--"]):
            write(kept, b"an older record\n" * 1_000)
            must_be(ran(["run", *words]), 0, printed, b"")
            must(f"{words}: it kept {shown(read(kept))}", read(kept) == kept_of(printed))
        must_be(ran(["run", "--keep", "/dev/null", path]), 0, printed, b"")
        must_be(ran(["run", "--keep", "/dev/stderr", path]), 0, printed, kept_of(printed))

    def test_a_run_with_a_kept_record(self):
        """With `--keep` a run prints, says and ends as without it, where its order is the only one: also with no script, and no run."""
        kept = os.path.join(self.room, "kept")
        alone = b"at 0x80000000\n"
        rest = [alone, alone + b"sip\n" * 300, alone + b"wfi\n", alone + b"ecall 0x53525354 0 0 0\n", b"0 fly\n", b"at 0x10\ntick 1\n"]
        for head in (ONE_BOARD, ONE_BOARD.replace(b" 10 ", b" 1000 "), b"board 0 1 10 0 0x80000000 0x0\n", b"fly\n"):
            for text in [head + it for it in rest] + [head, TRACE]:
                path = script(self.room, text)
                found = ran(["run", path])
                must_be(ran(["run", "--keep", kept, path]), found.returncode, found.stdout, found.stderr)

    def test_nothing_to_keep(self):
        """What is no program is a fault as without `--keep`, and leaves FILE2 as it was; and so does a program that isn't there."""
        kept = os.path.join(self.room, "kept")
        write(kept, b"an older record\n")
        for text, status, said in (
            (TRACE, 1, WRONG_KIND),
            (b"board 0 1 10 0 0x80000000 0x0\n", 1, BAD_BOARD),
            (b"fly\n", 1, b"sbiboard: line 1: fault 2\n"),
        ):
            for file in (kept, os.path.join(self.room, "none", "kept")):
                must_be(ran(["run", "--keep", file, script(self.room, text)]), status, b"", said)
        must_be(ran(["run", "--keep", kept, os.path.join(self.room, "none")]), 7, b"", FAILED_IO)
        must("the older record is gone", read(kept) == b"an older record\n")

    def test_no_place_for_a_kept_record(self):
        """Where FILE2 can't be made nothing is run or printed, and so where it is the program itself, which stays as it is."""
        path = script(self.room, TWO_HARTS)
        for kept in (os.path.join(self.room, "none", "kept"), self.room, "", os.path.join(self.room, "k" * 256), path, os.path.join(self.room, "./a.sched")):
            must_be(ran(["run", "--keep", kept, path]), 7, b"", FAILED_IO)
        os.link(path, os.path.join(self.room, "linked"))
        must_be(ran(["run", "--keep", os.path.join(self.room, "linked"), path]), 7, b"", FAILED_IO)
        must("the program is gone", read(path) == TWO_HARTS)

    def test_a_kept_record_on_another_file_system(self):
        """FILE2 may have the program's number on another file system: it is another file. (Here each file has one number.)"""
        made, kept = shim(self.room), write(os.path.join(self.room, "kept"), b"an older record\n")
        run = lambda reading: allocating(made, self.room, ["run", "--keep", kept, f"/dev/fd/{reading}"], pass_fds=[reading], INODE="7")[0]
        must_be(piping(TWO_HARTS, 100, run), 0, None, b"")
        must("nothing is kept", b" -> " in read(kept))
        path = script(self.room, TWO_HARTS)
        must_be(allocating(made, self.room, ["run", "--keep", kept, path], INODE="7")[0], 7, b"", FAILED_IO)

    def test_a_kept_record_on_a_full_disk(self):
        """Where FILE2 can't be written any more, the run goes on to its end, prints all, and ends with status 7. What is kept is as
        much of the record as there was room for, and where that ends in a line, the command of the guides drops it."""
        kept = os.path.join(self.room, "kept")
        for harts in (1, 2, 8):
            path = script(self.room, working(harts, 3_000 // harts))
            must_be(ran(["run", "--keep", "/dev/full", path], timeout=HANG), 7, None, FAILED_IO)
            for most in (0, 1, 41, 42, 43, 100, 4_096, 5_001, 65_536):
                if os.path.exists(kept):
                    os.remove(kept)
                found = ran(["run", "--keep", kept, path], timeout=HANG, preexec_fn=limited(most))
                must_be(found, 7, None, FAILED_IO)
                must(f"a limit of {most}: the run hasn't come to its end", found.stdout.count(b" -> ") >= 3_000 and found.stdout.endswith(b"# end quiet\n"))
                cut = read(kept)
                must(f"a limit of {most}: it kept {shown(cut)}", cut == kept_of(found.stdout)[:most])
                mended(kept, cut)
                if cut.count(b"\n"):
                    must_be(ran(["check", kept]), 0, b"agrees %d\n" % (cut.count(b"\n") - 1), b"")

    def test_mending_a_kept_record(self):
        """The command that mends a kept record, on whole and cut ones; it stands in the guides."""
        for name in ("FORMATS.md", "MANY_RUNS.md"):
            must(f"{name} lacks the command", MENDS.encode() in read(os.path.join(ROOT, "docs", name)))
        path = os.path.join(self.room, "kept")
        for text in (b"", b"a\n", b"a\nb\n", b"a\nb", b"a\nb\nc -> d", b"a"):
            write(path, text)
            mended(path, text)

    def test_a_kept_record_of_a_killed_run(self):
        """Runs are killed at 100 moments that are spread over a long one. What each leaves is a beginning of a record, in whole
        lines, with which `check` agrees. A line may be cut where a page of the file ends, since the system takes a write in such
        pieces: once in a great many kills. It is mended as after a full disk."""
        kept = os.path.join(self.room, "kept")
        some, lengths, cuts = random.Random(1), set(), 0
        paths = []
        for harts in (1, 3, 8):
            paths.append(os.path.join(self.room, f"{harts}.program"))
            write(paths[-1], working(harts, 240_000 // harts))
        begun = time.monotonic()
        must_be(ran(["run", "--keep", kept, paths[1]]), 0, None, b"")
        long = time.monotonic() - begun
        for place in range(KILLS):
            if os.path.exists(kept):
                os.remove(kept)
            words = ["sbiboard", "run", "--keep", kept, paths[place % len(paths)]]
            run = subprocess.Popen(words, executable=PROGRAM, stdin=subprocess.DEVNULL, stdout=subprocess.DEVNULL)
            time.sleep(long * 0.9 * (place + some.random()) / KILLS)
            run.kill()
            run.wait(HANG)
            left = read(kept) if os.path.exists(kept) else b""
            if not left:
                continue
            if not left.endswith(b"\n"):
                must(f"kill {place} of {len(left)} bytes: it ends in {shown(left[-200:])}", not (len(left) % PAGE))
                cuts += 1
                mended(kept, left)
                left = read(kept)
            must_be(ran(["check", kept]), 0, b"agrees %d\n" % (left.count(b"\n") - 1), b"")
            lengths.add(len(left))
        must(f"of {KILLS} killed runs {len(lengths)} lengths were left, and {cuts} lines cut", len(lengths) >= KILLS // 2 and cuts <= KILLS // 10)

    def test_a_kept_record_grows(self):
        """Each line is written as soon as its step was done, by one call of the system for one line or several."""
        writes = traced(self.room, script(self.room, ONE_BOARD.replace(b" 10 ", b" 1000 ") + b"at 0x80000000\n" + b"sip\n" * 99))
        must(f"a hart alone: {len(writes)} writes, the first {shown(b' '.join(writes[:3]))}", len([it for it in writes if it.count(b" -> ") == 1]) >= 100)

    def test_no_kept_record_of_a_replay(self):
        """The other subcommands keep no record: that is a fault of usage, as any option that isn't there."""
        for task, text in (("replay", BOARD), ("check", TRACE)):
            path = script(self.room, text)
            for words in (["--keep", "kept", path], [path, "--keep", "kept"], ["--keep=kept", path]):
                found = ran([task, *words], cwd=self.room)
                must_be(found, 2, b"", None)
                must(f"{task} said {shown(found.stderr)}", b"error: unexpected argument '--keep' found" in found.stderr)
            must(f"{task} made the file", not os.path.exists(os.path.join(self.room, "kept")))
