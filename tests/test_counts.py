"""How tests are counted: one whose tool is missing is skipped, by the runner and in the sum of all."""
import os
import shutil
import subprocess
import sys

from .fixtures import HANG, HERE, ROOT, Test, must, read, write

# A test for each tool that some need, and a word that names what is missing.
NEEDING = [
    ("each allocation refused", "C compiler"), ("what fences cost", "valgrind"), ("a kept record grows", "strace"), ("points are read by others", "prove"),
    ("pages name the toolchain", "rt"), ("timelines in a browser", "chromium"), ("timelines: pages are drawn", "node"),
    ("a fresh record: interrupts", "qemu-system-riscv64"), ("two crates at a time, by the toolchain", "toolchain"), ("spin counts the same states", "spin"),
]  # fmt: skip

# Tests of each end, which stand beside a copy of the runner.
OWN = """from .fixtures import Test, named


class Some(Test):
    programs = ()

    def test_good(self):
        self.assertTrue(self.room)

    def test_good__enough(self):
        pass

    def test_bad(self):
        self.fail("it is red")

    def test_in_parts(self):
        for it in range(3):
            with self.subTest(it):
                self.assertEqual(it, 1, "no")

    def test_lacking(self):
        self.skipTest("a tool is missing")

    def test_broken(self):
        {}["key"]


class Unbuilt(Test):
    programs = ("/none",)

    def test_not_run(self):
        pass
"""
LACKING, LACKED = "lacking: skipped: a tool is missing", "lacking: FAILED: skipped: a tool is missing"
BAD, BROKEN = "bad: FAILED: it is red", "broken: FAILED: KeyError: 'key'"

# Words of the runner, the status, and the lines that tell of those tests, for all and for what a word names.
ENDS = [
    (["-k", "good"], 0, ["1 passed, 0 failed, 0 skipped"]), (["-k", "goo"], 0, ["2 passed, 0 failed, 0 skipped"]),
    (["-k", "good: enough"], 0, ["1 passed, 0 failed, 0 skipped"]), (["-k", "bad"], 1, [BAD, "0 passed, 1 failed, 0 skipped"]),
    (["-k", "good", "-k", "lacking"], 0, [LACKING, "1 passed, 0 failed, 1 skipped"]), (["-k", "lacking"], 1, [LACKING, "0 passed, 0 failed, 1 skipped"]),
    (["-k", "nothing"], 1, ["0 passed, 0 failed, 0 skipped"]), (["-k", "lacking", "--no-skips"], 1, [LACKED, "0 passed, 1 failed, 0 skipped"]),
    (["-k", "broken"], 1, [BROKEN, "0 passed, 1 failed, 0 skipped"]), (["-k", "Some"], 1, [BAD, BROKEN, LACKING, "2 passed, 3 failed, 1 skipped"]),
    (["-k", "in parts"], 1, ["0 passed, 1 failed, 0 skipped"]), (["-k", "not run"], 1, ["0 passed, 1 failed, 0 skipped"]),
    ([], 1, [BAD, BROKEN, LACKING, "2 passed, 4 failed, 1 skipped"]), (["--no-skips"], 1, [BAD, BROKEN, LACKED, "2 passed, 5 failed, 0 skipped"]),
]  # fmt: skip

# Last lines of the two parts, each with its status, and the last line of all.
SUMS = [
    (("3 passed, 0 failed", 0), ("5 passed, 0 failed, 2 skipped", 0), "8 passed, 0 failed, 2 skipped"),
    (("3 passed, 1 failed", 1), ("5 passed, 2 failed, 2 skipped", 1), "8 passed, 3 failed, 2 skipped"),
    (("3 passed, 0 failed", 1), ("5 passed, 0 failed, 0 skipped", 0), "8 passed, 1 failed, 0 skipped"),
    (("3 passed, 0 failed", 0), ("no last line", 0), "3 passed, 1 failed, 0 skipped"),
    (("3 passed, 0 failed (a alone: not the gate)", 0), ("5 passed, 0 failed, 0 skipped", 1), "5 passed, 2 failed, 0 skipped"),
    (("3 passed, 0 failed", 0), ("1 passed, 0 failed,", 0), "3 passed, 1 failed, 0 skipped"),
]


def run(words, folder, path):
    return subprocess.run(words, cwd=folder, env={"PATH": path}, stdin=subprocess.DEVNULL, capture_output=True, text=True, timeout=2 * HANG)


def must_end(found, status, last, *told):
    said = f"{found.args}: status {found.returncode}, it printed {found.stdout[-400:]!r} and said {found.stderr[-200:]!r}"
    must(said, found.returncode == status and found.stdout.splitlines()[-1:] == [last] and all(it in found.stdout for it in told))


def part(folder, name, last, status):
    """A part of `./test` that says what it was asked, and ends so."""
    path = os.path.join(folder, name)
    os.makedirs(os.path.dirname(path), exist_ok=True)
    write(path, f'#!/bin/bash\necho "{name} $*" >> {folder}/called\necho "7 passed, 7 failed, 7 skipped"\necho "{last}"\nexit {status}\n')
    os.chmod(path, 0o755)


class Counts(Test):
    programs = ()

    def test_tests_without_their_tools_are_skipped(self):
        """With no tool on the path the runner says which test is skipped, and why, and counts no test as passed."""
        for name, missing in NEEDING:
            words = [sys.executable, os.path.join(HERE, "run"), "-k", name]
            must_end(run(words, ROOT, self.room), 1, "0 passed, 0 failed, 1 skipped", f"{name}: skipped: ", missing)
            must_end(run([*words, "--no-skips"], ROOT, self.room), 1, "0 passed, 1 failed, 0 skipped", f"{name}: FAILED: skipped: ", missing)

    def test_ends_of_tests_are_counted(self):
        """One of each end, and runs in which nothing passed."""
        own = os.path.join(self.room, "tests")
        os.mkdir(own)
        for name in ("run", "__init__.py", "fixtures.py"):
            shutil.copy(os.path.join(HERE, name), own)
        write(os.path.join(own, "test_own.py"), OWN)
        for words, status, wanted in ENDS:
            found = run([sys.executable, os.path.join(own, "run"), *words], self.room, os.environ["PATH"])
            lines = [it for it in found.stdout.splitlines() if it in (BAD, BROKEN, LACKING, LACKED) or " passed, " in it]
            must(f"{words}: {found}", (found.returncode, lines) == (status, wanted))
        found = run([sys.executable, os.path.join(own, "run"), "--list"], self.room, os.environ["PATH"])
        must(f"{found}", found.stdout.splitlines() == ["bad", "broken", "good", "good: enough", "in parts", "lacking", "not run"])

    def test_all_parts_of_the_tests_are_summed(self):
        """The sum of all parts has what they skipped, and each part is asked for --no-skips; one that ends otherwise has failed."""
        shutil.copy(os.path.join(ROOT, "test"), self.room)
        front, path = os.path.join(self.room, "test"), f"{self.room}/bin:{os.environ['PATH']}"
        for first, second, last in SUMS:
            part(self.room, "bin/rt", *first)
            part(self.room, "tests/run", *second)
            must_end(run([front], self.room, path), 0 if " 0 failed" in last else 1, last)
        os.remove(os.path.join(self.room, "called"))
        run([front, "--no-skips"], self.room, path)
        called = read(os.path.join(self.room, "called")).splitlines()
        must(f"--no-skips isn't asked of each part: {called}", called == ["bin/rt ci", "tests/run --no-skips"])
        # (a part that asks a child is answered, also where a parent has left it ignored that children end)
        asks = "#!/usr/bin/env python3\nimport subprocess\nprint('1 passed,', subprocess.run(['false']).returncode, 'failed')\n"
        for name in ("bin/rt", "tests/run"):
            write(os.path.join(self.room, name), asks)
        must_end(run(["bash", "-c", f"trap '' CHLD; exec {front}"], self.room, path), 1, "2 passed, 2 failed, 0 skipped")
        found = run([front, "--quick"], self.room, path)
        must(f"of another word: {found}", (found.returncode, found.stdout) == (2, ""))
