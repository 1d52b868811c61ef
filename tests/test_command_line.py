"""Words of a command line, and what is said of each outcome."""
import os
import shutil
import subprocess
from unittest import SkipTest

from .fixtures import FAILED_IO, ROOT, TASKS, Test, must, must_be, ran, shown, stored

# Words, with what the fault of usage says; every one shows how the program is called.
USAGE = [
    ([], b"'sbiboard' requires a subcommand but one was not provided\n  [subcommands: run, replay, check, help]", b"<COMMAND>"),
    (["fly"], b"unrecognized subcommand 'fly'", b"<COMMAND>"),
    (["run"], b"the following required arguments were not provided:\n  <FILE>", b"run <FILE>"),
    (["run", "a", "b"], b"unexpected argument 'b' found", b"run [OPTIONS] <FILE>"),
    (["run", "--keep", "a"], b"the following required arguments were not provided:\n  <FILE>", b"run --keep <FILE2> <FILE>"),
    (["run", "--keep", "a", "b", "c"], b"unexpected argument 'c' found", b"run [OPTIONS] <FILE>"),
    (["run", "a", "--keep=b", "--", "c"], b"unexpected argument 'c' found", b"run [OPTIONS] <FILE>"),
    (["run", "--keep=a", "b", "--keep", "c"], b"the argument '--keep <FILE2>' cannot be used multiple times", b"run [OPTIONS] <FILE>"),
    (["run", "a", "--keep"], b"a value is required for '--keep <FILE2>' but none was supplied", None),
    (["run", "--keep", "--", "a"], b"a value is required for '--keep <FILE2>' but none was supplied", None),
    (["replay"], b"the following required arguments were not provided:\n  <FILE>", b"replay <FILE>"),
    (["replay", "a", "b"], b"unexpected argument 'b' found", b"replay <FILE>"),
    (["check"], b"the following required arguments were not provided:\n  <FILE>", b"check <FILE>"),
    (["check", "a", "b"], b"unexpected argument 'b' found", b"check <FILE>"),
    (["--fly"], b"unexpected argument '--fly' found", b"<COMMAND>"),
    (["run", "--fly"], b"unexpected argument '--fly' found\n\n  tip: to pass '--fly' as a value, use '-- --fly'", b"run [OPTIONS] <FILE>"),
    (
        ["run", "--keep", "a", "--fly"],
        b"unexpected argument '--fly' found\n\n  tip: to pass '--fly' as a value, use '-- --fly'",
        b"run --keep <FILE2> <FILE>",
    ),
    (["replay", "--fly"], b"unexpected argument '--fly' found\n\n  tip: to pass '--fly' as a value, use '-- --fly'", b"replay <FILE>"),
    (["check", "--fly"], b"unexpected argument '--fly' found\n\n  tip: to pass '--fly' as a value, use '-- --fly'", b"check <FILE>"),
]

# The faults of a script by their numbers, as help names them.
FAULT_TEXTS = {
    1: b"a byte that is neither printable ASCII nor a tab",
    2: b"the first line with words isn't a board line, or no line has words",
    3: b"no operation or reply has this name, or its block doesn't allow the operation",
    4: b"not a number, or a number too large for its place",
    5: b"too few or too many words",
    6: b"a line of another kind of script, or an operation before any block",
    7: b"a second block with the same address, or a second block of the clock",
    8: b"more than 16,777,216 bytes",
}

# Words that the script answers as the program does, also before there is one.
SAID_EARLY = [["--version"], ["fly"], ["fly", "a"], ["--fly"]]

# What the script reads before it builds.
READ_EARLY = ("sbiboard", "crates.txt", "HANDLES", "tools/front", "crates/sbiboard/src/lib.rt", "crates/command_line/src/words.rt", "crates/sbiboard_test/src/command_line.rt")

# Lines of a run that keeps its record.
KEPT_EARLY = (["--keep", "k", "none"], ["--keep=k", "none"], ["none", "--keep", "k"], ["none", "--keep=k", "--"], ["--keep", "k", "--", "none"])

FAULTS_EARLY = ([], ["a", "b"], ["--fly"], ["a", "--fly"], ["--"], ["a", "--", "b"], ["--", "a", "b"], ["--", "--", "--"])


def unbuilt(room):
    """A copy of the script that runs the program, and of what it reads, where nothing is built."""
    for name in READ_EARLY:
        source, target = os.path.join(ROOT, name), os.path.join(room, name)
        os.makedirs(os.path.dirname(target), exist_ok=True)
        (shutil.copytree if os.path.isdir(source) else shutil.copy)(source, target)
    return os.path.join(room, "sbiboard")


# What the program of the worked rows says, which ends runs of its own with each outcome and each failure in turn.
ENDINGS = b"""\
sbiboard: line 12: fault 5
sbiboard: bad board
sbiboard: wrong kind of script
sbiboard: history full
sbiboard: no memory
sbiboard: input or output failed
sbiboard: input or output failed
sbiboard: input or output failed
sbiboard: input or output failed
sbiboard: input or output failed
sbiboard: no memory
sbiboard: no memory
"""


class CommandLine(Test):
    def test_faults_of_usage(self):
        for words, said, called in USAGE:
            called = b"Usage: sbiboard %s\n\n" % called if called else b""
            said = b"error: %s\n\n%sFor more information, try '--help'.\n" % (said, called)
            must_be(ran(words, cwd=self.room), 2, b"", said)

    def test_help(self):
        """Help, of which the whole text is stored."""
        for name, asked_by in (
            ("help.txt", (["--help"], ["-h"], ["help"])),
            ("help-run.txt", (["run", "--help"], ["run", "-h"], ["help", "run"])),
            ("help-replay.txt", (["replay", "--help"], ["replay", "-h"], ["help", "replay"])),
            ("help-check.txt", (["check", "--help"], ["check", "-h"], ["help", "check"])),
        ):
            for words in asked_by:
                must_be(ran(words, cwd=self.room), 0, stored(name), b"")

    def test_help_names_the_faults(self):
        wanted = [b"  %d  %s" % it for it in FAULT_TEXTS.items()]
        for task in TASKS:
            told = ran([task, "--help"], cwd=self.room).stdout
            _, _, rest = told.partition(b"Faults of a script")
            faults, _, _ = rest.partition(b"\n\n")
            must(f"{task} names {shown(faults)}", faults.splitlines()[1:] == wanted)

    def test_version(self):
        for words in (["--version"], ["-V"]):
            must_be(ran(words, cwd=self.room), 0, b"sbiboard 0.1.0\n", b"")

    def test_the_script_before_the_build(self):
        """The script answers help, the version, faults of usage and a missing file in the program's words, and builds nothing."""
        front = unbuilt(self.room)
        asked = lambda words: subprocess.run([front, *words], stdin=subprocess.DEVNULL, capture_output=True, timeout=30)
        faults = [[task, *it] for task in TASKS for it in FAULTS_EARLY]
        for words in (*SAID_EARLY, *faults, *[words for words, _, _ in USAGE if words]):
            wanted = ran(words, cwd=self.room)
            must_be(asked(words), wanted.returncode, wanted.stdout, wanted.stderr)
        early, told = asked(["--help"]), ran(["--help"], cwd=self.room).stdout
        tasks = [line.split()[0] for line in early.stdout.partition(b"Commands:\n")[2].partition(b"\n\n")[0].splitlines()]
        if early.returncode or told[told.index(b"Examples:") :] not in early.stdout or tasks != [b"test", b"explore", b"run", b"replay", b"check", b"help"]:
            raise AssertionError(f"before the build help is {shown(early.stdout)}")
        overview = asked([])
        must(f"without words the script says {shown(overview.stderr)}", overview.returncode == 2 and not overview.stdout and all(b"\n  " + task + b" " in overview.stderr for task in tasks[:-1]))
        for task in TASKS:
            for words in ([task, "none"], [task, "none", "--"], [task, "--", "none"], [task, self.room], ["--try", task, "none"]):
                must_be(asked(words), 7, b"", FAILED_IO)
        for words in KEPT_EARLY:
            must_be(asked(["run", *words]), 7, b"", FAILED_IO)

    def test_what_is_said_of_each_outcome(self):
        """What is said of an outcome that no run of the program has yet, and of each other one."""
        rows = os.path.join(ROOT, "crates/rows/out/rows")
        if not os.access(rows, os.X_OK):
            raise SkipTest("there is no built program of the rows: rt ci leaves it")
        found = subprocess.run([rows], stdin=subprocess.DEVNULL, capture_output=True, timeout=60, cwd=self.room)
        must_be(found, 0, None, ENDINGS)
