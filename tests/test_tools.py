"""What every tool of tools/ does alike: it answers --help, and ends quietly where nobody reads on; and what those that check tell."""
import os
import re
import shutil
import signal
import subprocess
import sys

from .fixtures import EXAMPLES, RECORDS, ROOT, Test, must, read, write

TOOLS = os.path.join(ROOT, "tools")
# Words with which a tool prints something at once, where there are some.
RECORD = os.path.join(RECORDS, "survey.record")
PRINTS = {
    "adding": ["mode"], "map": ["--check"], "names": ["--all"], "trusted-reading": ["laws"], "record-stats": [RECORD], "to-trace": [RECORD], "mutants": ["--check", "-v", "hsm"],
    "timeline": [os.path.join(EXAMPLES, "version.trace")],
}  # fmt: skip


def tools():
    """The tools that are commands."""
    found = [it for it in sorted(os.listdir(TOOLS)) if os.path.isfile(os.path.join(TOOLS, it)) and os.access(os.path.join(TOOLS, it), os.X_OK)]
    must(f"{found}", set(PRINTS) < set(found))
    return found


def unread(words, **how):
    """A run whose standard output nobody reads, and that of whose standard error is read, unless it goes there too."""
    reading, writing = os.pipe()
    os.close(reading)
    try:
        return subprocess.run(words, stdin=subprocess.DEVNULL, stdout=writing, timeout=60, **{"stderr": subprocess.PIPE, **how})
    finally:
        os.close(writing)


# The options of each tool that name a file or a folder, and what else it is given.
NAMING = (
    ("record", ("--bios", "--dtb", "--console", "--out"), ["image"]), ("to-trace", ("--conditions", "--symbols", "--out"), ["--report", RECORD]), ("record-stats", ("--page",), [RECORD]),
    ("measure-firmware", ("--linux", "--keep", "--bios"), ["--stored"]), ("fuzz-firmware", ("--keep", "--bios", "--image", "--write", "--read"), ["--seeds", "1"]),
)  # fmt: skip

# What is changed in a checkout, a text by its file and the one that stands for it (None: the file is new), and what is told then.
WRONG_FOR_MAP = (
    ("docs/ARCHITECTURE.md", "  hart_mask-->sbi_abi\n", "", "docs/ARCHITECTURE.md is old: run tools/map\n"), ("docs/DEFINITIONS.md", "# Definitions", "# Definition", "docs/DEFINITIONS.md is old: run tools/map\n"),
    ("crates.txt", "\ntlb_model:", "\ntlb_model: hsm", "docs/ARCHITECTURE.md is old: run tools/map\n"),
)  # fmt: skip
WRONG_FOR_NAMES = (
    ("crates/hsm/src/own.rt", None, "pub fn told_twice() {}\n", "two meanings: told_twice: crates/hsm/src/own.rt:1, crates/sv39/src/own.rt:1\n"),
    ("tools/allowed-names", None, "not_there hsm sv39: there was one\n", "allowed, and has one meaning: not_there\n"),
)  # fmt: skip


def checkout(room):
    """What the tools read that check names and pages."""
    root = os.path.join(room, "checkout")
    for name in ("tools", "docs", "crates"):
        shutil.copytree(os.path.join(ROOT, name), os.path.join(root, name), ignore=shutil.ignore_patterns("__pycache__", "out", "proofs", "must-fail", "data"))
    shutil.copy(os.path.join(ROOT, "crates.txt"), root)
    write(os.path.join(root, "crates/sv39/src/own.rt"), "pub fn told_twice() {}\n")
    return root


def checking(root, *words):
    found = subprocess.run([os.path.join(root, "tools", words[0]), *words[1:]], stdin=subprocess.DEVNULL, capture_output=True, text=True, timeout=60)
    return found.returncode, found.stdout, found.stderr


class Tools(Test):
    programs = ()

    def test_each_tool_answers_help(self):
        """--help and -h print a tool's text with its usage, and nothing else is done."""
        for name in tools():
            for word in ("--help", "-h"):
                found = subprocess.run([os.path.join(TOOLS, name), word], stdin=subprocess.DEVNULL, capture_output=True, text=True, timeout=60, cwd=self.room)
                told = f"usage: tools/{name}" in found.stdout and len(found.stdout.split("\n\n")) > 1
                must(f"{name} {word}: {found}", found.returncode == 0 and not found.stderr and told)
        must("a tool left something", not os.listdir(self.room))

    def test_each_bench_answers_help(self):
        """A bench is measured by hand, so that nothing else shows that its imports are there."""
        benches = sorted(it for it in os.listdir(os.path.join(ROOT, "bench")) if it.endswith(".py"))
        must(f"{benches}", "explore.py" in benches)
        for name in benches:
            found = subprocess.run([sys.executable, os.path.join(ROOT, "bench", name), "--help"], stdin=subprocess.DEVNULL, capture_output=True, text=True, timeout=60)
            must(f"{name}: status {found.returncode}: {found.stdout}{found.stderr}", not found.returncode and f"usage: {name}" in found.stdout)

    def test_each_tool_ends_quietly(self):
        """Where nobody reads on, each tool ends by the signal that other commands end by, and says nothing."""
        calls = [[os.path.join(TOOLS, name), *words] for name in tools() for words in (["--help"], PRINTS.get(name)) if words]
        for words in [*calls, *([os.path.join(ROOT, "sbiboard"), it] for it in ("--help", "--version", "--man"))]:
            found = unread(words)
            must(f"{words}: {found}", found.returncode == -signal.SIGPIPE and not found.stderr)
        # (nor where what it says goes the same way)
        must("names, with its errors", unread([os.path.join(TOOLS, "names"), "--all"], stderr=subprocess.STDOUT).returncode == -signal.SIGPIPE)

    def test_an_empty_name_is_no_file(self):
        """An option that names a file or a folder takes no empty name, as of a shell's variable that isn't set; the tool does nothing."""
        for name, options, words in NAMING:
            for option in options:
                for given in ([f"{option}="], [option, ""]):
                    found = subprocess.run([os.path.join(TOOLS, name), *given, *words], stdin=subprocess.DEVNULL, capture_output=True, text=True, timeout=60, cwd=self.room)
                    said = found.stderr.splitlines()[-1:]
                    must(f"{name} {given}: {found}", found.returncode == 2 and not found.stdout and said == [f"{name}: error: argument {option}: a name is wanted, and it is empty"])
        must("a tool left something", not os.listdir(self.room))

    def test_another_pipe_that_breaks_is_told(self):
        """A broken pipe that isn't standard output or error is an error like any other."""
        breaks = f"import sys; sys.path.insert(0, {TOOLS!r})\nfrom entry import run\ndef main(): raise BrokenPipeError\nrun(main, '')"
        found = subprocess.run([sys.executable, "-c", breaks], stdin=subprocess.DEVNULL, capture_output=True, text=True, timeout=60)
        must(f"{found}", found.returncode == 1 and "BrokenPipeError" in found.stderr)

    def test_what_the_system_refuses_is_told_in_one_line(self):
        """A full disk, a closed output and a file that isn't there are told in one line, with status 1."""
        for name in tools():
            words = PRINTS.get(name, ["--help"])
            for output, why in (("> /dev/full", "No space left on device"), (">&-", "standard output is closed")):
                found = subprocess.run(["bash", "-c", f'exec "$0" "$@" {output}', os.path.join(TOOLS, name), *words], stdin=subprocess.DEVNULL, stderr=subprocess.PIPE, text=True, timeout=60)
                must(f"{name} {output}: {found}", (found.returncode, found.stderr) == (1, f"{name}: {why}\n"))
        for name in ("record-stats", "timeline", "to-trace"):
            for file, why in (("none", "No such file or directory"), (".", "Is a directory")):
                found = subprocess.run([os.path.join(TOOLS, name), file], stdin=subprocess.DEVNULL, capture_output=True, text=True, timeout=60, cwd=self.room)
                must(f"{name} {file}: {found}", (found.returncode, found.stdout, found.stderr) == (1, "", f"{name}: {file}: {why}\n"))

    def test_the_status_of_a_child_counts(self):
        """A child's status is known also where the tool's parent ignores that children end, as some that begin jobs do."""
        calls = f"import subprocess, sys; sys.path.insert(0, {TOOLS!r})\nfrom entry import run\ndef main(): return subprocess.run(['false']).returncode\nrun(main, '')"
        found = subprocess.run(["bash", "-c", "trap '' CHLD; \"$0\" -c \"$1\"", sys.executable, calls], stdin=subprocess.DEVNULL, capture_output=True, text=True, timeout=60)
        must(f"{found}", found.returncode == 1 and not found.stderr)

    def test_the_tools_that_check_fail_where_something_is_wrong(self):
        """One wrong name, one old line of a page, or one crate more: the tool tells it, and its status is 1; and 0 where nothing is wrong."""
        root = checkout(self.room)
        checking(root, "map")
        for words, rows in ((["map", "--check"], WRONG_FOR_MAP), (["names"], WRONG_FOR_NAMES)):
            must(f"{words}: {checking(root, *words)}", checking(root, *words)[::2] == (0, ""))
            for name, old, new, wanted in rows:
                path = os.path.join(root, name)
                before = read(path) if os.path.exists(path) else ""
                must(f"{name} has no {old!r}", old is None or before.count(old) == 1)
                write(path, before + new if old is None else before.replace(old, new))
                status, out, said = checking(root, *words)
                must(f"{words}, {name}: status {status}, {out} {said}", (status, said) == (1, "") and wanted in out and len(re.findall(" is old: |two meanings: |one meaning: ", out)) == 1)
                write(path, before)
