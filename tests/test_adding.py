"""The page of additions: it forgets no file that names what is there of its kind, and `tools/adding` tells what is wrong."""
import os
import re
import shutil
import subprocess

from .fixtures import ROOT, Test, must, must_have, read, shown, write

PAGE = "docs/ADDING.md"
KINDS = ("quiet", "extension", "operation", "access", "mode", "number", "column")
# Most words of the page.
WORDS = 1_700

# A small repository: a crate whose paging modes stand in two files, and a tool and a test that list them, or that use one.
FILES = {
    "crates/low/src/paging.rt": "enum Paging { Sv39, Sv48 }\nfn width() {}\n",
    "crates/low/specs/Paging.antt": "scheme Sv48 = 48\n",
    "crates/low/proofs/WorkedMaps.antt": "loads by Sv48\n",
    "crates/high/src/page.rt": "enum Level { Kilo, Giga }\n",
    "crates/high/specs/Paging.antt": "fewest : 1\n",
    "crates/printed_lines/proofs/HexText.antt": "39 or 48\n",
    "tools/model.py": "WIDTHS = {8: 39, 9: 48}\n",
    "tests/test_modes.py": "from model import sv39, sv48\n" + "\n" * 30 + "load('sv48')\n",
    "README.md": "A board.\n",
}
GOOD = "# Adding\n\n## A paging mode\n\n1. `low/src/paging.rt` (`width`), `specs/Paging.antt`.\n2. `high`: `src/page.rt`. `tools/model.py`.\n\n## Others\n"

# What is changed in the page, or in a file, and what is told then.
FAULTS = [
    (PAGE, ", `specs/Paging.antt`", "", "forgotten: crates/low/specs/Paging.antt"),
    (PAGE, " `tools/model.py`.", "", "forgotten: tools/model.py"),
    (PAGE, "`tools/model.py`", "`tools/models.py`", "wrong: the page names tools/models.py, which isn't there"),
    (PAGE, "`low/src/paging.rt` (`width`), `specs", "`specs", "wrong: the page names specs/Paging.antt, which is one of crates/"),
    (PAGE, "`width`", "`width_of`", "wrong: the page names width_of, which no file of its step has"),
    (PAGE, "## A paging mode", "## A mode", "wrong: the page has no section 'A paging mode'"),
    ("crates/high/src/page.rt", "Giga", "Giga, Tera", None),
    ("crates/high/specs/Paging.antt", "1", "Tera", "forgotten: crates/high/specs/Paging.antt"),
    ("crates/low/proofs/WorkedMaps.antt", "Sv48", "Sv39 and Sv48", "forgotten: crates/low/proofs/WorkedMaps.antt"),
    ("tests/test_modes.py", "'sv48'", "'sv39', 'sv48'", "forgotten: tests/test_modes.py"),
    ("README.md", "A board", "A board with Sv39 and Sv48", "forgotten: README.md"),
    ("crates/printed_lines/proofs/HexText.antt", " or 48", "", "wrong: crates/printed_lines/proofs/HexText.antt doesn't name it, and is listed as a use"),
]

# A page on extensions, and a file of bench/ that lists them by their ids, as Rust parts these.
OF_EXTENSIONS = "# Adding\n\n## An extension that has no state of its own\n\n`low/src/call.rt`\n\n## An extension, or a call, that does something\n\nNo more.\n"
BY_IDS = "0x48_534D | 0x5246_4E43 | 0x73_5049 | 0x5449_4D45 | 0x5352_5354 => true,\n"


def adding(root, *words):
    command = [os.path.join(root, "tools/adding"), *words]
    found = subprocess.run(command, stdin=subprocess.DEVNULL, stdout=subprocess.PIPE, stderr=subprocess.STDOUT, text=True, timeout=120)
    return found.returncode, found.stdout


class Adding(Test):
    programs = ()

    def test_the_page_of_additions_forgets_no_file(self):
        status, said = adding(ROOT)
        told = re.findall(r"^(\w+) \(\w+\): (\d+) files name it, (\d+) of crates; the page forgets 0$", said, re.M)
        wrong = [line for line in said.splitlines() if re.search("forgotten|wrong", line)]
        must(f"tools/adding ends with status {status}: {wrong or shown(said)}", not status and tuple(kind for kind, *_ in told) == KINDS)
        must(f"hardly a file names what is there: {told}", all(int(files) > int(crates) >= 10 for _, files, crates in told))
        words = len(read(os.path.join(ROOT, PAGE)).split())
        must(f"the page has {words} words, more than {WORDS}", words <= WORDS)

    def test_what_the_page_of_additions_forgets_is_told(self):
        """In a small repository a list is told from a use, and each fault of a page or a file is told."""
        files = {**FILES, PAGE: GOOD, **{it: read(os.path.join(ROOT, it)) for it in ("tools/adding", "tools/entry.py")}}
        for name, text in files.items():
            os.makedirs(os.path.dirname(os.path.join(self.room, name)), exist_ok=True)
            write(os.path.join(self.room, name), text)
        shutil.copymode(os.path.join(ROOT, "tools/adding"), os.path.join(self.room, "tools/adding"))
        status, said = adding(self.room, "--list", "mode")
        must(f"a page that forgets nothing: {shown(said)}", not status)
        must_have(said, "mode (Sv48): 3 files name it, 2 of crates; the page forgets 0\n  crates/low/specs/Paging.antt\n")
        must_have(said, "named, and doesn't name it: crates/high/src/page.rt\n")
        for name, old, new, wanted in FAULTS:
            must(f"{old!r} stands once in {name}", files[name].count(old) == 1)
            write(os.path.join(self.room, name), files[name].replace(old, new))
            status, said = adding(self.room, "mode")
            must(f"{new!r} for {old!r} in {name}: {shown(said)}", status == (wanted is not None) and (wanted or "") in said)
            write(os.path.join(self.room, name), files[name])
        for name, text in ((PAGE, OF_EXTENSIONS), ("crates/low/src/call.rt", "Srst\n"), ("bench/board.rs", BY_IDS)):
            os.makedirs(os.path.dirname(os.path.join(self.room, name)), exist_ok=True)
            write(os.path.join(self.room, name), text)
        must_have(adding(self.room, "extension")[1], "forgotten: bench/board.rs\n")
        status, said = adding(self.room, "modes")
        must(f"a kind that there isn't: {shown(said)}", status == 1 and "usage" in said)
