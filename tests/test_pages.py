"""The pages for readers: what they name is there, and they name the toolchain that proves all."""
import glob
import os
import re
import shutil
import subprocess
from unittest import SkipTest

from .fixtures import ROOT, Test, must, named, read

# Most lines and words of the README, which is read in a few minutes.
LINES, WORDS = 150, 1_200

# A file or a folder that is named in a page, by its path from the top.
NAMED = re.compile(r"`((?:\./)?(?:docs|examples|tests|tools|bench|crates|editors)/[\w./*-]+)")
# The names of kits of the toolchain, and of their logic, as pages name them.
KIT, LOGIC = re.compile(r"rattle-kit-\w+"), re.compile(r"`(?:rattle-kit-\w+ )?(logic [0-9a-f]+)`")


def pages():
    for path in [os.path.join(ROOT, "README.md"), *sorted(glob.glob(os.path.join(ROOT, "docs/*.md")))]:
        yield os.path.relpath(path, ROOT), read(path)


def is_there(name):
    """Whether there is such a file; a name that ends in a word for any, or that a command makes, is none of the repository's."""
    return "/out" in name or "NAME" in name or bool(glob.glob(os.path.join(ROOT, name.rstrip("./"))))


def definitions_named(text):
    """The files of definitions that the table of what to read names, as `crate` (all), `crate` (`File`, ..), or `crate` (all, `File`, ..)."""
    for crate, said in re.findall(r"`(\w+)` \(([^)]*)\)", text):
        folder = os.path.join(ROOT, "crates", crate, "specs")
        if said.split(",")[0] == "all":
            found = (os.path.relpath(path, folder) for path in glob.glob(os.path.join(folder, "**/*.antt"), recursive=True))
            yield from ((crate, name.removesuffix(".antt").split("/")[0]) for name in found if not re.match("Inside|Lib", name))
        if os.path.isdir(folder):
            yield from ((crate, name) for name in re.findall(r"`(\w+)`", said))


class Pages(Test):
    programs = ()

    def test_pages_name_what_is_there(self):
        for page, text in pages():
            for name in NAMED.findall(text):
                must(f"{page} names {name}, which isn't there", is_there(name))
            for name in re.findall(r"`(\w+\.md)`", text):
                must(f"{page} names docs/{name}, which isn't there", os.path.exists(os.path.join(ROOT, "docs", name)))

    @named("the pages of crates and definitions are those that tools/map makes")
    def test_the_pages_of_crates_and_definitions_are_those_that_tools_map_makes(self):
        found = subprocess.run([os.path.join(ROOT, "tools/map"), "--check"], stdin=subprocess.DEVNULL, capture_output=True, text=True, timeout=60)
        must(found.stdout.strip() or found.stderr.strip(), not found.returncode)

    def test_a_name_has_one_meaning(self):
        """A name has one meaning where a reader can meet it, but for those that are listed with a reason."""
        found = subprocess.run([os.path.join(ROOT, "tools/names")], stdin=subprocess.DEVNULL, capture_output=True, text=True, timeout=60)
        must(found.stdout.strip() or found.stderr.strip(), not found.returncode)

    def test_the_glossary_is_in_order(self):
        """Each word once, in order, with files that are there; and the page is short."""
        text = dict(pages())["docs/GLOSSARY.md"]
        words = re.findall(r"^- \*\*([\w -]+)\*\*: ", text, re.M)
        must("the words of the glossary are in order", words and words == sorted(set(words)) and len(words) == text.count("\n- "))
        must(f"the glossary has {len(text.split())} words", len(text.split()) <= 900)
        for line in re.findall(r"^- .*", text, re.M):
            folder, found = "", re.findall(r"`([\w/]+\.\w+)`", line)
            must(f"no file: {line}", found)
            for name in found:
                folder = os.path.dirname(name) or folder
                path = os.path.join(folder, os.path.basename(name))
                must(f"the glossary names {path}, which isn't there", any(os.path.exists(os.path.join(ROOT, top, path)) for top in ("", "crates")))

    def test_the_page_of_proofs_lists_what_must_be_read(self):
        """The page of proofs lists what must be read to trust each promise: these files, and no others."""
        command = [os.path.join(ROOT, "tools/trusted-reading")]
        text = subprocess.run(command, stdin=subprocess.DEVNULL, capture_output=True, text=True, timeout=60, check=True).stdout
        wanted = {(crate, name.split("/")[0]) for crate, name in re.findall(r"^ +\d+ crates/(\w+)/specs/(\S+)\.antt$", text, re.M)}
        promises, page = re.findall(r"^(\w+): ", text, re.M), dict(pages())["docs/PROVED.md"]
        table = page[page.index("| promise | read | lines |") :].split("\n\n")[0]
        found = set(definitions_named(table))
        must(f"to be read, and not listed: {sorted(wanted - found)}; listed, and not to be read: {sorted(found - wanted)}", wanted and found == wanted)
        must(f"the page doesn't have a row for each of {promises}", re.findall(r"^\| `(\w+)`: ", table, re.M) == promises)
        number = lambda it: int(it.replace(",", ""))
        told = re.search(r"some ([\d,]+) files and ([\d,]+) lines", page)
        sums = re.search(r"^(\d+) files, (\d+) lines$", text, re.M)
        rows = [sum(map(number, re.findall(r"\| ([\d,]+) \|$", it, re.M))) for it in re.split(r"^(?=\| `\w+`: )", table, flags=re.M)[1:]]
        counts = re.findall(r"^\w+: .*: \d+ files, (\d+) lines$", text, re.M)
        for said, counted in [*zip(map(number, told.groups()), sums.groups()), *zip(rows, counts, strict=True)]:
            must(f"the page says {said}, and they are {counted}", abs(said - int(counted)) <= int(counted) / 20)

    def test_the_README_is_short(self):
        text = dict(pages())["README.md"]
        lines, words = text.count("\n"), len(text.split())
        must(f"the README has {lines} lines and {words} words, more than {LINES} or {WORDS}", lines <= LINES and words <= WORDS)
        for page, _ in pages():
            must(f"the README doesn't name {page}", not (page != "README.md" and page not in text))

    def test_pages_name_the_toolchain(self):
        """Who names kits of the toolchain names the one that is here, and its logic alone."""
        if shutil.which("rt") is None:
            raise SkipTest("the toolchain's rt is not on the path")
        found = subprocess.run(["rt", "version"], stdin=subprocess.DEVNULL, capture_output=True, text=True, timeout=60).stdout.strip()
        kit, _, logic = found.partition(" ")
        for page, text in pages():
            kits = KIT.findall(text)
            must(f"{page} names the toolchains {kits}, {LOGIC.findall(text)}, and rt version prints {found}", not (kits and (kit not in kits or {*LOGIC.findall(text)} != {logic})))
