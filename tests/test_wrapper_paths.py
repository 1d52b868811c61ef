"""The script by names and places that are seldom: folders with blanks, links to it, names that are no text; and programs that a signal ends."""
import os
import shutil
import signal
import subprocess
import time

from .fixtures import Test, must, named, read, shown
from .test_wrapper import HELPS, HUGE, TELLS, called, changed, clone, first, must_end, put, ran, running_in

# Folders with characters that a shell takes apart, or for a pattern.
FOLDERS = ("a  b", "[a]*", "$a;'b\"", " -\\=\u00e9 ")
# What stands for the program behind `test`: it writes points into the file of --tap, and says that one fails.
POINTS = """#!/bin/bash
while [ "$1" != --tap ]; do shift; done
printf 'TAP version 13\\nnot ok 1 - a.sched (1 lines)\\n1..1\\n' | tee "$2"
exit 1
"""


def in_folder(room, name):
    """A folder of this name, in which a clone may stand."""
    path = os.path.join(room, name)
    os.mkdir(path)
    return path


class Paths(Test):
    programs = ()

    def test_folders_with_blanks(self):
        """A clone and an installed copy work in any folder: nothing is built twice, a changed source has it made anew, and checked runs are kept."""
        for name in FOLDERS:
            place = in_folder(self.room, name)
            front = clone(place)
            must_end(ran(place, [front, "replay", "a.sched"])[:2], 0, "built: replay a.sched\n")
            must_end(ran(place, [front, "replay", "a.sched"]), 0, "built: replay a.sched\n", "")
            must_end(ran(place, [front, "check", "--", "a.trace"]), 0, "built: check -- a.trace\n", "")
            seen = len(called(place))
            changed(place, "crates/hsm/src/lib.rt", 5)
            ran(place, [front, "replay", "a.sched"])
            must(f"{name!r}: a changed source wasn't built", len(called(place)) > seen)
            # (what is newer than the programs to come isn't installed)
            changed(place, "crates/hsm/src/lib.rt", -5)
            out = os.path.join(place, "clone/crates/sbiboard_cli/out")
            for _ in range(2):
                must_end(ran(place, [front, "--try", "replay", "a.sched"])[:2], 3, f"tried: {out}/tried replay a.sched\n")
            told = put(os.path.join(place, "own program"), TELLS)
            must_end(ran(place, [front, "check", "x"], SBIBOARD_PROGRAM=told), 5, f"it is {told} check x; {HUGE}\n", "")
            copy = os.path.join(place, "the copy", "sbiboard")
            must_end(ran(place, [front, "--install", os.path.dirname(copy)])[:2], 0, "")
            shutil.rmtree(os.path.join(place, "clone"))
            for task in ("run", "replay", "check", "test", "explore"):
                own = "" if task in ("test", "explore") else task + " "
                for words in (["a  b", "c"], ["--", "a  b"]):
                    must_end(ran(place, [copy, task, *words]), 0, f"built: {own}{' '.join(words)}\n", "")

    def test_links_to_the_script(self):
        """A link to the script, or to such a link, is the script: of a clone, and of an installed copy, wherever it stands."""
        front, folder = clone(self.room), os.path.join(self.room, "copy")
        must_end(ran(self.room, [front, "--install", folder])[:2], 0, "")
        below = in_folder(self.room, "below")
        for at, target in enumerate((front, os.path.join(folder, "sbiboard"))):
            os.symlink(os.path.relpath(target, below), os.path.join(below, f"first{at}"))
            os.symlink(f"first{at}", os.path.join(below, f"second{at}"))
            os.symlink(os.path.join("below", f"second{at}"), os.path.join(self.room, f"third{at}"))
            seen = len(called(self.room))
            for link in (os.path.join(below, f"first{at}"), os.path.join(below, f"second{at}"), os.path.join(self.room, f"third{at}"), f"./third{at}", f"below/second{at}"):
                must_end(ran(self.room, [link, "replay", "a.sched"]), 0, "built: replay a.sched\n", "")
                must_end(ran(self.room, [link, "test", "a.sched", "--seed", "3"]), 0, "built: a.sched --seed 3\n", "")
                must_end(ran(self.room, [link, "--version"]), 0, "sbiboard 0.1.0\n", "")
            must(f"{target}: it built again", len(called(self.room)) == seen)

    def test_help_behind_the_build(self):
        """Once there are programs, help of the script is what it was before, for each word that asks for it."""
        front = clone(self.room)
        words = [["--help"], ["-h"], ["help"], ["-V"], *([task, it] for task in HELPS for it in ("--help", "-h")), *(["help", task] for task in HELPS), *([task, "a", "-h"] for task in HELPS)]
        texts = [ran(self.room, [front, *it]) for it in words]
        for task in ("run", "test"):
            ran(self.room, [front, task, "a.program"])
        for it, wanted in zip(words, texts):
            must_end(ran(self.room, [front, *it]), *wanted)
            must(f"{it}: {wanted}", wanted[0] == 0 and wanted[1] and not wanted[2])

    @named("names that are no text, behind the build")
    def test_names_that_are_no_text(self):
        """Once there are programs, a name that isn't UTF-8 is still no name of a file, of each task; one that is, is."""
        front = clone(self.room)
        for task in ("run", "test"):
            ran(self.room, [front, task, "a.program"])
        for task in ("run", "replay", "check", "test", "explore"):
            own = "" if task in ("test", "explore") else task + " "
            for words, said in (([b"caf\xe9"], "caf\\xe9"), ([b"a", b"\xff"], "\\xff"), ([b"--", b"\xc3"], "\\xc3")):
                must_end(ran(self.room, [front, task, *words]), 7, "", f"sbiboard: '{said}' is not UTF-8, and no file of such a name can be opened\n")
            for word in ("caf\u00e9", "\u0436", "a\u3000b", "\U0001f600"):
                must_end(ran(self.room, [front, task, word]), 0, f"built: {own}{word}\n", "")

    def test_an_empty_name_is_no_place(self):
        """An option that names a file or a folder takes no empty name: nothing is run, built or written, in a clone, a copy and a checked run."""
        front, folder = clone(self.room), os.path.join(self.room, "copy")
        must_end(ran(self.room, [front, "--install", folder])[:2], 0, "")
        seen, here = len(called(self.room)), sorted(os.listdir(self.room))
        for ways in ([front], [os.path.join(folder, "sbiboard")], [front, "--try"]):
            for task, file in (("test", "a.sched"), ("explore", "a.program")):
                for option in ("--html <DIR>", "--junit <FILE>", "--failed <DIR>", "--tap <FILE>"):
                    for given in ([option.split()[0], ""], [option.split()[0] + "="]):
                        said = f"error: a value is required for '{option}' but none was supplied\n\nFor more information, try '--help'.\n"
                        must_end(ran(self.room, [*ways, task, *given, file]), 2, "", said)
        for given in (["--install", ""], ["--install="]):
            status, out, said = ran(self.room, [front, *given])
            must(f"{given}: {said}", (status, out) == (2, "") and said.startswith("error: with --install, a folder DIR is wanted\n"))
        must("something was made", len(called(self.room)) == seen and sorted(os.listdir(self.room)) == here)

    def test_a_copy_without_a_tester(self):
        """An installed copy without the program of `test` says so, whatever is asked of it."""
        front, folder = clone(self.room), os.path.join(self.room, "copy")
        must_end(ran(self.room, [front, "--install", folder], SBIBOARD_PROGRAM=put(os.path.join(self.room, "program"), TELLS))[:2], 0, "")
        for task in ("test", "explore"):
            must_end(ran(self.room, [os.path.join(folder, "sbiboard"), task, "a.program"]), 70, "", "sbiboard: this copy has no program of test and explore\n")
            for words in (["--json"], ["--explain"], ["--junit", "x"], ["--html", "pages"], ["--failed", "."]):
                must_end(ran(self.room, [os.path.join(folder, "sbiboard"), task, *words, "a.program"]), 70, "", "sbiboard: this copy has no program sbiboard-tester\n")
        must("something was written", not os.path.exists(os.path.join(self.room, "x")) and not os.path.exists(os.path.join(self.room, "pages")))

    def test_programs_that_a_signal_ends(self):
        """Where a signal ends the program, it ends the script too, with each option; of a checked run it is said."""
        front = clone(self.room)
        for number in (signal.SIGKILL, signal.SIGSEGV, signal.SIGABRT, signal.SIGTERM):
            dies = put(os.path.join(self.room, "dies"), f"#!/bin/bash\nulimit -c 0\nkill -{int(number)} $$\nsleep 20\n")
            for crate in ("sbiboard_cli", "sbiboard_test"):
                put(os.path.join(self.room, "clone/crates", crate, "out", crate), read(dies))
            for words in (["replay", "a.sched"], ["run", "--keep", "k", "a.program"], ["replay", "--json", "a.sched"], ["check", "--explain", "a.trace"], ["test", "a.sched"], ["test", "--json", "a.sched"], ["explore", "--junit", "x", "a.program"], ["test", "--html", "pages", "a.sched"], ["test", "--tap-version", "14", "a.sched"], ["test", "--explain", "a.sched"]):
                found = ran(self.room, [front, *words])
                must(f"{number} {words}: {found}", found[0] == -number)
            if number == signal.SIGTERM:
                for words in (["replay", "a.sched"], ["test", "--json", "a.sched"]):
                    status, _, said = ran(self.room, [front, "--try", *words], RT_PROGRAM=dies)
                    must(f"{number} --try {words}: {status} {said}", status == 70 and said.endswith(f"sbiboard: the checked run has not ended well (status -{int(number)})\n"))

    def test_points_of_one_second(self):
        """A file of points that this run has written is read, also where an older one was written in the same second."""
        front, path = clone(self.room), os.path.join(self.room, "points")
        put(os.path.join(self.room, "clone/crates/sbiboard_test/out/sbiboard_test"), POINTS)
        for _ in range(20):
            put(path, "not ok 1 - b.sched (1 lines)\n1..1\n")
            older = os.stat(path).st_mtime_ns
            status, _, said = ran(self.room, [front, "test", "--junit", "made.xml", "--tap", "points", "a.sched"])
            must(f"{status} {said}", status == 1 and 'name="a.sched"' in read(os.path.join(self.room, "made.xml")) and "not all points" not in read(os.path.join(self.room, "made.xml")))
            if older // 10**9 == os.stat(path).st_mtime_ns // 10**9:
                return
        raise AssertionError("no run takes less than a second here")

    def test_eight_processors(self):
        """The toolchain is asked to use four processors at most, however many there are."""
        front = clone(self.room)
        status, out, said = ran(self.room, [front, "replay", "a.sched"], CORES="8", RT_TAKES="0.02")
        must(f"{said}", (status, out) == (0, "built: replay a.sched\n") and said.startswith(first("16 to 32 minutes on 8 processors")))
        jobs = {line.split()[3] for line in called(self.room) if "--jobs" in line}
        must(f"{called(self.room)}", jobs == {"3", "4"})

    def test_links_among_sources(self):
        """A link among the sources is a source itself: where it is newer than the program, wherever it leads, that is made anew."""
        front, long_ago = clone(self.room), time.time() - 1_000
        target = put(os.path.join(self.room, "elsewhere.rt"), "")
        os.utime(target, (long_ago,) * 2)
        for at, (to, words) in enumerate((to, words) for to in (target, "none") for words in (["replay", "a.sched"], ["run", "--keep", "k", "a.program"])):
            ran(self.room, [front, *words])
            link = os.path.join(self.room, f"clone/crates/hsm/src/link{at}.rt")
            os.symlink(to, link)
            for it, when in ((link, time.time() + 5), (os.path.dirname(link), long_ago)):
                os.utime(it, (when,) * 2, follow_symlinks=False)
            seen = len(called(self.room))
            ran(self.room, [front, *words])
            must(f"{to} {words}: a link that is newer makes no program anew", len(called(self.room)) != seen)
            os.utime(link, (long_ago,) * 2, follow_symlinks=False)
            seen = len(called(self.room))
            must_end(ran(self.room, [front, *words])[:2], 0, f"built: {' '.join(words)}\n")
            must(f"{to} {words}: it was made anew", len(called(self.room)) == seen)
