"""Files, and standard streams that are full, closed or gone."""
import os

from .fixtures import ASKED, BOARD, DIFFERS, FAILED_IO, LONG, SHORT, TASKS, TRACE, TWO_HARTS, Test, must, must_be, ran, read_bytes, script, write
from .test_command_line import USAGE

# Names beside which a shorter one has another script: what a program would open that drops a part of them.
NAMES = [" a", "a ", " a ", "  a", "a\t", "\ta", "a\n", "\na", "a\r", "a\n\n", "\u00a0a", "a\u3000", "A", "a.", "./a ", "'a'", '"a"', "a b"]
NAMES += [" ", "  ", "\t", "\n", "a\\", "%61", "~", "$a", "a;", "a\x01", "\x7f", "\u00e4", "a\u0308", "\U0001f600"]
# The longest names that a folder may have, and as long ones of two bytes a character.
NAMES += ["a" * 254, "b" * 255, "\u00e4" * 127, " " * 255, "a" + " " * 254]

# Tasks and their scripts, each of which prints something and ends well.
RUNS = [("run", TWO_HARTS), ("replay", SHORT), ("replay", LONG), ("check", TRACE), ("check", BOARD)]


def without(stream, words, **how):
    """Runs the program with this stream closed."""
    return ran(words, preexec_fn=lambda: os.close(stream), **how)


class Streams(Test):
    def test_no_file(self):
        for task in TASKS:
            must_be(ran([task, os.path.join(self.room, "none")]), 7, b"", FAILED_IO)
            must_be(ran([task, ""]), 7, b"", FAILED_IO)

    def test_a_directory(self):
        for task in TASKS:
            must_be(ran([task, self.room]), 7, b"", FAILED_IO)

    def test_a_relative_path(self):
        """FILE is a path as it stands, from where the program runs."""
        script(self.room, BOARD)
        must_be(ran(["replay", "a.sched"], cwd=self.room), 0, None, b"")
        must_be(ran(["replay", "./a.sched"], cwd=self.room), 0, None, b"")
        inside = os.path.join(self.room, "inside")
        os.mkdir(inside)
        must_be(ran(["replay", "../a.sched"], cwd=inside), 0, None, b"")
        must_be(ran(["replay", "a.sched"], cwd=inside), 7, b"", FAILED_IO)
        must_be(ran(["check", "a.sched"], cwd=self.room), 0, b"agrees 0\n", b"")
        must_be(ran(["check", "a.sched"], cwd=inside), 7, b"", FAILED_IO)
        must_be(ran(["run", "a.sched"], cwd=self.room), 0, None, b"")
        must_be(ran(["run", "a.sched"], cwd=inside), 7, b"", FAILED_IO)

    def test_a_file_behind_dashes(self):
        """FILE is a word as it stands; `--` may follow it, or stand before it, and only behind one may it begin with `-`."""
        for name in ("a", "-", "-a", "--", "--a"):
            write(os.path.join(self.room, name), BOARD)
        for words in (["a"], ["-"], ["a", "--"], ["-", "--"], ["--", "a"], ["--", "-"], ["--", "-a"], ["--", "--"], ["--", "--a"]):
            must_be(ran(["check", *words], cwd=self.room), 0, b"agrees 0\n", b"")
        for words in (["-a"], ["--"], ["--a"], ["-a", "--"], ["a", "--", "a"], ["--", "a", "--"]):
            must_be(ran(["check", *words], cwd=self.room), 2, b"", None)

    def test_names_of_files(self):
        """Each byte of FILE is one of the name: blanks at its ends, line feeds, and 255 bytes of it."""
        write(os.path.join(self.room, "a"), b"no script\n")
        for name in NAMES:
            write(os.path.join(self.room, name), BOARD)
            must_be(ran(["check", name], cwd=self.room), 0, b"agrees 0\n", b"")
            must_be(ran(["check", os.path.join(self.room, name)], cwd=self.room), 0, b"agrees 0\n", b"")
            os.remove(os.path.join(self.room, name))
            must_be(ran(["check", name], cwd=self.room), 7, b"", FAILED_IO)
        deep = os.path.join(self.room, *["d" * 255] * 15)
        os.makedirs(deep)
        write(os.path.join(deep, "a "), BOARD)
        if len(os.path.join(deep, "a ")) < 4_096:
            must_be(ran(["check", os.path.join(deep, "a ")]), 0, b"agrees 0\n", b"")
        for name in ("c" * 256, "c/" * 3_000):
            must_be(ran(["check", name], cwd=self.room), 7, b"", FAILED_IO)

    def test_a_word_that_is_no_text(self):
        """A word that is no UTF-8 text can't be read, and is no path: also where there is a file of that name."""
        write(os.path.join(os.fsencode(self.room), b"caf\xe9"), BOARD)
        for task in TASKS:
            for name in (b"\xff", b"caf\xe9"):
                must_be(ran([task, name], cwd=self.room), 7, b"", FAILED_IO)

    def test_a_full_device(self):
        """On a full device nothing ends well, whether the first write fails or the last."""
        for task, text in (*RUNS, ("check", DIFFERS)):
            with open("/dev/full", "wb") as full:
                must_be(ran([task, script(self.room, text)], stdout=full), 7, None, FAILED_IO)
        for words in ASKED:
            with open("/dev/full", "wb") as full:
                must_be(ran(words, stdout=full), 7, None, FAILED_IO)

    def test_a_closed_output(self):
        """With no output nothing ends well, and the script's file, which may get the output's number, stays as it is."""
        for task, text in (*RUNS, ("check", DIFFERS)):
            path = script(self.room, text)
            must_be(without(1, [task, path], stdout=None), 7, None, FAILED_IO)
            must("it wrote into its own script", read_bytes(path) == text)

    def test_a_closed_standard_error(self):
        """With no standard error the status is the same, and so is what is printed."""
        for task in TASKS:
            must_be(without(2, [task, script(self.room, b"0 fly\n")], stderr=None), 1, b"", None)
        for task, text in (*RUNS, ("check", DIFFERS)):
            found = ran([task, script(self.room, text)])
            must_be(without(2, [task, script(self.room, text)], stderr=None), found.returncode, found.stdout, None)

    def test_a_closed_standard_input(self):
        for task, text in RUNS:
            found = ran([task, script(self.room, text)])
            must_be(without(0, [task, script(self.room, text)]), 0, found.stdout, b"")

    def test_a_reader_that_has_gone(self):
        """Where the reader of a pipe has gone, the write fails as any other."""

        def unread(words):
            reading, writing = os.pipe()
            os.close(reading)
            try:
                return ran(words, stdout=writing)
            finally:
                os.close(writing)

        for task, text in (*RUNS, ("check", DIFFERS)):
            must_be(unread([task, script(self.room, text)]), 7, None, FAILED_IO)
        for words in ASKED:
            must_be(unread(words), 7, None, FAILED_IO)
        for words, *_ in USAGE:
            must_be(unread(words), 2, None, ran(words).stderr)
