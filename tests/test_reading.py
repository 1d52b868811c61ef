"""How a script is read: from pipes, and from files whose length is told wrong."""
from .fixtures import BOARD, LONG, SHORT, TOO_LONG, TRACE, TWO_HARTS, Test, allocating, calling, must, must_be, named, piping, ran, script, shim


def piped(task, text, piece):
    """Runs a task on a script that comes through a pipe, so many bytes at a time."""
    return piping(text, piece, lambda reading: ran([task, f"/dev/fd/{reading}"], pass_fds=[reading]))


# Scripts of no byte, of a few, of more than one read takes, and of more than a large page.
LENGTHS = (b"", BOARD, SHORT, LONG, BOARD + b"#" * 131_072 + b"\n0 advance\n", BOARD + b"# \n" * 1_400_000 + b"0 advance\n")

# From so many bytes on that a script is said to have, room for its lines is taken at once.
MANY_BYTES = 65_536

# The bytes that the program asks for and writes at a time, and those of a page, the least that a pipe hands on at a time
# where more come.
PIECE, PAGE = 65_536, 4_096


class Reading(Test):
    def test_a_script_on_standard_input(self):
        """A script on standard input, as an editor hands over what isn't saved, by the name that the system has for it."""
        for task, text in (("check", TRACE), ("replay", SHORT), ("run", TWO_HARTS), ("check", BOARD + b"0 lod\n")):
            path = script(self.room, text)
            good = ran([task, path])
            with open(path, "rb") as file:
                must_be(ran([task, "/dev/stdin"], stdin=file), good.returncode, good.stdout, good.stderr)

    def test_a_script_on_a_pipe(self):
        """A script on a pipe, of which nobody knows the length, is read to its end, in whatever pieces it comes."""
        for text in LENGTHS:
            good = ran(["replay", script(self.room, text)])
            for piece in (1, 7, 4_096, 65_536, 1_000_000):
                if len(text) // piece < 20_000:
                    must_be(piped("replay", text, piece), good.returncode, good.stdout, good.stderr)
        must_be(piped("check", TRACE, 5), 0, b"agrees %d\n" % TRACE.count(b" -> "), b"")
        must_be(piped("run", TWO_HARTS, 5), 0, None, b"")
        for piece in (100_003, TOO_LONG):
            must_be(piped("replay", b" " * (TOO_LONG - 1), piece), 1, b"", b"sbiboard: line 0: fault 2\n")
            must_be(piped("replay", b" " * TOO_LONG, piece), 1, b"", b"sbiboard: line 0: fault 8\n")

    def test_lengths_of_files_that_are_wrong(self):
        """A file that grows, one that shrinks, and one whose length can't be asked, is read to its end all the same."""
        made = shim(self.room)
        for text in (*LENGTHS, b" " * (TOO_LONG - 1), b" " * TOO_LONG):
            path, size = script(self.room, text), len(text)
            good = ran(["replay", path])
            for told in (0, 1, size // 2, max(size, 1) - 1, size, size + 1, 2 * size + 1, TOO_LONG, 2**63, 2**64 - 1, "none"):
                for most in (0, 100_003):
                    found, _ = allocating(made, self.room, ["replay", path], LENGTH=str(told), MOST=str(most))
                    try:
                        must_be(found, good.returncode, good.stdout, good.stderr)
                    except AssertionError as wrong:
                        raise AssertionError(f"of {size} bytes, said to be {told}: {wrong}")

    def test_no_memory_for_a_length(self):
        """Where there is no memory for the lines of as many bytes as a file is said to have, those that it has are read all the same."""
        made, path = shim(self.room), script(self.room, LONG)
        good, sizes = allocating(made, self.room, ["replay", path], LENGTH=str(2**63))
        must_be(good, 0, None, b"")
        lines = (TOO_LONG - 1) // 8
        largest = sorted(sizes)[-2:]
        must(f"the largest allocations have {largest} bytes", largest == [8 * lines, 12 * (lines + 1)])
        for most in largest:
            found, _ = allocating(made, self.room, ["replay", path], refused=sizes.index(most) + 1, LENGTH=str(2**63))
            must_be(found, 0, good.stdout, b"")

    @named("room for a short script's lines")
    def test_room_for_a_short_script_s_lines(self):
        """A script that is said to be short takes the room that its lines fill, as one of which nothing is said."""
        made, path = shim(self.room), script(self.room, BOARD + b"0 advance\n" * 3)
        found, wanted = allocating(made, self.room, ["replay", path], LENGTH="0")
        for told in (1, 60, 1_000, MANY_BYTES - 1, MANY_BYTES):
            again, sizes = allocating(made, self.room, ["replay", path], LENGTH=str(told))
            must_be(again, 0, found.stdout, b"")
            must(f"said to have {told} bytes: allocations of {sizes} bytes, and of {wanted} where nothing is said", (sizes == wanted) == (told < MANY_BYTES))

    def test_few_calls_of_the_system(self):
        """A script of 16 MB is read in pieces, from a file and from a pipe, whether its lines are short or it is one line, for
        which the room is doubled each time; and what is printed is written in pieces."""
        made = shim(self.room)
        most = TOO_LONG - 1
        texts = (BOARD + b"#" * (most - len(BOARD)), b"#" * most, BOARD + b"# \n" * ((most - len(BOARD)) // 3))
        for text in texts:
            for from_pipe in (False, True):
                if from_pipe:
                    run = lambda reading: calling(made, self.room, ["replay", f"/dev/fd/{reading}"], pass_fds=[reading])
                    found, sizes, calls = piping(text, PIECE, run)
                else:
                    found, sizes, calls = calling(made, self.room, ["replay", script(self.room, text)])
                reads, writes, opens = calls["r"], calls["w"], calls["o"]
                if found.returncode != (0 if text.startswith(BOARD) else 1) or sum(reads) != len(text) or len(opens) != 1:
                    raise AssertionError(f"status {found.returncode}, {len(opens)} files, {sum(reads)} of {len(text)} bytes")
                must(f"{len(reads)} reads of {len(text)} bytes, {len(writes)} writes", len(reads) <= len(text) // (PAGE if from_pipe else PIECE) + 16 and len(writes) <= 2)
                must(f"{len(sizes)} allocations, of {sum(sizes)} bytes, for {len(text)} bytes", len(sizes) <= 90 and sum(sizes) <= 5 * most)
        # (a line that has room in a piece needs no more)
        found, sizes, _ = calling(made, self.room, ["replay", script(self.room, BOARD + b"#" * (PIECE - 2 * len(BOARD)))])
        must(f"status {found.returncode}, an allocation of {max(sizes)} bytes", not found.returncode and max(sizes) <= PIECE)
        steps = BOARD.replace(b" 10 ", b" 100000 ") + b"0 advance\n" + b"0 ecall 0x10 0\n" * 99_999
        found, _, calls = calling(made, self.room, ["replay", script(self.room, steps)])
        must_be(found, 0, None, b"")
        must(f"{len(calls['w'])} writes of {len(found.stdout)} bytes", len(calls["w"]) <= len(found.stdout) // PIECE + 4)
