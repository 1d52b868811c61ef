"""Memory that is refused while a script is read: the reading ends there, and nothing later is looked at."""
import errno

from .fixtures import LONG, NO_MEMORY, TOO_LONG, Test, allocating, must, must_be, script, shim

# No length is told, so that room for lines is asked for while they are read; and each read gives so many bytes at most.
UNTOLD = {"LENGTH": "0", "MOST": "9973"}


def failing_from(made, room, words, refused, calls):
    """How the task ends with that allocation refused, where each of so many calls of the system, by its number, would fail."""
    ends = []
    for call in range(1, calls + 1):
        found, _ = allocating(made, room, words, refused, FAILED=str(call), ERROR=str(errno.EIO), **UNTOLD)
        ends.append(found.returncode)
    return ends


CUTS = b"board 2 4 9 0 0x80000000 0x0\n0 advance\n0 sip\ncut\n0 sip\ncut\n"


class RefusedMemory(Test):
    def test_no_read_follows_refused_memory(self):
        """A read that would fail after memory was refused isn't made: status 6, as without it, and nothing is written."""
        made, text = shim(self.room), LONG
        words, calls = ["replay", script(self.room, text)], len(text) // 9973 + 3
        good, sizes = allocating(made, self.room, words, **UNTOLD)
        must_be(good, 0, None, b"")
        on_the_way = set()
        for refused in range(1, len(sizes) + 1):
            found, _ = allocating(made, self.room, words, refused, **UNTOLD)
            if found.returncode == 0:
                continue
            must_be(found, 6, b"", NO_MEMORY)
            ends = failing_from(made, self.room, words, refused, calls)
            before = ends.count(7)
            must(f"allocation {refused} of {len(sizes)} refused, and a call fails: {ends}", ends == [7] * before + [6] * (calls - before))
            on_the_way.add(before)
        # the first call opens the file, and the last reads find its end
        must(f"memory is refused after {sorted(on_the_way)} of {calls} calls", len([it for it in on_the_way if 1 < it < calls - 2]) >= 4)

    def test_a_script_that_is_too_long_and_memory_refused(self):
        """Of a script that would turn out too long each growth is refused: no memory, and not fault 8."""
        made, line = shim(self.room), b"0 advance\n"
        words = ["replay", script(self.room, LONG + line * ((TOO_LONG - len(LONG)) // len(line) + 1))]
        good, sizes = allocating(made, self.room, words, LENGTH="0")
        must_be(good, 1, b"", b"sbiboard: line 0: fault 8\n")
        grown = [number for number, size in enumerate(sizes, 1) if size > 65_536]
        must(f"only {len(grown)} allocations are larger than a piece", len(grown) >= 8)
        for refused in grown:
            found, _ = allocating(made, self.room, words, refused, LENGTH="0")
            must_be(found, 6, b"", NO_MEMORY)

    def test_cuts_whose_memory_is_refused(self):
        """Memory for a cut is refused: a replay has written the lines before it, and a check nothing; both end with status 6."""
        made, words = shim(self.room), ["replay", script(self.room, CUTS)]
        good, sizes = allocating(made, self.room, words)
        must_be(good, 0, None, b"")
        written = set()
        for refused in range(1, len(sizes) + 1):
            found, _ = allocating(made, self.room, words, refused)
            if found.returncode == 0:
                continue
            must_be(found, 6, None, NO_MEMORY)
            must(f"allocation {refused} refused: {found.stdout}", good.stdout.startswith(found.stdout))
            written.add(found.stdout.count(b"\n"))
        must(f"with no memory {sorted(written)} lines were written", written == {0, 3, 5})
        words = ["check", script(self.room, good.stdout)]
        good, sizes = allocating(made, self.room, words)
        must_be(good, 0, b"agrees 5\n", b"")
        for refused in range(1, len(sizes) + 1):
            found, _ = allocating(made, self.room, words, refused)
            if found.returncode != 0:
                must_be(found, 6, b"", NO_MEMORY)
