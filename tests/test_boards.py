"""Boards that are refused, and boards that are made."""
import random

from .fixtures import BAD_BOARD, WRONG_KIND, Test, checked, must_be, must_have, ran, replayed, script

# Board lines with one number outside its limits, and their nearest good ones.
BAD_BOARDS = [
    (b"board 0 1 10 0 0x80000000 0", b"board 1 1 10 0 0x80000000 0"),
    (b"board 129 1 10 0 0x80000000 0", b"board 128 1 10 0 0x80000000 0"),
    (b"board 2 0 10 0 0x80000000 0", b"board 2 1 10 0 0x80000000 0"),
    (b"board 2 257 10 0 0x80000000 0", b"board 2 256 10 0 0x80000000 0"),
    (b"board 2 1 0 0 0x80000000 0", b"board 2 1 1 0 0x80000000 0"),
    (b"board 2 1 1000001 0 0x80000000 0", b"board 2 1 1000000 0 0x80000000 0"),
    (b"board 2 1 10 2 0x80000000 0", b"board 2 1 10 1 0x80000000 0"),
    (b"board 2 1 10 0 0x7ffffffe 0", b"board 2 1 10 0 0x80000000 0"),
    (b"board 2 1 10 0 0x80000001 0", b"board 2 1 10 0 0x80000002 0"),
    (b"board 2 1 10 0 0x80001000 0", b"board 2 1 10 0 0x80000ffe 0"),
    (b"board 2 256 10 0 0x80100000 0", b"board 2 256 10 0 0x800ffffe 0xffffffffffffffff"),
    (b"board 2 1 10 0 0x80000000 0 17 39", b"board 2 1 10 0 0x80000000 0 16 39"),
    (b"board 2 1 10 0 0x80000000 0 0 38", b"board 2 1 10 0 0x80000000 0 0 39"),
    (b"board 2 1 10 0 0x80000000 0 16 49", b"board 2 1 10 0 0x80000000 0 16 48"),
    (b"board 2 1 10 0 0x80000000 0 0xffffffffffffffff 48", b"board 2 1 10 0 0x80000000 0 0 48"),
    (b"board 2 1 10 0 0x80000000 0 9 0xffffffffffffffff", b"board 2 1 10 0 0x80000000 0 9 0x30"),
]

OPAQUES = (0, 1, 7, 1 << 32, 1 << 63, (1 << 64) - 1)
# The most of each number of a board line: harts, pages, and events in the history.
MOST_HARTS, MOST_PAGES, MOST_EVENTS = 128, 256, 1_000_000


def boards():
    """Numbers of good boards, each varied by itself: harts, pages, limit, and the boot hart's address and opaque value."""
    some = random.Random(1)
    limits = {near for power in range(1, 20) for near in (2**power - 1, 2**power, 2**power + 1)}
    limits |= {MOST_EVENTS - 1, MOST_EVENTS, *(some.randint(1, MOST_EVENTS) for _ in range(40))}
    opaques = [*OPAQUES, *(some.getrandbits(bits) for bits in range(1, 65))]
    yield from ((harts, 1, 10, 0x80000000, 0) for harts in range(1, MOST_HARTS + 1))
    yield from ((1, pages, 10, 0x80000000, 0) for pages in range(1, MOST_PAGES + 1))
    yield from ((1, 1, limit, 0x80000000, 0) for limit in sorted(limits))
    yield from ((1, 1, 10, 0x80000000, opaque) for opaque in opaques)
    yield from ((1, 256, 10, 0x80000000 + 2 * some.randrange(1 << 19), 0) for _ in range(40))
    for harts in range(1, MOST_HARTS + 1):
        for limit in (1, MOST_EVENTS):
            yield harts, 2 * harts, limit, 0x80000000 + 2 * some.randrange(harts << 11), some.getrandbits(64)


class Boards(Test):
    def test_bad_boards(self):
        for bad, good in BAD_BOARDS:
            replayed(self.room, bad + b"\n", 1, b"", BAD_BOARD)
            replayed(self.room, bad + b"\n0 fly\n", 1, b"", b"sbiboard: line 2: fault 3\n")
            replayed(self.room, bad + b"\n0 sip -> done\n", 1, b"", WRONG_KIND)
            checked(self.room, bad + b"\n0 sip -> done\n", 1, b"", BAD_BOARD)
            checked(self.room, bad + b"\nclock\n", 1, b"", WRONG_KIND)
            replayed(self.room, good + b"\n", 0, None, b"")

    def test_good_boards(self):
        """With ample memory each good board is made, whatever its numbers."""
        for harts, pages, limit, address, opaque in boards():
            text = b"board %d %d %d %d %#x %#x\n" % (harts, pages, limit, harts - 1, address, opaque)
            found = ran(["replay", script(self.room, text)])
            must_be(found, 0, None, b"")
            must_have(found.stdout, text, b"\n# entry %3d %016x %016x\n" % (harts - 1, address, opaque))
