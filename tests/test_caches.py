"""Caches whose next fill is at each of the sixteen places: what is replaced, what a fence leaves, and in which order."""
from .fixtures import Test, must, must_be, ran, script
from .replays import printed

BEFORE = """\
board 2 16 1000 0 0x80000000 0x0
0 advance
0 ecall 0x48534d 0 1 0x80000000 0
1 advance
0 store 0x80001000 0x20000801
0 store 0x80002000 0x20000c01
"""


class Translations:
    """Pages whose leaves are of the page at 0x80004000 or of that at 0x80005000, which hart 1 loads."""

    every, first = "1 sfence - -", "1 sfence 0x1000 -"
    opening = "0 store 0x80004000 0x11\n0 store 0x80005000 0x22\n1 satp 0x8000500000080001\n"
    shown = "# tlb   1 "

    def stored(self, key, value):
        return f"0 store {0x80003000 + 8 * key:#x} {0x200010C7 + 0x400 * value:#x}"

    def asked(self, key):
        return f"1 load {key << 12:#x}"


class Words:
    """Words at 0x80004000 and above, which hart 1 fetches; only a FENCE.I drops them, and it drops all."""

    every = first = "1 fencei"
    opening = ""
    shown = "# ic   1 "

    def stored(self, key, value):
        return f"0 store {0x80004000 + 8 * key:#x} {value:#x}"

    def asked(self, key):
        return f"1 fetch {0x80004000 + 8 * key:#x}"


def started(kind, start):
    """Steps after which so many fills were made, and all were dropped."""
    return [*(kind.stored(key, 0) for key in range(1, 18)), *map(kind.asked, range(1, start + 1)), kind.every]


def must_keep(room, kind, steps):
    """What is replayed is what the model says: each answer, and what is live, in the order of filling. Returns that, and the answers."""
    text = BEFORE + kind.opening + "".join(line + "\n" for line in steps)
    wanted = printed(text)
    found = ran(["replay", script(room, text.encode())])
    must_be(found, 0, "".join(line + "\n" for line in wanted).encode(), b"")
    return [it for it in wanted if it.startswith(kind.shown)], [it.partition(" -> ")[2] for it in wanted if " -> " in it]


class Caches(Test):
    def test_seventeen_fills_from_each_place(self):
        """Sixteen fills, a change of the first that isn't seen, a seventeenth, and the first again."""
        for kind in (Translations(), Words()):
            for start in range(16):
                steps = [*started(kind, start), *map(kind.asked, range(1, 17)), kind.stored(1, 1), *map(kind.asked, [1, 17, 1])]
                live, answers = must_keep(self.room, kind, steps)
                must(f"from place {start}: {answers[-3:]}, {live}", len(live) == 16 and answers[-3] != answers[-1])

    def test_fills_past_a_gap_from_each_place(self):
        """Eight fills, a fence of the first, or of all where there is no other, eight more, and two that replace others."""
        for kind in (Translations(), Words()):
            for start in range(16):
                steps = [*started(kind, start), *map(kind.asked, range(1, 9)), kind.first]
                for more, count in ((range(9, 17), (15, 8)), ([17, 1], (16, 10)), (range(2, 17), (16, 16))):
                    steps += map(kind.asked, more)
                    live, _ = must_keep(self.room, kind, steps)
                    must(f"from place {start}, {more}: {live}", len(live) in count)
