"""Small random programs, on boards of all kinds, and random conditions about their steps. A seed makes one program."""
import random

from board_model import ALL, BASE, CHANGES, FAILED, HSM, IPI, RAM, RFENCE, SRST, TIME

from .grammar import COUNTS, REPLIES
from .judge import step_words

PAGE = 4_096
# Where a page table of the board below stands, and the pages that it maps in turn at 0x1000.
TABLE, MAPPED = RAM, (RAM, RAM + 8)
# How many operations each hart has at most, by how many harts begin.
LENGTHS = {1: 12, 2: 8, 3: 5, 4: 4, 5: 3, 6: 3}
MOST_CONDITIONS = 12
ENDS = ("off", "history-full", "quiet", "stuck")
NAMES = {"step": tuple(COUNTS), "reply": tuple(it for it in REPLIES if it != "refused")}
MOST_WORDS = {**{name: most for name, (_, most) in COUNTS.items()}, **REPLIES}
# The largest positive numbers and the smallest negative ones of 4 bytes, in each half, and of 8; their neighbours; -1; and 0.
EDGES = (0, 1, 0x7FFFFFFF, 0x80000000, 0xFFFFFFFF, 0x7FFFFFFF_FFFFFFFF, 0x80000000_00000000, 0x80000000_7FFFFFFF, 0x7FFFFFFF_80000000, ALL)
# Operations on words of memory; those that change a part of one come as often as stores.
ACCESSES = ("load", "load", "load", "fetch", "store", *["change"] * 3)


def spelled(some, number):
    """A number in one of the ways in which it may be written."""
    return some.choice([str(number), f"{number:#x}", f"{number:#x}", f"0x{number:020X}", f"0{number}"])


def any_number(some):
    """Numbers of all sizes."""
    return some.choice([0, 1, 2, 3, 5, 0x11, 1 << 32, (1 << 32) + 1, 1 << 63, ALL, ALL - 1, some.getrandbits(64)])


def any_word(some):
    """Words of memory, and operands of AMOs: mostly those at which signs and carries of 4 and of 8 bytes part."""
    return some.choice([*EDGES, *EDGES, any_number(some), some.getrandbits(32)])


class Maker:
    """The lines of a random program, each with a place for a condition in front here and there."""

    def __init__(self, seed):
        self.some = some = random.Random(seed)
        self.harts = some.choice([1, 2, 2, 2, 2, 3, 3, 3, 4, 5, 6])
        self.boot = some.randrange(self.harts)
        self.pages = some.choice([1, 2, 4, 8, some.randint(9, 16)])
        self.limit = some.choice([some.randint(1, 12), some.randint(10, 40), 1_000, 1_000_000])
        self.asid_len, self.width = some.choice([0, 1, 4, 16, some.randint(0, 16)]), some.choice([39, 48])
        self.addresses = some.sample(range(RAM, RAM + PAGE * self.pages, 2), self.harts + 2)
        self.begins = [self.boot] + [it for it in range(self.harts) if it != self.boot and some.random() < 0.7]
        self.lengths = LENGTHS[len(self.begins)]

    def lines(self):
        """The board's line, and the lines of the blocks."""
        return [self.board(), *self.blocks()]

    def board(self):
        some = self.some
        numbers = [self.harts, self.pages, self.limit, self.boot, self.addresses[self.boot], any_number(some)]
        if (self.asid_len, self.width) != (16, 39) or some.random() < 0.5:
            numbers += [self.asid_len, self.width]
        return "board " + " ".join(spelled(some, it) for it in numbers)

    def blocks(self):
        some = self.some
        blocks = [self.block(it) for it in self.begins]
        if some.random() < 0.4:
            blocks.append([f"at {self.addresses[-1]:#x}", *self.operations(some.randrange(3))])
        if some.random() < 0.3:
            blocks.append(["clock", *(f"tick {spelled(some, some.choice([0, 1, 3, 7, ALL - 1]))}" for _ in range(some.randint(1, 2)))])
        some.shuffle(blocks)
        return [line for block in blocks for line in block]

    def block(self, hart):
        """The block of a hart's first entry; that of the first hart starts the others."""
        some = self.some
        starts = [self.call(HSM, 0, it, self.addresses[it], any_number(some)) for it in self.begins[1:]] if hart == self.boot else []
        lines = ["sie 0x22"] * (some.random() < 0.3) + self.operations(some.randint(0, max(self.lengths - len(starts), 1)))
        for it in starts:
            # (mostly early, so that harts run beside each other)
            lines.insert(min(some.randrange(len(lines) + 1), some.randrange(len(lines) + 1)), it)
        return [f"at {self.addresses[hart]:#x}", *lines]

    def operations(self, many):
        some, lines = self.some, []
        while len(lines) < many:
            if many >= 5 and some.random() < 0.5:
                lines += self.remapping()
            elif some.random() < 0.35:
                lines.append(self.access())
            else:
                lines.append(self.operation())
        return lines

    # ---- operations

    def written(self, name, *numbers):
        return " ".join([name, *("-" if it is None else spelled(self.some, it) for it in numbers)])

    def call(self, *numbers):
        """A call; arguments that are 0 may be left out at its end."""
        numbers = [*numbers]
        while len(numbers) > 2 and numbers[-1] == 0 and self.some.random() < 0.7:
            numbers.pop()
        return self.written("ecall", *numbers)

    def address(self):
        some = self.some
        last = RAM + PAGE * (self.pages - 1)
        return some.choice([last, last, last, last + 8, last + 8, last + PAGE, last + 4, 0x1000, 0, ALL - 7])

    def access(self, va=None):
        """An operation on a word of memory, at this address or at any."""
        some = self.some
        va, name = self.address() if va is None else va, some.choice(ACCESSES)
        if name == "change":
            name = some.choice([*CHANGES])
            va += some.choice([0, some.randrange(0, 8, CHANGES[name][0]), some.randrange(0, 8, CHANGES[name][0]), some.randrange(8)])
        numbers = [any_word(some) for _ in range(COUNTS[name][0] - 1)]
        if name == "amocas" and some.random() < 0.5:
            # (what most words are at first)
            numbers[0] = 0
        return self.written(name, va & ALL, *numbers)

    def satp(self, root, mode=None):
        mode = self.some.choice([8, 8, 9, 0, 1]) if mode is None else mode
        return mode << 60 | self.some.choice([0, 1, 2, 0x11, 0xFFFF]) << 44 | root >> 12

    def remapping(self):
        """Page 0x1000 is mapped by a table that is its own lower ones, is read, and is mapped anew, mostly without a fence."""
        some = self.some
        leaf = lambda: (some.choice([RAM, RAM + PAGE]) >> 2) | some.choice([0xCF, 0xCF, 0xEF, 0xC3, 0x43, 0x4B, 0xC7, 0])
        lines = [self.written("store", TABLE, TABLE >> 2 | 1), self.written("store", TABLE + 8, leaf())]
        lines += [self.written("satp", self.satp(TABLE, 9 if self.width == 48 and some.random() < 0.5 else 8)), self.used()]
        if some.random() < 0.7:
            lines += [self.written("satp", 0), self.written("store", TABLE + 8, leaf())]
            lines += [self.fence()] if some.random() < 0.4 else []
            lines += [self.written("satp", self.satp(TABLE, 8)), self.used()]
        return lines

    def used(self):
        return self.access(self.some.choice([0x1000, 0x1008, 0x1000]))

    def fence(self):
        some = self.some
        va, asid = some.choice([None, 0x1000, 0x1008, 0x2000, 1 << 63]), some.choice([None, 0, 1, 2, 0x11, 0x10001, ALL])
        return some.choice([self.written("sfence", va, asid), self.written("sfence", va, asid), "fencei"])

    def operation(self):
        some = self.some
        return some.choice([
            *["sip", "sip", "clearssip", "wfi"],
            *[self.written("sie", some.choice([0, 2, 0x20, 0x22, ALL]))] * 2,
            self.written("sstatus", some.randrange(2)), self.fence(), self.written("satp", self.satp(some.choice([TABLE, 0]))),
            *[self.called()] * 12,
        ])  # fmt: skip

    def named(self):
        """A hart list: a mask and a base."""
        some = self.some
        return some.choice([(0, ALL), (0, ALL), (some.randrange(1 << self.harts), 0), (some.randrange(1 << self.harts), 0), (1, some.randrange(self.harts + 1)), (any_number(some), 1)])

    def called(self):
        some = self.some
        hart, addr = some.randrange(self.harts + 1), some.choice([*self.addresses, *self.addresses, 0x80000001, any_number(some)])
        calls = [
            (BASE, some.randrange(8), some.choice([BASE, HSM, any_number(some)])), (any_number(some), any_number(some), any_number(some)),
            (HSM, 0, hart, addr, any_number(some)), *[(HSM, 2, hart)] * 2, *[(HSM, 1)] * 2, *[(HSM, 3, 0)] * 3,
            (HSM, 3, some.choice([1, 1 << 31, 1 << 31, (1 << 32) + (1 << 31)]), addr, any_number(some)),
            *[(IPI, 0, *self.named())] * 4, (TIME, 0, some.choice([0, 1, 3, ALL])),
            *[(RFENCE, some.randrange(4), *self.named(), some.choice([0, 0x1000]), some.choice([0, 8, 0x1000, ALL]), some.choice([0, 1, 0x10001]))] * 7,
            *[(SRST, 0, some.choice([0, 0, 1, 2, 3, 1 << 32]), some.choice([0, 0, 1, 2, 0xE0000000]))] * 2,
        ]  # fmt: skip
        return self.call(*some.choice(calls))


# ---- conditions


def altered(some, word, harts):
    """Another number that may be taken for this one."""
    if word == "-":
        return some.choice([0, 0x1000])
    near = [word + 1, word - 1, -word, word + (1 << 32), word ^ 1 << 63, word & 0xFFFFFFFF, 0, ALL, harts, 1, FAILED]
    return some.choice([it for it in near if -(1 << 63) <= it <= ALL])


def number_word(some, number):
    return spelled(some, number) if number >= 0 else some.choice(["-", "-0", "-00"]) + str(-number)


def pattern_words(some, words, harts, kind):
    """Words of a pattern: those of a step or of a reply, some of them left out, altered, or written as `_`."""
    words = list(words[: some.randint(1, len(words))] if some.random() < 0.5 else words)
    at = 1 if kind == "step" else 0
    if len(words) > at and some.random() < 0.08:
        words[at] = some.choice(NAMES[kind])
        words = words[: at + 1 + MOST_WORDS[words[at]]]
    found = []
    for place, word in enumerate(words):
        if some.random() < 0.15:
            found.append("_")
        elif place == at:
            found.append(word)
        elif place < at:
            found.append(actor_word(some, word, harts))
        else:
            word = altered(some, word, harts) if some.random() < 0.08 else word
            found.append(word if word == "-" else number_word(some, word))
    return found


def actor_word(some, word, harts):
    if some.random() < 0.06:
        word = some.choice(["c", harts, 64, 127, *range(harts)])
    return word if word == "c" else spelled(some, word)


def pattern_of(some, steps, harts, needs_reply=False):
    actor, op, answer = some.choice(steps)
    words = pattern_words(some, step_words(actor, op), harts, "step")
    if needs_reply or some.random() < 0.65:
        words += ["->", *pattern_words(some, answer, harts, "reply")]
    return " ".join(words)


def condition_of(some, steps, harts):
    """A condition about some of these steps: actor, operation and answer."""
    kind = some.choice(["never", "never", "after", "after", "some", "some", "each", "before", "before", "end", "can"])
    one, other = (pattern_of(some, steps, harts, kind == "each") for _ in range(2))
    if kind == "end":
        # (that a limit cuts orders off is a question to orders of a seed alone)
        return "end " + " ".join(some.sample(ENDS, some.randint(1, 3)) if some.random() < 0.2 else some.sample(("off", "quiet", "stuck"), some.randint(1, 3)))
    if kind == "can":
        return " ".join(["can end", *some.sample(("off", "quiet", "stuck"), some.randint(0, 3))])
    return {"never": f"never {one}", "some": f"some {one}", "each": f"each {one}", "after": f"never {one} after {other}", "before": f"before {one}{some.choice([',', ' ,'])} {other}"}[kind]


class RandomProgram:
    """A program with room for conditions: their lines are comments, until `asking` writes them."""

    def __init__(self, seed):
        maker = Maker(seed)
        self.some, self.harts = maker.some, maker.harts
        self.limit = maker.limit
        self.lines = maker.lines()
        many = self.some.choice([0, 1, 1, 2, 3, 4, 5, 6, self.some.randint(7, MOST_CONDITIONS)])
        for _ in range(many):
            self.lines.insert(self.some.randrange(len(self.lines) + 1), None)

    def text(self, asked=()):
        """`asked`: the conditions, in their order, one for each line that has room; without them it has comments there."""
        left = iter(asked)
        return "".join(f"{'#' + next(left, '') if line is None else line}\n" for line in self.lines)

    def asking(self, steps):
        """The text with conditions about these steps."""
        some = self.some
        steps = sorted(steps, key=str)
        asked = [f"! {condition_of(some, steps, self.harts)}{some.choice(['', ' ', ' # as it is'])}" for line in self.lines if line is None]
        return self.text(asked)
