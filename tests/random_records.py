"""Random records, as a machine would give them on which this board's firmware runs: calls of several harts overlap, each is
done at some moment between its line and its return, and the firmware's own steps leave no line."""
import os
import random
import sys

sys.path.insert(0, os.path.join(os.path.dirname(os.path.dirname(os.path.realpath(__file__))), "tools"))

from board_model import (  # noqa: E402
    BASE, GONE, HSM, IPI, RESUME_PENDING, RFENCE, SRST, STARTED, STOPPED, TIME, WAITING, Board,
)  # fmt: skip

ENTRIES = (0x80000000, 0x80001000, 0x80002000)


class Maker:
    """A random record: `text`. What a hart does next is chosen at random, and so is which hart."""

    def __init__(self, seed):
        self.any = random.Random(seed)
        self.harts = self.any.choice([1, 2, 2, 3, 3, 4, 4, 6])
        self.board = Board(self.harts, 4, 1_000_000, self.any.randrange(self.harts), ENTRIES[0], 7)
        self.has_notes = self.any.random() < 0.8
        self.lines = [f"record {self.harts}"]
        # Of each hart: its call that hasn't returned (its operation and its answer), if it is in one.
        self.calls = {}
        # How eager the harts are to end what has begun: where they aren't, many calls overlap.
        self.haste = self.any.choice([0.2, 0.5, 0.8])
        for _ in range(self.any.choice([50, 200, 600])):
            awake = [h for h, it in enumerate(self.board.harts) if it.state == STARTED]
            if not awake and self.any.random() < 0.2:
                # (nobody goes on before somebody's time has come)
                self.board.step(None, ("tick", 10))
            self.turn(self.any.randrange(self.harts))
            if self.board.is_off:
                break
        self.text = "".join(line + "\n" for line in self.lines)

    def write(self, hart, *words):
        notes = []
        if self.has_notes:
            it = self.board.harts[hart]
            notes = [f"time={self.board.time}", f"sie={it.sie:#x}", f"sip={self.board.sip(hart):#x}", f"sstatus={it.sstatus}"]
        self.lines.append(" ".join([str(hart), *words, *notes]))

    def turn(self, hart):
        it, call = self.board.harts[hart], self.calls.get(hart)
        if self.any.random() < 0.1:
            self.board.step(None, ("tick", self.any.randrange(20)))
        if it.waiting and self.any.random() < self.haste:
            self.board.step(hart, ("serve",))
        elif call is not None and call[1] is None:
            self.done(hart, call[0])
        elif call is not None and call[1] == WAITING and it.outstanding is not None:
            if self.board.step(hart, ("poll",))[0] == "ret":
                self.calls[hart] = (call[0], ("ret", 0, 0))
        elif it.state not in (STARTED, STOPPED):
            self.advance(hart)
        elif call is not None and call[1][0] == "ret":
            if self.any.random() < self.haste:
                self.write(hart, "ret", str(call[1][1]), f"{call[1][2]:#x}")
                del self.calls[hart]
        elif it.state == STARTED and call is None:
            self.guest(hart)

    def advance(self, hart):
        is_entering = self.board.harts[hart].state == RESUME_PENDING
        answer = self.board.step(hart, ("advance",))
        if answer[0] == "entry":
            self.calls.pop(hart, None)
            self.write(hart, "entry", f"{answer[1]:#x}", str(hart), f"{answer[3]:#x}")
        elif answer[0] == "ret" and is_entering:
            self.calls[hart] = (self.calls[hart][0], answer)

    def done(self, hart, op):
        answer = self.board.step(hart, op)
        self.calls[hart] = (op, answer)
        if answer == GONE and op[1] == SRST:
            self.calls = {}

    def guest(self, hart):
        it = self.board.harts[hart]
        if self.has_notes and self.any.random() < 0.4:
            self.board.step(hart, self.any.choice([("sie", 2), ("sie", 0x22), ("sie", 0x20), ("clearssip",), ("sstatus", 0)]))
        op = self.call(hart)
        if op[1:3] in ((HSM, 1), (HSM, 3)) and sum(other.state == STARTED for other in self.board.harts) < 2:
            op = ("ecall", BASE, 0)
        if op[1:3] == (HSM, 3) and (not self.has_notes or self.any.random() < 0.9):
            # (without notes it isn't seen what a hart enables: all that there is)
            self.board.step(hart, ("sie", 0x22))
        if op[1:3] == (HSM, 1) and it.sstatus:
            self.board.step(hart, ("sstatus", 0))
        self.calls[hart] = (op, None)
        self.write(hart, "call", *(f"{number:#x}" for number in op[1:] + (0,) * (9 - len(op))))

    def call(self, hart):
        other, mask = self.any.randrange(self.harts), self.any.getrandbits(self.harts)
        entry = self.any.choice(ENTRIES)
        kinds = [
            (4, ("ecall", HSM, 0, other, entry, self.any.randrange(9))),
            (5, ("ecall", HSM, 2, other)),
            (4, ("ecall", IPI, 0, mask, 0)),
            (4, ("ecall", RFENCE, 1, mask, 0, 0x1000, 0x1000)),
            (2, ("ecall", TIME, 0, self.board.time + self.any.randrange(30))),
            (1, ("ecall", BASE, 0)),
            (1, ("ecall", HSM, 3, 0)),
            (0.5, ("ecall", HSM, 3, 1 << 31, entry, 5)),
            (0.4, ("ecall", HSM, 1)),
            (0.1, ("ecall", SRST, 0, self.any.choice([1, 2, 2]), 0)),
            (0.02, ("ecall", SRST, 0, 0, 0)),
        ]
        odds, ops = zip(*kinds)
        return self.any.choices(ops, odds)[0]
