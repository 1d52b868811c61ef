"""The state of following a record: the steps and differences so far, the open calls, and the board."""
from board_model import spelled_answer, spelled_step
from standard import OPEN, OWN, UNJUDGED


class Step:
    """One step of the board: `said` is what the record shows of it (None: nothing), `why` where it came from."""

    def __init__(self, actor, op, answer, said, at, why):
        self.actor, self.op, self.answer, self.said, self.at, self.why = actor, op, answer, said, at, why

    def line(self):
        said = self.answer if self.said is None else self.said
        return f"{spelled_step(self.actor, self.op)} -> {spelled_answer(said)}  # {self.why}"


class Difference:
    """A place where the board does otherwise: the verdict on it, or the line from which it follows."""

    def __init__(self, at, what, here, there, verdict, follows):
        self.at, self.what, self.here, self.there, self.verdict, self.follows = at, what, here, there, verdict, follows

    @property
    def rule(self):
        """The name of the rule of the board, or None."""
        return self.verdict.rule if self.verdict else None

    @property
    def is_excused(self):
        return self.verdict is not None and self.verdict.kind in (OPEN, OWN, UNJUDGED)


class Open:
    """A call that hasn't returned: its place in the record, its operation, and the board's answer once it is done."""

    def __init__(self, place, op, answer=None):
        self.place, self.op, self.answer = place, op, answer


class State:
    """A board, and where a record stands on it. `out` is what came of it, newest first, as pairs."""

    def __init__(self, board):
        self.board, self.out = board, None
        # `tainted`: harts whose life went on otherwise; `missed`: harts that an IPI reached there alone; each with the line.
        self.calls, self.early, self.tainted, self.missed = {}, {}, {}, {}
        self.offset, self.has_ticked = 0, False
        # Which suspended harts were asked for a fence while they slept; of those that a suspend of the system put to sleep,
        # their sie and SSIP; and whether nobody has entered since the last reset.
        self.fenced, self.asleep, self.is_fresh = frozenset(), {}, False

    def copy(self):
        other = State.__new__(State)
        other.__dict__.update(self.__dict__)
        other.board = self.board.copy()
        other.calls, other.early = dict(self.calls), dict(self.early)
        other.tainted, other.missed, other.asleep = dict(self.tainted), dict(self.missed), dict(self.asleep)
        return other

    def forget(self):
        """As after a reset."""
        self.calls, self.early, self.tainted, self.missed, self.fenced, self.asleep, self.is_fresh = {}, {}, {}, {}, frozenset(), {}, True

    def key(self):
        harts = tuple((x.state, x.kept, x.ssip, x.sie, x.deadline, x.outstanding) for x in self.board.harts)
        return harts, frozenset((h, call.answer) for h, call in self.calls.items()), frozenset(self.early)

    def put(self, item):
        self.out = (self.out, item)

    def do(self, actor, op, at, why, said=None):
        answer = self.board.step(actor, op)
        self.put(Step(actor, op, answer, said, at, why))
        return answer

    def items(self):
        found, out = [], self.out
        while out is not None:
            out, item = out
            found.append(item)
        return found[::-1]


class Choice:
    """A line that is followed in one of its ways: the state before it, its ways that are left, and how many were taken."""

    def __init__(self, place, state, ways, taken=0):
        self.place, self.state, self.ways, self.taken = place, state, ways, taken

    def next(self):
        self.taken += 1
        return next(self.ways, None)


def is_excused(before, after):
    """Whether each difference since an earlier state is excused."""
    out = after.out
    while out is not before.out:
        out, item = out
        if isinstance(item, Difference) and not item.is_excused:
            return False
    return True
