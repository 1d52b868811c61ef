"""A program on the model of the board: which steps an order can take next, and how an order ends."""
import board_model
from board_model import Hart, number, words_of

# The number of the refusal of a full history.
HISTORY_FULL = 4


class Point:
    """A board, what is left of each hart's block, and of the clock's ticks."""

    def __init__(self, board, left, ticks):
        self.board, self.left, self.ticks = board, left, ticks

    def key(self):
        board = self.board
        harts = tuple(tuple(getattr(hart, name) for name in Hart.FIELDS) for hart in board.harts)
        ram = frozenset((at, word) for at, word in board.ram.items() if word)
        return harts, ram, board.time, board.is_off, self.left, self.ticks


class Program:
    """Blocks by their addresses, each operation with its line, and the clock's ticks."""

    def __init__(self, text):
        self.blocks, self.ticks, block = {}, (), None
        for place, line in enumerate(text.splitlines(), 1):
            words = words_of(line)
            if not words:
                continue
            if words[0] == "board":
                self.board = board_model.board_of(words)
            elif words[0] == "at":
                block = self.blocks.setdefault(number(words[1]), []) if number(words[1]) not in self.blocks else []
            elif words[0] == "clock":
                block = None
            elif block is None:
                self.ticks += ((words[0], *(number(it) for it in words[1:])),)
            else:
                block.append((place, (words[0], *(number(it) for it in words[1:]))))

    def start(self):
        board = self.board.copy()
        return Point(board, ((),) * len(board.harts), self.ticks)

    def steps(self, point):
        """Each step that can be taken: its actor, operation and answer, and the point behind it."""
        for h in range(len(point.board.harts)):
            yield from self.steps_of(point, h)
        yield from self.steps_of(point, None)

    def steps_of(self, point, actor):
        """Those of a hart, or of the clock."""
        for op in self.ops_of(point, actor):
            if not point.board.refusal(actor, op):
                yield self.step(point, actor, op)

    def ops_of(self, point, actor):
        """The operations that an actor may try."""
        if actor is None:
            return point.ticks[:1]
        if actor < len(point.left):
            return [("serve",), ("poll",), ("advance",), *(op for _, op in point.left[actor][:1])]
        return ()

    def meets_full_history(self, point, limit):
        """Whether some actor is refused for a full history alone, behind so many steps. A tick is refused for it before it is
        refused for the time."""
        board = point.board.copy()
        board.events = limit
        actors = (*range(len(board.harts)), None)
        return any(board.refusal(it, op) == HISTORY_FULL for it in actors for op in self.ops_of(point, it))

    def step(self, point, actor, op):
        """One that isn't refused."""
        board = point.board.copy()
        answer = board.step(actor, op)
        # (a limit cuts no order off here)
        board.events = 0
        left, ticks = point.left, point.ticks
        if actor is None:
            ticks = ticks[1:]
        elif answer[0] == "entry":
            left = (*left[:actor], tuple(self.blocks.get(answer[1], ())), *left[actor + 1 :])
        elif op[0] in board_model.GUEST:
            left = (*left[:actor], left[actor][1:], *left[actor + 1 :])
        return actor, op, answer, Point(board, left, ticks)

    def end(self, point):
        if point.board.is_off:
            return "off"
        is_quiet = lambda hart, left: hart.state == board_model.STOPPED or hart.state == board_model.STARTED and hart.outstanding is None and not left
        return "quiet" if all(map(is_quiet, point.board.harts, point.left)) else "stuck"
