"""Harts that fence each other, while one stops, resets the board or finds the history full, at every place: each reply and
each table as the definitions of *asked*, *applied* and *waiting* have them."""
import random
import re

from board_model import HSM, RFENCE, SRST, Board

from . import fixtures, programs
from .fixtures import FULL, Test, many_runs, must, must_be, must_have, must_run, ran, script
from .many_harts import MOST
from .replays import spelled, table

START, WARM = 0x80000000, 2

RESET, STOP, SERVE, POLL, ADVANCE = ("ecall", SRST, 0, WARM), ("ecall", HSM, 1), ("serve",), ("poll",), ("advance",)


def ask(mask, base):
    return "ecall", RFENCE, 1, mask, base


class Fired(Board):
    """The model's board whose harts hart 0 has started, and the lines of its steps."""

    def __init__(self, harts, limit):
        super().__init__(harts, 1, limit, 0, START, 0)
        self.lines = []
        self.does(0, ADVANCE)
        for it in range(1, harts):
            self.does(0, ("ecall", HSM, 0, it, START))
            self.does(it, ADVANCE)

    def does(self, hart, op):
        self.lines.append(spelled(hart, op, self.step(hart, op)))

    def waiting(self):
        return sum(len(it.waiting) for it in self.harts)

    def must_be_replayed(self, room):
        """A replay of the steps prints what the definitions say, byte for byte, and `check` agrees with that."""
        head = f"board {len(self.harts)} 1 {self.config[2]} 0 {START:#x} 0x0"
        steps = "".join(f"{it.partition(' -> ')[0]}\n" for it in [head, *self.lines]).encode()
        wanted = "".join(f"{it}\n" for it in [head, *self.lines, *table(self)]).encode()
        found = ran(["replay", script(room, steps)])
        for one, other in zip(found.stdout.splitlines(), wanted.splitlines()):
            must(f"{head}: {one!r}, not {other!r}", one == other)
        is_full = any(it.endswith("refused 4") for it in self.lines)
        must_be(found, 3 if is_full else 0, wanted, FULL if is_full else b"")
        must_be(ran(["check", script(room, wanted)]), 0, b"agrees %d\n" % len(self.lines), b"")


# ---- eight harts

# The steps before the crossfire, which start all harts.
STARTS = 15


def crossfire():
    """Each of the harts 0 to 6 asks a fence of the one after it and of hart 7; all is served, and each call polled."""
    lines = [(it, ask(1 << (it + 1) % 7 | 1 << 7, 0)) for it in range(7)]
    lines += [(it, SERVE) for it in [*range(7), *[7] * 7]]
    return lines + [(it, POLL) for it in range(7)]


def fired(room, lines, limit=1000):
    """The board after the lines, which a replay prints too, and the replies to them."""
    board = Fired(8, limit)
    for hart, op in lines:
        board.does(hart, op)
    board.must_be_replayed(room)
    return board, [it.partition(" -> ")[2] for it in board.lines[STARTS:]]


def must_say(place, board, **wanted):
    found = {it: getattr(board, it) for it in wanted}
    must(f"with a line after the first {place}: {found}, not {wanted}", found == wanted and board.asked - board.applied == board.waiting())


# ---- as many harts as may be

SIZES = (2, 3, 16, 64, 128)


def storm(some, harts):
    """Each hart asks all, serves all and polls, in any order; one of them, which asks or not, stops on the way. Then all is served,
    and each call polled."""
    own = [[ask(some.getrandbits(64), MOST), *[SERVE] * (harts - 1), POLL] for _ in range(harts)]
    stopped = own[some.randrange(harts)]
    del stopped[: some.randrange(2)]
    stopped.insert(some.randrange(len(stopped) + 1), STOP)
    turns = [hart for hart in range(harts) for _ in own[hart]]
    some.shuffle(turns)
    lines = [(hart, own[hart].pop(0)) for hart in turns]
    lines += [(hart, SERVE) for hart in range(harts) for _ in range(harts - 1)]
    return lines + [(hart, POLL) for hart in range(harts)]


# ---- threads

COUNTS = re.compile(rb"\n# starts \d+ entries \d+ pending 0 asked (\d+) applied (\d+) waiting 0\n")


def runs(room, harts):
    """Each hart is started and asks a fence of all, on a thread of its own: each run ends quiet, with each fence applied."""
    program = programs.fences(harts)
    path = script(room, program.text)

    def run(place):
        out = must_run(room, path, program.end, place)
        must_have(out, *program.table)
        asked, applied = map(int, COUNTS.search(out).groups())
        # (each is asked of its own hart at least)
        must(f"asked {asked}, applied {applied}", asked == applied and harts <= asked <= harts * harts)

    return run


class Crossfire(Test):
    def test_a_crossfire_alone(self):
        board, replies = fired(self.room, crossfire())
        must_say(0, board, events=43, asked=14, applied=14)
        must(f"the polls answer {replies[-7:]}", replies[-7:] == ["ret 0 0x0"] * 7)

    def test_a_stop_at_each_place_of_a_crossfire(self):
        """Hart 7 stops after each number of lines. What waits there is applied, and later fences aren't asked of it."""
        for k in range(29):
            lines = crossfire()
            board, replies = fired(self.room, [*lines[:k], (7, STOP), *lines[k:]])
            count = 7 + min(k, 7)
            must_say(k, board, asked=count, applied=count, events=37 if k <= 14 else 23 + k if k <= 21 else 44)
            polls = [reply for (_, op), reply in zip([*lines[:k], (7, STOP), *lines[k:]], replies) if op == POLL]
            must(f"after a stop behind {k} lines the polls answer {polls}", polls == ["ret 0 0x0"] * 7)

    def test_a_reset_at_each_place_of_a_crossfire(self):
        """Hart 7 resets the board after each number of lines. All is applied, and nothing goes on."""
        for k in range(29):
            lines = crossfire()
            board, replies = fired(self.room, [*lines[:k], (7, RESET), *lines[k:]])
            must_say(k, board, asked=2 * min(k, 7), applied=2 * min(k, 7), events=16 + k)
            must(f"after a reset behind {k} lines: {replies[k:]}, {table(board)[1]}", replies[k:] == ["gone", *["refused 2"] * (28 - k)] and "# starts 1 entries 0 pending 1 " in table(board)[1])

    def test_a_limit_at_each_place_of_a_crossfire(self):
        """The history is full after each number of lines: none of the later ones is accepted, and the board is as it was."""
        for k in range(28):
            board, replies = fired(self.room, crossfire(), STARTS + k)
            first, _ = fired(self.room, crossfire()[:k])
            must_say(k, board, events=STARTS + k)
            later = [it for it in replies[k:] if not it.startswith("refused")]
            must(f"with room for {k} lines: {replies[k:]}", replies[k] == "refused 4" and not later and table(board) == table(first))

    def test_crossfires_by_seeds(self):
        """Boards of all sizes, by seeds: each reply, the board at a place on the way, and at the end nothing waits."""
        for harts in SIZES:
            for seed in range(max(2, 64 // harts)):
                some = random.Random(f"{harts} {seed}")
                lines, board = storm(some, harts), Fired(harts, 1_000_000)
                middle = some.randrange(len(lines))
                for hart, op in lines[:middle]:
                    board.does(hart, op)
                board.must_be_replayed(self.room)
                for hart, op in lines[middle:]:
                    board.does(hart, op)
                board.must_be_replayed(self.room)
                must(f"{harts} harts, seed {seed}: {table(board)[1]}", not board.waiting() and board.asked == board.applied and all(it.outstanding is None for it in board.harts))

    def test_runs_of_a_crossfire(self):
        many_runs(self.room, "a crossfire", runs(self.room, 8))

    def test_runs_of_crossfires_of_2_to_128_harts(self):
        """A hundredth as many runs of boards of each other size."""
        for harts in SIZES:
            run = runs(self.room, harts)
            for place in range(max(1, fixtures.RUNS_OF_EACH // 100)):
                run(place)
