"""The course of a record, a trace or a schedule on a board: what tools/timeline draws."""
from board_model import (
    CUT, GONE, HSM, INTERRUPTIBLE, IPI, RFENCE, SRST, SSI, STATES, STI, SUSPENDED, WAITING, board_of, spelled_answer, spelled_step, step_of, targets,
)  # fmt: skip
from causes import Causes
from entry import contents
from holdings import Holdings
from records import Broken, read
from states import Difference, Step
from traces import followed

IN_CALL = len(STATES)


# ---- reading


def of_record(text, shift):
    """The board and the steps: actor, operation, what was recorded, what is shown of the line; and the time of each step."""
    follower, items = followed(read(text), shift)
    times = {line.number: line.notes["time"] for line in follower.lines if "time" in line.notes}
    steps, states = [], {}
    clock = Clock()
    for item in items:
        if isinstance(item, Step):
            steps.append((item.actor, item.op, item.said, item.why))
            clock.step(times.get(item.at), item.op[:2] == ("ecall", SRST) and item.answer == GONE)
        elif isinstance(item, Difference) and (": " in item.what or item.what.endswith(" tells")) and steps:
            states[len(steps) - 1] = f"{item.what}: here {item.here}, there {item.there}"
    return follower.first().board, steps, states, clock.times


class Clock:
    """The times of a record's steps, as they never go back: a step that is put in before a line has the time of the one
    before, and what a reset takes from the clock is added again."""

    def __init__(self):
        self.times, self.lost, self.is_reset = [], 0, False

    def step(self, time, is_reset):
        last = self.times[-1] if self.times else time or 0
        if time is not None and self.is_reset:
            self.lost, self.is_reset = self.lost + max(0, last - time - self.lost), False
        self.times.append(last if time is None else max(last, time + self.lost))
        self.is_reset |= is_reset


def answer_of(words, at):
    try:
        name, *numbers = words
        return (name, *(int(word, 0) if word.lstrip("-")[:2] == "0x" else int(word) for word in numbers))
    except ValueError:
        raise Broken(at, f"'{' '.join(words)}' is no reply") from None


def shortened(line):
    return line if len(line) <= 60 else f"{line[:60]}.."


def of_script(text):
    """The same of a trace, or of a schedule, which has no answers."""
    board, steps = None, []
    for at, line in enumerate(text.decode("latin-1").splitlines(), 1):
        body, _, comment = line.partition("#")
        step, arrow, reply = body.partition("->")
        words = step.split()
        if not words:
            continue
        try:
            if board is None:
                board = board_of(words)
                continue
            actor, op = step_of(words)
            # (arguments that aren't written are 0)
            op += (0,) * (9 - len(op)) if op[0] == "ecall" else ()
            steps.append((actor, op, answer_of(reply.split(), at) if arrow else None, f"line {at}" + (f": {comment.strip()}" if comment.strip() else "")))
        except (ValueError, TypeError, IndexError):
            raise Broken(at, f"'{shortened(body.strip())}' is no line of a record, a trace or a schedule") from None
    if board is None:
        raise Broken(1, "there is no board line, and no line 'record HARTS'")
    return board, steps, {}, None


def read_file(path, shift):
    text = contents(path)
    first = next((words for words in (line.partition(b"#")[0].split() for line in text.splitlines()) if words), [])
    return of_record(text, shift) if first[:1] == [b"record"] else of_script(text)


# ---- what happened


class Course:
    """What is drawn: segments of states for each hart, arrows, resets, marks, times, each step's text, and what each hart has."""

    def __init__(self, board, steps, states):
        self.board, self.harts = board, len(board.harts)
        self.segments = [[] for _ in range(self.harts)]
        self.arrows, self.resets, self.stale, self.other, self.times, self.actors, self.texts, self.answers = [], [], [], [], [], [], [], []
        # Each step as it is done, without the answer; the answers are those that are shown.
        self.done = [spelled_step(*step[:2]) for step in steps]
        self.clock, self.off = [], None
        self.holdings = Holdings(board)
        self.causes = Causes(board, self.holdings)
        # Of each hart: the place of its start, of the IPI that is pending, of the tick that its deadline came by; of its
        # fence call that is open; and at each target, by caller, the place of the fence that waits.
        self.started, self.sent, self.came, self.asked, self.waits = {}, {}, {}, {}, {}
        self.shade = [self.shade_of(h) for h in range(self.harts)]
        self.since = [0] * self.harts
        for place, step in enumerate(steps):
            self.take(place, *step, states.get(place))
        for h in range(self.harts):
            self.segments[h].append((self.since[h], len(steps), self.shade[h]))

    def shade_of(self, h):
        hart = self.board.harts[h]
        return IN_CALL if hart.outstanding is not None else hart.state

    def take(self, place, actor, op, said, why, state):
        board = self.board
        wakes = board.sip(actor) & board.harts[actor].sie if actor is not None and actor < self.harts else 0
        slept = actor is not None and actor < self.harts and board.harts[actor].state == SUSPENDED
        front = board.harts[actor].waiting[:1] if actor is not None and actor < self.harts else ()
        due = [board.is_due(h) for h in range(self.harts)] if actor is None else []
        self.holdings.begin()
        answer = board.step(actor, op)
        self.holdings.take(place, op[0] == "tick")
        self.clock.append(board.time)
        self.actors.append(-1 if actor is None else actor)
        is_other = said is not None and said != answer
        self.answers.append(said if is_other else answer)
        text = f"{spelled_step(actor, op)} -> {spelled_answer(self.answers[-1])}"
        if is_other:
            self.other.append(place)
            text += f"   (here {spelled_answer(answer)})"
        if state:
            self.other.append(place)
        if board.is_stale:
            self.stale.append(place)
            text += "   STALE"
        self.texts.append(f"{text}   # {why}" + (f"; {state}" if state else ""))
        if answer[0] == "refused" or (actor, op) == CUT:
            self.causes.pass_over()
            return
        self.causes.take(place, actor, op, answer, why)
        if actor is None:
            self.times.append((place, f"{board.time:x}"))
            self.came |= {h: place for h in range(self.harts) if board.is_due(h) and not due[h]}
        else:
            self.join(place, actor, op, answer, wakes if slept or op[0] == "wfi" else 0, front)
        self.mark(place, actor, op, answer)

    def mark(self, place, actor, op, answer):
        """Ends the segments of the harts whose state this step may have changed."""
        if op[:2] == ("ecall", SRST) and answer == GONE:
            self.resets.append(place)
            if self.board.is_off:
                self.off = place
            self.started, self.sent, self.came, self.asked, self.waits = {}, {}, {}, {}, {}
            if not self.board.is_off:
                self.started[self.board.config[3]] = (place, actor)
            changed = range(self.harts)
        else:
            changed = {actor, op[3]} if op[:3] == ("ecall", HSM, 0) and answer[1] == 0 else {actor}
        for h in changed:
            if h is not None and self.shade_of(h) != self.shade[h]:
                self.segments[h].append((self.since[h], place + 1, self.shade[h]))
                self.since[h], self.shade[h] = place + 1, self.shade_of(h)

    def arrow(self, kind, start, end):
        self.arrows.append((*start, *end, kind))

    def join(self, place, actor, op, answer, wakes, front):
        """The arrows that begin or end with this step of a hart."""
        here = (place, actor)
        if wakes & SSI and actor in self.sent:
            self.arrow("ipi", self.sent.pop(actor), here)
        elif wakes & STI and actor in self.came:
            self.arrow("time", (self.came.pop(actor), -1), here)
        if op[:3] == ("ecall", HSM, 0) and answer[1] == 0:
            self.started[op[3]] = here
        elif answer[0] == "entry" and actor in self.started:
            self.arrow("start", self.started.pop(actor), here)
        elif op[:2] == ("ecall", IPI) and answer == ("ret", 0, 0):
            self.sent |= {t: here for t in targets(op[3], op[4], self.harts) if self.board.harts[t].state in INTERRUPTIBLE}
        elif op[0] == "clearssip" and actor in self.sent:
            self.arrow("ssip", self.sent.pop(actor), here)
        elif op[:2] == ("ecall", RFENCE) and answer == WAITING:
            self.asked[actor] = place
        elif op[0] == "serve" and front:
            caller = front[0][0]
            self.arrow("fence", (self.asked.get(caller, place), caller), here)
            self.waits.setdefault(caller, []).append(here)
        elif op[0] == "poll":
            for served in self.waits.pop(actor, ()):
                self.arrow("poll", served, here)
