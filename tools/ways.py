"""The ways in which a line of a record can be: the states of the board in which it is as it was recorded, by the fewest other steps
before it."""
from bisect import bisect_right

from board_model import (
    ALREADY_AVAILABLE, GONE, HSM, INVALID_PARAM, IPI, RESUME_PENDING, RFENCE, SSI, START_PENDING, STARTED, STOP_PENDING, STOPPED, SUSPEND_PENDING, SUSPENDED,
    WAITING,
)  # fmt: skip
from differences import is_system_suspend
from effects import Effects
from records import is_suspend
from rules import ignored_as
from states import Open

# How many orders are tried at one place.
ORDERS = 200


class Ways(Effects):
    def __init__(self, record, maps, ignored, version):
        super().__init__(record, maps, version)
        self.ignored, self.passed_over = frozenset(ignored), {}

    def ways(self, state, place):
        line = self.lines[place]
        if line.kind == "call":
            name = ignored_as(line.numbers)
            if name in self.ignored:
                self.passed_over[place] = name
                yield state
                return
            if is_system_suspend(line.numbers) and self.resumes(line):
                yield self.system_suspended(self.opened(self.prepared(state, line), place), line.hart)
                return
            yield from self.ways_of_call(self.prepared(state, line), place)
        elif line.kind == "ret":
            if line.hart not in state.calls and self.is_passed_over(place):
                yield state
                return
            yield from self.reached(self.prepared(state, line), place, self.returned)
        elif line.kind == "entry":
            yield from self.reached(self.prepared(state, line), place, self.entered)
        elif (done := self.was_reset(state.copy(), line)) is not None:
            yield done

    def resumes(self, line):
        return line.reply is None and line.then is not None and self.lines[line.then].kind == "entry"

    def is_passed_over(self, place):
        places = self.places[self.lines[place].hart]
        return places[bisect_right(places, place) - 2] in self.passed_over

    def ways_of_call(self, state, place):
        hart, shown = self.lines[place].hart, self.shown(place)
        leaves = shown == GONE or is_suspend(self.lines[place].numbers) and shown == WAITING
        if leaves:
            done = self.opened(state.copy(), place)
            if self.effect(done, hart) != shown:
                return
            yield done
            if done.board.harts[hart].state in (STOP_PENDING, SUSPEND_PENDING):
                further = done.copy()
                self.advance(further, hart)
                yield further
        yield self.opened(state.copy(), place)
        # (where its SSIP is 0, an IPI that hasn't returned may have come before, and was cleared)
        if not self.lines[place].notes.get("sip", SSI) & SSI:
            for moved in self.ipis_done(state, hart):
                yield from self.ways_of_call(moved, place)

    def ipis_done(self, state, hart):
        """Each state in which an IPI to the hart that is still open is done."""
        for other, call in state.calls.items():
            if call.answer is None and call.op[1:3] == (IPI, 0) and hart in self.named(self.lines[call.place].numbers[2:4]):
                moved = state.copy()
                if self.effect(moved, other) == self.shown(call.place):
                    yield moved

    # ---- what is looked for at a return and at an entry

    def reached(self, state, place, finish):
        """Each state in which the line can be finished, by the fewest other steps before it."""
        states, seen = [state], set()
        while states and len(seen) < ORDERS:
            following = []
            for state in states:
                done = finish(state.copy(), place)
                if done is not None:
                    yield done
                for moved in map(self.settled, self.moves(state, place)):
                    key = moved.key()
                    if key not in seen:
                        seen.add(key)
                        following.append(moved)
            states = following

    def settled(self, state):
        """The state, with each call done that answers what was recorded and changes nothing: no other moment is better."""
        if len(state.calls) < 2:
            return state
        for hart, call in list(state.calls.items()):
            shown = self.shown(call.place) if call.answer is None else None
            if shown is not None and self.changes_nothing(state.board, hart, call.op, shown):
                self.effect(state, hart)
        return state

    def changes_nothing(self, board, hart, op, shown):
        if shown[0] != "ret" or shown[1] == 0 and op[1:3] != (HSM, 2):
            return False
        if op[1:3] == (HSM, 2) and shown[1] == 0:
            it = board.harts[hart]
            return it.state == STARTED and it.outstanding is None and op[3] < len(board.harts) and board.harts[op[3]].state == shown[2]
        return board.copy().step(hart, op) == shown

    def moves(self, state, place):
        """What may have happened before the line: another call, or a step of a firmware."""
        for hart, call in state.calls.items():
            if call.answer is None and (hart != self.lines[place].hart or self.lines[place].kind == "entry"):
                moved, shown = state.copy(), self.shown(call.place)
                answer = self.effect(moved, hart)
                if shown is None or self.is_alike(moved, call.op, answer, shown):
                    yield self.answered(moved, hart, shown)
        for hart, it in enumerate(state.board.harts):
            if it.state in (STOP_PENDING, SUSPEND_PENDING):
                moved = state.copy()
                self.advance(moved, hart)
                yield moved
            elif it.state == SUSPENDED and (state.board.wakes(hart) or self.has_no_time(state, hart)):
                moved = state.copy()
                self.come(moved, hart, self.lines[place].number, "shows it")
                self.advance(moved, hart)
                yield moved
            elif it.state in (START_PENDING, RESUME_PENDING) and hart != self.lines[place].hart and self.goes_on(state, hart, place):
                line = self.next_line(hart, place)
                moved = state.copy()
                answer = moved.do(hart, ("advance",), line.number, f"line {line.number}, seen before it")
                moved.early[hart] = (answer, it.state == START_PENDING)
                if answer == (self.entry_of(line) if line.kind == "entry" else self.returns(self.next_place(hart, place)) or answer):
                    yield moved
            elif it.state == RESUME_PENDING and it.is_retentive and self.is_unseen(hart, place):
                moved = state.copy()
                self.advance(moved, hart)
                yield moved

    def goes_on(self, state, hart, place):
        """Whether the hart's next line is the one to which its pending state leads."""
        it, line = state.board.harts[hart], self.next_line(hart, place)
        is_call = it.state != START_PENDING and it.is_retentive
        return line is not None and line.kind == ("ret" if is_call else "entry")

    def is_unseen(self, hart, place):
        """Whether the record has no more of what the hart is in: it ends before, or the hart begins anew."""
        line = self.next_line(hart, place)
        return line is None or line.kind == "entry"

    def returned(self, state, place):
        """The call of this line returns as it was recorded; else None."""
        line = self.lines[place]
        call = state.calls.get(line.hart)
        if call is None:
            return None
        if call.answer is None and self.effect_agrees(state, line.hart) is None:
            return None
        call = state.calls[line.hart]
        if call.answer == WAITING:
            answer = self.polled(state, line) if call.op[1] == RFENCE else self.woken(state, line)
            if answer != (self.returns(place) or ("ret", 0, 0)):
                return None
        elif not self.is_alike(state, call.op, call.answer, self.shown(call.place)):
            return None
        self.values(state, place)
        del state.calls[line.hart]
        return state

    def effect_agrees(self, state, hart):
        shown, op = self.shown(state.calls[hart].place), state.calls[hart].op
        answer = self.effect(state, hart)
        return self.answered(state, hart, shown) if self.is_alike(state, op, answer, shown) else None

    def answered(self, state, hart, shown):
        """A call that is done, and with whose answer the order stands: it has what was recorded, whatever its target's state is later."""
        call = state.calls.get(hart)
        if call is not None and shown is not None:
            state.calls[hart] = Open(call.place, call.op, shown)
        return state

    def is_alike(self, state, op, answer, shown):
        """Whether the order of the lines stands with this answer. A start of a hart in a pending state may have either error."""
        if op[1:3] == (HSM, 0) and (answer, shown) == (("ret", ALREADY_AVAILABLE, 0), ("ret", INVALID_PARAM, 0)):
            return state.board.harts[op[3]].state in (START_PENDING, STOP_PENDING, SUSPEND_PENDING, RESUME_PENDING, SUSPENDED)
        return shown is None or answer == shown

    def entered(self, state, place, is_strict=True):
        """The hart enters as it was recorded, where it is asked for with the same SSIP; else None."""
        line = self.lines[place]
        hart, it = line.hart, state.board.harts[line.hart]
        is_start = True
        if hart in state.early:
            answer, is_start = state.early.pop(hart)
        elif it.state == START_PENDING:
            answer = state.do(hart, ("advance",), line.number, f"line {line.number}")
        elif it.state in (SUSPEND_PENDING, SUSPENDED, RESUME_PENDING) and not it.is_retentive:
            answer, is_start = self.woken(state, line), False
        elif it.state == STOPPED and state.is_fresh:
            answer = self.booted(state, line)
        else:
            return None
        sip = line.notes.get("sip")
        if answer != self.entry_of(line) or is_strict and sip is not None and (sip ^ state.board.sip(hart)) & SSI:
            return None
        state.calls.pop(hart, None)
        state.tainted.pop(hart, None)
        state.is_fresh = False
        self.look_at_notes(state, line, is_start)
        return state
