"""Where no way of a line fits: it happened, and the board does otherwise. The difference is kept, and the board goes on with its own
answer, or as the record shows."""
from board_model import HSM, IPI, RESUME_PENDING, RFENCE, SSI, SUSPEND_PENDING, SUSPENDED, WAITING, spelled_answer
from records import Broken, is_suspend
from rules import UNEXPLAINED_VERDICT
from states import Difference
from ways import Ways


class Forced(Ways):
    def forced(self, state, place):
        """The line happened, and the board does otherwise: the difference is kept, and the board goes on with its own answer."""
        line = self.lines[place]
        if line.kind == "reset":
            raise Broken(line.number, "the machine is reset while no hart of the board could ask for it")
        state = self.prepared(state, line)
        hart = line.hart
        if line.kind == "call":
            self.opened(state, place)
            self.effect(state, hart)
        elif line.kind == "entry":
            entered = next(self.reached(state, place, lambda *given: self.entered(*given, is_strict=False)), None)
            if entered is not None:
                return entered
            self.forced_entry(state, line)
            state.calls.pop(hart, None)
        else:
            self.forced_return(state, line)
            state.calls.pop(hart, None)
        return state

    def forced_entry(self, state, line):
        hart, call = line.hart, state.calls.get(line.hart)
        self.look_at_zeros(state, line)
        if call is not None and call.answer is None:
            self.effect(state, hart)
        self.catch_up(state, hart)
        if state.board.harts[hart].state == SUSPEND_PENDING:
            self.advance(state, hart)
        said = self.entry_of(line)
        state.is_fresh = False
        is_asleep = state.board.harts[hart].state == SUSPENDED
        while state.board.harts[hart].state == SUSPENDED and state.board.wakes(hart):
            self.advance(state, hart)
        early = state.early.pop(hart, None)
        answer = early[0] if early else state.do(hart, ("advance",), line.number, f"line {line.number}", said)
        if answer != said:
            verdict = self.of_wake(state, hart, line) if is_asleep and answer[0] == "refused" else None
            self.found(state, line, f"{self.id(hart)} entry", answer, said, verdict, set() if verdict else {hart})
            if verdict:
                self.wake_as_there(state, hart)

    def forced_return(self, state, line):
        hart = line.hart
        call = state.calls.get(hart)
        if call is None:
            follows = self.origin(state, line, None)
            verdict = None if follows else UNEXPLAINED_VERDICT
            state.put(Difference(line.number, f"{self.id(hart)} returns", "no call is open", spelled_answer(self.returned_as(line) or ("ret", 0, 0)), verdict, follows))
            return
        if call.answer is None:
            self.effect(state, hart)
            call = state.calls.get(hart, call)
        elif is_suspend(call.op[1:]) and call.answer == WAITING:
            self.forced_wake(state, line)
        if state.board.harts[hart].outstanding is not None:
            self.polled(state, line)

    def catch_up(self, state, hart):
        """What had begun may have been the cause: an IPI, a fence, or a start of the hart is done."""
        for other in sorted(state.calls):
            call = state.calls.get(other)
            is_cause = call is not None and (call.op[1] in (IPI, RFENCE) or call.op[1:4] == (HSM, 0, hart))
            if is_cause and other != hart and call.answer is None and self.shown(call.place) in (WAITING, ("ret", 0, 0)):
                self.effect(state, other)
        if self.is_being_fenced(state, hart):
            state.fenced |= {hart}

    def forced_wake(self, state, line):
        hart, said = line.hart, self.returned_as(line) or ("ret", 0, 0)
        self.catch_up(state, hart)
        if state.board.harts[hart].state == SUSPEND_PENDING:
            self.advance(state, hart)
        if state.board.harts[hart].state == SUSPENDED and state.board.wakes(hart):
            self.advance(state, hart)
        answer = state.do(hart, ("advance",), line.number, f"line {line.number}", said)
        if answer[:2] != said[:2]:
            verdict = self.of_wake(state, hart, line) if answer[0] == "refused" else None
            self.found(state, line, f"{self.id(hart)} resumes", answer, said, verdict, set() if verdict else {hart})
            if verdict:
                self.wake_as_there(state, hart)

    def wake_as_there(self, state, hart):
        """What woke the hart there doesn't wake it here: the board goes on as if it did. (Its trace is checked up to here alone.)"""
        it = state.board.mine(hart)
        was = it.sie, it.ssip
        it.sie, it.ssip = SSI, 1
        while state.board.harts[hart].state in (SUSPENDED, RESUME_PENDING):
            state.board.step(hart, ("advance",))
        it = state.board.mine(hart)
        it.sie, it.ssip = was
