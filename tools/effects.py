"""What the lines of a record do on a board: the steps that a call, a return or an entry is, and those that a record shows only by
their effects (the firmware's steps, ticks, a guest's writes)."""
from bisect import bisect_right

from board_model import (
    ALL, GONE, HSM, IPI, RESUME_PENDING, RFENCE, SRST, SSI, START_PENDING, STARTED, STI, SUSPEND_PENDING, SUSPENDED, TIME, WAITING,
)  # fmt: skip
from differences import Differences, is_refusal
from liveness import leaves
from numbers_here import Numbers
from records import UNSEEN, is_reset, is_suspend
from registers import READ_SIE
from rules import verdict_of
from states import Difference, Open

PAGES = 256


class Effects(Differences):
    def __init__(self, record, maps, version):
        super().__init__(record, version)
        self.numbers = Numbers(record, maps, PAGES)
        # Of each hart the lines of IPIs to it, and those at which its SSIP is seen.
        self.ipis = {h: self.ipis_to(h) for h in range(record.harts)}
        self.pending = {h: [place for place in self.places[h] if self.lines[place].notes.get("sip", 0) & SSI] for h in range(record.harts)}

    def ipis_to(self, h):
        return [
            place for place in range(len(self.lines))
            if self.lines[place].kind == "call" and self.lines[place].numbers[:2] == (IPI, 0) and h in self.named(self.lines[place].numbers[2:4])
        ]  # fmt: skip

    # ---- numbers of the record on this board

    def op_of(self, state, line):
        op = self.numbers.op(line.numbers)
        if op[1:3] == [TIME, 0] and op[3] != ALL:
            op[3] = min(op[3] + state.offset, ALL)
        return tuple(op)

    def entry_of(self, line):
        pc, a0, a1 = line.numbers
        return ("entry", self.numbers.address(pc), self.numbers.hart(a0), a1)

    def returned_as(self, line):
        return None if line.numbers[0] is None else ("ret", *line.numbers)

    # ---- before a line

    def prepared(self, state, line):
        """A copy, with the time of the line where that makes a difference."""
        state = state.copy()
        time = line.notes.get("time")
        if time is None:
            return state
        board = state.board
        if time + state.offset < board.time:
            state.offset = board.time - time
        now = time + state.offset
        is_due = any(x.deadline is not None and board.time < x.deadline <= now for x in board.harts)
        is_timer = line.kind == "call" and line.numbers[:2] == (TIME, 0)
        if now > board.time and now < ALL and not board.is_off and (is_due or is_timer or not state.has_ticked):
            state.has_ticked = True
            state.do(None, ("tick", now - board.time), line.number, f"put in: the time at line {line.number}")
        return state

    def opened(self, state, place):
        """The call has begun, and what its hart's guest had written before is written."""
        line = self.lines[place]
        self.write(state, place)
        if not line.notes.get("sip", SSI) & SSI:
            state.missed.pop(line.hart, None)
        state.calls[line.hart] = Open(place, self.op_of(state, line))
        return state

    def write(self, state, place):
        line = self.lines[place]
        hart = state.board.harts[line.hart]
        if hart.state != STARTED or hart.outstanding is not None or state.board.is_off:
            return
        why = f"put in: the guest wrote it before line {line.number}"
        sie = line.notes.get("sie")
        if sie is None and is_suspend(line.numbers) and not self.record.has_sie:
            woke = "woke" if line.then is not None else "may have woken"
            sie, why = READ_SIE, f"put in: the record has no sie, and the hart {woke} after line {line.number}"
        if sie is not None and sie & READ_SIE != hart.sie:
            state.do(line.hart, ("sie", sie & READ_SIE), line.number, why)
        sstatus = line.notes.get("sstatus")
        if sstatus is not None and sstatus != hart.sstatus and sstatus <= 1:
            state.do(line.hart, ("sstatus", sstatus), line.number, why)
        if self.was_cleared(state, place):
            state.do(line.hart, ("clearssip",), line.number, why)

    def was_cleared(self, state, place):
        """Whether the guest has cleared its SSIP: it is 0, and no IPI of before comes late."""
        line = self.lines[place]
        if line.notes.get("sip", SSI) & SSI or not state.board.harts[line.hart].ssip:
            return False
        pending = self.pending[line.hart]
        later = bisect_right(pending, place)
        seen = pending[later] if later < len(pending) else None
        if seen is None:
            return True
        ipis = self.ipis[line.hart]
        at = bisect_right(ipis, place)
        return at < len(ipis) and ipis[at] < seen

    # ---- a call

    def effect(self, state, hart):
        """The call is done: in the moment that is chosen, between its line and its return."""
        call = state.calls[hart]
        line, shown = self.lines[call.place], self.shown(call.place)
        if line.reply is not None and self.lines[line.reply].numbers == UNSEEN and leaves(line):
            # (whatever its answer was, it has returned, and so done nothing)
            state.calls[hart] = Open(call.place, call.op, GONE)
            return GONE
        until = "" if line.reply is None else f" to {self.lines[line.reply].number}"
        why = f"line {line.number}{until}"
        if call.op[1:3] == (TIME, 0) and state.offset and call.op[3] != ALL:
            why += ", its time by the board's clock"
        before = state.board
        kept = before.copy() if shown is not None and is_refusal(shown) else None
        if shown is not None and is_suspend(call.op[1:]):
            state.fenced -= {hart}
        answer = state.do(hart, call.op, line.number, why, self.said(call.place))
        if is_refusal(answer) or answer[0] == "refused":
            kept = None
        state.calls[hart] = Open(call.place, call.op, answer)
        if call.op[1] == RFENCE and (answer == WAITING and not kept or shown in (WAITING, ("ret", 0, 0))):
            # (also one that is refused here, or a hypervisor's)
            state.fenced |= {t for t in self.named(line.numbers[2:4]) if t != hart and before.harts[t].state in (SUSPENDED, SUSPEND_PENDING)}
        if answer == GONE and is_reset(call.op[1:]) and not kept:
            state.forget()
        if shown is not None and answer != shown:
            self.differs(state, hart, call, answer, shown)
        else:
            self.agrees(state, hart, call, answer)
        if kept:
            # (what was refused there has done nothing, and so it is here; the trace is checked up to here alone)
            state.board, state.calls[hart] = kept, Open(call.place, call.op, shown)
        return answer

    def system_suspended(self, state, hart):
        """This board has no suspend of the system: a non-retentive suspend stands in its place, and an IPI to wake it."""
        it, call, line = state.board.harts[hart], state.calls[hart], self.lines[state.calls[hart].place]
        was = it.sie, it.ssip
        self.effect(state, hart)
        why = f"put in: a hart's suspend for the system's of line {line.number}"
        for op in (("sie", SSI), ("ecall", IPI, 0, 1, hart, 0, 0, 0, 0), ("ecall", HSM, 3, 1 << 31, self.numbers.address(call.op[4]), call.op[5], 0, 0, 0)):
            state.do(hart, op, line.number, why)
        state.asleep[hart] = was
        return state

    def awake(self, state, hart):
        """What was put in for a suspend of the system is taken back."""
        sie, ssip = state.asleep.pop(hart, (None, None))
        if sie is None:
            return
        why = "put in: as before the suspend of the system"
        state.do(hart, ("sie", sie), None, why)
        if not ssip:
            state.do(hart, ("clearssip",), None, why)

    # ---- the firmware's steps

    def advance(self, state, hart, why=None):
        return state.do(hart, ("advance",), None, why or "put in: the firmware goes on")

    def has_no_time(self, state, hart):
        """Whether the hart's time may have come, of which the record tells nothing."""
        it = state.board.harts[hart]
        return not self.record.has_times and it.sie & STI and it.deadline not in (None, ALL) and not state.board.wakes(hart)

    def come(self, state, hart, number, why):
        if self.has_no_time(state, hart):
            ticks = state.board.harts[hart].deadline - state.board.time
            state.do(None, ("tick", ticks), number, f"put in: the time has come, since line {number} {why}")

    def polled(self, state, line):
        """The fence is applied where it waits, and the call returns."""
        hart = line.hart
        for target in sorted(state.board.harts[hart].outstanding or ()):
            while any(caller == hart for caller, _ in state.board.harts[target].waiting):
                if state.do(target, ("serve",), line.number, f"put in: the fence has been applied, since line {line.number} returns") != ("served",):
                    return None
        return state.do(hart, ("poll",), line.number, f"line {line.number}", self.returned_as(line))

    def woken(self, state, line):
        """The suspended hart goes on, if anything wakes it: its last answer."""
        hart, it = line.hart, state.board.harts[line.hart]
        if hart in state.early:
            return state.early.pop(hart)[0]
        if it.state == SUSPEND_PENDING:
            self.advance(state, hart)
        self.come(state, hart, line.number, "is where the hart goes on")
        answer = None
        for _ in range(2):
            if state.board.harts[hart].state == SUSPENDED and not state.board.wakes(hart):
                return None
            if state.board.harts[hart].state == SUSPENDED:
                answer = self.advance(state, hart)
            elif state.board.harts[hart].state == RESUME_PENDING:
                answer = state.do(hart, ("advance",), line.number, f"line {line.number}")
        self.awake(state, hart)
        return answer

    def booted(self, state, line):
        """After a reset the firmware has another hart boot: here the boot hart starts that one, and stops."""
        pc, _, opaque = line.numbers
        hart, boot = line.hart, state.board.config[3]
        if state.board.harts[boot].state != START_PENDING:
            return None
        why = f"put in: hart {hart} boots at line {line.number}"
        state.do(boot, ("advance",), line.number, why)
        state.do(boot, ("ecall", HSM, 0, hart, self.numbers.address(pc), opaque, 0, 0, 0), line.number, why)
        answer = state.do(hart, ("advance",), line.number, f"line {line.number}")
        state.do(boot, ("ecall", HSM, 1, 0, 0, 0, 0, 0, 0), line.number, why)
        state.do(boot, ("advance",), line.number, why)
        state.put(Difference(line.number, f"{self.id(hart)} entry: after a reset", f"hart {self.id(boot)}", f"hart {self.id(hart)}", verdict_of("boot hart"), None))
        return answer

    def was_reset(self, state, line):
        """The machine was reset by no call: a hart of the board asks for it; None where none could."""
        actor = next((h for h, it in enumerate(state.board.harts) if it.state == STARTED and it.outstanding is None), None)
        if actor is None:
            return None
        state.do(actor, ("ecall", SRST, 0, 1, 0), line.number, f"line {line.number}: a reset by no call, put in as a cold reboot")
        state.forget()
        return state
