"""Differences between recorded answers and the board's: what is compared, and each difference's verdict."""
from bisect import bisect_right

from board_model import (
    ALL, BASE, GONE, HSM, INVALID_ADDRESS, INVALID_PARAM, IPI, LOW, NOT_SUPPORTED, RESUME_PENDING, RFENCE, SSI, STARTED, SUSPEND_PENDING, SUSPENDED, WAITING, spelled_answer,
)  # fmt: skip
from liveness import shown as spelled_call
from records import UNSEEN, is_reset, is_suspend, listed
from registers import READ_SIE
from rules import TELLS, TOLD, UNEXPLAINED_VERDICT, by_this_state, certain, rule_of_entry, rule_of_wake, verdict_of
from standard import FUNCTIONS, NO_ADDRESS, UNJUDGED, WITH_VALUE, Verdict, breaks, is_beyond, version_of
from states import Difference

SUSPENDING = (SUSPENDED, SUSPEND_PENDING, RESUME_PENDING)
SUSP = 0x53555350
# The functions of Base whose value is always the same.
STEADY = {(BASE, fid) for fid in (0, 1, 2, 4, 5, 6)}
BEYOND = Verdict(UNJUDGED, "an address that isn't in this board's RAM was refused, and what the machine has there isn't recorded", "9.1, 9.4")
WITHOUT_ANSWER = Verdict(UNJUDGED, "a call returned to an interrupt, and its answer wasn't seen", "3")


def is_system_suspend(numbers):
    return numbers[:2] == (SUSP, 0)


def is_refusal(answer):
    """Whether this answer is an error: then the call has done nothing."""
    return answer[0] == "ret" and answer[1] != 0


class Differences:
    """What a record says of each call, and what is kept where the board says otherwise."""

    def __init__(self, record, version):
        self.record, self.lines = record, record.lines
        self.places = {h: [] for h in range(record.harts)}
        for place, line in enumerate(self.lines):
            if line.hart is not None:
                self.places[line.hart].append(place)
        # What the firmware says of itself: the version of the specification, and which extensions it has, by a probe, by another answer
        # than NOT_SUPPORTED, or by a call that has stopped, suspended or reset.
        told = [(line.numbers, self.lines[line.reply].numbers) for line in self.lines if line.kind == "call" and line.reply is not None]
        said = [value for numbers, (error, value) in told if numbers[:2] == (BASE, 0) and error == 0 and value < 1 << 31]
        self.version = version or (version_of(said[0]) if said else (1, 0))
        self.offered = {numbers[2] for numbers, (error, value) in told if numbers[:2] == (BASE, 3) and error == 0 and value}
        self.offered |= {numbers[0] for numbers, (error, _) in told if numbers[:2] in FUNCTIONS and error not in (None, NOT_SUPPORTED)}
        self.offered |= {line.numbers[0] for line in self.lines if line.kind == "call" and self.has_left(line)}

    # ---- what was recorded

    def has_left(self, line):
        """Whether a call without a return did what it was asked: its hart entered behind it, or the machine is off."""
        if line.reply is not None or line.numbers[:2] not in FUNCTIONS:
            return False
        return self.record.end == "off" and is_reset(line.numbers) if line.then is None else self.lines[line.then].kind == "entry"

    def shown(self, place):
        """What a call answered, in the words of a board; None where the record doesn't tell. A value that the standard
        leaves open is 0 here."""
        line = self.lines[place]
        eid, fid = line.numbers[:2]
        if line.reply is None:
            if (eid, fid) == (HSM, 1) or is_reset(line.numbers) or is_system_suspend(line.numbers):
                return GONE
            if is_suspend(line.numbers):
                return GONE if line.numbers[2] & 1 << 31 else WAITING
            return None
        error, value = self.lines[line.reply].numbers
        if error == 0 and (eid == RFENCE and fid <= 2 or is_suspend(line.numbers) and not line.numbers[2] & 1 << 31):
            return WAITING
        return None if error is None else self.settled_answer(line.numbers, error, value)

    def settled_answer(self, numbers, error, value):
        has_value = error == 0 and (numbers[:2] in WITH_VALUE or numbers[:2] not in FUNCTIONS)
        return ("ret", error, value if has_value else 0)

    def said(self, place):
        """The same as it was recorded, for a trace."""
        line, shown = self.lines[place], self.shown(place)
        return ("ret", *self.lines[line.reply].numbers) if shown and shown[0] == "ret" else shown

    def call_of(self, place):
        """The line of the call that returns at this place."""
        places = self.places[self.lines[place].hart]
        return self.lines[places[bisect_right(places, place) - 2]]

    def next_place(self, hart, place):
        places = self.places[hart]
        at = bisect_right(places, place - 1)
        return places[at] if at < len(places) else None

    def next_line(self, hart, place):
        at = self.next_place(hart, place)
        return None if at is None else self.lines[at]

    def returns(self, place):
        """What a return says of a call that was waiting; None where it wasn't seen."""
        numbers = self.lines[place].numbers
        return None if numbers == UNSEEN else self.settled_answer(self.call_of(place).numbers, *numbers)

    # ---- differences

    def name(self, line):
        return spelled_call(self.record, line)

    def id(self, hart):
        return self.record.ids[hart]

    def differs(self, state, hart, call, answer, shown):
        line = self.lines[call.place]
        eid = line.numbers[2] if line.numbers[:2] == (BASE, 3) else line.numbers[0]
        verdict = certain(state.board, call.op, line.numbers, answer, shown, self.version, eid in self.offered)
        if verdict is None and not self.origin(state, line, answer):
            verdict = self.by_its_state(state, call, shown) or by_this_state(state.board, call.op, answer, shown)
        self.found(state, line, self.name(line), answer, self.said(call.place), verdict, set() if is_refusal(shown) else self.touched(hart, call.op))
        if call.op[1:3] == (IPI, 0) and not is_refusal(shown):
            state.missed |= {h: line.number for h in self.named(line.numbers[2:4])}

    def agrees(self, state, hart, call, answer):
        """What is told of an answer that is alike: an address that is refused here since it isn't in the board's RAM, whatever
        the machine has there; and what a kernel says that it saw."""
        line = self.lines[call.place]
        if answer == ("ret", 0, 0) and is_beyond(line.numbers):
            state.put(Difference(line.number, f"{self.name(line)}: its address", "", "", NO_ADDRESS, None))
        if answer == ("ret", INVALID_ADDRESS, 0) and call.op[1] == HSM and line.numbers[3] % 2 == 0:
            state.put(Difference(line.number, f"{self.name(line)}: its address", "", "", BEYOND, None))
        fid, here, there = call.op[2:5]
        if call.op[1] == TELLS and fid < len(TOLD) and here != there:
            state.put(Difference(line.number, f"{self.id(hart)} tells", f"{here:#x}", f"{there:#x}", verdict_of(TOLD[fid]), None))

    def values(self, state, place):
        """A return whose value isn't the board's where the standard leaves it open, or that wasn't seen."""
        numbers, call = self.lines[place].numbers, self.call_of(place)
        if numbers == UNSEEN:
            state.put(Difference(call.number, f"{self.name(call)}: its return", "", "", WITHOUT_ANSWER, None))
        elif self.settled_answer(call.numbers, *numbers)[2] != numbers[1]:
            state.put(Difference(call.number, f"{self.name(call)}: a1", "0x0", f"{numbers[1]:#x}", verdict_of("values"), None))

    def unsteady(self):
        """Calls by which the firmware tells otherwise of itself than by its first such call: of the machine, each hart for itself."""
        first = {}
        for call in self.lines:
            if call.kind != "call" or call.numbers[:2] not in STEADY or call.reply is None or self.lines[call.reply].numbers[0] != 0:
                continue
            fid, value = call.numbers[1], self.lines[call.reply].numbers[1]
            known = first.setdefault((fid, call.hart if fid >= 4 else None), value)
            if known != value:
                section = FUNCTIONS[call.numbers[:2]].section
                yield Difference(call.number, self.name(call), f"{known:#x}", f"{value:#x}", breaks("what a firmware tells of itself and of its machine stays", section), None)

    def named(self, pair):
        """The harts of a list, those of strange bits left out."""
        return listed(self.record, pair)

    def touched(self, hart, op):
        """The harts whose later answers may follow from this call's."""
        eid, fid, a0 = op[1:4]
        if (eid, fid) == (HSM, 0):
            return {a0, a0 & LOW}
        if (eid, fid) in ((HSM, 1), (HSM, 3)):
            return {hart}
        return set(range(self.record.harts)) if is_reset(op[1:]) else set()

    def asked(self, hart, op):
        """The harts on whose states a call's answer hangs."""
        eid, fid, a0 = op[1:4]
        return [a0, hart] if (eid, fid) in ((HSM, 0), (HSM, 2)) else [hart]

    def origin(self, state, line, here):
        """The line from which a difference at this one follows, if it does."""
        op = state.calls[line.hart].op if line.hart in state.calls else ("ecall", BASE, 0, 0)
        lines = [state.tainted[h] for h in self.asked(line.hart, op) if h in state.tainted]
        if not lines and here == ("refused", 3) and line.hart in state.missed:
            lines = [state.missed[line.hart]]
        return lines[0] if lines else None

    def found(self, state, line, what, here, there, verdict, touched):
        follows = None if verdict else self.origin(state, line, here)
        if verdict is None and follows is None:
            verdict = UNEXPLAINED_VERDICT
        state.put(Difference(line.number, what, spelled_answer(here), spelled_answer(there), verdict, follows))
        if here[0] == there[0] == "ret" and here[1] and there[1]:
            return
        origin = follows or line.number
        for h in touched:
            if h < self.record.harts:
                state.tainted.setdefault(h, origin)

    def look_at_notes(self, state, line, is_start):
        """What the hart's registers had at its entry, beside what the board's have."""
        board, hart = state.board, line.hart
        self.look_at_zeros(state, line)
        for name, value in (("sie", board.harts[hart].sie), ("sip", board.sip(hart))):
            there = line.notes.get(name, value) & READ_SIE
            if there != value:
                rule = rule_of_entry(name, is_start, value, there)
                state.put(Difference(line.number, f"{self.id(hart)} entry: {name}", f"{value:#x}", f"{there:#x}", verdict_of(rule), None))

    def look_at_zeros(self, state, line):
        """What is 0 at an entry, however the hart came to it."""
        for name, there, verdict in (("satp", line.notes.get("satp", 0), verdict_of("no satp")), ("sstatus", line.notes.get("sstatus", 0) & 1, SSTATUS)):
            if there:
                state.put(Difference(line.number, f"{self.id(line.hart)} entry: {name}", "0x0", f"{there:#x}", verdict, None))

    def by_its_state(self, state, call, shown):
        """The rule that excuses an answer in this state, by what overlaps with its call."""
        return self.of_woken(state, call, shown) or self.of_entered(state, call, shown) or self.of_failing(state, call, shown) or self.of_refused_list(call, shown)

    def of_woken(self, state, call, shown):
        """A hart that sleeps here has the state of one that goes on: there something woke it that doesn't wake it here."""
        if call.op[1:3] != (HSM, 2) or call.op[3] >= self.record.harts or shown not in (("ret", 0, STARTED), ("ret", 0, RESUME_PENDING)):
            return None
        if self.is_being_fenced(state, call.op[3]):
            state.fenced |= {call.op[3]}
        return self.of_wake(state, call.op[3], self.next_line(call.op[3], call.place))

    def is_being_fenced(self, state, hart):
        """Whether another hart's remote fence that names the hart has begun, and is never refused: there it may have reached it."""
        fences = [call for other, call in state.calls.items() if call is not None and other != hart and call.op[1] == RFENCE]
        fences = [it for it in fences if self.shown(it.place) in (None, WAITING, ("ret", 0, 0))]
        return any(hart in self.named(self.lines[it.place].numbers[2:4]) for it in fences)

    def of_entered(self, state, call, shown):
        """A hart that is STARTED here was entered while another one's start of it was under way: before, it was in another state."""
        hart = call.op[3]
        if call.op[1:3] != (HSM, 0) or shown[:2] != ("ret", INVALID_PARAM) or hart >= self.record.harts or state.board.harts[hart].state != STARTED:
            return None
        return verdict_of("already available") if self.enters_beside(hart, call) else None

    def enters_beside(self, hart, call):
        """Whether the hart enters during this call, so that it was in another state before."""
        span = range(call.place, self.lines[call.place].reply)
        return any(place in span and self.lines[place].kind == "entry" for place in self.places[hart])

    def of_refused_list(self, call, shown):
        """A list was refused of which a hart entered while the call was under way."""
        if call.op[1] not in (IPI, RFENCE) or shown[:2] != ("ret", INVALID_PARAM) or call.op[4] == ALL:
            return None
        return verdict_of("skipped") if any(self.enters_beside(hart, call) for hart in self.named(self.lines[call.place].numbers[2:4])) else None

    def of_failing(self, state, call, shown):
        """A hart that is STARTED here is in a suspend there, which fails later: its state, and what a start of it answers."""
        if call.op[1] != HSM or shown[0] != "ret":
            return None
        (fid, hart), seen = call.op[2:4], shown[1:]
        is_suspending = fid == 2 and seen[0] == 0 and seen[1] in SUSPENDING or fid == 0 and seen[0] == INVALID_PARAM
        if hart >= self.record.harts or state.board.harts[hart].state != STARTED or not is_suspending:
            return None
        return verdict_of("failing suspends") if any(self.fails_beside(place, call.place) for place in self.places[hart]) else None

    def fails_beside(self, place, other):
        """Whether a line is a suspend that fails, and overlaps with this other call."""
        line, end = self.lines[place], self.lines[other].reply
        return line.kind == "call" and is_suspend(line.numbers) and line.reply is not None and bool(self.lines[line.reply].numbers[0]) and place < end and other < line.reply

    def of_wake(self, state, hart, line):
        """What woke a hart that sleeps here. line: that at which it went on there, or None."""
        sip = line.notes.get("sip", 0) if line else 0
        rule = rule_of_wake(state, hart, sip, self.record.has_stimecmp) or self.of_late_ipi(state, hart, sip)
        return verdict_of(rule) if rule else None

    def of_late_ipi(self, state, hart, sip):
        """The rule of an IPI under way that is done here: there it comes to one hart after the other."""
        if not (sip & state.board.harts[hart].sie & SSI):
            return None
        calls = [it for it in state.calls.values() if it is not None and it.op[1:3] == (IPI, 0) and it.answer == ("ret", 0, 0)]
        named = [self.named(self.lines[it.place].numbers[2:4]) for it in calls]
        return "at once" if any(hart in it and len(it) > 1 for it in named) else None


SSTATUS = Verdict("breaks", "sstatus.SIE is 0 at an entry", "9.1, 9.4")
