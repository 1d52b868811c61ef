"""What the registers beside a record's lines show of the firmware, by the record alone: calls that change them, timers that come early
or never, IPIs that nobody sent or that are lost."""
from bisect import bisect_left

from board_model import ALL, IPI, LOW, RFENCE, SSI, STI, TIME
from records import is_suspend
from rules import SEI, verdict_of
from standard import LEGACY, UNJUDGED, Verdict
from states import Difference

READ_SIE = SSI | STI
# Functions of the legacy extensions, and how many ticks behind its time a timer surely doesn't come any more: on a busy machine it is late.
SET_TIMER, SEND_IPI, LATE = 0, 4, 10_000_000
STIMECMP = Verdict(UNJUDGED, "a deadline that the kernel may have changed by stimecmp", "6.1")


def may_be_interrupted(call):
    """Whether a handler may have run before the return was seen: it may have cleared what was pending."""
    return call.notes.get("sstatus", 0) & 1 and call.notes.get("sie", SEI) & (READ_SIE | SEI)


class Registers:
    """A record's lines, those of each hart, and what may have sent an IPI to it."""

    def __init__(self, follower):
        self.follower, self.lines = follower, follower.lines
        self.of_hart = {hart: [self.lines[place] for place in places] for hart, places in follower.places.items()}
        self.of_timers = STIMECMP if follower.record.has_stimecmp else verdict_of("timers")

    def differences(self):
        for hart in self.of_hart:
            yield from self.unkept(hart)
            yield from self.early(hart)
            yield from self.overdue(hart)
            yield from self.unsent(hart)
            yield from self.lost(hart)

    def told(self, call, what, here, there, verdict):
        return Difference(call.number, f"{self.follower.name(call)}: {what}", f"{here:#x}", f"{there:#x}", verdict, None)

    def returned(self, hart):
        """Its calls that have returned, each with its return."""
        return [(line, self.lines[line.reply]) for line in self.of_hart[hart] if line.kind == "call" and line.reply is not None]

    def meanwhile(self, hart, call):
        """Calls of others that name the hart in a list, and overlap with a call of its own that has returned: each with its place."""
        begun = self.follower.places[hart][self.of_hart[hart].index(call)]
        for place, line in enumerate(self.lines[: call.reply]):
            if line.kind == "call" and line.numbers[0] in (IPI, RFENCE) and (line.reply is None or line.reply > begun) and hart in self.follower.named(line.numbers[2:4]):
                yield line, place > begun

    # ---- registers that a call changes

    def unkept(self, hart):
        """Calls whose registers were seen at their return too, and are others. An IPI or a deadline may come in between, the legacy
        extensions may clear SSIP, and set_timer clears STIP."""
        for call, ret in self.returned(hart):
            for name, bits in (("sie", READ_SIE), ("sstatus", 1), ("sip", SSI)):
                was, now = (line.notes.get(name) for line in (call, ret))
                if was is None or now is None or name == "sip" and (now & SSI or call.numbers[0] in LEGACY) or name != "sstatus" and may_be_interrupted(call):
                    continue
                if (was ^ now) & bits:
                    yield self.told(call, name, was & bits, now & bits, verdict_of("registers"))
            was, now = call.notes.get("sip", 0) & STI, ret.notes.get("sip", STI) & STI
            if was and not now and call.numbers[0] not in (TIME, SET_TIMER) and not may_be_interrupted(call):
                yield self.told(call, "STIP", 1, 0, verdict_of("timers"))

    # ---- timers

    def early(self, hart):
        """Each set_timer that succeeded, where STIP is 1 at its return or at a later line, and the hart's next line is before its time."""
        timer, lines = None, self.of_hart[hart]
        calls = {id(ret): call for call, ret in self.returned(hart)}
        for at, line in enumerate(lines):
            call = calls.get(id(line))
            if call is not None and call.numbers[:2] == (TIME, 0) and line.numbers[0] == 0:
                timer = call
            elif line.kind == "entry":
                timer = None
            if timer and line.notes.get("sip", 0) & STI:
                if timer.numbers[2] > self.latest(lines[at:]):
                    where = "its return" if timer is call else f"line {line.number}"
                    yield self.told(timer, f"STIP at {where}", 0, 1, self.of_timers)
                timer = None
            if line.kind == "call" and line.numbers[0] in (TIME, SET_TIMER):
                timer = None

    def latest(self, lines):
        """A time by which the first line's registers had surely been read: that of the next line, but for one behind a reset."""
        now = lines[0].notes.get("time", 0)
        later = next((line.notes["time"] for line in lines[1:] if "time" in line.notes), ALL - 1)
        return later if later >= now else ALL - 1

    def overdue(self, hart):
        """Each set_timer that succeeded, whose hart returned behind the time, and made a call long behind it, while STIP was 0 at each
        of its lines."""
        timer, has_returned = None, False
        for line in self.of_hart[hart]:
            if line.kind == "entry" or line.notes.get("sip", 0) & STI:
                timer = None
            passed = line.notes.get("time", -1) - timer.numbers[2] if timer else -1
            if has_returned and line.kind == "call" and passed >= LATE and "sip" in line.notes:
                yield self.told(timer, f"STIP at line {line.number}", 1, 0, self.of_timers)
                timer = None
            has_returned |= line.kind == "ret" and passed >= 0
            if line.kind == "call" and line.numbers[0] in (TIME, SET_TIMER):
                is_set = line.numbers[:2] == (TIME, 0) and line.reply is not None and self.lines[line.reply].numbers[0] == 0
                timer, has_returned = line if is_set else None, False

    # ---- IPIs

    def may_reach(self, call, hart):
        """Whether a call may send the hart an IPI, by whatever a firmware makes of its list."""
        eid, _, mask, base = call.numbers[:4]
        if call.kind != "call" or eid & LOW not in (IPI, SEND_IPI):
            return False
        return eid != IPI or base not in self.follower.record.place_of or hart in self.follower.named((mask, base))

    def unsent(self, hart):
        """Calls during which SSIP came, once it has come more often than IPIs may have been sent."""
        sent = [place for place, line in enumerate(self.lines) if line.kind == "call" and self.may_reach(line, hart)]
        came = 0
        for call, ret in self.returned(hart):
            was, now = (line.notes.get("sip") for line in (call, ret))
            came += was is not None and now is not None and bool(~was & now & SSI)
            if came > bisect_left(sent, call.reply):
                yield self.told(call, "SSIP", 0, 1, verdict_of("ipis"))
                came -= 1

    def lost(self, hart):
        """Suspends that return with nothing pending, though an IPI to their hart has begun and succeeded meanwhile. A fence may have
        woken the hart just before the IPI came."""
        for call, ret in self.returned(hart):
            if not is_suspend(call.numbers) or may_be_interrupted(call) or ret.numbers[0] != 0 or ret.notes.get("sip", SSI) & (READ_SIE | SEI):
                continue
            named = [*self.meanwhile(hart, call)]
            ipis = [line for line, is_behind in named if is_behind and line.numbers[:2] == (IPI, 0) and self.has_succeeded(line, call.reply)]
            if ipis and all(line.numbers[0] == IPI for line, _ in named):
                yield self.told(ipis[0], f"SSIP of hart {self.follower.id(hart)} at line {ret.number}", 1, 0, verdict_of("ipis"))

    def has_succeeded(self, call, place):
        """Whether the call has returned before this place, with success."""
        return call.reply is not None and call.reply < place and self.lines[call.reply].numbers[0] == 0
