"""Judges a record without a board: calls that should have returned, harts that were started and never entered, and entries with
other registers than requested."""
from bisect import bisect_left

from board_model import HSM, IPI, LOW, SSI, STARTED, suspend_error
from records import UNSEEN, is_reset, is_suspend, listed
from standard import FUNCTIONS

SUSP = 0x53555350
NON_RETENTIVE = 1 << 31
# A cold and a warm reboot.
REBOOTS = (1, 2)
# How many ticks behind what should happen at once it surely doesn't any more: under gdb, on a busy machine, a hart may have no turn for
# some seconds.
LONG = 100_000_000
# How many ticks a hart may need from its start to its entry: on one host thread other harts have their turns before it.
SOON = 5_000_000


class Fault:
    """The line at which it is seen, the sentence, and the section of SBI 1.0.0 that asks for it."""

    def __init__(self, kind, at, text, section):
        self.kind, self.at, self.text, self.section = kind, at, text, section


RETURN, ENTER, OTHERWISE, OPEN_AT_END = "return", "enter", "otherwise", "open at end"


def is_leaving(numbers):
    """Whether a call that succeeds needs no return."""
    return numbers[:2] == (HSM, 1) or is_suspend(numbers) or is_reset(numbers) or numbers[:2] == (SUSP, 0)


def shown(record, line):
    """A line's call, with the record's own ids."""
    eid, fid, *a = line.numbers
    return f"{record.ids[line.hart]} ecall " + " ".join(f"{number:#x}" for number in (eid, fid, *a))


def section_of(numbers):
    function = FUNCTIONS.get(numbers[:2])
    return function.section if function else "3"


def leaves(line):
    """Whether this call's hart may go on without a return: by an entry."""
    eid, fid, a0 = line.numbers[:3]
    return (eid, fid) in ((HSM, 1), (SUSP, 0)) or is_reset(line.numbers) or is_suspend(line.numbers) and bool(a0 & NON_RETENTIVE)


def faults(record):
    """All of them, by their lines."""
    lives = Lives(record)
    found = [*lives.otherwise, *lives.without_return(), *lives.without_entry(), *lives.not_done(), *lives.not_woken()]
    return sorted(found, key=lambda fault: fault.at)


class Lives:
    """A record's lines, with each hart's entries, and the accepted starts of each. `resets`: the places at which the machine
    is reset: by a line of its own; or by a call that doesn't return, at the first entry behind it that nobody asked for,
    or at the record's end, but for its limit. `hanging`: such calls that reset nothing. `otherwise`: faults of entries."""

    def __init__(self, record):
        self.record, self.lines = record, record.lines
        self.entries, self.starts = {}, {}
        for place, line in enumerate(self.lines):
            if line.kind == "entry":
                self.entries.setdefault(line.hart, []).append(place)
            elif line.kind == "call" and line.numbers[:2] == (HSM, 0) and self.is_accepted(line):
                self.starts.setdefault(self.target(line), []).append(place)
        self.resets, self.hanging, self.otherwise = [], set(), []
        self.look_at_entries()

    def target(self, line):
        place_of, number = self.record.place_of, line.numbers[2]
        return place_of.get(number, place_of.get(number & LOW))

    def is_accepted(self, line):
        return line.reply is None or self.lines[line.reply].numbers == UNSEEN or self.lines[line.reply].numbers[0] == 0

    # ---- entries, and the resets that they show

    def look_at_entries(self):
        is_booting, begun, entered, last = True, 0, {}, {}
        for place, line in enumerate(self.lines):
            if line.kind == "reset":
                self.resets.append(place)
                is_booting, begun, entered, self.hanging = True, place, {}, set()
            elif line.kind == "call" and is_reset(line.numbers) and line.reply is None:
                self.hanging.add(place)
            elif line.kind == "entry":
                wanted = self.wanted(line.hart, max(begun, entered.get(line.hart, 0)), place, last.get(line.hart))
                is_asked = any((address & ~1, opaque) == (line.numbers[0], line.numbers[2]) for address, opaque in wanted)
                self.otherwise += self.of_entry(line, wanted, is_asked or is_booting or bool(self.hanging))
                if not is_asked and self.hanging:
                    self.resets.append(place)
                if not is_asked and (self.hanging or is_booting):
                    is_booting, begun, entered, self.hanging = False, place, {}, set()
                entered[line.hart] = place
            last[line.hart] = line
        if self.hanging and self.record.end != "limit":
            if self.record.end == "off" and all(self.lines[at].numbers[2] & LOW in REBOOTS for at in self.hanging):
                last = self.lines[max(self.hanging)]
                self.otherwise.append(Fault(ENTER, last.number, f"{shown(self.record, last)}: the machine is switched off, and no hart enters", "10.1"))
            self.resets.append(len(self.lines))
            self.hanging = set()

    def wanted(self, hart, since, place, last):
        """The addresses and values for which a hart was asked to enter. last: its last line."""
        starts = self.starts.get(hart, [])
        wanted = [self.lines[at].numbers[3:5] for at in starts[bisect_left(starts, since) : bisect_left(starts, place)]]
        is_resume = last is not None and last.kind == "call" and (last.numbers[:2] == (SUSP, 0) or is_suspend(last.numbers) and last.numbers[2] & NON_RETENTIVE)
        return wanted + [last.numbers[3:5]] if is_resume else wanted

    def of_entry(self, line, wanted, is_right):
        pc, a0, a1 = line.numbers
        hart = self.record.ids[line.hart]
        if a0 != hart:
            yield Fault(OTHERWISE, line.number, f"hart {hart} enters with a0 = {a0:#x}", "9.1")
        elif not is_right:
            of = " or ".join(f"to enter at {address:#x} with a1 = {opaque:#x}" for address, opaque in wanted) or "for nothing"
            yield Fault(OTHERWISE, line.number, f"hart {hart} enters at {pc:#x} with a1 = {a1:#x}, and was asked {of}", "9.1, 9.4")

    # ---- what doesn't come

    def next_reset(self, place):
        """The next one's place, and its name; none behind the last."""
        at = bisect_left(self.resets, place)
        if at == len(self.resets):
            return None, ""
        reset = self.resets[at]
        return reset, END if reset == len(self.lines) else f"the reset before line {self.lines[reset].number + (self.lines[reset].kind == 'reset')}"

    def without_return(self):
        for place, line in enumerate(self.lines):
            if line.kind == "call" and line.reply is None:
                yield from self.of_open_call(place, line)

    def of_open_call(self, place, line):
        (reset, name), text = self.next_reset(place), shown(self.record, line)
        if line.then is not None and (reset is None or line.then < reset):
            if not leaves(line):
                yield Fault(RETURN, line.number, f"{text}: its hart goes on at line {self.lines[line.then].number}", section_of(line.numbers))
        elif place in self.hanging and self.ticks(place, len(self.lines)) >= LONG:
            yield Fault(RETURN, line.number, f"{text}: the machine goes on for {self.ticks(place, len(self.lines))} ticks", section_of(line.numbers))
        elif place in self.hanging:
            yield Fault(OPEN_AT_END, line.number, f"{text}: the machine is neither reset nor off at the record's limit", "")
        elif is_leaving(line.numbers):
            return
        elif reset is None and self.record.end == "limit":
            yield Fault(RETURN, line.number, f"{text}: not until the record's limit", section_of(line.numbers))
        else:
            yield Fault(OPEN_AT_END, line.number, f"{text}: open at {name or END}, {self.lines[-1].number - line.number} lines before the last", "")

    # ---- what isn't done

    def ticks(self, place, end):
        """How many ticks the record tells of from one line up to another one, if the first has its time; at least 0."""
        times = [line.notes["time"] for line in self.lines[place:end] if "time" in line.notes]
        return max(times) - times[0] if "time" in self.lines[place].notes else 0

    def away(self):
        """Calls by which harts stop or suspend, which aren't refused, and the place of what ends them: their hart's next line, a start of
        it that isn't refused, or a reset."""
        for place, line in enumerate(self.lines):
            is_refused = line.reply is not None and self.lines[line.reply].numbers[0] != 0
            if line.kind == "call" and (line.numbers[:2] == (HSM, 1) or is_suspend(line.numbers)) and not is_refused:
                start = next((at for at in self.starts.get(line.hart, ()) if at > place), None)
                yield place, line, min(at for at in (line.then, start, self.next_reset(place)[0], len(self.lines)) if at is not None)

    def not_done(self):
        """Stops and suspends whose hart is told to be STARTED long behind their beginning, and long before it goes on."""
        for place, line, end in self.away():
            for at in range(place + 1, end):
                asked = self.lines[at]
                is_of_it = asked.kind == "call" and asked.numbers[:3] == (HSM, 2, self.record.ids[line.hart]) and asked.reply is not None
                if is_of_it and self.lines[asked.reply].numbers == (0, STARTED) and self.ticks(place, at + 1) >= LONG <= self.ticks(asked.reply, end):
                    text = f"its hart is said to be STARTED {self.ticks(place, at + 1)} ticks later, at line {asked.number}"
                    yield Fault(RETURN, line.number, f"{shown(self.record, line)}: {text}", section_of(line.numbers))
                    break

    def not_woken(self):
        """Default suspends that last long behind an IPI that their hart has enabled. (A timer needn't wake a hart.)"""
        for place, line, end in self.away():
            if not is_suspend(line.numbers) or suspend_error(line.numbers[2] & LOW) or not line.notes.get("sie", 0) & SSI:
                continue
            for at in range(place + 1, end):
                call = self.lines[at]
                if self.is_done(call, end) and call.numbers[:2] == (IPI, 0) and line.hart in listed(self.record, call.numbers[2:4]) and self.ticks(call.reply, end) >= LONG:
                    text = f"its hart sleeps {self.ticks(call.reply, end)} ticks behind the IPI of line {call.number}"
                    yield Fault(RETURN, line.number, f"{shown(self.record, line)}: {text}", "9.4")
                    break

    def is_done(self, call, end):
        """Whether it is a call that has returned before this place, with success."""
        return call.kind == "call" and call.reply is not None and call.reply < end and self.lines[call.reply].numbers[0] == 0

    def without_entry(self):
        for target, places in self.starts.items():
            for place in places:
                (reset, name), line = self.next_reset(place), self.lines[place]
                end = len(self.lines) if reset is None else reset
                if target is not None and line.reply is not None and not self.has_entry(target, place, end):
                    until = name or (LIMIT if self.record.end == "limit" else END)
                    # (where the machine is switched off or reset right behind the start, the firmware has no time for it)
                    is_soon = until != LIMIT and "time" in self.lines[line.reply].notes and self.ticks(line.reply, end) < SOON
                    text = f"{shown(self.record, line)}: hart {self.record.ids[target]} never enters, until {until}"
                    yield Fault(OPEN_AT_END if is_soon else ENTER, line.number, text, "" if is_soon else "9.1")

    def has_entry(self, hart, place, end):
        entries = self.entries.get(hart, [])
        at = bisect_left(entries, place)
        return at < len(entries) and entries[at] < end


END, LIMIT = "the record's end", "the record's limit"
