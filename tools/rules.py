"""Which rule of this board a difference from a recorded answer is, its class, the section of SBI 1.0.0, and the answers that
it excuses. Each sentence stands in docs/FIRMWARE.md, in the first column of a table of the section named (tests/test_to_trace.py looks)."""
from board_model import (
    ALL, ALREADY_AVAILABLE, BASE, EXTENSIONS, FAILED, GONE, HSM, INTERRUPTIBLE, INVALID_ADDRESS, INVALID_PARAM, IPI, LOW, NOT_SUPPORTED, RFENCE, SRST, SSI, STARTED, STI,
    STOPPED, SUSPEND_PENDING, SUSPENDED, WAITING, suspend_error, targets,
)  # fmt: skip
from standard import BREAKS, LATER, LEGACY, OPEN, OWN, OWN_SPACES, PMU, UNEXPLAINED, UNJUDGED, Verdict, by_arguments, by_itself, by_state

DEBUG_CONSOLE = 0x4442434E


class Rule:
    """A rule's sentence and its page's section, its class, the standard's section, and what it excuses: errors by their
    numbers (0: success, of whatever value), "gone" (no return), "value" (a success of another value), "any"; registers at
    an entry and what a kernel tells are values of their own."""

    def __init__(self, sentence, page, kind, section, *answers):
        self.sentence, self.page, self.kind, self.section, self.answers = sentence, page, kind, section, answers

    def __iter__(self):
        return iter((self.sentence, self.page))

    def excuses(self, there):
        if "any" in self.answers or there == GONE:
            return "any" in self.answers or "gone" in self.answers
        error = 0 if there == WAITING else there[1]
        return error in self.answers or error == 0 and "value" in self.answers


CALLS, LISTS, FENCES, HARTS = "Calls", "Hart lists", "Remote fences", "Starts, stops and suspends"
TIMES, RESETS, MEMORY, BOARD = "Time and interrupts", "System resets", "Memory, translation and caches", "The board"
EFFECTS = "Effects that no answer shows"
# A pending external interrupt, in sip.
SEI = 1 << 9
RULES = {
    "extensions": Rule("the legacy extensions, PMU, the debug console and all later ones are unknown: -2, and 0 from the probe", CALLS, OWN, "4.4", "value"),
    "their calls": Rule("a call of an extension that is left out answers -2, and does nothing", CALLS, UNJUDGED, "3", "any"),
    "optional": Rule("TIME, IPI, RFENCE, HSM and SRST are offered", CALLS, OPEN, "4.4", "value", NOT_SUPPORTED),
    "probes": Rule("the probe answers 1 for an extension that is there", CALLS, OPEN, "4.4", "value"),
    "version": Rule("the version is 1.0", CALLS, OPEN, "4.1", "value"),
    "implementation": Rule("implementation 0x5A5A5A, version 1", CALLS, OPEN, "4.2, 4.3", "value"),
    "machine": Rule("mvendorid, marchid and mimpid are 0", CALLS, OPEN, "4.5 to 4.7", "value"),
    "whole ids": Rule("a7 and a6 are compared as whole 64-bit numbers", CALLS, OPEN, "3", 0, *range(-8, 0)),
    "values": Rule("a1 is 0 behind an error, and where a function has no value", CALLS, OPEN, "3", "any"),
    "hypervisor": Rule("the hypervisor's fences answer -2", CALLS, OPEN, "8.4 to 8.7", 0, INVALID_PARAM, INVALID_ADDRESS),
    "unknown reasons": Rule("no start, suspend or reset fails for an unknown reason", CALLS, OPEN, "9.1, 9.4, 10.1", FAILED),
    "strange bits": Rule("a bit that names no hart refuses the whole list, and nobody is reached", LISTS, OPEN, "3", 0),
    "strange base": Rule("a base that is no hart's is refused with mask 0 too", LISTS, OPEN, "3", 0),
    "empty lists": Rule("an empty list with a valid base succeeds", LISTS, OPEN, "3", INVALID_PARAM),
    "skipped": Rule("a STOPPED, START_PENDING or STOP_PENDING hart is skipped without an error", LISTS, OPEN, "3", INVALID_PARAM),
    "whole hart ids": Rule("a hart id is all 64 bits", LISTS, BREAKS, "9.1, 9.3", 0, INVALID_ADDRESS, ALREADY_AVAILABLE),
    "ranges": Rule("start + size above 2^64 is INVALID_ADDRESS, and no other range is", FENCES, OPEN, "8.2, 8.3", 0),
    "fences don't wake": Rule("a fence waits at a suspended hart and doesn't wake it", FENCES, OPEN, "9.4", 0),
    "already available": Rule("in each state but STOPPED a start answers ALREADY_AVAILABLE, -6", HARTS, OPEN, "9.1", INVALID_PARAM, ALREADY_AVAILABLE),
    "addresses": Rule("an address of a start or a resume is even, and in RAM", HARTS, OWN, "9.1, 9.4", 0, FAILED, "gone"),
    "open stops": Rule("hart_stop fails, -1, while sstatus.SIE is 1", HARTS, OPEN, "9.2", "gone"),
    "stops fail": Rule("hart_stop fails for no other reason", HARTS, OPEN, "9.2", FAILED),
    "types of suspends": Rule(
        "of a suspend's type the low 32 bits are read; a platform's type is -2, a reserved one -3", HARTS, OPEN, "9.4",
        0, FAILED, NOT_SUPPORTED, INVALID_PARAM, "gone",
    ),  # fmt: skip
    "suspends": Rule("both default suspends are implemented", HARTS, OPEN, "9.4", NOT_SUPPORTED),
    "failing suspends": Rule("a suspend that fails leaves its hart STARTED all the time", HARTS, OPEN, "9.4", "value", INVALID_PARAM),
    "resume addresses": Rule("the resume address is looked at for type 0x80000000 alone", HARTS, OPEN, "9.4", INVALID_ADDRESS),
    "resumes keep": Rule("a non-retentive resume keeps sie, SSIP and the deadline", HARTS, OPEN, "9.4", "any"),
    "wake": Rule("SSIP with SSIE, or STIP with STIE, wakes a suspended hart", HARTS, OPEN, "9.4", 0),
    "externals": Rule("there are no external interrupts, so none wakes a hart", HARTS, OWN, "9.4", 0),
    "at once": Rule("an IPI comes at once to all harts of its list", TIMES, OPEN, "7.1", 0),
    "starts clear": Rule("an entry by start clears sie and SSIP", TIMES, OPEN, "9.1", "any"),
    "deadlines": Rule("a stop, and an entry by start, forget the deadline", TIMES, OPEN, "9.1", "any"),
    "stimecmp": Rule("set_timer alone sets a deadline", TIMES, OWN, "6.1", 0),
    "types of resets": Rule(
        "a reserved type or reason is INVALID_PARAM, -3; a vendor's type is NOT_SUPPORTED, -2", RESETS, OPEN, "10.1",
        INVALID_PARAM, NOT_SUPPORTED, FAILED, "gone",
    ),  # fmt: skip
    "resets": Rule("a shutdown, a cold and a warm reboot are implemented", RESETS, OPEN, "10.1", NOT_SUPPORTED),
    "reasons": Rule("the reasons of the implementation and of the vendor are accepted", RESETS, OPEN, "10.1", INVALID_PARAM, NOT_SUPPORTED),
    "kept": Rule("a translation or a fetched word is kept until a fence covers it, or sixteen fills came", MEMORY, OPEN, "Priv 4.2.1", "any"),
    "own rights": Rule("an entry of the TLB decides by its own rights", MEMORY, OPEN, "Priv 4.2.1", "any"),
    "accessed, dirty": Rule("A and D are never set by the hardware: 0 is a page fault", MEMORY, OPEN, "Priv 4.3.1", "any"),
    "aligned": Rule("a load or fetch has 8 bytes, and an access is aligned to its size; misalignment is looked at first", MEMORY, OWN, "Priv 3.7", "any"),
    "user pages": Rule("a page with U is a page fault, and so is an entry with one of bits 63 to 54", MEMORY, OWN, "Priv 4.3.1", "any"),
    "ipis": Rule("an IPI that succeeds makes SSIP 1 at each hart that it names, and at no other", EFFECTS, BREAKS, "7.1", "any"),
    "fences": Rule("a remote fence that succeeds is carried out at each hart that it names", EFFECTS, BREAKS, "8.2, 8.3", "any"),
    "timers": Rule("STIP is 1 once the time of the last set_timer has come, and 0 before", EFFECTS, BREAKS, "6.1", "any"),
    "registers": Rule("a call changes no register but a0 and a1", EFFECTS, BREAKS, "3", "any"),
    "no satp": Rule("satp is 0 at an entry", EFFECTS, BREAKS, "9.1, 9.4", "any"),
    "boot hart": Rule(
        "at the opening, and after a reboot, the firmware starts one hart, the boot hart, and the others are STOPPED", BOARD, OWN, "10.1", "any",
    ),  # fmt: skip
}  # fmt: skip

# A kernel tells what an access saw by calls of this extension, which nobody has: the FID is the rule's place here, a0 what
# the rule gives, a1 what was seen.
TELLS = 0x08000001
TOLD = ("kept", "own rights", "accessed, dirty", "aligned", "user pages", "ipis", "fences", "timers", "registers", "no satp")


def extension_name(eid):
    """What an extension is called that this board leaves out by name; None for others."""
    if eid in LEGACY:
        return "legacy"
    return {PMU: "pmu", DEBUG_CONSOLE: "console"}.get(eid)


def ignored_as(numbers):
    """Under which name of --ignore a call is passed over; None: under none."""
    eid, fid, a0 = numbers[:3]
    if eid == BASE and fid in (1, 2, 4, 5, 6):
        return "impl"
    return extension_name(a0 if eid == BASE and fid == 3 else eid)


def verdict_of(name):
    rule = RULES[name]
    return Verdict(rule.kind, rule.sentence, rule.section, name)


UNEXPLAINED_VERDICT = Verdict(UNEXPLAINED, "no rule explains it", "")


def certain(board, op, numbers, here, there, version, is_offered):
    """The verdict on a recorded answer that holds whatever came before: that it breaks the standard, or None; and else the
    rule that excuses it. numbers: the call as it was recorded; op: on the board; here, there: the answers."""
    cut = tuple(number & LOW for number in numbers[:2]) + tuple(numbers[2:])
    is_cut = numbers[:2] != cut[:2] and numbers[0] & LOW in EXTENSIONS and there[:2] != ("ret", NOT_SUPPORTED)
    verdict = by_itself(cut if is_cut else numbers, there, version, is_offered)
    if verdict is None and here[0] != "refused":
        name = rule_of(board, op, here, there)
        if name and RULES[name].excuses(there):
            return verdict_of(name)
    return verdict or by_arguments(len(board.harts), op, here, there)


def by_this_state(board, op, here, there):
    """The verdict where nothing went otherwise before."""
    name = of_refused_list(board, op, there)
    return verdict_of(name) if name else by_state(board, op, here, there) or UNEXPLAINED_VERDICT


def rule_of(board, op, here, there):
    """board: after the call; here: its answer; there: the recorded one, in its words."""
    eid, fid, *a = op[1:]
    if eid not in EXTENSIONS:
        return of_other_extension(eid)
    if eid != BASE and there[:2] == ("ret", NOT_SUPPORTED) and here[:2] == ("ret", 0) and eid not in (HSM, SRST):
        return "optional"
    if here == ("ret", INVALID_PARAM, 0) and (eid == IPI or eid == RFENCE):
        return of_list(board, a[0], a[1])
    return {BASE: of_base, RFENCE: of_fence, HSM: of_hart, SRST: of_reset}.get(eid, lambda *rest: None)(board, fid, a, here, there)


def of_other_extension(eid):
    if eid & LOW in EXTENSIONS and eid & ~LOW:
        return "whole ids"
    # (what a kernel tells is judged where nobody has the extension by which it does)
    return "their calls" if is_left_out(eid) and eid != TELLS else None


def is_left_out(eid):
    """Whether this board lacks an extension that a firmware may have."""
    return eid in LEGACY or eid == PMU or eid in LATER or eid in OWN_SPACES


def of_base(board, fid, a, here, there):
    if fid == 3:
        if here[2] and there[2]:
            return "probes"
        if a[0] in EXTENSIONS:
            return None if a[0] == BASE else "optional"
        return "extensions" if is_left_out(a[0]) else "whole ids" if a[0] & LOW in EXTENSIONS else None
    return {0: "version", 1: "implementation", 2: "implementation", 4: "machine", 5: "machine", 6: "machine"}.get(fid)


def of_list(board, mask, base):
    return "strange base" if base >= len(board.harts) and mask == 0 else "strange bits"


def of_refused_list(board, op, there):
    """A list of harts that are all there was refused: it is empty, or has a hart that doesn't run. (The base -1 names those available.)"""
    is_list = op[1] in (IPI, RFENCE) and there[:2] == ("ret", INVALID_PARAM) and op[4] != ALL
    named = targets(op[3], op[4], len(board.harts)) if is_list else None
    if named is None:
        return None
    return "skipped" if any(board.harts[h].state not in INTERRUPTIBLE for h in named) else None if named else "empty lists"


def of_fence(board, fid, a, here, there):
    if 3 <= fid <= 6:
        # (a list that is valid is refused by none of them)
        return None if there[:2] == ("ret", INVALID_PARAM) and targets(a[0], a[1], len(board.harts)) is not None else "hypervisor"
    if there[:2] == ("ret", NOT_SUPPORTED) and here == WAITING:
        return "optional"
    return "ranges" if here == ("ret", INVALID_ADDRESS, 0) and there == WAITING else None


def of_hart(board, fid, a, here, there):
    return {0: of_start, 1: of_stop, 2: of_status, 3: of_suspend}.get(fid, lambda *rest: None)(board, a, here, there)


def of_start(board, a, here, there):
    error = here[1] if here[0] == "ret" else 0
    if error == INVALID_PARAM and a[0] & LOW < len(board.harts) <= a[0]:
        return "whole hart ids"
    if error == INVALID_ADDRESS:
        # (of several errors the standard leaves open which one comes)
        state, said = board.harts[a[0]].state if a[0] < len(board.harts) else STOPPED, there[:2]
        is_other = said == ("ret", ALREADY_AVAILABLE) and state != STOPPED or said == ("ret", INVALID_PARAM) and state not in (STARTED, STOPPED)
        # (no address starts a hart that runs)
        return "already available" if is_other else None if said == ("ret", 0) and state in INTERRUPTIBLE else "addresses"
    if error == ALREADY_AVAILABLE and there[:2] == ("ret", INVALID_PARAM) and board.harts[a[0]].state != STARTED:
        return "already available"
    return {FAILED: "unknown reasons", NOT_SUPPORTED: "optional"}.get(there[1] if there[0] == "ret" else 0)


def of_stop(board, a, here, there):
    if here == ("ret", FAILED, 0) and there == GONE:
        return "open stops"
    return {FAILED: "stops fail", NOT_SUPPORTED: "optional"}.get(there[1] if there[0] == "ret" else 0)


def of_status(board, a, here, there):
    if here == ("ret", INVALID_PARAM, 0) and a[0] & LOW < len(board.harts) <= a[0]:
        return "whole hart ids"
    return "optional" if there[:2] == ("ret", NOT_SUPPORTED) else None


def of_suspend(board, a, here, there):
    error, said = (answer[1] if answer[0] == "ret" else 0 for answer in (here, there))
    if error == INVALID_ADDRESS:
        return "addresses"
    if error and said == INVALID_ADDRESS and a[0] & 1 << 31:
        return "resume addresses"
    if suspend_error(a[0] & LOW) == error != 0:
        # (of a reserved type no success is excused)
        return "types of suspends" if error == NOT_SUPPORTED or said else None
    return {FAILED: "unknown reasons", NOT_SUPPORTED: "suspends"}.get(said)


def of_reset(board, fid, a, here, there):
    kind, reason = a[0] & LOW, a[1] & LOW
    if here == GONE and there[0] == "ret":
        return "reasons" if reason >= 0xE0000000 and there[1] != FAILED else {FAILED: "unknown reasons", NOT_SUPPORTED: "resets"}.get(there[1])
    is_vendors = kind >= 0xF0000000
    if here[:2] == ("ret", INVALID_PARAM) and kind <= 2 and there[:2] == ("ret", NOT_SUPPORTED):
        return "resets"
    return "types of resets" if kind > 2 and here[0] == "ret" and (is_vendors or there != GONE) else None


def rule_of_entry(name, is_start, here, there):
    """An entry left sie or sip otherwise."""
    if name == "sie":
        return "starts clear" if is_start else "resumes keep"
    return ("deadlines" if (here ^ there) & ~SSI else "starts clear") if is_start else "resumes keep"


def rule_of_wake(state, hart, sip, has_stimecmp):
    """A suspended hart went on there, and has nothing to wake it here. sip: what it had there when it went on. has_stimecmp: its
    kernel may have set the deadline itself."""
    it = state.board.harts[hart]
    if it.state not in (SUSPENDED, SUSPEND_PENDING):
        return None
    if sip & SEI:
        return "externals"
    if state.board.sip(hart):
        return "wake"
    if hart in state.fenced:
        return "fences don't wake"
    return "stimecmp" if sip & it.sie & STI and (has_stimecmp or it.deadline is None) else None
