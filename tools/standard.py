"""What SBI 1.0.0 says about answers: each function's section and the errors that it names, and answers that break the standard
whatever the board's state. Sections are those of the RISC-V SBI Specification 1.0.0."""
from board_model import (
    ALREADY_AVAILABLE, BASE, FAILED, GONE, HSM, INVALID_ADDRESS, INVALID_PARAM, IPI, LOW, NOT_SUPPORTED, RFENCE, SRST, STARTED, TIME, WAITING,
    reset_error, suspend_error, targets,
)  # fmt: skip

# In the order of a report.
BREAKS, UNEXPLAINED, OPEN, OWN, UNJUDGED = "breaks", "unexplained", "open", "own", "unjudged"

# The lowest error number by the version of the specification.
LOWEST = {(1, 0): -8, (2, 0): -9, (3, 0): -14}
PMU = 0x504D55
# How many bits a physical address has (Privileged 4.4, 4.5).
PHYSICAL = 56
LEGACY = range(9)
# Extensions for experiments, of vendors and of firmwares (SBI 12 to 14).
OWN_SPACES = range(0x08000000, 0x0B000000)
# Extensions of later versions, with the version that has them first.
LATER = {
    0x4442434E: (2, 0), 0x53555350: (2, 0), 0x43505043: (2, 0), 0x4E41434C: (2, 0), 0x535441: (2, 0),
    0x535345: (3, 0), 0x46574654: (3, 0), 0x44425452: (3, 0), 0x4D505859: (3, 0),
}  # fmt: skip


class Function:
    """A function's section, and the errors that it may answer: those of its section, and of the section on hart lists.
    `tells`: whether the section tells errors at all."""

    def __init__(self, name, section, *errors, returns=True, tells=True):
        self.name, self.section, self.errors, self.returns, self.tells = name, section, errors, returns, tells


FUNCTIONS = {
    (BASE, 0): Function("get_spec_version", "4.1"),
    (BASE, 1): Function("get_impl_id", "4.2"),
    (BASE, 2): Function("get_impl_version", "4.3"),
    (BASE, 3): Function("probe_extension", "4.4"),
    (BASE, 4): Function("get_mvendorid", "4.5"),
    (BASE, 5): Function("get_marchid", "4.6"),
    (BASE, 6): Function("get_mimpid", "4.7"),
    (TIME, 0): Function("set_timer", "6.1", tells=False),
    (IPI, 0): Function("send_ipi", "7.1", INVALID_PARAM),
    (RFENCE, 0): Function("remote_fence_i", "8.1", INVALID_PARAM),
    (RFENCE, 1): Function("remote_sfence_vma", "8.2", INVALID_PARAM, INVALID_ADDRESS),
    (RFENCE, 2): Function("remote_sfence_vma_asid", "8.3", INVALID_PARAM, INVALID_ADDRESS),
    (RFENCE, 3): Function("remote_hfence_gvma_vmid", "8.4", INVALID_PARAM, INVALID_ADDRESS, NOT_SUPPORTED),
    (RFENCE, 4): Function("remote_hfence_gvma", "8.5", INVALID_PARAM, INVALID_ADDRESS, NOT_SUPPORTED),
    (RFENCE, 5): Function("remote_hfence_vvma_asid", "8.6", INVALID_PARAM, INVALID_ADDRESS, NOT_SUPPORTED),
    (RFENCE, 6): Function("remote_hfence_vvma", "8.7", INVALID_PARAM, INVALID_ADDRESS, NOT_SUPPORTED),
    (HSM, 0): Function("hart_start", "9.1", INVALID_ADDRESS, INVALID_PARAM, ALREADY_AVAILABLE, FAILED),
    (HSM, 1): Function("hart_stop", "9.2", FAILED, returns=False),
    (HSM, 2): Function("hart_get_status", "9.3", INVALID_PARAM),
    (HSM, 3): Function("hart_suspend", "9.4", INVALID_PARAM, NOT_SUPPORTED, INVALID_ADDRESS, FAILED),
    (SRST, 0): Function("system_reset", "10.1", INVALID_PARAM, NOT_SUPPORTED, FAILED, returns=False),
}
STATES = range(7)
# Functions whose value is said; of the others a1 is left open.
WITH_VALUE = {(BASE, fid) for fid in range(7)} | {(HSM, 2)}


class Verdict:
    """The class of a difference, the sentence that says why, and the standard's section; `rule`: the name of a board's rule."""

    def __init__(self, kind, sentence, section, rule=None):
        self.kind, self.sentence, self.section, self.rule = kind, sentence, section, rule


def breaks(sentence, section):
    return Verdict(BREAKS, sentence, section)


NO_ADDRESS = breaks("an address of more than 56 bits is no physical one, and is INVALID_ADDRESS", "9.1")


def is_beyond(numbers):
    """Whether a call starts a hart where no physical address is."""
    return numbers[:2] == (HSM, 0) and numbers[3] >> PHYSICAL != 0


def version_of(value):
    return value >> 24, value & 0xFFFFFF


def lowest_error(version, eid):
    """The lowest error of the version that the firmware tells, or of the one that has the extension."""
    versions = [it for it in LOWEST if it <= max(version, LATER.get(eid, (1, 0)))]
    return LOWEST[max(versions, default=(1, 0))]


def by_itself(numbers, there, version, is_offered):
    """Why an answer breaks the standard, whatever the machine's state: a verdict, or None. is_offered: the firmware's own probe, or
    another answer, says that it has the extension; of a probe, the one that it asks for."""
    eid, fid, a0, a1 = numbers[:4]
    if there[0] != "ret" or eid in LEGACY:
        return None
    function, error, value = FUNCTIONS.get((eid, fid)), there[1], there[2]
    if function and eid == BASE:
        return of_base(function, fid, error, value, is_offered)
    if not lowest_error(version, eid) <= error <= 0:
        return breaks("an error is one of the list", "3")
    if function is None:
        return of_unknown(eid, error)
    if error == NOT_SUPPORTED and error not in function.errors:
        return breaks("an extension that is offered is there as a whole", "1") if is_offered else None
    if error and error not in function.errors and function.tells:
        return breaks("an error is one of those that the function's section names", function.section)
    if error == 0 and not function.returns:
        return breaks("a call that succeeds doesn't return", function.section)
    return of_success(numbers, value, function) if error == 0 else None


def of_base(function, fid, error, value, is_offered):
    if error:
        return breaks("a function of Base answers no error", "4")
    if fid == 0 and (value >> 31 or not 1 <= value >> 24):
        return breaks("the version has 7 bits of the major number, 24 of the minor, and bit 31 is 0", "4.1")
    if fid == 3 and value == 0 and is_offered:
        return breaks("the probe of an extension that is there isn't 0", "4.4")
    return None


def of_unknown(eid, error):
    if error != NOT_SUPPORTED and eid in (BASE, TIME, IPI, RFENCE, HSM, SRST):
        return breaks("a function that an extension hasn't answers NOT_SUPPORTED", "3")
    return None


def of_success(numbers, value, function):
    eid, fid, a0 = numbers[:3]
    if is_beyond(numbers):
        return NO_ADDRESS
    if (eid, fid) == (HSM, 2) and value not in STATES:
        return breaks("a state is 0 to 6", "9.3")
    if (eid, fid) == (HSM, 3) and a0 >> 31 & 1:
        return breaks("a non-retentive suspend that succeeds doesn't return", "9.4")
    if (eid, fid) == (HSM, 3) and suspend_error(a0 & LOW) == INVALID_PARAM:
        return breaks("a reserved type is INVALID_PARAM", "9.4")
    return None


def by_arguments(harts, op, here, there):
    """Why a success breaks the standard that these arguments can't have, whatever the machine's state. op: by the board's
    numbers of harts."""
    eid, fid, a0, a1 = op[1:5]
    is_done = there in (WAITING, GONE) or there[:2] == ("ret", 0)
    if not is_done:
        return None
    if (eid, fid) in ((HSM, 0), (HSM, 2)) and a0 >= harts:
        return breaks("the id of a hart that isn't there is INVALID_PARAM", FUNCTIONS[(eid, fid)].section)
    if (eid, fid) == (HSM, 3) and suspend_error(a0 & LOW) == INVALID_PARAM:
        return breaks("a reserved type is INVALID_PARAM", "9.4")
    if (eid, fid) == (SRST, 0) and reset_error(a0 & LOW, a1 & LOW) == INVALID_PARAM:
        return breaks("a reserved type or reason is INVALID_PARAM", "10.1")
    return None


def by_state(board, op, here, there):
    """Why an answer breaks the standard in the state in which the board is."""
    eid, fid, a0 = op[1:4]
    if (eid, fid) == (HSM, 0) and there[:2] == ("ret", 0) and a0 < len(board.harts) and board.harts[a0].state == STARTED:
        return breaks("a start of a hart that is started is ALREADY_AVAILABLE", "9.1")
    if eid in (IPI, RFENCE) and there[:2] == ("ret", INVALID_PARAM) and targets(op[3], op[4], len(board.harts)) is not None:
        return breaks("a list of harts that run, or of all that are available, is valid", "3")
    return None
