"""Threads that rest are woken: a table of what a hart rests on, and of what ends that, each the only thing that can."""
import os
import subprocess

from . import fixtures
from .fixtures import HANG, Test, at_once, must, must_run, ran, write
from .programs import BOOT, HART_START, HART_STOP, RESET, SEND_IPI, SET_TIMER, SUSPEND, WARM

# The hart that ends rests, one that rests, and how many others there are, which are never started.
OTHERS = 6
RESTS_AT, LATER = BOOT + 0x100, BOOT + 0x200
FENCE, WORDS, ASID = "ecall 0x52464e43 1", "ecall 0x52464e43 0", "ecall 0x52464e43 2"
IPI = f"{SEND_IPI} 0x2 0"
# A deadline that the last of the clock's ticks reaches.
TICKS = 5_000
# How long the hart that ends a rest does other things first, so that the other one rests in most runs.
DELAY = ["sip"] * 2_000
# It can be interrupted, and says that it is about to rest.
SAYS_SO = ["sie 0x22", f"{SEND_IPI} 1 0"]
# The other one waits for that.
WAITS = ["sie 0x2", "wfi", "clearssip"]


def text(harts, limit, blocks):
    lines = [f"board {harts} 1 {limit} 0 {BOOT:#x} 0x0"]
    for place, operations in blocks:
        lines += [place if isinstance(place, str) else f"at {place:#x}", *operations]
    return "".join(f"{it}\n" for it in lines).encode()


def pair(rest, ends, delay=DELAY, clock=()):
    """The program of a hart 1 that rests so, and a hart 0 that ends it so."""
    begins = f"{HART_START} 1 {RESTS_AT:#x} 0"
    blocks = [(BOOT, [begins, *WAITS, *delay, *ends]), (RESTS_AT, [*SAYS_SO, *rest]), (LATER, ["sip"])]
    return text(2 + OTHERS, 20_000, blocks + ([("clock", clock)] if clock else []))


def crossing(rest, other, ends):
    """The same where hart 2 rests too, so or otherwise, and hart 0 ends both rests."""
    begins = [it for hart in (1, 2) for it in (f"{HART_START} {hart} {RESTS_AT + 16 * hart:#x} 0", *WAITS)]
    blocks = [(BOOT, [*begins, *DELAY, *ends])]
    blocks += [(RESTS_AT + 16 * hart, [*SAYS_SO, *it]) for hart, it in ((1, rest), (2, other))]
    return text(3 + OTHERS, 20_000, blocks)


def rebooted(rest):
    """Hart 0 rests so, and hart 1 reboots the board, over and over, since hart 0 begins anew: the history ends it."""
    begins = [f"{HART_START} 1 {RESTS_AT:#x} 0", "sie 0x2", f"{HART_START} 2 {LATER:#x} 0"]
    blocks = [(BOOT, [*begins, *rest]), (RESTS_AT, ["sip"] * 300 + [f"{RESET} {WARM} 0"]), (LATER, ["sip"])]
    return text(2 + OTHERS, 9_000, blocks)


def crowded(rest):
    """Hart 1 rests so, and hart 0 goes on until the history is full: its next step is refused, and that ends all rests."""
    begins = [f"{HART_START} 1 {RESTS_AT:#x} 0", *WAITS]
    return text(2 + OTHERS, 5_000, [(BOOT, [*begins, *["sip"] * 5_000]), (RESTS_AT, [*SAYS_SO, *rest]), (LATER, ["sip"])])


# What a hart rests on, by name: what its guest does then.
SLEEPS = {"suspended": [f"{SUSPEND} 0", "sip"], "suspended, to go on elsewhere": [f"{SUSPEND} 0x80000000 {LATER:#x} 0"], "at a wfi": ["wfi", "sip"]}
TIMED = {name: [f"{SET_TIMER} {TICKS}", *rest] for name, rest in SLEEPS.items()}
CALL = [f"{FENCE} 1 0", "sip"]
DONE = ["sip"]

# Each row: what the hart rests on, what ends it, the program, and how its runs end.
ROWS = [
    *[(name, "an interrupt", pair(rest, [IPI]), "quiet") for name, rest in SLEEPS.items()],
    *[(name, "an interrupt to all", pair(rest, [f"{SEND_IPI} 0 0xffffffffffffffff"]), "quiet") for name, rest in SLEEPS.items()],
    *[(name, "a tick", pair(rest, [], clock=["tick 1"] * TICKS), "quiet") for name, rest in TIMED.items()],
    *[
        (name, f"a fence, {kind}, and then an interrupt", pair(rest, [f"{call} 2 0 0 0 0", IPI]), "quiet")
        for name, rest in SLEEPS.items()
        for kind, call in (("of translations", FENCE), ("of words", WORDS), ("of an address space", ASID))
    ],
    *[(name, "a shutdown", pair(rest, [f"{RESET} 0 0"]), "off") for name, rest in SLEEPS.items()],
    *[("a block that is done", f"a fence, {kind}", pair(DONE, [f"{call} 2 0 0 0 0", "sip"]), "quiet")
      for kind, call in (("of translations", FENCE), ("of words", WORDS), ("of an address space", ASID))],
    ("a block that is done", "a shutdown", pair(DONE, [f"{RESET} 0 0"]), "off"),
    ("a fence call", "a served fence", pair(CALL, []), "quiet"),
    ("a fence call", "a stop of the hart that was asked", pair(CALL, [HART_STOP], delay=[]), "quiet"),
    ("a fence call", "a fence that is asked of it", pair(CALL, [f"{FENCE} 2 0"]), "quiet"),
    ("a fence call", "a shutdown", pair(CALL, [f"{RESET} 0 0"]), "off"),
    ("a stop", "a start", pair([HART_STOP], [*DELAY, f"{HART_START} 1 {LATER:#x} 0"]), "quiet"),
    *[(name, "a reboot", rebooted(rest), "history-full") for name, rest in {**SLEEPS, "a block that is done": DONE, "a stop": [HART_STOP]}.items()],
    *[(name, "a step that is refused", crowded(rest), "history-full") for name, rest in {**SLEEPS, "a block that is done": DONE, "a stop": [HART_STOP]}.items()],
    ("suspended", "an interrupt to two", crossing(SLEEPS["suspended"], SLEEPS["at a wfi"], [f"{SEND_IPI} 0x6 0"]), "quiet"),
    ("at a wfi", "an interrupt to one and then to another", crossing(SLEEPS["at a wfi"], SLEEPS["at a wfi"], [f"{SEND_IPI} 0x4 0", *DELAY, IPI]), "quiet"),
    ("a block that is done", "a fence of all", crossing(DONE, DONE, [f"{FENCE} 0 0xffffffffffffffff"]), "quiet"),
]


def ends_so(path, end):
    """Runs a program, which must end so."""
    last = ran(["run", path], timeout=HANG).stdout.splitlines()[-1:]
    must(f"the last line is {last}, not the end {end}", last == [f"# end {end}".encode()])


def is_woken(room, number, row):
    """A row, a twentieth as often as the programs of 'runs of ..': no run hangs, and none ends stuck."""
    rest, ends, program, end = row
    path = os.path.join(room, f"{number}.program")
    write(path, program)
    try:
        must_run(room, path, end, number)
        for _ in range(fixtures.RUNS_OF_EACH // 20):
            ends_so(path, end)
    except (AssertionError, subprocess.TimeoutExpired) as wrong:
        raise AssertionError(f"a rest on {rest}, which {ends} ends: {wrong}\n{program.decode()[:400]}") from None


class Waking(Test):
    def test_threads_that_rest_are_woken(self):
        at_once(lambda it: is_woken(self.room, *it), enumerate(ROWS))
