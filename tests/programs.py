"""Programs for tests, with what holds of each record, in whatever order the threads go."""
import random
from collections import namedtuple

from .replays import hart_row, totals

# A program, how its run ends, and lines of the table after it.
Program = namedtuple("Program", "text end table")

HART_START, HART_STOP, SUSPEND = "ecall 0x48534d 0", "ecall 0x48534d 1", "ecall 0x48534d 3"
SEND_IPI, SET_TIMER, RESET = "ecall 0x735049 0", "ecall 0x54494d45 0", "ecall 0x53525354 0"
FENCE_ALL = "ecall 0x52464e43 1 0 0xffffffffffffffff"
SHUTDOWN, WARM = 0, 2
NON_RETENTIVE = "0x80000000"
BOOT = 0x80000000


def program(harts, limit, blocks, end, table, pages=1):
    """`blocks`: pairs of a head and its operations."""
    lines = [f"board {harts} {pages} {limit} 0 {BOOT:#x} 0x0"]
    for head, operations in blocks:
        lines += [head, *operations]
    return Program("".join(f"{it}\n" for it in lines).encode(), end, [f"\n{it}\n".encode() for it in table])


def address(hart):
    return BOOT + 2 * hart


def head(hart):
    return f"at {address(hart):#x}"


def start(hart):
    return f"{HART_START} {hart} {address(hart):#x} {hart}"


def ipi(hart):
    return f"{SEND_IPI} 1 {hart}"


def chain(harts, stops=True):
    """Each hart starts the next one, and stops. If none stops, there is one order alone."""
    stop = [HART_STOP] if stops else []
    blocks = [(head(it), [start(it + 1)] * (it + 1 < harts) + stop) for it in range(harts)]
    table = [totals(harts, harts)] + [hart_row(it, "STOPPED" if stops else "STARTED") for it in range(harts)]
    return program(harts, 10_000, blocks, "quiet", table)


def hops(places):
    """A hart goes through the blocks at these places of the RAM, each once, in the order of the list: at the end of each it sleeps,
    and resumes at the next one, since it was woken before. The blocks stand in the order of their addresses. Also returns the
    addresses of its entries."""
    addresses = [BOOT + 2 * it for it in places]
    last = dict(zip(addresses, [f"{SUSPEND} {NON_RETENTIVE} {it:#x}" for it in addresses[1:]]))
    blocks = {it: [last[it]] if it in last else ["sip"] for it in addresses}
    blocks[addresses[0]] = ["sie 2", ipi(0), *blocks[addresses[0]]]
    pages = 1 + 2 * max(places) // 4_096
    lines = [f"board 1 {pages} 1000000 0 {addresses[0]:#x} 0x0"]
    for it in sorted(blocks):
        lines += [f"at {it:#x}", *blocks[it]]
    return "".join(f"{it}\n" for it in lines), addresses


def sleepers(harts):
    """Each hart starts the next one and sleeps until that one, which has slept, wakes it; once hart 0 is awake, each wakes the next
    one again; and the last one wakes all others at once. Each waking comes after what the sleep depends on, so that none is lost,
    whether the hart sleeps already or not. Those of odd ids sleep in non-retentive suspends at last."""
    last, blocks = harts - 1, []
    sleep = [f"{SUSPEND} 0", "clearssip"]
    for it in range(last):
        at_first = ["sie 0x2", start(it + 1), *sleep]
        down = [ipi(it - 1), *sleep, ipi(it + 1)] if it else [ipi(1)]
        if it % 2:
            blocks.append((head(it), [*at_first, *down, f"{SUSPEND} {NON_RETENTIVE} {address(harts + it):#x} {it}"]))
            blocks.append((head(harts + it), ["sip", "clearssip"]))
        else:
            blocks.append((head(it), [*at_first, *down, *sleep, "sip"]))
    blocks.append((head(last), ["sie 0x2", ipi(last - 1), *sleep, f"{SEND_IPI} 0 0xffffffffffffffff", "clearssip"]))
    table = [totals(harts, harts)] + [hart_row(it, "STARTED", registers="0  0 02  0") for it in range(harts)]
    return program(harts, 10_000, [*blocks, ("clock", ["tick 1"] * 20)], "quiet", table)


def reboots():
    """A warm reboot while others sleep, stop and fence. The boot hart begins anew each time, so the history ends it."""
    blocks = [
        (head(0), [start(2), start(3), start(1), FENCE_ALL, "sip"]),
        (head(1), [FENCE_ALL, f"{RESET} {WARM} 0", "sip"]),
        (head(2), ["sie 0x2", f"{SUSPEND} 0", "clearssip", "sip"]),
        (head(3), [FENCE_ALL, f"{SEND_IPI} 0 0xffffffffffffffff", HART_STOP]),
        ("clock", ["tick 1"] * 20),
    ]
    return program(4, 300, blocks, "history-full", [])


def shutdown():
    """Hart 0 hears of each other hart that it runs, and shuts the board down, whatever they wait for or still do."""
    hear = [f"{SEND_IPI} 1 0"]
    waits = [
        ["wfi"],
        ["sie 0x2", "wfi"],
        [f"{SUSPEND} 0", "sip"],
        [f"{SUSPEND} {NON_RETENTIVE} {address(8):#x} 7"],
        [FENCE_ALL, FENCE_ALL, FENCE_ALL],
        [f"{SET_TIMER} 1000", "sie 0x20", "wfi"],
        [FENCE_ALL, HART_STOP],
    ]
    starts = [it for hart in range(1, 8) for it in (start(hart), "wfi", "clearssip")]
    blocks = [(head(it), [*hear, *wait]) for it, wait in enumerate(waits, 1)]
    blocks += [(head(0), ["sie 0x2", *starts, f"{RESET} {SHUTDOWN} 0", "sip"]), ("clock", ["tick 3"] * 20)]
    return program(8, 1_000, blocks, "off", [hart_row(it, "STOPPED") for it in range(8)])


def fences(harts):
    """Each hart fences all harts at once, while each may be inside its own call."""
    blocks = [(head(0), [f"{HART_START} {it} 0x80001000 0" for it in range(1, harts)] + [FENCE_ALL])]
    blocks.append(("at 0x80001000", [FENCE_ALL]))
    return program(harts, 1_000 if harts <= 16 else 100_000, blocks, "quiet", [hart_row(it, "STARTED") for it in range(harts)], pages=2)


# The programs that are run many times, by their names.
MANY = {
    "runs of a chain of starts": chain(128), "runs of sleepers": sleepers(16), "runs of two sleepers": sleepers(2), "runs of reboots": reboots(),
    "runs of a shutdown": shutdown(),
}  # fmt: skip


# ---- what holds of the records of examples


def loads_of(lines, hart):
    return [it.partition(b"-> ")[2] for it in lines if it.startswith(b"%d load " % hart)]


def is_shot_down(lines):
    """Why the record of `shootdown.program` is wrong, or None: a hart read the old page after the call had returned."""
    after = lines[lines.index(b"0 poll -> ret 0 0x0") :]
    for hart in (1, 2):
        first, middle, last = loads_of(lines, hart)
        if first != b"value 0x11" or middle not in (b"value 0x11", b"value 0x22") or last != b"value 0x22":
            return f"hart {hart} loads {first}, {middle} and {last}"
        if b"value 0x11" in loads_of(after, hart):
            return f"hart {hart} reads the old page after the fence"
    return None


# What is wrong of an example's record, by its lines, beyond its end and its table.
WRONG_OF = {"shootdown.program": is_shot_down}

# ---- random programs, and what holds of each record

CALLS = {"start": (0x48534D, 0), "stop": (0x48534D, 1), "suspend": (0x48534D, 3), "ipi": (0x735049, 0)}
CALLS |= {"timer": (0x54494D45, 0), "fence_i": (0x52464E43, 0), "fence": (0x52464E43, 1), "reset": (0x53525354, 0)}


def call(name, *arguments):
    """A call, spelled as it is printed."""
    numbers = [*CALLS[name], *arguments, *[0] * (6 - len(arguments))]
    return "ecall " + " ".join(f"{it:#x}" for it in numbers)


def some_operation(some, harts):
    """An operation of a guest, mostly one that waits for other harts, or that they wait for."""
    block, everybody = address(some.randrange(harts + 1)), (0, 2**64 - 1)
    named = some.choice([everybody, (some.randrange(1 << harts), 0)])
    return some.choice([
        *[call("start", some.randrange(harts), block, 7)] * 4,
        *[call("ipi", *named)] * 3,
        *[call("fence", *named)] * 3,
        call("fence_i", *named),
        *[call("suspend", 0)] * 2,
        call("suspend", 0x80000000, block, 9),
        *[call("stop")] * (some.random() < 0.5),
        *["wfi", "wfi", "clearssip", "sip", "fencei", "sfence - -", "load 0x80000000", "sie 0x0"],
        *[f"sie {it}" for it in ("0x2", "0x22", "0x22")],
        f"sstatus {some.randrange(2)}",
        call("timer", some.choice([0, 1, 3, 5, 2**64 - 1])),
        *([call("reset", some.randrange(3))] if some.random() < 0.3 else []),
    ])


class RandomProgram:
    """Blocks for a few harts by their addresses, and the clock's ticks. Those that go on for ever fill the history."""

    def __init__(self, seed):
        some = random.Random(seed)
        self.harts = some.randint(1, 6)
        self.limit = some.choice([10, 60, 200, 200, 200])
        some_operations = lambda: [some_operation(some, self.harts) for _ in range(some.randrange(13))]
        some_block = lambda: ["sie 0x22"] * some.randrange(2) + some_operations()
        self.blocks = {address(it): some_block() for it in range(self.harts)}
        first = [call("start", it, address(it), it) for it in range(1, self.harts)]
        self.blocks[BOOT] = first + self.blocks[BOOT]
        self.ticks = [f"tick {some.choice([0, 1, 2, 2**64 - 3]):#x}" for _ in range(some.randrange(4))]

    def text(self):
        heads = [(f"at {it:#x}", block) for it, block in self.blocks.items()]
        return program(self.harts, self.limit, [*heads, ("clock", self.ticks)], None, []).text
