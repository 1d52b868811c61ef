"""What the tests of boards with many harts share: their starts, and how each step is answered."""
from . import replays
from .fixtures import TOO_LONG, must, must_agree, must_be, ran, script

FENCE = "ecall 0x52464e43 1"
ALL = "0 0xffffffffffffffff"
WAITING, SERVED, RETURNED = "waiting", "served", "ret 0 0x0"
OUTSTANDING, NOTHING, WRONG_PHASE = "refused 3", "refused 3", "refused 2"


def own_address(hart):
    return 0x80000000 + 2 * hart


def entered(harts, has_entered=True):
    """The steps, each with its reply, that start hart 1 and those after it, each with values of its own."""
    steps = [("0 advance", "entry 0x80000000 0 0x0")]
    steps += [(f"0 ecall 0x48534d 0 {it} {own_address(it)} {it}", "ret 0 0x0") for it in range(1, harts)]
    if has_entered:
        steps += [(f"{it} advance", f"entry {own_address(it):#x} {it} {it:#x}") for it in range(1, harts)]
    return steps


def each_answers(room, harts, steps, *lines):
    """Replays the steps on a board of so many harts: each is answered so, these lines are in the table, and the whole is the model's."""
    text = f"board {harts} 1 1000000 0 0x80000000 0\n" + "".join(f"{step}\n" for step, _ in steps)
    found, wanted = ran(["replay", script(room, text.encode())]), replays.printed(text)
    must_be(found, 0, None, b"")
    told = found.stdout.decode().splitlines()
    for (step, reply), line, other in zip(steps, told[1:], wanted[1:]):
        must(f"{harts} harts, {step}: it answered {line!r}, not {reply!r}, and the model {other!r}", line.partition(" -> ")[2] == reply and line == other)
    missing = [line for line in lines if line not in told]
    must(f"{harts} harts: another table, without {missing[:4]}", told == wanted and not missing)
    if len(found.stdout) < TOO_LONG:
        must_agree(room, found.stdout)


MOST = (1 << 64) - 1

# The upper 32 bits of a type aren't read.
UPPER = (0, 1 << 32, 1 << 63, 0xFFFFFFFF << 32)

TWO_STARTED = b"""\
board 3 16 1000 0 0x80000000 0x0
0 advance
0 ecall 0x48534d 0 1 0x80000000 0
1 advance
"""
