"""Calls by many harts and to them."""
from .fixtures import Test, must, must_be, must_have, ran, script
from .many_harts import MOST, TWO_STARTED, UPPER, each_answers, entered, own_address
from .replays import hart_row, totals

BOTH_ENDS = 1 << 63 | 1

# Masks and bases with the harts that they name on a board of so many harts, or None where they are refused.
HART_LISTS = [
    (1, 0, 1, [0]), (0, 0, 1, []), (2, 0, 1, None), (0, 1, 1, None), (0, MOST, 1, [0]), (BOTH_ENDS, 0, 64, [0, 63]), (BOTH_ENDS, 1, 64, None),
    (1, 63, 64, [63]), (2, 63, 64, None), (0, 64, 64, None), (BOTH_ENDS, 1, 65, [1, 64]), (BOTH_ENDS, 2, 65, None), (2, 63, 65, [64]),
    (1, 64, 65, [64]), (1, 65, 65, None), (BOTH_ENDS, 0, 128, [0, 63]), (BOTH_ENDS, 63, 128, [63, 126]), (BOTH_ENDS, 64, 128, [64, 127]),
    (BOTH_ENDS, 65, 128, None), (BOTH_ENDS >> 1, 65, 128, [127]), (1, 127, 128, [127]), (2, 127, 128, None), (0, 128, 128, None),
    (2, MOST - 1, 128, None), *[(BOTH_ENDS, MOST, harts, [*range(harts)]) for harts in (1, 63, 64, 65, 127, 128)],
]  # fmt: skip

BASES = (0, 1, 2, 63, 64, 65, 127, 128, MOST - 1, MOST)
MASKS = (0, 1, 2, 1 << 63, BOTH_ENDS, MOST)


def named(mask, base, harts):
    """The harts that a mask and a base name, or None: a bit without a hart, or a base past the harts (SBI 3; profile)."""
    if base == MOST:
        return [*range(harts)]
    found = [base + bit for bit in range(64) if mask >> bit & 1]
    return found if base < harts and all(it < harts for it in found) else None


def asked(mask, base, harts, wanted):
    """An IPI by hart 0, after which each hart tells whether it was named, and forgets it."""
    steps = [(f"0 ecall 0x735049 0 {mask:#x} {base}", "ret 0 0x0" if wanted is not None else "ret -3 0x0")]
    for it in range(harts):
        steps += [(f"{it} sip", "value 0x2" if it in (wanted or []) else "value 0x0"), (f"{it} clearssip", "done")]
    return steps


# Both ends of each range of suspend types, with the reply and the state after it, at a right resume address and at a
# wrong one. SBI 9.4 reserves the ranges, and leaves the platform's own to it: here they aren't supported (profile).
PENDING, HERE = "SUSPEND_PENDING", "STARTED"

SUSPENDS = [
    (0x00000000, ("waiting", PENDING), ("waiting", PENDING)), (0x00000001, ("ret -3 0x0", HERE), ("ret -3 0x0", HERE)),
    (0x0FFFFFFF, ("ret -3 0x0", HERE), ("ret -3 0x0", HERE)), (0x10000000, ("ret -2 0x0", HERE), ("ret -2 0x0", HERE)),
    (0x7FFFFFFF, ("ret -2 0x0", HERE), ("ret -2 0x0", HERE)), (0x80000000, ("gone", PENDING), ("ret -5 0x0", HERE)),
    (0x80000001, ("ret -3 0x0", HERE), ("ret -3 0x0", HERE)), (0x8FFFFFFF, ("ret -3 0x0", HERE), ("ret -3 0x0", HERE)),
    (0x90000000, ("ret -2 0x0", HERE), ("ret -2 0x0", HERE)), (0xFFFFFFFF, ("ret -2 0x0", HERE), ("ret -2 0x0", HERE)),
]  # fmt: skip

RIGHT = (0x80000000, 0x8000FFFE)
WRONG = (0, 0x7FFFFFFE, 0x80000001, 0x8000FFFF, 0x80010000, MOST - 1)


class Calls(Test):
    def test_all_harts_start(self):
        """Each of 128 harts is started, with values of its own."""
        rows = [hart_row(0, "STARTED"), *(hart_row(it, "START_PENDING") for it in range(1, 128))]
        entries = [f"# entry {it:>3} {own_address(it):016x} {it:016x}" for it in range(1, 128)]
        each_answers(self.room, 128, entered(128, False), totals(128, 1, 127), *rows, *entries)

    def test_all_harts_stop(self):
        """Of 128 harts those with an odd id enable their interrupts and can't stop, and the others stop."""
        steps, rows = entered(128), []
        for it in range(128):
            if it % 2:
                steps += [(f"{it} sstatus 1", "done"), (f"{it} ecall 0x48534d 1", "ret -1 0x0")]
                rows += [hart_row(it, "STARTED", registers="0  0 00  1")]
            else:
                steps += [(f"{it} ecall 0x48534d 1", "gone"), (f"{it} advance", "moved 1")]
                rows += [hart_row(it, "STOPPED")]
        each_answers(self.room, 128, steps, totals(128, 128), *rows)

    def test_hart_lists(self):
        """Bases and masks at their edges, on boards with different numbers of harts, all STARTED."""
        for mask, base, harts, wanted in HART_LISTS:
            must(f"the test's own rule, {mask:#x} {base} {harts}: {named(mask, base, harts)}", named(mask, base, harts) == wanted)
            each_answers(self.room, harts, entered(harts) + asked(mask, base, harts, wanted))
        for harts in (1, 64, 65, 128):
            steps = entered(harts)
            for base in BASES:
                for mask in MASKS:
                    steps += asked(mask, base, harts, named(mask, base, harts))
            each_answers(self.room, harts, steps)

    def test_suspend_types(self):
        for low, at_right, at_wrong in SUSPENDS:
            for upper in UPPER:
                for addr in RIGHT + WRONG:
                    reply, state = at_right if addr in RIGHT else at_wrong
                    step = f"1 ecall 0x48534d 3 {upper | low:#x} {addr:#x} 7\n"
                    found = ran(["replay", script(self.room, TWO_STARTED + step.encode())])
                    must_be(found, 0, None, b"")
                    answer = f"1 ecall 0x48534d 0x3 {upper | low:#x} {addr:#x} 0x7 0x0 0x0 0x0 -> {reply}\n"
                    must_have(found.stdout, answer.encode(), f"\n#    1 {state} ".encode())
