"""Resets of many harts, and their types and reasons."""
from .fixtures import Test, must_be, must_have, ran, script, shown
from .many_harts import ALL, FENCE, NOTHING, RETURNED, TWO_STARTED, UPPER, WAITING, WRONG_PHASE, each_answers, entered, own_address
from .replays import hart_row, totals


def busy(harts):
    """The steps that bring so many harts into different states, and the number of the fences that they ask."""
    steps, fences, others = entered(harts), 0, harts
    for it in range(harts):
        steps += [(f"{it} sie 0x22", "done"), (f"{it} ecall 0x54494d45 0 {it}", RETURNED)]
    steps += [(f"0 ecall 0x735049 0 {ALL}", RETURNED)]
    for it in range(harts - 1):
        if it % 4 == 1:
            steps += [(f"{it} ecall 0x48534d 3 0x80000000 {own_address(it)} {it}", "gone")]
        elif it % 4 == 2:
            steps += [(f"{it} ecall 0x48534d 1", "gone")]
            others -= 1
        else:
            steps += [(f"{it} {FENCE} {ALL}", WAITING)]
            fences += others
    return steps, fences


def rebooted(harts):
    """What is left to each hart after a reboot, and the first steps after it: the last hart is started again."""
    steps = [step for it in range(harts) for step in ((f"{it} poll", WRONG_PHASE), (f"{it} serve", WRONG_PHASE))]
    steps += [(f"{it} advance", NOTHING) for it in range(1, harts)]
    steps += [("0 advance", "entry 0x80000000 0 0x0"), ("0 poll", WRONG_PHASE), ("0 serve", NOTHING), ("0 sip", "value 0x0")]
    last = harts - 1
    return steps + [(f"0 ecall 0x48534d 0 {last} 0x80000000 7", RETURNED), (f"{last} advance", f"entry 0x80000000 {last} 0x7")]


# Both ends of each range of reset types and of reasons, with the error of each, if it has one (SBI 10.1; that those of a
# platform aren't supported: profile).
TYPES = [(0, 0), (1, 0), (2, 0), (3, -3), (0x80000000, -3), (0xEFFFFFFF, -3), (0xF0000000, -2), (0xFFFFFFFF, -2)]

REASONS = [(0, 0), (1, 0), (2, -3), (0xDFFFFFFF, -3), (0xE0000000, 0), (0xEFFFFFFF, 0), (0xF0000000, 0), (0xFFFFFFFF, 0)]


class Resets(Test):
    def test_reset_types(self):
        """Of a type and a reason the low 32 bits are read, and the type's error wins."""
        for kind, bad_kind in TYPES:
            for reason, bad_reason in REASONS:
                for upper in UPPER:
                    error = bad_kind or bad_reason
                    step = f"1 ecall 0x53525354 0 {upper | kind:#x} {0xFFFFFFFF << 32 ^ upper | reason:#x}\n"
                    found = ran(["replay", script(self.room, TWO_STARTED + step.encode())])
                    must_be(found, 0, None, b"")
                    reply = f"ret {error} 0x0" if error else "gone"
                    shown = "power on reset none" if error else f"power {'on' if kind else 'off'} reset {kind:08x} {reason:08x}"
                    must_have(found.stdout, f" -> {reply}\n# time 0000000000000000 events       4 {shown}\n".encode())

    def test_a_reset_of_many_harts(self):
        """Some of many harts are inside calls, some suspend or stop, fences wait at most of them, and the last one resets the board."""
        for harts in (2, 3, 64, 65, 128):
            for kind in (0, 1, 2):
                before, fences = busy(harts)
                reason = 0xE0000000 + harts
                steps = before + [(f"{harts - 1} ecall 0x53525354 0 {kind} {reason:#x}", "gone")]
                if kind:
                    states = ["STARTED", *["STOPPED"] * (harts - 2), "STARTED"]
                    after, counts, power = rebooted(harts), (2, 2), "on"
                else:
                    after = [(f"{it} {op}", "refused 1") for it in range(harts) for op in ("advance", "poll", "serve", "sip")]
                    states, counts, power = ["STOPPED"] * harts, (0, 0), "off"
                steps += after + [("c tick 0", "done" if kind else "refused 1")]
                events = sum(not reply.startswith("refused") for _, reply in steps)
                first = f"# time {0:016x} events {events:7} power {power} reset {kind:08x} {reason:08x}"
                rows = [hart_row(it, state) for it, state in enumerate(states)]
                each_answers(self.room, harts, steps, first, totals(*counts, asked=fences, applied=fences), *rows)
