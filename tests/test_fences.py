"""Fences of many harts."""
from .fixtures import Test
from .many_harts import ALL, FENCE, NOTHING, OUTSTANDING, RETURNED, SERVED, WAITING, WRONG_PHASE, each_answers
from .replays import hart_row, totals


def started(harts):
    """The steps that start so many harts, each with its reply."""
    steps = [("0 advance", "entry 0x80000000 0 0x0")]
    for it in range(1, harts):
        steps += [(f"0 ecall 0x48534d 0 {it} 0x80000000", "ret 0 0x0"), (f"{it} advance", f"entry 0x80000000 {it} 0x0")]
    return steps


class Fences(Test):
    def test_a_ring_of_fences(self):
        """Each hart fences the next one: each call returns as soon as that hart has served, and not before."""
        for harts in (2, 3, 64, 65, 128):
            after = {it: (it + 1) % harts for it in range(harts)}
            steps = [(f"{it} {FENCE} 1 {after[it]}", WAITING) for it in after]
            steps += [(f"{it} poll", OUTSTANDING) for it in after]
            steps += [(f"{it} sip", WRONG_PHASE) for it in after]
            for it in after:
                steps += [(f"{after[it]} serve", SERVED), (f"{after[it]} serve", NOTHING), (f"{it} poll", RETURNED)]
            each_answers(self.room, harts, started(harts) + steps, totals(harts, harts, 0, harts, harts))

    def test_all_fence_all(self):
        """Each hart fences all harts. Those that wait at a hart are served in the order in which they were asked."""
        for harts in (1, 2, 3, 64, 65, 128):
            last = harts - 1
            asks = [(f"{it} {FENCE} {ALL}", WAITING) for it in range(harts)]
            counts = totals(harts, harts, 0, harts * harts, harts, harts * last)
            each_answers(self.room, harts, started(harts) + asks, counts, hart_row(last, "STARTED", last, last))
            serves = [(f"{it} serve", SERVED) for it in range(last) for _ in range(last)]
            serves += [(f"{it} serve", NOTHING) for it in range(last)]
            # the last hart has applied its own fence as it asked for it, and it alone is outstanding for the others
            serves += [(f"{last} poll", RETURNED)]
            for it in range(last):
                serves += [(f"{it} poll", OUTSTANDING), (f"{last} serve", SERVED), (f"{it} poll", RETURNED)]
            each_answers(self.room, harts, started(harts) + asks + serves, totals(harts, harts, 0, harts * harts, harts * harts))

    def test_a_stop_with_a_full_queue(self):
        """A stop applies what all other harts asked for: each of their calls may return."""
        for harts in (2, 65, 128):
            last = harts - 1
            steps = [(f"{it} {FENCE} 1 {last}", WAITING) for it in range(last)]
            steps += [(f"{it} poll", OUTSTANDING) for it in range(last)]
            steps += [(f"{last} ecall 0x48534d 1", "gone"), (f"{last} serve", WRONG_PHASE)]
            steps += [(f"{it} poll", RETURNED) for it in range(last)]
            each_answers(self.room, harts, started(harts) + steps, totals(harts, harts, 0, last, last))
