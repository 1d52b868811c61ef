"""Deadlines of many harts."""
import random

from .fixtures import Test
from .many_harts import MOST, each_answers, entered


def with_deadlines(harts, turns):
    """The steps after the start of so many harts, each with its reply: where a turn is a pair, a hart sets its deadline; any
    other is a tick of so long, after which each hart looks whether its timer interrupt is pending."""
    time, deadlines, steps = 0, {}, entered(harts)
    for turn in turns:
        if isinstance(turn, tuple):
            hart, deadlines[hart] = turn
            steps += [(f"{hart} ecall 0x54494d45 0 {deadlines[hart]}", "ret 0 0x0")]
        else:
            time += turn
            steps += [(f"c tick {turn}", "done")]
            due = {it for it, deadline in deadlines.items() if deadline <= time}
            steps += [(f"{it} sip", f"value {0x20 if it in due else 0:#x}") for it in range(harts)]
    return steps


class Deadlines(Test):
    def test_ticks_over_deadlines_of_many_harts(self):
        """Deadlines of which none, one, half and all come due at a tick, set in any order, and set anew while they are due."""
        for harts in (1, 2, 64, 65, 128):
            order = random.Random(harts)
            rising = [(it, 10 + it) for it in range(harts)]
            for sets in (rising, rising[::-1], order.sample(rising, harts)):
                anew = [(it, 1) for it in range(0, harts, 2)]
                each_answers(self.room, harts, with_deadlines(harts, [*sets, 9, 0, 1, harts // 2, harts, 0, *anew, 0]))
            equal = [(it, 5) for it in range(harts)]
            later = [(it, MOST if it % 2 else 20) for it in range(harts)]
            turns = [*equal, 4, 1, *later, 0, 14, 1, (0, 40), 0, 19, 1, MOST - 1 - 40]
            each_answers(self.room, harts, with_deadlines(harts, turns))

    def test_random_deadlines(self):
        """Deadlines that are set anew at random, past ones and the infinite one among them, and time that goes on between."""
        for harts in (1, 2, 3, 64, 128):
            for seed in range(4):
                order, turns = random.Random(f"{harts} {seed}"), []
                for _ in range(3 * harts + 20):
                    turns += [(order.randrange(harts), order.choice([0, order.randrange(400), order.randrange(60), MOST]))]
                    if not order.randrange(max(4, harts // 4)):
                        turns += [order.choice([0, 1, order.randrange(20)])]
                each_answers(self.room, harts, with_deadlines(harts, [*turns, 0, 500]))
