"""`can end`: from each state that an order reaches some order ends so. What is told of it, however a file is looked at."""
import os

from . import all_orders, judge
from .expected_points import ASKS_OF_ALL
from .fixtures import EXAMPLES, TESTER, Test, must, read, told, told_of, write
from .test_empty_verdicts import CUT, ENDLESS, OFF, SOME_END, in_way
from .test_explore import REBOOTS
from .test_orders import RACE, WAKE

STORM = os.path.join(EXAMPLES, "orders/wake-storm.program")
WAYS = (("sbiboard", ()), ("sbiboard explore", ("--no-outcomes",)))

# Programs with what is asked of them, and the fewest steps to a state from which no order ends so, or to another end; None: it holds.
ROWS = (
    (RACE, "can end", None), (RACE, "can end quiet", None), (RACE, "can end off quiet", None), (OFF, "can end off", None), (OFF, "can end", None), (WAKE, "can end quiet stuck", None),
    # (no order ends, and so the first state has no way out)
    (ENDLESS, "can end", 0), (REBOOTS, "can end quiet", 0), (ENDLESS, "can end off stuck quiet", 0),
    # (hart 1 may reboot the board as often as it likes before hart 0 ends it)
    (SOME_END, "can end off", None), (SOME_END, "can end quiet stuck", 3),
    # (an end that isn't named is no way out, whatever else there is)
    (OFF, "can end quiet", 2), (RACE, "can end stuck off", 6),
)  # fmt: skip


class WaysOut(Test):
    programs = (TESTER,)

    def test_a_storm_of_wakes_is_found(self):
        """In the example each order that ends is as it should be, and no hart is stuck where orders go on for ever: `can end` alone tells."""
        for name, words in WAYS:
            status, lines = told_of(self.room, *words, STORM, name=name)
            points = [it.partition(": ")[2] for it in lines if it.startswith(("ok ", "not ok "))]
            must(f"{lines}", status == 1 and len(points) == 2 and lines[1].startswith("ok 1 ") and any(it.startswith("not ok 2 ") for it in lines))
            must(f"{lines}", points[0].startswith("line 2: end stuck: holds in all orders") and points[1].startswith("line 3: can end: fails"))
            must(f"{lines}", "  length: 5" in lines and any(it.startswith("# states: 21, ") for it in lines) and "# orders: some without end, some stuck" in lines)
            record = judge.Followed(all_orders.Program(read(STORM)), read(os.path.join(self.room, "wake-storm.program.3.failed")))
            lost = judge.Verdicts(all_orders.Orders(read(STORM))).keys_without_way_out(judge.condition(3, "can end"))
            must(f"{record.lines}", len(record.steps) == 5 and record.point.key() in lost and record.end is None)

    def test_ways_out_are_judged_by_all_orders(self):
        """Of each row the verdict is the judge's, with a shortest order to where no order ends so; `maybe` changes nothing."""
        for text, asked, fewest in ROWS:
            wanted = judge.Verdicts(all_orders.Orders(text)).fewest(judge.condition(1, asked))
            must(f"{asked}: the judge's are {wanted} steps", wanted == fewest)
            for way in WAYS:
                for maybe in ("", "maybe "):
                    status, found, lines = in_way(self.room, way, f"#! {maybe}{asked}\n{text}")
                    said = "holds in all orders" if fewest is None else "fails"
                    must(f"{way}: {asked}: {lines}", found[0].startswith(f"{'' if fewest is None else 'not '}ok line 1: {maybe}{asked}: {said}") and status == (fewest is not None))
                    must(f"{way}: {asked}: {lines}", fewest is None or f"  length: {fewest}" in lines and ("  steps: |" in lines) == (fewest > 0))

    def test_orders_that_are_tried_tell_no_way_out(self):
        """Orders of a seed and runs on threads, however many, don't judge `can end`: status 8, and 1 where another point fails."""
        for words, many in ((("--times", "9"), 1), (("--order", "3"), 1), (("--times", "0"), 1), (("--seconds", "0"), 1), (("--times", "4", "--threads"), 2)):
            for text in (RACE, ENDLESS, CUT):
                status, found, lines = in_way(self.room, ("sbiboard", words), f"#! can end quiet\n#! maybe can end\n{text}")
                wanted = [f"not ok line 1: can end quiet{ASKS_OF_ALL}", f"not ok line 2: maybe can end{ASKS_OF_ALL}"] * many
                must(f"{words}: {lines}", status == 8 and found == wanted and f"# {2 * many} points, 0 failed, {2 * many} not judged" in lines and not any("record:" in it for it in lines))
                must(f"{words}: {os.listdir(self.room)}", os.listdir(self.room) == ["a.program"])
        status, found, _ = in_way(self.room, ("sbiboard", ("--times", "9")), f"#! can end\n#! end off\n{RACE}")
        must(f"{found}", status == 1 and found[0] == f"not ok line 1: can end{ASKS_OF_ALL}" and found[1].startswith("not ok line 2: end off: fails"))

    def test_ways_out_of_too_many_states(self):
        """Where not all states were seen, an end that isn't named decides, and nothing else."""
        for asked, text, status, said in (("can end", ENDLESS, 8, "not judged: more than 2 states, none of those seen breaks it"), ("can end", RACE, 8, "not judged: more than 2 states, none of those seen breaks it")):
            write(os.path.join(self.room, "a.program"), f"#! {asked}\n{text}")
            found, lines = told_of(self.room, "--states", "2", "a.program", name="sbiboard explore")
            must(f"{lines}", found == status and lines[1] == f"not ok 1 - a.program: line 1: {asked}: {said}")
        found, lines = told(self.room, f"#! can end\n{ENDLESS}", "--seconds", "0")
        must(f"{lines}", found == 8)

    def test_only_a_program_has_ways_out(self):
        """In a schedule and a trace `can end` fails, as `end` does."""
        for name, line in (("a.sched", "0 advance\n"), ("a.trace", "0 advance -> entry 0x80000000 0 0\n")):
            for asked in ("can end", "maybe can end off"):
                status, lines = told(self.room, f"#! {asked}\nboard 1 1 9 0 0x80000000 0\n{line}", name=name)
                at = next(place for place, it in enumerate(lines) if it.endswith(f"{name}: line 1: {asked}"))
                must(f"{lines}", status == 1 and lines[at].startswith("not ok ") and lines[at + 1 : at + 4] == ["  ---", '  reason: "only a program has an end"', "  ..."])
