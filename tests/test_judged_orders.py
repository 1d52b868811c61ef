"""Random programs with conditions: what `explore` and `test` tell of them, beside a judge that reads the documents alone."""
import os
import random
import re

from . import all_orders, expected_points, fixtures, random_programs
from .expected_points import Case, Order, Told
from .fixtures import PROGRAM, TESTER, Test, must, read, told_of, write

# The most states of a program that is judged, with what its loads gave; and how many orders of a seed are tried of each.
MOST, TIMES = 1_200, 6
# The longest history of a program of which some order has no end.
LONGEST = 1_000
# How many programs are made before they are judged, in calls of one file to six; and how many of these run on threads, too.
BATCH, FILES, THREADS = 48, 6, 4
ENDS = ("off", "history-full", "quiet", "stuck")
# A condition that each record fails, so that each record is written.
FAILS = "#! never _\n"


def cases_from(seeds):
    """Programs of these seeds that have few enough states."""
    found = []
    for seed in seeds:
        made = random_programs.RandomProgram(seed)
        try:
            orders = all_orders.Orders(made.text(), MOST, loads=True)
        except ValueError:
            continue
        # (an order without end goes on until the history is full)
        if orders.ways() is None and made.limit > LONGEST:
            continue
        steps = {step[:3] for steps in orders.edges for step in steps}
        found.append(Case(f"{seed}.program", made.asking(steps), orders))
    return found


def told(room, name, words):
    """The status, and the lines."""
    status, lines = told_of(room, *words, name=name)
    return status, Told(lines)


def in_groups(cases, some):
    """One case to six at a time."""
    at = 0
    while at < len(cases):
        many = some.randint(1, FILES)
        yield cases[at : at + many]
        at += many


def must_end(room, lines, status, points, failed, *summary, unjudged=0):
    """The plan, the summary and the status; and no records are written but those that are told."""
    lines.take(f"1..{points}", f"# {points} points, {failed} failed" + (f", {unjudged} not judged" if unjudged else ""), *summary)
    must(f"status {status}, with {failed} failed; behind the summary stands {lines.lines[lines.at :]}", lines.at == len(lines.lines) and status == (1 if failed else 8 if unjudged else 0))
    found = {os.path.join(room, name) for name in os.listdir(room) if not name.endswith(".program")}
    must(f"written are {found}, and told {lines.records}", found == lines.records)
    for path in found:
        os.remove(path)


def explored(room, cases):
    """What `explore` tells of these files. Answers of how many the states are told apart as by the model."""
    status, lines = told(room, "sbiboard explore", ["--failed", room, *(case.name for case in cases)])
    lines.take("TAP version 13")
    points = failed = same = 0
    for case in cases:
        many, wrong, are_all = expected_points.take_explored(case, lines, points + 1, room, True)
        points, failed, same = points + many, failed + wrong, same + are_all
    must_end(room, lines, status, points, failed, f"# {len(cases)} files")
    return same


def tested(room, cases):
    """What `test` tells of these files, without being asked for orders of a seed: of those of few states all orders."""
    cases = [case for case in cases if case.is_few()]
    if not cases:
        return 0
    status, lines = told(room, "sbiboard", ["--failed", room, *(case.name for case in cases)])
    lines.take("TAP version 13")
    points = failed = 0
    for case in cases:
        many, wrong, _ = expected_points.take_explored(case, lines, points + 1, room, False)
        points, failed = points + many, failed + wrong
    must_end(room, lines, status, points, failed, f"# {len(cases)} files", *all_orders_of(cases))
    return len(cases)


def all_orders_of(cases):
    """How the summary counts programs of which all orders were seen."""
    ends = [case.orders.ends for case in cases if case.orders.ways() is not None]
    endless = len(cases) - len(ends)
    if ends:
        sums = {end: sum(it.get(end, 0) for it in ends) for end in ("off", "quiet", "stuck")}
        yield f"# all orders of {len(ends)} programs: {sum(sums.values())}" + "".join(f", {end} {many}" for end, many in sums.items() if many)
    if endless:
        yield f"# all orders of {endless} programs: some without end"


def unjudged_of(cases):
    """Of how many conditions some orders don't tell."""
    return sum(expected_points.asks_of_all(asked) for case in cases for asked in case.asked)


def orders_alone(room, cases, seed, times=TIMES):
    """The records of so many orders of a seed, each tried alone."""
    names = [f"alone-{case.name}" for case in cases]
    for name, case in zip(names, cases):
        write(os.path.join(room, name), case.text + FAILS)
    found = [[] for _ in cases]
    for order in range(times):
        told(room, "sbiboard", ["--seed", str(seed), "--order", str(order), "--failed", room, *names])
        for case, name, orders in zip(cases, names, found):
            path = os.path.join(room, f"{name}.{seed}-{order}.failed")
            orders.append(Order(case, read(path)))
            os.remove(path)
    return found


def tried(room, cases, orders, seed):
    """What `test` tells of these files by orders of a seed, whose records are known."""
    words = ["--seed", str(seed), "--times", str(len(orders[0])), "--failed", room]
    status, lines = told(room, "sbiboard", [*words, *(case.name for case in cases)])
    lines.take("TAP version 13")
    points = failed = 0
    for case, of_it in zip(cases, orders):
        many, wrong = expected_points.take_tried(case, lines, points + 1, room, seed, of_it)
        points, failed = points + many, failed + wrong
    ends = [order.record.end for of_it in orders for order in of_it]
    records = sum(len({tuple(order.record.lines) for order in of_it}) for of_it in orders)
    counts = ", ".join(f"{ends.count(end)} {end}" for end in ENDS)
    must_end(room, lines, status, points, failed, f"# {len(cases)} files, {len(ends)} orders, {records} different records", f"# ends: {counts}", unjudged=unjudged_of(cases))
    return lines.lines


def run_on_threads(room, cases, orders):
    """The same of orders of seed 0, and of as many runs on threads, of which each failing one is followed and judged."""
    times = len(orders[0])
    status, lines = told(room, "sbiboard", ["--times", str(times), "--threads", "--failed", room, *(case.name for case in cases)])
    lines.take("TAP version 13")
    points = failed = 0
    for case, of_it in zip(cases, orders):
        many, wrong = expected_points.take_tried(case, lines, points + 1, room, 0, of_it)
        points, failed = points + many, failed + wrong
        many, wrong = expected_points.take_runs(case, lines, points + 1, room, times)
        points, failed = points + many, failed + wrong
    both = 2 * times * len(cases)
    counted = re.fullmatch(rf"# {len(cases)} files, {both} orders, \d+ different records;# ends: (\d+) off, (\d+) history-full, (\d+) quiet, (\d+) stuck", ";".join(lines.lines[-2:]))
    must(f"{lines.lines[-2:]}, of {both} orders and runs", counted is not None and sum(map(int, counted.groups())) == both)
    must_end(room, lines, status, points, failed, *lines.lines[-2:], unjudged=2 * unjudged_of(cases))
    return lines.lines


def judged_batch(room, seeds):
    """Judges the programs of these seeds: how many have few enough states, of how many `test` tells all orders, and of how many the states are the model's."""
    cases, some = cases_from(seeds), random.Random(str(seeds))
    for case in cases:
        write(os.path.join(room, case.name), case.text)
    seed = some.choice([0, 1, 7, (1 << 64) - 1, some.getrandbits(64)])
    orders = dict(zip(cases, orders_alone(room, cases, seed)))
    few = same = 0
    for group in in_groups(cases, some):
        same += explored(room, group)
        few += tested(room, group)
        tried(room, group, [orders[case] for case in group], seed)
    on_threads = cases[:THREADS]
    run_on_threads(room, on_threads, orders_alone(room, on_threads, 0))
    for name in os.listdir(room):
        os.remove(os.path.join(room, name))
    return len(cases), few, same


class JudgedOrders(Test):
    programs = (PROGRAM, TESTER)

    def test_random_programs_are_judged(self):
        """Of random programs `explore` and `test` tell what the judge does: each verdict, each record, which is followed through
        the model and judged, each count, what is never met, and what is odd."""
        made, judged, few, same = 0, 0, 0, 0
        while judged < fixtures.MANY:
            counts = judged_batch(self.room, range(made, made + BATCH))
            made += BATCH
            judged, few, same = judged + counts[0], few + counts[1], same + counts[2]
        if judged < made // 2 or few < judged // 2 or same < judged // 4:
            raise AssertionError(f"of {made} programs {judged} are judged, of {few} of them `test` tells all orders, and of {same} the states are those of the model")
