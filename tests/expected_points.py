"""What `sbiboard test` and `sbiboard explore` must tell of a program, by the judge alone: each point, each line below it, each record."""
import os
import re
from collections import Counter

from board_model import CHANGES, GUEST, STARTED, STORES, SUSPENDED, number, words_of

from . import judge
from .all_orders import READING, Program
from .fixtures import must, read
from .judge import Followed, NoOrder, Verdicts, broken_at
from .replays import spelled

# How many steps are shown before the one at which a record fails, and behind it.
AROUND = 6
# A program has few states up to so many, and on a board of many pages as many as have so many pages together.
FEW, FEW_PAGES = 20_000, 160_000
# Up to so many orders are counted.
MOST_COUNTED = (1 << 128) - 1


class Told:
    """The lines that are told, taken one after the other."""

    def __init__(self, lines):
        self.lines, self.at = lines, 0
        # The files that it names.
        self.records = set()

    def next(self):
        return self.lines[self.at] if self.at < len(self.lines) else ""

    def take(self, *wanted):
        for it in wanted:
            must(f"told is {self.next()!r}, and not {it!r}, behind {self.lines[max(self.at - 12, 0) : self.at]}", self.next() == it)
            self.at += 1

    def match(self, wanted):
        """A line that is as a pattern says."""
        found = re.fullmatch(wanted, self.next())
        must(f"told is {self.next()!r}, which isn't {wanted!r}, behind {self.lines[max(self.at - 12, 0) : self.at]}", found is not None)
        self.at += 1
        return found


def block_places(lines):
    """Of each line that has an operation of a block the block's address, its place there, and the line."""
    found, addr, place = {}, 0, 0
    for line, words in enumerate(map(words_of, lines), 1):
        if words[:1] == ["at"]:
            addr, place = number(words[1]), 0
        elif words and words[0] not in ("board", "clock"):
            found[line], place = (addr, place, line), place + 1
    return found


# A condition that asks of marks.
OF_MARKS = re.compile(r"\b(?:stale|missed|unsteady|unfirm|unlenient|steady|firm|lenient)\b")


class Case:
    """A program's file, and all that holds of its orders."""

    def __init__(self, name, text, orders):
        self.name, self.text, self.orders = name, text, orders
        self.verdicts, self.program, self.asked = Verdicts(orders), Program(text), judge.conditions(text)
        self.lines = text.split("\n")
        self.numbers = next([number(word) for word in words[1:]] for words in map(words_of, self.lines) if words)
        self.limit, self.states = self.numbers[2], None
        self.blocks = block_places(self.lines)
        self.lined = {self.lined_step(orders.points[place], step[:3]) for place, steps in enumerate(orders.edges) for step in steps}

    def lined_step(self, point, step):
        """A step, with its block's address, its place there and its line, where it is a guest's."""
        actor, op, _ = step
        left = point.left[actor] if actor is not None else ()
        return (self.blocks[left[0][0]] if left and op[0] in GUEST else None), step

    def said(self, line):
        return self.lines[line - 1].partition("#")[0].strip()

    def is_few(self):
        """Whether `test` looks at all orders of it, which has so many states."""
        names_limit = any("history-full" in (asked.ends or ()) for asked in self.asked)
        return self.states <= min(FEW, FEW_PAGES // self.numbers[1]) and not names_limit

    def followed(self, text, limit, is_whole=True):
        """A record, whose board has this limit; one that isn't whole may end anywhere."""
        try:
            found = Followed(self.program, text, limit if is_whole else None)
        except NoOrder as why:
            raise AssertionError(f"{self.name}: {why}") from None
        must(f"{self.name}: the record's board is {text[:80]!r}, and not {self.board_line(limit)!r}", text.split("\n")[0] == self.board_line(limit))
        return found

    def board_line(self, limit):
        harts, pages, _, boot, addr, opaque, *spaces = self.numbers
        line = f"board {harts} {pages} {limit} {boot} {addr:#x} {opaque:#x}"
        return line if spaces in ([], [16, 39]) else f"{line} {spaces[0]} {spaces[1]}"

    # ---- records below points

    def take_steps(self, told, record, place):
        told.take(f"  place: {place}", "  steps: |")
        first = max(place - AROUND, 0)
        told.take(*(f"    {first + at} {line}" for at, line in enumerate(record.lines[first : place + AROUND + 1])))

    def take_stuck(self, told, record):
        """Of each hart that isn't through, where it stands and what it waits for."""
        told.take("  stuck:")
        for h, hart in enumerate(record.point.board.harts):
            left = record.point.left[h][:1] if hart.state == STARTED else [record.last[h]] if hart.state == SUSPENDED else []
            for line, _ in left:
                waits = f"SSIP is {hart.ssip}, STIP is {int(record.point.board.is_due(h))}, SSIE is {hart.sie >> 1 & 1}, STIE is {hart.sie >> 5 & 1}"
                told.take(f"    - \"hart {h}: line {line} '{self.said(line)}': {waits}\"")

    def take_record(self, told, folder, label, limit, is_whole=True):
        """The name of a record, and the record."""
        path = f"{folder}/{self.name}.{label}"
        told.take(f'  record: "{path}"')
        must(f"{path} isn't written", os.path.exists(path))
        text = read(path)
        told.records.add(path)
        return self.followed(text, limit, is_whole)

    # ---- what a condition says nothing of

    def vacuous(self, asked, lined, tried=""):
        """What is said of a condition that needs a step which none of these is, each with the line of its operation; None: it is about some."""
        lacks = None if asked is None or asked.maybe else judge.lacking(asked, [step for _, step in lined])
        if lacks is None:
            return None
        wanted, with_reply = lacks
        return f": vacuous: no step is '{self.pattern_text(asked, [it is wanted for it in asked.patterns].index(True), with_reply)}'{tried}{instead(wanted, lined)}"

    def pattern_text(self, asked, place, with_reply):
        """What is written of a pattern."""
        rule = asked.text.split(None, 1)[1] if asked.maybe else asked.text
        text = re.split(r"\bafter\b|,", rule.split(None, 1)[1])[place]
        return " ".join((text if with_reply else text.partition("->")[0]).split())

    # ---- what is odd

    def odd_lines(self, steps):
        """`steps`: of each the line of the hart's next operation, the operation, and the answer."""
        entered = {answer[1] for _, _, answer in steps if answer[0] == "entry"}
        good = {}
        for line, op, answer in steps:
            if op[0] == "ecall":
                good[line] = good.get(line, False) or not (answer[0] == "ret" and answer[1] != 0)
        found = []
        for line in range(1, len(self.lines) + 1):
            words = words_of(self.lines[line - 1])
            if words[:1] == ["at"] and number(words[1]) not in entered:
                found.append(f"# line {line}: no order entered the block at {number(words[1]):#x}")
            if good.get(line) is False:
                found.append(f"# line {line}: each answer to '{self.said(line)}' was an error")
        missing = sorted(entered - set(self.program.blocks))
        return found + [f"# a hart was entered at {it:#x}, where no block is" for it in missing]


    def stale_lines(self):
        """Of the accesses that are stale in some order, block by block, if no condition asks of marks."""
        if any(OF_MARKS.search(it.text) for it in self.asked):
            return []
        lines = [line for _, block in sorted(self.program.blocks.items()) for line, _ in block]
        return [f"# line {it}: stale in some order: a walk gives another translation; `#! never stale` tells the order" for it in lines if it in self.orders.stale]


# What one does by an operation that has numbers.
DOES = {"ecall": "calls", "load": "loads", "store": "stores", "fetch": "fetches", "satp": "writes satp", "sie": "writes sie", "sstatus": "writes sstatus", "sfence": "does sfence", "tick": "ticks"}
DOES |= {op: "stores" if op in STORES else "changes" for op in CHANGES}
# How many different numbers are told of an actor, and how many lines of each.
MOST_TOLD = 8


def instead(wanted, lined):
    """What the same actors do by the same operation, in which lines."""
    if any(judge.fits(wanted, *step[:2]) for _, step in lined):
        return "; such a step has another reply"
    if len(wanted.step) < 3 or wanted.step[1] is None:
        return ""
    like, found = judge.Pattern(wanted.step[:2], ()), {}
    # (the clock comes first, then hart by hart, and each by its blocks' addresses and their lines)
    for place, (actor, op, answer) in sorted(lined, key=lambda it: (-1 if it[1][0] is None else it[1][0], it[0] or (0, 0, 0), it[1][1])):
        if judge.fits(like, actor, op):
            numbers = spelled(actor, op, answer).partition(" -> ")[0].split(" ", 2)[2]
            lines = found.setdefault(actor, {}).setdefault(numbers, [])
            if place and place[2] not in lines:
                lines.append(place[2])
    texts = []
    for actor, used in found.items():
        told = [numbers + lines_told(sorted(lines)) for numbers, lines in [*used.items()][:MOST_TOLD]] + [".."] * (len(used) > MOST_TOLD)
        texts.append(f"{'the clock' if actor is None else f'hart {actor}'} {DOES[wanted.step[1]]} {', '.join(told)}")
    return "; " + ", ".join(texts) if texts else ""


def lines_told(lines):
    told = ", ".join(map(str, lines[:MOST_TOLD])) + ", .." * (len(lines) > MOST_TOLD)
    return f" (line{'s' if len(lines) > 1 else ''} {told})" if lines else ""


def grouped(number):
    return f"{number:,}" if number < MOST_COUNTED else f"{MOST_COUNTED:,} or more"


def said_of(holds, is_some, reach=None):
    """What is said of a condition, by how far was looked; without that as by `explore`."""
    found = "holds" if holds else "fails"
    if holds != is_some:
        return f": {found} in {reach or 'all orders'}"
    return f": {found} in some of {reach}" if reach else f": {found}"


def lines_of_steps(point_of, steps):
    """Steps of guests with the lines of their operations: `point_of` has where each hart is before it."""
    found = []
    for point, (actor, op, answer) in zip(point_of, steps):
        left = point.left[actor] if actor is not None else ()
        found.append((left[0][0] if op[0] == "ecall" and left else None, op, answer))
    return found


def about(case, asked):
    return f"{case.name}: line {asked.line}: {asked.text}" if asked else None


# ---- all orders


def take_verdict(case, told, point, asked, folder, reach):
    """The point of a condition in all orders, and what stands below it. Answers whether it holds."""
    name = about(case, asked) or f"{case.name}: no order ends stuck"
    fewest, is_some = case.verdicts.fewest(asked), asked is not None and asked.word == "some"
    empty = says_nothing(case, asked, fewest is not None and not is_some)
    if empty is not None:
        told.take(f"not ok {point} - {name}{empty}")
        return False
    holds = (fewest is None) != is_some
    told.take(f"{'' if holds else 'not '}ok {point} - {name}{said_of(holds, is_some, reach)}")
    if fewest is not None:
        told.take("  ---", f"  length: {fewest}", *([f"  limit: {fewest}"] if fewest > case.limit else []))
        label = f"{asked.line if asked else 0}.{'reached' if is_some else 'failed'}"
        record = case.take_record(told, folder, label, max(fewest, case.limit), is_whole=False)
        must_show(case, asked, record, fewest)
        if fewest:
            case.take_steps(told, record, fewest - 1)
        if (asked is None or asked.word == "end") and record.end == "stuck":
            case.take_stuck(told, record)
        told.take("  ...")
    return holds


def says_nothing(case, asked, fails):
    """What is said of a condition in all orders that says nothing of them."""
    if asked is not None and (why := judge.misfit(asked, case.numbers[0])):
        return f": {why}"
    if fails:
        return None
    if asked is None or asked.word == "end":
        return None if case.orders.ends or asked and asked.maybe else ": no order ends"
    return case.vacuous(asked, case.lined)


def must_show(case, asked, record, fewest):
    """A record of all orders breaks its condition by its last step, or by its end, or is the one that `some` wants."""
    if asks_of_all(asked):
        is_shown = record.point.key() in case.verdicts.keys_without_way_out(asked)
    elif asked is None or asked.word == "end":
        is_shown = record.end == "stuck" if asked is None else record.end is not None and record.end not in asked.ends
    else:
        is_shown = broken_at(asked, record.steps) == fewest - 1
    must(f"{case.name}: {asked}: the record is {record.lines}, {record.end}, of {fewest} steps", len(record.steps) == fewest and is_shown)


def never_met(asked):
    return f"# line {asked.line}: never met: no step has this actor and operation"


def is_each_met(asked, steps):
    """Whether each pattern has a step: that behind `after` with its reply."""
    return all(any(fits_so(it, step) for step in steps) for it in [(pattern, asked.word == "after" and place == 1) for place, pattern in enumerate(asked.patterns)])


def fits_so(wanted, step):
    pattern, with_reply = wanted
    return judge.matches(pattern, *step) if with_reply else judge.fits(pattern, *step[:2])


def take_findings(case, told):
    """What is told of all orders, up to the outcomes."""
    told.take(*(never_met(asked) for asked in case.asked if not is_each_met(asked, case.verdicts.steps) and says_nothing(case, asked, False) is None))
    ends = case.orders.ends
    names = [end for end in ("off", "quiet", "stuck") if end in ends]
    if case.orders.ways() is None:
        told.take(f"# orders: {'some' if names else 'all'} without end" + "".join(f", some {end}" for end in names))
    else:
        told.take(f"# orders: {sum(ends.values())}" + "".join(f", {end} {ends[end]}" for end in names))
    found = told.match(r"# states: (\d+), steps: (\d+)")
    case.states = int(found[1])
    # (both tell states apart by what replies can see, and each by a little more than that, which mostly is nothing)
    return case.states == len({key for key, _ in case.orders.places})


def take_outcomes(case, told, are_all):
    """Each outcome, with how many orders have it; and with how many states, where states are told apart as by the model."""
    if not any(op[0] in READING for _, op, _ in case.verdicts.steps):
        return
    wanted = case.orders.outcomes
    told.take(f"# outcomes: {len(wanted)}")
    states = Counter(case.orders.over.values())
    loads = sorted({load for given, _ in wanted for load, _ in given})
    found = {}
    for _ in wanted:
        line = told.match(r"#  ((?: \d+:\d+=\S+)+) (off|quiet|stuck): (\d+) states(?:, (\d+) orders)?")
        given = [re.fullmatch(r"(\d+):(\d+)=(\S+)", it).groups() for it in line[1].split()]
        key = tuple(sorted(((int(hart), int(at)), given_by(it)) for hart, at, it in given if it != "-")), line[2]
        found[key] = int(line[4]) if line[4] else None
        if not set(loads) <= {(int(hart), int(at)) for hart, at, _ in given} or int(line[3]) < 1 or are_all and int(line[3]) != states[key]:
            raise AssertionError(f"{case.name}: {line[0]!r}, and counted are {states[key]} states of the loads {loads}")
    must(f"{case.name}: told are the outcomes {found}, and counted {wanted}", found == wanted)


def given_by(word):
    return ("fault", int(word.removeprefix("fault-"))) if word.startswith("fault-") else ("value", int(word, 16))


def take_explored(case, told, point, folder, with_outcomes):
    """All that `explore` tells of a program, or `test` of one of few states. Answers how many points fail of how many."""
    asked = case.asked or [None]
    counted = case.orders.ways() is not None
    reach = None if with_outcomes else "all orders" + (f": {grouped(sum(case.orders.ends.values()))}" if counted else "")
    failed = sum(not take_verdict(case, told, point + at, it, folder, reach) for at, it in enumerate(asked))
    are_all = take_findings(case, told)
    if with_outcomes:
        take_outcomes(case, told, are_all)
    steps = [step for steps in case.orders.edges for step in steps]
    points = [case.orders.points[place] for place, steps in enumerate(case.orders.edges) for _ in steps]
    told.take(*case.odd_lines(lines_of_steps(points, [step[:3] for step in steps])), *case.stale_lines())
    return len(asked), failed, are_all


# ---- orders of a seed


class Order:
    """The record of an order: its steps, how it ends, its lines, and of each step the line of its operation."""

    def __init__(self, case, text):
        self.record = case.followed(text, case.limit)
        program, point, points = case.program, case.program.start(), []
        for actor, op, answer in self.record.steps:
            points.append(point)
            point = next(after for *step, after in program.steps_of(point, actor) if step == [actor, op, answer])
        self.odd = lines_of_steps(points, self.record.steps)
        self.lined = {case.lined_step(point, step) for point, step in zip(points, self.record.steps)}

    def holds(self, asked):
        return self.record.end != "stuck" if asked is None else judge.holds(asked, self.record.steps, self.record.end)


def failing_place(asked, record):
    """The place that is told of a record that fails."""
    if asked is None or asked.word == "end":
        return len(record.steps) - 1
    if asked.word == "before":
        # (the first step of the second pattern, which stands before any of the first)
        return next(place for place, step in enumerate(record.steps) if judge.matches(asked.patterns[1], *step))
    return broken_at(asked, record.steps)


def take_tried(case, told, point, folder, seed, orders):
    """All that `test` tells of a program by orders of a seed, whose records are these. Answers how many points fail of how many; no
    order tells of `can end`."""
    failed, asked = 0, case.asked or [None]
    lined = set().union(*(order.lined for order in orders))
    ends = [order.record.end for order in orders]
    for at, it in enumerate(asked):
        failing = [number for number, order in enumerate(orders) if not order.holds(it)]
        is_some = it is not None and it.word == "some"
        holds = len(failing) < len(orders) if is_some else not failing
        name = about(case, it) or f"{case.name}: no order ends stuck"
        if asks_of_all(it):
            told.take(f"not ok {point + at} - {name}{ASKS_OF_ALL}")
            continue
        empty = says_nothing_of_tried(case, it, holds, lined, ends, f" in the {len(orders):,} orders tried")
        failed += not holds or empty is not None
        reach = f"{len(orders):,} orders of unknown many, seed {seed}{cut_of(it, ends)}"
        told.take(f"{'' if holds and empty is None else 'not '}ok {point + at} - {name}{said_of(holds, is_some, reach) if empty is None else empty}")
        if not holds and empty is None:
            told.take("  ---", f"  seed: {seed}", f"  failing: {len(failing)}", f"  orders: {len(orders)}")
            if not is_some:
                take_first(case, told, folder, seed, it, failing[0], orders[failing[0]].record)
            told.take("  ...")
        if it is not None and not is_each_met(it, [step for _, step in lined]) and (empty is None or "vacuous" not in empty and "no order ends" in empty):
            told.take(never_met(it))
    told.take(*case.odd_lines([step for order in orders for step in order.odd]))
    return len(asked), failed


# What is said of a condition of which some orders don't tell.
ASKS_OF_ALL = ": not judged: it asks of all orders"


def asks_of_all(asked):
    return asked is not None and asked.word == "can"


def asks_of_ends(asked):
    return asked is None or asked.word == "end" and "history-full" not in asked.ends


def cut_of(asked, ends):
    """How many orders a limit cut off is told of those that are asked how they end."""
    cut = ends.count("history-full") if asks_of_ends(asked) else 0
    return f", of which the limit cut off {cut:,}" if cut else ""


def says_nothing_of_tried(case, asked, holds, lined, ends, tried):
    """What is said of a condition that says nothing of the orders that were tried."""
    if asked is not None and (why := judge.misfit(asked, case.numbers[0])):
        return f": {why}"
    if holds and asks_of_ends(asked):
        is_open = set(ends) == {"history-full"} and not (asked and asked.maybe)
        return f": no order ends: the limit cut off all {len(ends):,}" if is_open else None
    return case.vacuous(asked, lined, tried) if holds or asked is not None and asked.word == "some" else None


def take_first(case, told, folder, seed, asked, number, wanted):
    """The record of the first order that fails."""
    told.take(f"  order: {number}")
    record = case.take_record(told, folder, f"{seed}-{number}.failed", case.limit)
    must(f"{case.name}: order {number} of seed {seed} is {record.lines}, and alone {wanted.lines}", record.lines == wanted.lines)
    case.take_steps(told, record, failing_place(asked, record))
    if record.end == "stuck":
        case.take_stuck(told, record)


def take_runs(case, told, point, folder, runs):
    """What is told of runs on threads. Answers how many points fail of how many."""
    failed, asked = 0, case.asked or [None]
    for at, it in enumerate(asked):
        if asks_of_all(it):
            told.take(f"not ok {point + at} - {about(case, it)}{ASKS_OF_ALL}")
            continue
        name, is_some = re.escape(about(case, it) or f"{case.name}: no order ends stuck"), it is not None and it.word == "some"
        judged = r"(holds|fails) in (some of )?" + f"{runs:,} runs on threads" + r"(?:, of which the limit cut off [\d,]+)?"
        found = told.match(rf"(not )?ok {point + at} - {name}: (?:{judged}|(vacuous: no step is '.*' in the {runs:,} runs.*|no order ends: the limit cut off all {runs:,}|the board has no hart \d+|no [\w.]+(?:'s [\w.]+)? has .*|no [\w.]+ is .*))")
        if found[4]:
            failed += 1
            must(f"{found[0]}", found[1] and must_be_empty(case, it, found[4]))
            continue
        must(f"{found[0]}", (found[2] == "fails") == bool(found[1]) and (found[2] == "holds") == (is_some == bool(found[3])))
        if not found[1]:
            continue
        failed += 1
        told.take("  ---")
        failing = int(told.match(r"  failing: (\d+)")[1])
        told.take(f"  runs: {runs}")
        if it is not None and it.word == "some":
            must(f"{case.name}: {failing} of {runs} fail", failing == runs)
        else:
            take_run(case, told, folder, it, failing, runs)
        told.take("  ...")
    return len(asked), failed


def must_be_empty(case, asked, said):
    """Whether a condition may say nothing of runs, for this reason: runs may lack what some order has."""
    why = judge.misfit(asked, case.numbers[0]) if asked is not None else None
    if why or not said.startswith(("vacuous", "no order ends")):
        return said == why
    return asks_of_ends(asked) if said.startswith("no order ends") else not asked.maybe and bool(judge.needs(asked))


def take_run(case, told, folder, asked, failing, runs):
    number = int(told.match(r"  run: (\d+)")[1])
    record = case.take_record(told, folder, f"threads-{number}.failed", case.limit)
    fails = record.end == "stuck" if asked is None else not judge.holds(asked, record.steps, record.end)
    must(f"{case.name}: {asked}: run {number} is the first of {failing} that fail of {runs}: {record.lines}, {record.end}", fails and 1 <= failing <= runs - number)
    case.take_steps(told, record, failing_place(asked, record))
    if record.end == "stuck":
        case.take_stuck(told, record)
