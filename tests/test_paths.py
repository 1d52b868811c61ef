"""Records of the examples beside all orders: what threads did, and what a seed picked, is a path through the states of the model
of the tools, and ends as `sbiboard explore` says that orders end. The program prints no states; those of the model have as many
orders, ends and outcomes as it tells."""
import os
import re
from collections import Counter

from . import all_orders
from .fixtures import ENDS_OF_RUNS, HANG, PROGRAM, TESTER, Test, example_programs, explored, many_runs, must, must_be, ran, read, tester, write
from .replays import spelled
from .test_explore import ends_told, must_tell, outcomes_told

# A condition that no record meets, so that `test` keeps the record of an order: the boot hart's first step breaks it.
KEEPS = "#! never _ advance\n"


class Paths:
    """A program's states by the model, each with its steps by the lines that a record has for them; and what `explore` tells."""

    def __init__(self, room, path):
        self.text = read(path)
        orders = all_orders.Orders(self.text, loads=True)
        self.over = orders.over
        self.steps = [{spelled(*step): to for *step, to in edges} for edges in orders.edges]
        self.limit = next(int(it.split()[3]) for it in self.text.splitlines() if it.startswith("board "))
        _, lines = explored(room, self.text)
        self.ends, self.outcomes = ends_told(lines), outcomes_told(lines)
        must_tell(path, lines, orders)
        # The records that were looked at, with how they end.
        self.seen = set()

    def place_of(self, record):
        """The state that a record's steps lead to."""
        place = 0
        for line in record:
            must(f"{line!r} is no step of the state before it, {sorted(self.steps[place])}: {record}", line in self.steps[place])
            place = self.steps[place][line]
        return place

    def must_lead_to(self, record, end):
        """A record's steps are a path from the first state on, and behind it is this end, one of those that `explore` tells."""
        place = self.place_of(record)
        if end == "history-full":
            must(f"{len(record)} steps, of at most {self.limit}, end {end}, and then these go on: {sorted(self.steps[place])}", len(record) == self.limit and self.steps[place])
            return
        must(f"a record ends {end} where these go on, {sorted(self.steps[place])}: {record}", place in self.over)
        given, wanted = self.over[place]
        must(f"a record ends {end}, not {wanted}: {record}", end == wanted)
        must(f"no order ends {end} with these loads, {given}: {record}", end in self.ends and not (self.outcomes and (given, end) not in self.outcomes))

    def see(self, record, end):
        # (the same records are the same paths)
        if (record, end) not in self.seen:
            self.must_lead_to(record, end)
            self.seen.add((record, end))


def events_of(lines):
    return tuple(it for it in lines if " -> " in it)


def of_runs(paths, path):
    """The record of a run on threads, and how it ends."""
    found = ran(["run", path], timeout=HANG)
    lines = found.stdout.decode().splitlines()
    end = lines[-1].removeprefix("# end ") if lines else ""
    status, said = ENDS_OF_RUNS.get(end, (0, b""))
    must_be(found, status, None, said)
    return events_of(lines), end


def of_order(room, order):
    """The record of this order of the kept program, and how it ends."""
    found = tester(room, "--order", str(order), "--failed", room, "kept.program")
    ends = re.search(r"^# ends: (.*)$", found.stdout, re.MULTILINE)
    must(f"order {order}: {found}", found.returncode == 1 and not found.stderr and ends)
    path = os.path.join(room, f"kept.program.0-{order}.failed")
    record = events_of(read(path).splitlines())
    os.remove(path)
    return record, re.search(r"\b1 (\S+?)(?:,|$)", ends[1])[1]


def must_be_all(room, path, paths, ends):
    """The records that were seen, which end so, are those that `test` counts, and no more than there are orders."""
    told = tester(room, "--times", str(len(ends)), "--failed", room, "kept.program", timeout=10 * HANG).stdout.splitlines()
    counted, records = Counter(ends), len(paths.seen)
    wanted = [
        f"# 1 files, {len(ends)} orders, {records} different records",
        "# ends: " + ", ".join(f"{counted[end]} {end}" for end in ("off", "history-full", "quiet", "stuck")),
    ]  # fmt: skip
    must(f"{path}: told are {told[-2:]}, and found {wanted}", told[-2:] == wanted)
    # (some programs have orders without end, which aren't counted)
    must(f"{path}: {records} different records, of {paths.ends} orders", not (paths.ends and None not in paths.ends.values() and records > sum(paths.ends.values())))


class RecordsAsPaths(Test):
    programs = (PROGRAM, TESTER)

    def test_runs_of_the_examples_are_paths_of_all_orders(self):
        """Each record of threads."""
        for path in example_programs():
            paths = Paths(self.room, path)
            many_runs(self.room, path, lambda _, paths=paths, path=path: paths.see(*of_runs(paths, path)))

    def test_orders_of_the_examples_are_paths_of_all_orders(self):
        """Each record of an order from a seed."""
        for path in example_programs():
            paths, ends = Paths(self.room, path), []
            write(os.path.join(self.room, "kept.program"), paths.text.replace("#!", "# ") + KEEPS)

            def one(order, paths=paths, ends=ends):
                record, end = of_order(self.room, order)
                paths.see(record, end)
                ends.append(end)

            many_runs(self.room, path, one)
            must_be_all(self.room, path, paths, ends)
