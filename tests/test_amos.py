"""Operations that read and write a part of a word in one step: each function at the edges of its numbers, the examples about them,
and counts that many threads keep."""
import itertools
import os
import random
import re

from board_model import CHANGES, STORES

from . import all_orders, judge, replays
from .fixtures import EXAMPLES, PROGRAM, TESTER, Test, explored, many_runs, must, must_be, must_run, ran, read, script, write
from .random_programs import EDGES
from .test_empty_verdicts import in_way
from .test_explore import outcomes_told

# How many random pairs of words each operation has.
RANDOM = 40
# Of each example which of its conditions hold in all orders, and how many orders, states and steps it has.
SHOWN = {
    "spin-lock.program": ("11111", 120, 41, 60), "lost-update.program": ("011", 4, 18, 19), "atomic-count.program": ("1111", 4, 13, 15),
    "hart-mask.program": ("11111", 40, 31, 48),
}  # fmt: skip
# An example with other lines in place of those that match, and which conditions hold then.
CHANGED = (
    # (the update is mended)
    ("lost-update.program", {"load .*# the count: 0": [], "store": ["amoadd 0x80002000 0x1"]}, "111"),
    # (the lock is given back before the work is done, or by the hart that doesn't have it)
    ("spin-lock.program", {"store 0x80002008": ["amoswap 0x80002000 0x0", "store 0x80002008 0x11"], "amoswap 0x80002000 0x0": []}, "01111"),
    ("spin-lock.program", {"load 0x80002008": ["amoswap 0x80002000 0x0", "load 0x80002008"]}, "00111"),
    # (a store, and a swap, lose the bits of others)
    ("hart-mask.program", {"amoor 0x80002000 0x2": ["load 0x80002000", "store 0x80002000 0x2"]}, "01011"),
    ("hart-mask.program", {"amoor 0x80002000 0x4": ["amoswap 0x80002000 0x4"]}, "01101"),
    # (4 bytes count as well, but another word isn't the one that is loaded)
    ("atomic-count.program", {"amoadd": ["amoadd.w 0x80002000 0x1"]}, "1001"),
    ("atomic-count.program", {"amoadd": ["amoadd 0x80002008 0x1"]}, "0001"),
)  # fmt: skip

# Two harts that each try once to take a lock.
TRIES = """\
board 2 4 100 0 0x80000000 0x0
at 0x80000000
ecall 0x48534d 0 1 0x80001000
{0}
at 0x80001000
{0}
"""


def example(name):
    return read(os.path.join(EXAMPLES, "orders", name))


def changed(text, lines):
    """The text with other lines in place of each whose beginning matches."""
    found = []
    for line in text.splitlines():
        pattern = next((it for it in lines if re.match(it, line)), None)
        found += [line] if pattern is None else lines[pattern]
    return "".join(line + "\n" for line in found)


def held(lines):
    return "".join("01"[line.startswith("ok ")] for line in lines if line.startswith(("ok ", "not ok ")))


def by_the_judge(text):
    """The same by the model."""
    orders = all_orders.Orders(text)
    verdicts, harts = judge.Verdicts(orders), len(orders.points[0].board.harts)
    asked = judge.conditions(text)
    is_good = lambda it: judge.misfit(it, harts) is None and ((verdicts.fewest(it) is None) != (it.word == "some"))
    says = lambda it: verdicts.fewest(it) is not None and it.word != "some" or judge.lacking(it, verdicts.steps) is None
    return "".join("01"[is_good(it) and says(it)] for it in asked)


def pairs():
    """Old words and operands: each two of `EDGES`, and random ones."""
    some = random.Random(1)
    return [*itertools.product(EDGES, EDGES), *((some.getrandbits(64), some.getrandbits(64)) for _ in range(RANDOM))]


def on_pairs():
    """For each operation, at each place of a word that it can have, each pair: a store of the old word, the operation, and a load. A
    compare-and-swap is done with what is there, and with what mostly isn't."""
    for name, (size, _) in CHANGES.items():
        for at, (old, operand) in itertools.product(range(0, 8, size), pairs()):
            for numbers in ([old, operand], [operand, old]) if name == "amocas" else ([operand],):
                yield f"0 store 0x80000100 {old:#x}"
                yield f"0 {name} {0x80000100 + at:#x} {' '.join(map(hex, numbers))}"
                yield "0 load 0x80000100"


def counting(harts, times):
    """Each hart starts the next one, and counts so often in a word and in a half of another one, and sets its bit and its byte."""
    blocks, words = [], 0x80001000
    for hart in range(harts):
        starts = [f"ecall 0x48534d 0 {hart + 1} {0x80000002 + 2 * hart:#x}"] * (hart + 1 < harts)
        counts = [f"amoadd {words:#x} 1", f"amoadd.w {words + 12:#x} 1"] * times
        blocks += [f"at {0x80000000 + 2 * hart:#x}", *starts, *counts, f"amoor {words + 16:#x} {1 << hart:#x}", f"store1 {words + 24 + hart:#x} {hart + 1}"]
    return "\n".join([f"board {harts} 2 100000 0 0x80000000 0x0", *blocks]) + "\n"


def must_count(room, path, place, harts, times):
    """In the record of a run each count is read once, in order; the bits and bytes of all harts are there at the end."""
    lines = must_run(room, path, "quiet", place).decode().splitlines()
    answers = lambda name: [int(it.rpartition(" ")[2], 16) for it in lines if it.split()[1:2] == [name]]
    for name in ("amoadd", "amoadd.w"):
        must(f"{name} read {answers(name)}", answers(name) == list(range(harts * times)))
    bits = answers("amoor")
    must(f"amoor read {bits}", len(bits) == harts and all(it < other and it & other == it for it, other in itertools.pairwise([*bits, (1 << harts) - 1])))
    steps = [it.partition(" -> ")[0] for it in lines if not it.startswith("#")]
    text = "\n".join([*steps, "0 load 0x80001018", "0 load 0x80001008"]) + "\n"
    found = ran(["replay", write(os.path.join(room, f"{place}.sched"), text)]).stdout.decode().splitlines()
    *_, last, count = [it for it in found if " -> " in it]
    wanted = sum(hart + 1 << 8 * hart for hart in range(harts))
    must(f"{last}, {count}", last.endswith(f" -> value {wanted:#x}") and count.endswith(f" -> value {harts * times << 32:#x}"))


class Amos(Test):
    programs = (PROGRAM, TESTER)

    def test_amos_at_the_edges_of_their_numbers(self):
        """Each function on 8 bytes and on each half, each compare-and-swap, and each store of a part, at the edges of signs and carries, and at random."""
        steps = [*on_pairs()]
        text = "\n".join(["board 1 1 100000 0 0x80000000 0x0", "0 advance", *steps]) + "\n"
        wanted = replays.printed(text)
        found = ran(["replay", script(self.room, text.encode())])
        for one, other in zip(found.stdout.decode().splitlines(), wanted):
            must(f"{one!r}, not {other!r}", one == other)
        must_be(found, 0, "".join(it + "\n" for it in wanted).encode(), b"")
        # (18 functions at 27 places, two ways to compare, and stores at 14 places)
        must(f"{len(steps)} steps", len(steps) == 3 * (len(EDGES) ** 2 + RANDOM) * (27 + 2 + 14))

    def test_what_the_examples_of_amos_show(self):
        """Of each example each condition holds in all orders, or fails, as its comments say, and there are as many orders; so it is by the judge."""
        for name, (wanted, orders, states, steps) in SHOWN.items():
            status, lines = explored(self.room, example(name))
            must(f"{name}: {lines}", held(lines) == wanted == by_the_judge(example(name)) and status == ("0" in wanted))
            must(f"{name}: {lines}", f"# orders: {orders}, quiet {orders}" in lines and f"# states: {states}, steps: {steps}" in lines)

    def test_what_other_forms_of_the_examples_show(self):
        """The same examples mended, or with an error in place of what they show."""
        for name, lines, wanted in CHANGED:
            text = changed(example(name), lines)
            must(f"{name} is the same", text != example(name))
            _, told = explored(self.room, text)
            must(f"{name} with {lines}: {held(told)}, by the judge {by_the_judge(text)}", held(told) == wanted == by_the_judge(text))

    def test_a_lock_is_taken_once(self):
        """Two harts try at once, by each operation that can take a lock: never both have it, and each may. By a load and a store both may."""
        for operation, free in (("amoswap 0x80002000 1", 0), ("amoor.w 0x80002000 1", 0), ("amocas 0x80002000 0 1", 0), ("amomaxu 0x80002000 1", 0), ("amoadd 0x80002000 1", 0), ("amoswap.w 0x80002004 7", 0)):
            name = operation.split()[0]
            asked = [f"never {a} {name} -> value {free} after {b} {name} -> value {free}" for a, b in ((0, 1), (1, 0))] + [f"some {hart} {name} -> value {free}" for hart in (0, 1)]
            _, lines = explored(self.room, "".join(f"#! {it}\n" for it in asked) + TRIES.format(operation))
            must(f"{operation}: {lines}", held(lines) == "1111")
        asked = ["never 1 load -> value 0 after 0 load -> value 0", "some 1 load -> value 1"]
        _, lines = explored(self.room, "".join(f"#! {it}\n" for it in asked) + TRIES.format("load 0x80002000\nstore 0x80002000 1"))
        must(f"{lines}", held(lines) == "01")

    def test_outcomes_have_what_amos_read(self):
        """An outcome has what each AMO gave last, or its fault, beside loads; a store of a part gives nothing."""
        _, lines = explored(self.room, TRIES.format("amoswap 0x80002000 1"))
        told = {tuple(answer for _, answer in given) for given, _ in outcomes_told(lines)}
        must(f"{lines}", told == {(("value", 0), ("value", 1)), (("value", 1), ("value", 0))} and "# outcomes: 2" in lines)
        for operation, wanted in (("amocas 0x80000000 0 1", "0x0"), ("amoadd.w 0x80000004 1", "0x0"), ("amoadd 0x80000004 1", "fault-6"), ("amoor 0x1000 1", "fault-7")):
            _, lines = explored(self.room, f"board 1 1 9 0 0x80000000 0\nat 0x80000000\n{operation}\n")
            must(f"{operation}: {lines}", f"#   0:3={wanted} quiet: 1 states, 1 orders" in lines)
        for name, size in STORES.items():
            for operation in (f"{name} 0x80000000 1", f"{name} 0x1000 1", f"{name} {0x80000000 + size // 2:#x} 1"):
                _, lines = explored(self.room, f"board 1 1 9 0 0x80000000 0\nat 0x80000000\n{operation}\n")
                must(f"{operation}: {lines}", not any("outcome" in it or it.startswith("#   ") for it in lines))

    def test_a_missing_amo_is_told_by_what_is_there(self):
        """A condition about an AMO, or a store of a part, that no order has tells with which numbers the hart does it."""
        for operation, does in (("amoadd 0x80002000 0x1", "changes"), ("amocas 0x80002000 0x0 0x1", "changes"), ("amomin.w 0x80002004 0x1", "changes"), ("store2 0x80002002 0x1", "stores")):
            name, *numbers = operation.split()
            for way in (("sbiboard", ()), ("sbiboard explore", ())):
                _, found, lines = in_way(self.room, way, f"#! never 0 {name} 0x80003000 -> fault 7\n{TRIES.format(operation)}")
                must(f"{operation}: {lines}", found == [f"not ok line 1: never 0 {name} 0x80003000 -> fault 7: vacuous: no step is '0 {name} 0x80003000'; hart 0 {does} {' '.join(numbers)} (line 5)"])

    def test_runs_of_counts(self):
        """On threads no count is lost, nor a bit or a byte."""
        path = write(os.path.join(self.room, "counts.program"), counting(6, 5))
        many_runs(self.room, "counts", lambda place: must_count(self.room, path, place, 6, 5))
