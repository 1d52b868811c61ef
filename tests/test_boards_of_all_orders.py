"""Each number of the board's line counts in all orders, and in orders of a seed: programs that show it, beside the model."""
import os
import random
import re

from . import all_orders, replays
from .fixtures import PROGRAM, TESTER, Test, explored, must, named, told, told_of, write
from .judge import Verdicts, condition
from .test_modes import SPACES, schedules

# A page table that is its own lower ones maps page 0x1000 to the RAM's first page and then to its second one, whose word is 0,
# with another address space that is the same one where few bits are kept.
REMAPPED = """\
at 0x80000000
store 0x80000000 0x20000001
store 0x80000008 0x200000cf
satp 0x8000100000080000
load 0x1000
satp 0
store 0x80000008 0x200004cf
satp 0x8001100000080000
load 0x1000
"""
# The same table, by Sv48.
WIDE = REMAPPED.replace("satp 0x8", "satp 0x9")
STARTS = "".join(f"ecall 0x48534d 0 {hart} 0x80000010 {hart}\n" for hart in range(1, 6))
STARTED = f"at 0x80000000\n{STARTS}at 0x80000010\nsip\n"

# The board, the blocks, and what is asked.
ROWS = (
    ("2 1 9 1 0x80000000 0", "at 0x80000000\nsip\n", ("some 1 sip", "never 0", "some 1 advance -> entry 0x80000000 1 0x0", "never 0 sip")),
    ("6 1 9 5 0x80000000 0", "at 0x80000000\nsip\n", ("some 5 sip", "never 0")),
    *((f"{harts} 1 99 0 0x80000000 0", STARTED, tuple(it for hart in range(1, 6) for it in (f"some {hart} sip", f"never 0 ecall _ 0 {hart} -> ret -3"))) for harts in range(1, 7)),
    *((f"1 {pages} 9 0 0x80000000 0", f"at 0x80000000\nload {0x80000000 + 4096 * page:#x}\n", ("some 0 load -> value 0", "never 0 load -> fault 5"))
      for pages, page in ((1, 0), (1, 1), (2, 1), (8, 7), (8, 8), (9, 8), (12, 11), (16, 15), (16, 16), (255, 254), (256, 255), (256, 256))),
    *((f"1 2 99 0 0x80000000 0 {bits} 39", REMAPPED, ("some 0 load -> value 0x20000001", "each 0 load -> value 0x20000001", "some 0 load -> value 0")) for bits in (0, 4, 5, 8, 9, 15, 16)),
    *((f"1 2 99 0 0x80000000 0 16 {width}", blocks, ("each 0 load -> value 0x20000001", "some 0 load -> fault 5", "some 0 load -> value 0")) for width in (39, 48) for blocks in (REMAPPED, WIDE)),
    *((f"1 1 9 0 0x80000000 {opaque}", "at 0x80000000\n", tuple(f"some 0 advance -> entry _ 0 {it}" for it in (0, 5, 1 << 32, (1 << 64) - 1))) for opaque in (0, 5, 1 << 32, (1 << 64) - 1)),
    *((f"1 2 9 0 {addr:#x} 0", "at 0x80000000\nsip\nat 0x80001ffe\nfencei\n", ("some 0 sip", "some 0 fencei", "some 0 advance -> entry 0x80001ffe")) for addr in (0x80000000, 0x80001FFE, 0x80000002)),
    *((f"1 1 {limit} 0 0x80000000 0", "at 0x80000000\nsip\nfencei\n", ("some 0 fencei", "end quiet")) for limit in (1, 2, 3, 1_000_000)),
)  # fmt: skip


def asking(board, blocks, asked):
    """The program's text with its conditions, and whether each holds in all orders, by the model."""
    text = "".join(f"#! {it}\n" for it in asked) + f"board {board}\n{blocks}"
    verdicts = Verdicts(all_orders.Orders(text))
    return text, [(verdicts.fewest(condition(1, it)) is None) != it.startswith("some") for it in asked]


def held(lines):
    """Whether each point holds that is told."""
    return [line.startswith("ok ") for line in lines if line.startswith(("ok ", "not ok "))]


class BoardsOfAllOrders(Test):
    programs = (PROGRAM, TESTER)

    @named("boards of all orders are the scripts'")
    def test_boards_of_all_orders_are_the_scripts(self):
        """Of each number of the board's line, and of its bounds, all orders are those of the script's board, but that no limit cuts them off."""
        wrong = []
        for board, blocks, asked in ROWS:
            text, wanted = asking(board, blocks, asked)
            for name, (_, lines) in (("explore", explored(self.room, text)), ("test", told(self.room, text))):
                if held(lines) != wanted:
                    wrong.append((name, board, blocks.split("\n")[1], asked, held(lines), wanted))
        must(f"{len(wrong)} of {len(ROWS)} boards are others: {wrong[:9]}", not wrong)

    @named("boards of a seed are the scripts'")
    def test_boards_of_a_seed_are_the_scripts(self):
        """So is the board of orders of a seed, with its limit."""
        wrong = []
        for board, blocks, asked in ROWS:
            if len(all_orders.Orders(f"board {board}\n{blocks}").over) > 1 or int(board.split()[2]) < 9:
                continue
            text, wanted = asking(board, blocks, asked)
            for words, points in ((["--times", "300"], wanted), (["--times", "2", "--threads"], wanted * 2)):
                _, lines = told(self.room, text, *words)
                if held(lines) != points:
                    wrong.append((words, board, blocks.split("\n")[1], asked, held(lines), points))
        must(f"{wrong[:9]}", not wrong)

    @named("boards of schedules and traces are the scripts'")
    def test_boards_of_schedules_and_traces_are_the_scripts(self):
        """So is the board of a schedule and of a trace: of the worked rows on boards of all kinds each answer agrees, and a line that is changed is the one that differs."""
        some, texts = random.Random(6), []
        for _, board, steps in some.sample(schedules(), 120):
            texts.append(replays.traced("\n".join([f"{board} {some.choice(SPACES)}" if some.random() < 0.8 else board, *steps]) + "\n"))
        names = [write(os.path.join(self.room, f"{at}.trace"), text) for at, text in enumerate(texts)]
        status, lines = told_of(self.room, *names)
        points = [it for it in lines if it.startswith(("ok ", "not ok "))]
        must(f"{points}", status == 0 and len(points) == len(names) and all(it.startswith("ok ") for it in points))
        wanted = []
        for name, text in zip(names, texts):
            head, *steps = text.splitlines()
            # (no board has such an answer)
            at = some.randrange(len(steps))
            got, steps[at] = steps[at], steps[at].partition(" -> ")[0] + " -> moved 9"
            write(name, "\n".join([head, *steps]) + "\n")
            wanted.append((at + 2, got))
        status, lines = told_of(self.room, *names)
        found = [(int(line), got) for line, got in re.findall(r'(?m)^    - line: (\d+)\n      wanted: ".* -> moved 9"\n      got: "(.*)"$', "\n".join(lines))]
        must(f"{found}, and not {wanted}", status == 1 and found == wanted and lines.count("  differing: 1") == len(names))
