"""Programs in assembly, judged by `test`: by all orders if their states are few, otherwise by seeded ones."""
import glob
import os
import re
import subprocess

from .fixtures import EXAMPLES, TESTER, Test, at_once, must, read, told_of, write
from .random_programs import Maker
from .test_assembly import EXPLORER, GUESTS, HEAD, LOADS, explored, points
from .test_assembly_blocks import ASKED, NO_FAULT, OF_MARKS, blocks_of, in_assembly

# What `test` judges of seeded orders that `explore` doesn't judge.
OF_RECORDS = ("firm", "lenient", "never missed", "never _ load -> unfirm", "some _ load -> missed", "never _ store -> unlenient")
# The details of a point that fails by orders of a seed, which count them, and name the first.
COUNTS = ("  seed: ", "  failing: ", "  orders: ", "  order: ", "  place: ")
SEEDS, TIMES = 60, 40


def tested(room, *words):
    """What the program prints as `test`, and its status."""
    found = subprocess.run(["sbiboard test", *words], executable=EXPLORER, cwd=room, capture_output=True, text=True, timeout=300)
    must(f"{words}: {found.stderr}", not found.stderr)
    return found.stdout.splitlines(), found.returncode


def by_test_of(room, text, *words):
    write(os.path.join(room, "a.s"), text)
    return tested(room, *words, "a.s")




def bare(text):
    """A record without its notes."""
    return [it.partition("    # ")[0] for it in text.splitlines()]


def is_alike(room, name, lines, conditions):
    """Blocks and assembly have the same points by seeded orders, with the same counts, and the same records of the first that fail."""
    found = blocks_of(lines)
    if found is None:
        return False
    board, blocks, ticks = found
    conditions = [*conditions, *ASKED, *OF_MARKS, *OF_RECORDS, *NO_FAULT]
    write(os.path.join(room, f"{name}.program"), "".join(f"#! {it}\n" for it in conditions) + "\n".join(lines) + "\n")
    write(os.path.join(room, f"{name}.s"), in_assembly(board, blocks, ticks, conditions))
    words = ("--times", str(TIMES), "--seed", "3")
    _, said = told_of(room, *words, f"{name}.program")
    other, _ = tested(room, *words, f"{name}.s")
    kept = [[it for it in of if it.startswith(("ok ", "not ok ", *COUNTS))] for of in (said, other)]
    kept = [[re.sub(rf"{re.escape(name)}\.(program|s)|; .*", "FILE", it) for it in of] for of in kept]
    must(f"{name}: {[pair for pair in zip(*kept) if pair[0] != pair[1]]}, {len(kept[0])}, {len(kept[1])}", kept[0] == kept[1])
    for path in glob.glob(os.path.join(room, f"{name}.s.3-*.failed")):
        same = path.replace(".s.3-", ".program.3-")
        must(path, [it for it in bare(read(path)) if it != "# end stuck"] == [it for it in bare(read(same)) if not it.startswith("# end")])
    return True


class AssemblyTried(Test):
    programs = (EXPLORER, TESTER)

    def test_few_states_of_guests(self):
        """The points are those of all orders, as `explore` tells them."""
        for path in sorted(glob.glob(os.path.join(GUESTS, "*.s"))):
            (by_test, status), (by_explore, same) = tested(self.room, path), explored(self.room, path)
            must(f"{path}: {by_test}, {by_explore}", status == same and by_test == by_explore)

    def test_many_states_of_guests(self):
        """Beyond 20,000 states, and with `--times` or `--seed`, orders of the seed are tried; each point says how many."""
        many = HEAD.replace("        ecall\n", "        ecall\n        li      t0, 0\n1:      addi    t0, t0, 1\n        fence.i\n        li      t1, 300\n        bltu    t0, t1, 1b\n        ebreak\n", 1) + "other:  li      t0, 0\n1:      addi    t0, t0, 1\n        fence.i\n        li      t1, 300\n        bltu    t0, t1, 1b\n        ebreak\n"
        many = many.replace("2, 4, 200,", "2, 4, 2000,")
        lines, status = by_test_of(self.room, f"#! end quiet\n#! never 1 fencei\n#! can end quiet\n{many}")
        must(f"{status}, {lines}", status == 1 and points(lines)[0] == "ok 1 - a.s: line 1: end quiet: holds in 1,000 orders of unknown many, seed 0")
        must(f"{lines}", points(lines)[1] == "not ok 2 - a.s: line 2: never 1 fencei: fails in some of 1,000 orders of unknown many, seed 0" and points(lines)[2] == "not ok 3 - a.s: line 3: can end quiet: not judged: it asks of all orders")
        for words, said in ((("--times", "7"), "7 orders of unknown many, seed 0"), (("--seed", "5", "--times", "9"), "9 orders of unknown many, seed 5"), (("--seed", "0"), "1,000 orders of unknown many, seed 0")):
            lines, status = by_test_of(self.room, f"#! end quiet\n{LOADS}", *words)
            must(f"{words}: {status}, {lines}", status == 0 and points(lines) == [f"ok 1 - a.s: line 1: end quiet: holds in {said}"])
        lines, status = by_test_of(self.room, f"#! end quiet\n{LOADS}", "--times", "0")
        must(f"{status}, {lines}", status == 8 and points(lines) == ["not ok 1 - a.s: line 1: end quiet: not judged: no order tried"])

    def test_marks_of_seeded_orders(self):
        """What all orders don't tell, the records of seeded ones do, with its cause."""
        text = read(os.path.join(GUESTS, "lazy-tlb.s")).replace("#! ", "# ")
        # (no fence call leaves a hart out: there is none where hart 0 finds no user)
        for asked, holds in (("never missed", True), ("firm", False), ("lenient", False), ("maybe never 0 load -> unfirm", True)):
            lines, status = by_test_of(self.room, f"#! {asked}\n{text}", "--times", "400")
            must(f"{asked}: {status}, {lines}", status == (0 if holds else 1) and points(lines)[0].startswith("ok " if holds else "not ok "))
            must(f"{asked}: {lines}", holds or any(it.strip().startswith("cause:") for it in lines))

    def test_blocks_in_assembly_by_seeds(self):
        paths = [it for folder in ("orders", "tlb") for it in sorted(glob.glob(os.path.join(EXAMPLES, folder, "*.program")))]

        def is_tried(path):
            lines = read(path).splitlines()
            conditions = [it[2:].partition("#")[0].strip() for it in lines if it.startswith("#!")]
            name = os.path.basename(path).removesuffix(".program").replace(".", "-")
            return is_alike(self.room, name, [it for it in lines if not it.startswith("#")], conditions)

        tried = at_once(is_tried, paths)
        must(f"{sum(tried)} of {len(paths)} are tried", sum(tried) >= 40)

    def test_random_blocks_in_assembly_by_seeds(self):
        def is_tried(seed):
            lines = [re.sub(r"^sstatus .*", "sstatus 0", it) for it in Maker(seed).lines()]
            return is_alike(self.room, f"random-{seed}", lines, [])

        tried = at_once(is_tried, range(SEEDS))
        must(f"{sum(tried)} of {SEEDS} are tried", sum(tried) >= 40)
