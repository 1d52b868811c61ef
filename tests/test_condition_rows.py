"""Conditions by tables: each name, each number and each length of a text is read as it is written, and judged of what was asked."""
import os

from board_model import spelled_answer, spelled_step

from . import judge, replays
from .expected_points import said_of
from .fixtures import PROGRAM, TESTER, Test, must, tester, told_of, write
from .grammar import COUNTS, REPLIES

ENTERED = "0 advance\n"
STARTED = ENTERED + "0 ecall 0x48534d 0 1 0x80000000\n1 advance\n"
ASKED = STARTED + "0 ecall 0x52464e43 0 0x2 0\n"
HEAD = "board 2 4 100 0 0x80000000 0x0\n"

# For each operation steps of which the last one is it, and is accepted.
OPERATIONS = {
    "ecall": ENTERED + "0 ecall 0x10 0\n", "load": ENTERED + "0 load 0x80000000\n", "store": ENTERED + "0 store 0x80000000 1\n",
    "fetch": ENTERED + "0 fetch 0x80000000\n", "satp": ENTERED + "0 satp 0\n", "sie": ENTERED + "0 sie 0\n", "sstatus": ENTERED + "0 sstatus 0\n",
    "sip": ENTERED + "0 sip\n", "clearssip": ENTERED + "0 clearssip\n", "sfence": ENTERED + "0 sfence - -\n", "fencei": ENTERED + "0 fencei\n",
    "wfi": ENTERED + "0 sie 2\n0 ecall 0x735049 0 1 0\n0 wfi\n", "poll": ENTERED + "0 ecall 0x52464e43 0 0x1 0\n0 poll\n", "serve": ASKED + "1 serve\n",
    "advance": ENTERED, "tick": "c tick 1\n", "amocas": ENTERED + "0 amocas 0x80000000 0 1\n",
    **{it: ENTERED + f"0 {it} 0x80000000 1\n" for it in COUNTS if it.startswith("amo") and it != "amocas" or it in ("store1", "store2", "store4")},
}  # fmt: skip

# The same for each reply.
REPLIED = {
    "ret": ENTERED + "0 ecall 0x10 0\n", "waiting": ENTERED + "0 ecall 0x48534d 3 0\n", "gone": ENTERED + "0 ecall 0x48534d 1\n", "entry": ENTERED,
    "value": ENTERED + "0 sip\n", "fault": ENTERED + "0 load 1\n", "served": ASKED + "1 serve\n", "moved": ENTERED + "0 ecall 0x48534d 1\n0 advance\n",
    "done": ENTERED + "0 fencei\n",
}  # fmt: skip

# Numbers that a cut, a sign or a wrong radix would take for each other.
NUMBERS = (0, 1, 2, 0x10, 16 + 1, 1 << 31, 1 << 32, (1 << 32) + 1, 1 << 33, 1 << 63, (1 << 63) + 1, (1 << 64) - 2, (1 << 64) - 1)
HARTS = (0, 1, 2, 63, 64, 65, 126, 127)
# The errors of calls, with a call of each; and numbers that are none of them.
ERRORS = {0: "0x10 0", -2: "0x9 0", -3: "0x48534d 2 9", -5: "0x48534d 0 1 1", -6: "0x48534d 0 0 0x80000000", -1: "0x48534d 1"}
NO_ERRORS = (1, 2, 3, 5, 6, -4, (1 << 64) - 1, (1 << 64) - 3, (1 << 32) - 3, -(1 << 63), -((1 << 32) + 3))
# Arguments of a call that each are another number.
ARGUMENTS = (0x10, 7, 0x102, 0x103, 0x104, 0x105, 0x106, 0x107)


def points(room, texts, *words):
    """Whether each point holds, by the texts behind its number; `texts` are files by their names."""
    for name, text in texts.items():
        write(os.path.join(room, name), text)
    status, lines = told_of(room, *words, *texts)
    found = [line for line in lines if line.startswith(("ok ", "not ok "))]
    must(f"{lines[-3:]}, status {status}", status == int(any(line.startswith("not") for line in found)))
    return {line.partition(" - ")[2]: line.startswith("ok ") for line in found}


def must_hold(room, rows):
    """`rows`: the steps of a schedule, and conditions with whether they hold; all are judged in one call."""
    texts, wanted = {}, {}
    for at, (steps, asked) in enumerate(rows):
        text = "".join(f"#! {it}\n" for it, _ in asked) + (steps if steps.startswith("board") else HEAD + steps)
        texts[f"{at}.sched"] = text
        harts = int(text.split("\nboard ")[1].split()[0])
        wanted |= dict(point_of(f"{at}.sched: line {line}: {it}", judge.condition(line, it), harts, holds) for line, (it, holds) in enumerate(asked, 1))
    found = points(room, texts)
    if found != wanted:
        wrong = [it for it in wanted.keys() | found.keys() if wanted.get(it) != found.get(it)]
        raise AssertionError(f"{sorted(wrong)[:9]} of {len(wanted)} conditions are judged otherwise: {[found.get(it) for it in sorted(wrong)[:9]]}")


def point_of(name, asked, harts, holds):
    """What is told of a condition, and whether it holds; one with a word that no step of the board has doesn't."""
    why = judge.misfit(asked, harts)
    return (f"{name}: {why}", False) if why else (name, holds)


def replayed(text):
    """The steps of a schedule with the model's answers, which refuses none."""
    found = [step for _, _, *step in replays.steps(HEAD + text)]
    must(text, all(answer[0] != "refused" for *_, answer in found))
    return found


def asked_about(actor, op, answer):
    """Conditions about one step: its words up to each, with each of them `_` or another number, and one word too many."""
    step, reply = spelled_step(actor, op).split(), spelled_answer(answer).split()
    found = [step[:many] for many in range(1, len(step) + 1)] + [[*step, "->", *reply[:many]] for many in range(1, len(reply) + 1)]
    whole = [*step, "->", *reply]
    for place, word in enumerate(whole):
        if word != "->":
            found.append([*whole[:place], "_", *whole[place + 1 :]])
        if word[0].isdigit() or word[1:].isdigit():
            other = str(int(word, 0) + 1)
            found += [[*whole[:place], other, *whole[place + 1 :]]]
    found += [["_", "_", *["_"] * many] for many in range(9)]
    return [f"{kind} {' '.join(words)}" for words in found for kind in ("some", "never")]


# ---- lengths

# A hart with one order, which loads once; a condition that holds of it, and one that fails.
ONE = "board 1 1 10 0 0x80000000 0x0\nat 0x80000000\nload 0x80000000\nsip\n"
GOOD, BAD = "never 0 load -> value 0x1", "never 0 load -> value 0x0"
# The same steps as a schedule and as a trace.
STEPS = "board 1 1 10 0 0x80000000 0x0\n0 advance\n0 load 0x80000000\n0 sip\n"
TRACED = replays.traced(STEPS)



def in_some(reach):
    return said_of(True, False, reach), said_of(False, False, reach)


# How a file is judged: its name, its text, the program's own name, and its words; what is said behind a condition that holds and that fails.
WAYS = {
    "seeds": ("a.program", ONE, "sbiboard", ["--times", "9"], in_some("9 orders of unknown many, seed 0")),
    "threads": ("a.program", ONE, "sbiboard", ["--times", "4", "--threads"], in_some("4 orders of unknown many, seed 0")),
    "few states": ("a.program", ONE, "sbiboard", [], in_some("all orders: 1")),
    "explore": ("a.program", ONE, "sbiboard explore", [], (": holds in all orders", ": fails")),
    "a schedule": ("a.sched", STEPS, "sbiboard", [], ("", "")),
    "a trace": ("a.trace", TRACED, "sbiboard", [], ("", "")),
}


def points_of(way, file, first, asked):
    """The points of a file whose conditions are these: pairs of a line and a condition. `first`: the number of the first point."""
    name, text, _, _, said = WAYS[way]
    points = [f"ok - {file} (3 lines)"] if way == "a trace" else []
    about = [f"{'not ok' if it == BAD else 'ok'} - {file}: line {line}: {it}{said[it == BAD]}" for line, it in asked]
    points += about
    if way == "threads":
        points += [it.replace("4 orders of unknown many, seed 0", "4 runs on threads") for it in about]
    return [it.replace(" - ", f" {number} - ", 1) for number, it in enumerate(points, first)]


def must_be_points(room, way, files):
    """`files`: of each name its text, and its conditions with their lines. All their points are told, and no others."""
    _, _, called, words, _ = WAYS[way]
    wanted = []
    for name, (text, asked) in files.items():
        write(os.path.join(room, name), text)
        wanted += points_of(way, name, len(wanted) + 1, asked)
    found = tester(room, *words, "--failed", room, *files, name=called, timeout=200)
    lines = found.stdout.splitlines()
    told = [line for line in lines if line.startswith(("ok ", "not ok "))]
    failed = sum(line.startswith("not ok ") for line in wanted)
    if told != wanted:
        at = next((at for at, (one, other) in enumerate(zip(told, wanted)) if one != other), min(len(told), len(wanted)))
        raise AssertionError(f"{way}: of {len(wanted)} points told are {len(told)}, point {at + 1} as {told[at : at + 1]}, and not {wanted[at : at + 1]}")
    summary = [f"1..{len(wanted)}", f"# {len(wanted)} points, {failed} failed"]
    at = lines.index(summary[0]) if summary[0] in lines else len(lines)
    must(f"{way}: status {found.returncode}, {lines[-4:]}", lines[at : at + 2] == summary and found.returncode == (1 if failed else 0) and found.stderr == "")
    must(f"{way}: {lines[at:]}", lines[at + 2].startswith(f"# {len(files)} files"))


def alternating(many):
    return [GOOD if at % 2 else BAD for at in range(many)]


class ConditionRows(Test):
    programs = (PROGRAM, TESTER)

    def test_each_operation_of_a_condition_is_itself(self):
        """For each pair of operations, `some` and `never` hold of the one's schedule by whether it has a step of the other's name."""
        for_each = lambda has: [row for name in COUNTS for row in ((f"some _ {name}", name in has), (f"never _ {name}", name not in has))]
        must_hold(self.room, [(text, for_each({op[0] for _, op, _ in replayed(text)})) for text in OPERATIONS.values()])
        must("each operation has a row", set(OPERATIONS) == set(COUNTS))

    def test_each_reply_of_a_condition_is_itself(self):
        """So it is for each pair of replies, with the actor and the operation of the step that has the one."""
        rows = []
        for name, text in REPLIED.items():
            steps = replayed(text)
            actor, op, answer = steps[-1]
            has = {it[0] for *step, it in steps if (step[0], step[1][0]) == (actor, op[0])}
            must(name, answer[0] == name)
            rows.append((text, [row for other in REPLIED for row in ((f"some {actor} {op[0]} -> {other}", other in has), (f"never {actor} {op[0]} -> {other}", other not in has))]))
        must_hold(self.room, rows)
        must("each reply has a row", set(REPLIED) == set(REPLIES) - {"refused"})

    def test_each_word_of_a_condition_counts(self):
        """Of each operation and each reply each word counts: up to any of them the pattern is met, with any of them `_`, and with none of them another."""
        rows = []
        for text in [*OPERATIONS.values(), *REPLIED.values()]:
            steps = replayed(text)
            actor, op, answer = steps[-1]
            rows.append((text, [(asked, judge.holds(judge.condition(1, asked), steps, None)) for asked in asked_about(actor, op, answer)]))
        must_hold(self.room, rows)

    def test_each_number_of_a_condition_is_itself(self):
        """Numbers of 64 bits are told apart in each place that has some: what is read, and what is written in an operation."""
        rows = []
        for number in NUMBERS:
            text = ENTERED + f"0 store 0x80000000 {number}\n0 load 0x80000000\n0 satp {number}\n0 sie {number}\n0 sfence {number} {number}\n"
            asked = [(f"{kind} {pattern}", (other == number) == (kind == "some")) for other in NUMBERS for kind in ("some", "never") for pattern in (
                f"0 store 0x80000000 {other}", f"0 load _ -> value {other:#x}", f"0 satp 0{other}", f"0 sie 0x00{other:X}", f"0 sfence _ {other}", f"0 sfence {other} _",
            )]  # fmt: skip
            rows.append((text, asked))
        for number in NUMBERS[1:]:
            rows.append((f"c tick {number}\n", [(f"some c tick {other}", other == number and number < (1 << 64) - 1) for other in NUMBERS[1:]]))
            opaque = HEAD.replace("0x80000000 0x0", f"0x80000000 {number}")
            rows.append((opaque + ENTERED, [(f"some 0 advance -> entry 0x80000000 0 {other}", other == number) for other in NUMBERS]))
        must_hold(self.room, rows)

    def test_each_argument_of_a_condition_is_itself(self):
        """Each of the eight numbers of a call is told apart from the others, and from itself with a bit above 2^32."""
        numbers = [*ARGUMENTS[:2], *((1 << 32) + it for it in ARGUMENTS[2:])]
        text = ENTERED + f"0 ecall {' '.join(map(str, numbers))}\n"
        asked = [(f"some 0 ecall {' '.join(map(str, numbers))}", True)]
        for place, number in enumerate(numbers):
            for other in (number ^ 1 << 32, number + 1, number ^ 1 << 63, ARGUMENTS[place - 1]):
                words = [*map(str, numbers[:place]), str(other)]
                asked += [(f"some 0 ecall {' '.join(words)}", False), (f"never 0 ecall {' '.join(words)}", True)]
        must_hold(self.room, [(text, asked)])

    def test_each_error_of_a_condition_is_itself(self):
        """The error of a call is a number with its sign: `ret -3` is no `ret 3`, and no number of 64 bits."""
        rows = []
        for error, call in ERRORS.items():
            # (a hart that holds interrupts back can't stop)
            text = ENTERED + ("0 sstatus 1\n" if error == -1 else "") + f"0 ecall {call}\n"
            others = [(f"{kind} 0 ecall -> ret {other}", (other == error) == (kind == "some")) for other in [*ERRORS, *NO_ERRORS] for kind in ("some", "never")]
            # (numbers compare as numbers)
            spellings = [f"{'-' if error < 0 else ''}{zeros}{abs(error)}" for zeros in ("0", "000")] + (["-0", "0x0"] if error == 0 else [])
            rows.append((text, others + [(f"some 0 ecall -> ret {it}", True) for it in spellings]))
        must_hold(self.room, rows)

    def test_each_hart_of_a_condition_is_itself(self):
        """Harts up to 127 are told apart, as actors and as numbers of replies."""
        rows = []
        for hart in HARTS:
            text = f"board 128 1 100 {hart} 0x80000000 0x0\n{hart} advance\n{hart} sip\n"
            asked = [(f"{kind} {actor} sip", (other == hart) == (kind == "some")) for other in HARTS for kind in ("some", "never") for actor in (str(other), f"{other:#x}")]
            asked += [(f"some _ advance -> entry _ {other}", other == hart) for other in [*HARTS, hart + 128]]
            asked += [(f"each {other} sip -> value 1", other != hart) for other in HARTS] + [("some c", False), ("never c", True)]
            rows.append((text, asked))
        must_hold(self.room, rows)

    def test_130_conditions_are_judged(self):
        """Of 130 conditions each other one fails, however a file is judged, and one alone that is the last."""
        for way, (name, text, *_) in WAYS.items():
            asked = list(enumerate(alternating(130), 1))
            must_be_points(self.room, way, {name: ("".join(f"#! {it}\n" for _, it in asked) + text, asked)})
            asked = list(enumerate([GOOD] * 129 + [BAD], 1))
            must_be_points(self.room, way, {name: ("".join(f"#! {it}\n" for _, it in asked) + text, asked)})

    def test_conditions_behind_long_texts_are_judged(self):
        """A condition behind 64 KiB, or behind 4 MB, of lines or of one comment, is judged as any other."""
        for way, (name, text, *_) in WAYS.items():
            for bytes_before, line in ((65_536, "# as it is\n"), (4_194_304, "#" + " a line of a comment, which is no short one" * 20 + "\n"), (4_194_304, None)):
                before = "#" * bytes_before + "\n" if line is None else line * (bytes_before // len(line) + 1)
                at = before.count("\n") + text.count("\n")
                for conditions in ([GOOD, BAD], [BAD, GOOD]):
                    asked = list(enumerate(conditions, at + 1))
                    must_be_points(self.room, way, {name: (before + text + "".join(f"#! {it}\n" for it in conditions), asked)})

    def test_12_files_and_300_are_tested(self):
        """Of twelve files the first and the last fail, however they are judged; and so it is of 300."""
        for way, (name, text, *_) in WAYS.items():
            for many in (12, 300):
                files = {}
                for at in range(many):
                    asked = BAD if at in (0, many - 1) else GOOD
                    files[f"{at}-{name}"] = (f"#! {asked}\n{text}", [(1, asked)])
                must_be_points(self.room, way, files)


class NoMisfits(Test):
    programs = ()

    def test_no_step_of_the_worked_rows_is_a_misfit(self):
        """No accepted step has an actor, an operation, a reply or a number that a condition about it can't have; and each number that one can have, some step has."""
        seen, many = set(), 0
        for name, head, lines in replays.worked_rows():
            if len(head.split()) not in (7, 9):
                continue
            harts = int(head.split()[1], 0)
            for _, _, actor, op, answer in replays.steps("\n".join([head, *lines])):
                if answer[0] == "refused" or op[0] == "cut":
                    continue
                words = judge.step_words(actor, op)
                must(f"{name}: {words}, {answer}: {list(judge.misfits(words, answer, harts))}", not list(judge.misfits(words, answer, harts)))
                seen |= {(words[1], answer[0], it) for it in answer[1:]} | {(answer[0], place, it) for place, it in enumerate(answer[1:])}
                many += 1
        wanted = {(*key, it) for key, numbers in judge.OF_OPERATION.items() for it in numbers} | {(*key, it) for key, numbers in judge.NUMBERS.items() if key[0] in ("moved", "fault") for it in numbers}
        must(f"{wanted - seen}", many > 4000 and wanted <= seen)
