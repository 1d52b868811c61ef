"""Verdicts that judged nothing: conditions that say nothing, programs of which no order ends, looks that were cut off, and what a
script can't mean. Each is red, in `test` by all orders and by those of a seed, and in `explore`."""
import os
import re
from unittest import SkipTest

from board_model import spelled_step, step_of

from . import all_orders
from .fixtures import EXAMPLES, PROGRAM, TESTER, Test, explored, must, read, tester, told, told_of, write
from .test_bounds_of_time import watched
from .test_explore import REBOOTS
from .test_few_states import MANY
from .test_orders import RACE, WAKE, at_a_terminal

SEEDS = ("--times", "40")
# Hart 0 fences hart 1, which loads by two addresses, one of them in two lines.
LOADS = """\
board 2 8 200 0 0x80000000 0x0
at 0x80000000
ecall 0x48534d 0 1 0x80001000
store 0x80002000 1
ecall 0x52464e43 0 0x2 0
at 0x80001000
load 0x80003000
load 0x80002000
load 0x80003000
"""
HINT = "; hart 1 loads 0x80003000 (lines {}, {}), 0x80002000 (line {})".format(8, 10, 9)
NEEDED = "vacuous: no step is '{}'"

# Conditions of it with the step that there isn't, and what there is in its place; None: it says something.
VACUOUS = (
    ("never 1 load 0x80005008 -> value 1", "1 load 0x80005008", HINT), ("never 1 load 0x80005008 -> value 1 after 0 store", "1 load 0x80005008", HINT),
    ("each 1 load 0x80005008 -> value 1", "1 load 0x80005008", HINT), ("some 1 load 0x80005008 -> value 1", "1 load 0x80005008", HINT),
    ("before 1 load 0x80005008, 0 store", "1 load 0x80005008", HINT), ("before 0 store, 1 load 0x80005008", "1 load 0x80005008", HINT),
    ("before 0 store -> done, 1 load 0x80005008", "1 load 0x80005008", HINT), ("before 0 store -> done, 1 load 0x80005008 -> value 1", "1 load 0x80005008", HINT),
    ("before 0 store, 1 load 0x80005008 -> value 1", "1 load 0x80005008", HINT), ("before 0 store , 1 load 0x80005008 -> value 1", "1 load 0x80005008", HINT), ("never 1 wfi -> done", "1 wfi", ""), ("never 1 poll -> ret 0 _", "1 poll", ""),
    ("never 1 load after 0 store 0x80002000 2", "0 store 0x80002000 2", "; hart 0 stores 0x80002000 0x1 (line 5)"),
    ("never 1 load after 0 ecall 0x48534d -> ret -3", "0 ecall 0x48534d -> ret -3", "; such a step has another reply"), ("never 0 sip after 1 wfi", "1 wfi", ""),
    ("never _ load 0x80005008 -> value 1", "_ load 0x80005008", HINT), ("each c tick 5 -> done", "c tick 5", ""),
    ("each 0 ecall 0x10 0 -> ret 0", "0 ecall 0x10 0", "; hart 0 calls 0x48534d 0x0 0x1 0x80001000 0x0 0x0 0x0 0x0 (line 4), 0x52464e43 0x0 0x2 0x0 0x0 0x0 0x0 0x0 (line 6)"),
    # (it forbids the step itself, or a call)
    ("never 1 load 0x80005008", None, None), ("never 0 ecall 0x10 -> ret 0", None, None), ("never 1 ecall 0x10 0 -> ret -2 after 0 store", None, None), ("never 1 wfi", None, None),
    ("never 1 load 0x80002000 -> value 9", None, None), ("never 1 load -> value 9 after 0 poll -> ret 0 _", None, None), ("before 0 advance, 1 load 0x80002000 -> value 7", None, None),
    ("each 0 store -> done", None, None), ("some 1 load 0x80002000 -> value 1", None, None), ("never 1 load 0x80005008 after 0 poll -> ret 0", None, None),
)  # fmt: skip

# Each operation that has numbers, with what is said of who does it, and a step like it that there isn't.
DONE = (
    ("writes satp", "satp 0x0"), ("writes sie", "sie 0x2"), ("writes sstatus", "sstatus 1"), ("does sfence", "sfence 0x1000 5"), ("loads", "load 0x80000000"), ("stores", "store 0x80000000 0x7"),
    ("fetches", "fetch 0x80000000"), ("calls", "ecall 0x10 0x3 0x10 0x0 0x0 0x0 0x0 0x0"), ("ticks", "tick 0x5"),
)  # fmt: skip
ANOTHER = {"sstatus": "sstatus 0"}
DOES_ALL = "".join(f"{it}\n" for it in ("board 1 2 200 0 0x80000000 0x0", "at 0x80000000", *(op for _, op in DONE[:-1]), "clock", DONE[-1][1]))

# Words of `sbiboard` that look in another way, and what is said of a missing step there.
WAYS = (("sbiboard", (), ""), ("sbiboard", SEEDS, " in the 40 orders tried"), ("sbiboard explore", (), ""))

# Conditions with a word that no step of two harts has.
MISFITS = (
    ("never 9 load", "the board has no hart 9"), ("never 2 load", "the board has no hart 2"), ("some 127 sip", "the board has no hart 127"), ("never 1 load after 2 store", "the board has no hart 2"),
    ("before 0 store, 5 load", "the board has no hart 5"), ("each 0 sstatus 7 -> done", "no sstatus has 7"), ("never 0 sstatus 2", "no sstatus has 2"), ("never 1 load -", "no load has -"),
    ("never 1 store 0x80002000 -", "no store has -"), ("never 1 load -5", "no load has -5"), ("never 1 advance -> moved 7", "no moved has 7"), ("never 1 load -> fault 16", "no fault has 16"), ("never _ _ -> fault 14", "no fault has 14"),
    ("never 1 load -> value -1", "no value has -1"), ("never 1 advance -> entry _ 2", "the board has no hart 2"), ("each 0 ecall -> ret 0xffffffffffffffff", "no ret has 18446744073709551615"),
    ("never 0 ecall -> ret 0 -1", "no ret has -1"), ("maybe never 9 load", "the board has no hart 9"), ("never 1 load -> value -", "no value has -"),
    ("never _ load 0x1000 -> done", "no load has the reply done"), ("never 1 sip -> done", "no sip has the reply done"), ("each 0 store -> value 1", "no store has the reply value"),
    ("never 0 sstatus 1 -> ret 0", "no sstatus has the reply ret"), ("some 0 ecall -> entry", "no ecall has the reply entry"), ("never 0 poll -> waiting", "no poll has the reply waiting"),
    ("never 1 load after 0 serve -> done", "no serve has the reply done"), ("before 0 advance -> served, 1 load", "no advance has the reply served"), ("never c tick -> moved", "no tick has the reply moved"),
    ("never 1 sfence - - -> fault 13", "no sfence has the reply fault"),
    # (the clock ticks, and a hart does all others)
    ("never c load", "no load is the clock's"), ("some c advance -> ret 0", "no advance is the clock's"), ("never 1 tick", "no tick is a hart's"), ("before 1 load, 0 tick 3", "no tick is a hart's"),
    ("never 1 sip after c serve", "no serve is the clock's"), ("each 9 tick -> done", "the board has no hart 9"), ("never c store 0 -", "no store is the clock's"), ("never c _ -> value 1", "no tick has the reply value"),
    ("some c -> ret 0", "no tick has the reply ret"), ("maybe never c poll", "no poll is the clock's"),
    # (each access has its own causes)
    ("never 1 load 0x80002000 -> fault 12", "no load's fault has 12"), ("never _ load -> fault 15", "no load's fault has 15"), ("never 0 fetch -> fault 13", "no fetch's fault has 13"), ("some 0 store 0x80002000 1 -> fault 5", "no store's fault has 5"),
    ("each 1 fetch -> fault 5", "no fetch's fault has 5"), ("never 1 store -> fault 13", "no store's fault has 13"), ("never 0 load after 1 fetch -> fault 4", "no fetch's fault has 4"), ("never 1 load -> fault 3", "no fault has 3"),
    # (what a hart is brought to, and what calls return)
    ("never 1 advance -> moved 0", "no moved has 0"), ("never 1 advance -> moved 2", "no moved has 2"), ("some 1 _ -> moved 5", "no moved has 5"), ("never 0 poll -> ret -3", "no poll's ret has -3"), ("some 0 poll -> ret 0 1", "no poll's ret has 1"),
    ("never 0 advance -> ret _ 7", "no advance's ret has 7"), ("never 0 ecall -> ret 1", "no ret has 1"), ("never 0 ecall -> ret -9", "no ret has -9"), ("each 1 sip -> value 1", "no sip's value has 1"), ("never 1 sip -> value 0x20000", "no sip's value has 131072"),
    # (an AMO reads, and its faults are a store's; a small store only writes)
    ("never 1 amoadd 0x80002000 -> done", "no amoadd has the reply done"), ("each 0 amocas -> value -1", "no value has -1"), ("never 1 amoswap.w -> fault 13", "no amoswap.w's fault has 13"), ("never 1 amocas 0x80002000 - 1", "no amocas has -"),
    ("never 1 store4 -> value 1", "no store4 has the reply value"), ("never 1 store2 -> fault 5", "no store2's fault has 5"), ("never 1 store1 -> fault 6", "no store1's fault has 6"), ("never c amoor", "no amoor is the clock's"),
    ("never 1 amoadd.w -> value 0xffffffff", "no amoadd.w's value has 4294967295"), ("never 1 amomaxu.w -> value 0x80000000", "no amomaxu.w's value has 2147483648"), ("some 1 amomin.w -> value 0xffffffff7fffffff", "no amomin.w's value has 18446744071562067967"),
)  # fmt: skip
# And some of which each word can be there.
FITTING = ("never 0 sstatus 1 -> done", "never 1 sfence - -", "never _ _ -> fault 15", "never 1 advance -> moved 6", "never 1 advance -> moved 1", "never 1 _ -> moved 4", "never 0 ecall -> ret -8", "never 0 ecall -> ret 0 9", "never 0 advance -> entry _ 1", "never 1 poll -> ret 0 0",
    "never 0 advance -> ret 0", "never c tick", "never c _ -> done", "never _ tick", "never _ _ -> ret -8 3", "never 1 sip -> value 0x22", "never 0 _ -> value 1", *(f"never 1 {op} -> fault {cause}" for op, causes in (("load", (4, 5, 13)), ("store", (6, 7, 15)), ("fetch", (0, 1, 12)), ("amoadd", (6, 7, 15)), ("amocas", (6, 7, 15)), ("store1", (7, 15)), ("store4", (6, 7, 15))) for cause in causes),
    "never 1 amoadd.w -> value 0x7fffffff", "never 1 amoadd.w -> value 0xffffffff80000000", "never 1 amoadd -> value 0xffffffff", "never 1 amocas 0x80002000 0 1 -> value 0x80000000", "never 1 store1 0x80002001 1 -> done")

# No order of it ends: hart 0 begins anew again and again. And one of which some order ends, and one that ends off.
ENDLESS = "board 1 1 50 0 0x80000000 0\nat 0x80000000\necall 0x53525354 0 2 0\n"
SOME_END = "board 2 1 100 0 0x80000000 0x0\nat 0x80000000\necall 0x48534d 0 1 0x80000010\necall 0x53525354 0 0 0\nat 0x80000010\necall 0x53525354 0 2 0\n"
OFF = "board 1 1 50 0 0x80000000 0\nat 0x80000000\necall 0x53525354 0 0 0\n"
# Five harts' worth of steps, of which the limit of six events cuts some orders off and not others.
CUT = "board 2 2 7 0 0x80000000 0\nat 0x80000000\necall 0x48534d 0 1 0x80001000\necall 0x53525354 0 0 0\nat 0x80001000\nsip\nsip\nsip\nsip\n"


def points(lines):
    return [re.sub(r"^((?:not )?ok) \d+ - [^:]*: ", r"\1 ", it) for it in lines if it.startswith(("ok ", "not ok "))]


def in_way(room, way, text, name="a.program"):
    """The status, and the points."""
    write(os.path.join(room, name), text)
    status, lines = told_of(room, *way[1], name, name=way[0])
    return status, points(lines), lines


class EmptyVerdicts(Test):
    programs = (PROGRAM, TESTER)

    def test_vacuous_conditions_are_red(self):
        """A condition that needs a step which no order has is `not ok`, and tells what there is in its place; with `maybe` it isn't."""
        for way in WAYS:
            for asked, missing, instead in VACUOUS:
                status, found, lines = in_way(self.room, way, f"#! {asked}\n{LOADS}")
                if missing is None:
                    must(f"{way}: {asked}: {lines}", "vacuous" not in found[0])
                    continue
                wanted = f"not ok line 1: {asked}: {NEEDED.format(missing)}{way[2]}{instead}"
                must(f"{way}: {asked}: {found}, and not {wanted!r}", status == 1 and found == [wanted] and "# 1 points, 1 failed" in lines and not any("never met" in it for it in lines))
                status, found, lines = in_way(self.room, way, f"#! maybe {asked}\n{LOADS}")
                is_some = asked.startswith("some")
                must(f"{way}: maybe {asked}: {found}", status == (1 if is_some else 0) and "vacuous" not in found[0] and "# line 1: never met: no step has this actor and operation" in lines)
            for line, (does, op) in enumerate(DONE, 3):
                actor, asked = "c" if op.startswith("tick") else "0", ANOTHER.get(op.split()[0], " ".join([op.split()[0], "0x44"]))
                numbers = spelled_step(*step_of(f"{actor} {op}".split())).split(" ", 2)[2]
                who, where = ("the clock", "") if actor == "c" else ("hart 0", f" (line {line})")
                _, found, _ = in_way(self.room, way, f"{DOES_ALL}#! before {actor} {asked}, 0 wfi\n")
                wanted = f": {NEEDED.format(f'{actor} {asked}')}{way[2]}; {who} {does} {numbers}{where}"
                must(f"{way}: {found}, and not {wanted!r}", len(found) == 1 and found[0].startswith("not ok ") and found[0].endswith(wanted))

    def test_vacuous_conditions_are_red_on_threads(self):
        """So it is of runs on threads."""
        for asked, missing, instead in VACUOUS[:3]:
            status, found, _ = in_way(self.room, ("sbiboard", ("--times", "5", "--threads")), f"#! {asked}\n{LOADS}")
            wanted = [f"not ok line 1: {asked}: {NEEDED.format(missing)} in the 5 {reach}{instead}" for reach in ("orders tried", "runs")]
            must(f"{asked}: {found}", status == 1 and found == wanted)

    def test_schedules_are_never_vacuous(self):
        """A schedule and a trace are what they are: a condition may be about a step that they don't have."""
        for name, text in (("a.sched", "board 2 2 9 0 0x80000000 0\n0 advance\n"), ("a.trace", "board 2 2 9 0 0x80000000 0\n0 advance -> entry 0x80000000 0 0\n")):
            status, lines = told(self.room, "#! never 1 load -> value 1\n" + text, name=name)
            must(f"{lines}", status == 0 and "# line 1: never met: no step has this actor and operation" in lines)

    def test_missing_steps_of_many_lines_are_told_in_short(self):
        """Of many different numbers, and of many lines, the first eight are told."""
        text = "board 1 8 200 0 0x80000000 0\nat 0x80000000\n" + "load 0x80001000\n" * 10 + "".join(f"load {0x80002000 + 8 * at:#x}\n" for at in range(10))
        for way in WAYS:
            _, found, _ = in_way(self.room, way, text + "#! never 0 load 0x1000 -> value 1\n")
            first = "0x80001000 (lines 3, 4, 5, 6, 7, 8, 9, 10, ..)"
            others = ", ".join(f"{0x80002000 + 8 * at:#x} (line {13 + at})" for at in range(7))
            must(f"{found}", found == [f"not ok line 23: never 0 load 0x1000 -> value 1: {NEEDED.format('0 load 0x1000')}{way[2]}; hart 0 loads {first}, {others}, .."])
        # (eight are no more than eight)
        for many in (7, 8, 9):
            in_short = lambda texts: ", ".join([*texts[:8], *([".."] if many > 8 else [])])
            addresses = [0x80002000 + 8 * at for at in range(1, many)]
            text = "board 1 8 200 0 0x80000000 0\nat 0x80000000\n" + "load 0x80001000\n" * many + "".join(f"load {it:#x}\n" for it in addresses)
            _, found, _ = in_way(self.room, WAYS[0], text + "#! never 0 load 0x1000 -> value 1\n")
            first = f"0x80001000 (lines {in_short([str(3 + at) for at in range(many)])})"
            wanted = in_short([first, *(f"{it:#x} (line {3 + many + at})" for at, it in enumerate(addresses))])
            must(f"{many}: {found}, and not {wanted}", len(found) == 1 and found[0].endswith(f"; hart 0 loads {wanted}"))

    def test_a_step_that_was_not_seen_makes_nothing_vacuous(self):
        """Where not all orders were seen, a condition may be about a step of those; it isn't judged then, and isn't vacuous."""
        asked = "#! never 0 sip -> value 2 after 1 load\n"
        status, lines = explored(self.room, asked + MANY, "--states", "50")
        must(f"{lines}", status == 8 and lines[1].endswith(": not judged: more than 50 states, none of those seen breaks it"))

    def test_what_was_not_judged_is_no_success(self):
        """Where nothing was judged, the point is `not ok` without a directive, also at a terminal, and the status is 8; 1 where another point fails."""
        text = "#! end quiet\n" + RACE
        for words, why in ((["--seconds", "0"], "no time"), (["--times", "0"], "no order tried"), (["--order", "3", "--seconds", "0"], "no time"), (["--times", "0", "--threads"], "no order tried"), *((["--times", str(1 << bits), "--seconds", "0"], "no time") for bits in (31, 32, 63))):
            status, lines = told(self.room, text, *words)
            wanted = f"not ok 1 - race.program: line 1: end quiet: not judged: {why}"
            must(f"{words}: {status}, {lines}", status == 8 and wanted in lines and not any(re.search("# *(SKIP|TODO)", it) for it in lines) and "# 1 points, 0 failed, 1 not judged" in lines)
            status, shown = at_a_terminal(self.room, *words, "race.program")
            must(f"{words}: {shown}", status == 8 and shown.startswith(f"OPEN  race.program: line 1: end quiet: not judged: {why}\n"))
        write(os.path.join(self.room, "a.sched"), "#! never 0 advance\nboard 1 1 9 0 0x80000000 0\n0 advance\n")
        status, lines = told_of(self.room, "--seconds", "0", "race.program", "a.sched")
        must(f"{lines}", status == 1 and "# 2 points, 1 failed, 1 not judged" in lines)
        # (the time is over before the second program)
        status, lines = told_of(self.room, "--times", "0", "a.sched", "race.program")
        must(f"{lines}", status == 1)
        for words, why in ((["--seconds", "0"], "no time"), (["--states", "3"], "more than 3 states, none of those seen breaks it")):
            status, lines = explored(self.room, RACE, *words)
            must(f"{lines}", status == 8 and lines[1] == f"not ok 1 - a.program: no order ends stuck: not judged: {why}")

    def test_each_verdict_has_its_word_at_a_terminal(self):
        """At a terminal each point is told as ok where it holds, as OPEN where it wasn't judged, and as FAIL otherwise, with the text that a point has."""
        seen = set()
        for name, words, asked, text in (
            ("sbiboard", (), ("end quiet", "end off", "never 0 load 8 -> value 1", "some 9 sip", "some 1 load 0x80002000 -> value 9"), RACE), ("sbiboard", (), ("end quiet",), ENDLESS), ("sbiboard", (), (), ENDLESS),
            ("sbiboard", ("--times", "9"), ("end quiet", "end off", "never 9 sip"), RACE), ("sbiboard", ("--times", "9"), ("end quiet",), ENDLESS), ("sbiboard", ("--times", "0"), ("end quiet", "never 9 sip"), RACE), ("sbiboard", (), (), "board\n"),
            ("sbiboard explore", (), ("end quiet", "end off", "never 0 load 8 -> value 1"), RACE), ("sbiboard explore", ("--states", "3"), ("end quiet",), RACE), ("sbiboard explore", (), (), ENDLESS), ("sbiboard explore", (), (), "board 1 1 9 0 0x80000000 0\n0 advance\n"),
        ):  # fmt: skip
            write(os.path.join(self.room, "a.program"), "".join(f"#! {it}\n" for it in asked) + text)
            _, lines = told_of(self.room, *words, "a.program", name=name)
            _, shown, _ = watched(self.room, name, [*words, "a.program"], True, False)
            points = [re.fullmatch(r"((?:not )?ok) \d+ - (.*)", it) for it in lines if it.startswith(("ok ", "not ok "))]
            wanted = [("ok    " if it[1] == "ok" else "OPEN  " if ": not judged: " in it[2] else "FAIL  ") + it[2] for it in points]
            must(f"{name} {words} {asked}: {shown}, and not {wanted}", [it for it in shown.splitlines() if it.startswith(("ok ", "FAIL ", "OPEN "))] == wanted and wanted)
            seen |= {re.sub(r".*: (vacuous|no order ends|the board has no|not judged|holds|fails|bad|only|no board).*", r"\1", it) for it in wanted}
        must(f"{seen}", {"vacuous", "no order ends", "the board has no", "not judged", "holds", "fails"} <= seen)
        # (a control character of a name would be one of the terminal's)
        write(os.path.join(self.room, "a\x1b[2Jb\tc\x9bd.program"), RACE)
        _, shown, _ = watched(self.room, "sbiboard", ["a\x1b[2Jb\tc\x9bd.program"], True, False)
        must(f"{shown!r}", shown.startswith("ok    a?[2Jb?c?d.program: no order ends stuck: holds in all orders: 4\n"))

    def test_each_point_says_how_far_it_looked(self):
        """`test` says of each point at how many orders it looked."""
        for text, reach in ((RACE, "all orders: 4"), (SOME_END, "all orders"), (MANY, "1,000 orders of unknown many, seed 0")):
            for asked, found in (("", "no order ends stuck: holds in {}"), ("#! end off quiet\n", "line 1: end off quiet: holds in {}"), ("#! some 0 advance\n", "line 1: some 0 advance: holds in some of {}")):
                status, lines = told(self.room, asked + text)
                must(f"{lines}", status == 0 and lines[1] == f"ok 1 - race.program: {found.format(reach)}")
        status, lines = told(self.room, RACE, "--times", "2345", "--seed", "18446744073709551615")
        must(f"{lines}", lines[1] == "ok 1 - race.program: no order ends stuck: holds in 2,345 orders of unknown many, seed 18446744073709551615")
        counts = "board 2 1 1000 0 0x80000000 0x0\nat 0x80000000\necall 0x48534d 0 1 0x80000800\n" + "sip\n" * 12 + "at 0x80000800\n" + "sip\n" * 12
        many = sum(all_orders.Orders(counts).ends.values())
        _, lines = told(self.room, counts)
        must(f"{lines}", lines[1] == f"ok 1 - race.program: no order ends stuck: holds in all orders: {many:,}" and many > 1_000_000)

    def test_programs_without_an_end_are_red(self):
        """A program of which no order ends is `not ok`, with `end` and without conditions; `maybe` allows it of `end`."""
        for text in (ENDLESS, REBOOTS):
            for way in (WAYS[0], WAYS[2]):
                for asked in ("", "#! end quiet\n", "#! end off stuck quiet\n"):
                    status, found, lines = in_way(self.room, way, asked + text)
                    must(f"{way}: {lines}", status == 1 and found[0].endswith(": no order ends") and "# orders: all without end" in lines)
                status, found, lines = in_way(self.room, way, "#! maybe end quiet\n#! some 0 advance\n" + text)
                must(f"{way}: {lines}", status == 0)
            status, found, lines = in_way(self.room, WAYS[1], text)
            must(f"{lines}", status == 1 and found == ["not ok no order ends stuck: no order ends: the limit cut off all 40"])
        for way in (WAYS[0], WAYS[2]):
            status, found, lines = in_way(self.room, way, "#! end quiet off\n" + SOME_END)
            must(f"{way}: {lines}", status == 0 and any(it.startswith("# orders: some without end, some ") for it in lines))
            status, found, lines = in_way(self.room, way, "#! end off\n" + OFF)
            must(f"{way}: {lines}", status == 0 and "# orders: 1, off 1" in lines)
        status, found, lines = in_way(self.room, WAYS[2], "#! end history-full\n" + ENDLESS)
        must(f"{lines}", status == 1 and found == ["not ok line 1: end history-full: no order ends"])

    def test_orders_that_a_limit_cut_off_are_told(self):
        """Where the limit cut orders off, the point that asks for ends says how many; where it cut off all, it is `not ok`."""
        status, found, lines = in_way(self.room, ("sbiboard", ("--times", "300")), "#! end off\n#! end off history-full\n#! some 0 advance\n" + CUT)
        ends = next(it for it in lines if it.startswith("# ends: "))
        cut, off = (int(re.search(rf"(\d+) {end}", ends)[1]) for end in ("history-full", "off"))
        must(f"{lines}", status == 0 and 0 < cut < 300 and off == 300 - cut)
        reach = "300 orders of unknown many, seed 0"
        must(f"{found}", found == [f"ok line 1: end off: holds in {reach}, of which the limit cut off {cut}", f"ok line 2: end off history-full: holds in {reach}", f"ok line 3: some 0 advance: holds in some of {reach}"])
        _, found, _ = in_way(self.room, ("sbiboard", ("--times", "300")), CUT)
        must(f"{found}", found == [f"ok no order ends stuck: holds in {reach}, of which the limit cut off {cut}"])
        self.must_tell_cut_runs()
        short = re.sub(r"^(board \S+ \S+) \S+", r"\1 2", RACE)
        for words, said in ((["--times", "9"], ["9"]), (["--times", "4", "--threads"], ["4", "4"])):
            for asked in ("", "#! end quiet\n"):
                status, found, _ = in_way(self.room, ("sbiboard", words), asked + short)
                must(f"{found}", status == 1 and [it.rpartition(": ")[2] for it in found] == [f"the limit cut off all {many}" for many in said])
            status, found, _ = in_way(self.room, ("sbiboard", words), "#! end history-full\n#! maybe end quiet\n" + short)
            must(f"{found}", status == 0)

    def must_tell_cut_runs(self):
        """Of runs on threads the point says how many the limit cut off: as many as are counted beside those of the seed's orders."""
        is_partly, cut_of = False, lambda lines: int(re.search(r"(\d+) history-full", next(it for it in lines if it.startswith("# ends: ")))[1])
        for limit in range(14, 46, 2):
            text = "#! end off\n" + CUT.replace("board 2 2 7 ", f"board 2 2 {limit} ").replace("ecall 0x53525354", "sip\n" * 10 + "ecall 0x53525354") + "sip\n" * 26
            _, _, lines = in_way(self.room, ("sbiboard", ("--times", "40")), text)
            _, found, both = in_way(self.room, ("sbiboard", ("--times", "40", "--threads")), text)
            cut = cut_of(both) - cut_of(lines)
            wanted = "no order ends: the limit cut off all 40" if cut == 40 else "holds in 40 runs on threads" + (f", of which the limit cut off {cut}" if cut else "")
            must(f"{limit}: {both}", found[1].endswith(f": {wanted}"))
            is_partly |= 0 < cut < 40
        if not is_partly:
            raise SkipTest("the threads of all runs go in one order here")

    def test_words_that_no_step_of_the_board_has_are_red(self):
        """A condition about a hart that the board hasn't, or with a number that its place can't hold, is `not ok`, whatever is tested."""
        for way in WAYS:
            text = "".join(f"#! {asked}\n" for asked, _ in MISFITS) + LOADS
            status, found, lines = in_way(self.room, way, text)
            must(f"{way}: {found}", status == 1 and found == [f"not ok line {at}: {asked}: {why}" for at, (asked, why) in enumerate(MISFITS, 1)])
            must(f"{lines}", not any(it.startswith("  record: ") for it in lines))
            status, found, _ = in_way(self.room, way, "".join(f"#! maybe {asked}\n" for asked in FITTING) + LOADS)
            must(f"{way}: {found}", status == 0)
        for name, line in (("a.sched", "0 advance\n"), ("a.trace", "0 advance -> entry 0x80000000 0 0\n")):
            for asked, why in MISFITS:
                status, lines = told(self.room, f"#! {asked}\nboard 2 2 9 0 0x80000000 0\n{line}", name=name)
                must(f"{lines}", status == 1 and any(it.endswith(f"{name}: line 1: {asked}: {why}") and it.startswith("not ok ") for it in lines))

    def test_conditions_behind_blanks_are_red(self):
        """A comment that would be a condition but for blanks behind its sign is a point that fails; another comment isn't."""
        for sign in ("# !never 1 load", "#  ! some 1 load", "#\t!each 1 load -> value 1", "  # !end quiet", "# !before 0, 1", "# !can end", "# !steady", "# !maybe never 1 load"):
            for way in WAYS:
                status, found, _ = in_way(self.room, way, f"{sign}\n#! some 0 advance\n{RACE}")
                word = sign.replace("!", " ").split()[1]
                must(f"{sign}: {found}", status == 1 and found[-1] == f"not ok line 1: '\\# !{word}' is a comment, and no condition" and len(found) == 2)
        # (each of several is told, wherever it stands)
        for way in WAYS:
            status, found, _ = in_way(self.room, way, f"# !end off\n#! some 0 advance\n# ! each 0 sip\n{RACE}\n#\t!never 0 store\n# !end off\n")
            lines = RACE.count("\n") + 5, RACE.count("\n") + 6
            wanted = [f"not ok line {line}: '\\# !{word}' is a comment, and no condition" for line, word in ((1, "end"), (3, "each"), (lines[0], "never"), (lines[1], "end"))]
            must(f"{found}, and not {wanted}", status == 1 and found[1:] == wanted)
        # (so it is of a schedule and of a trace)
        for name, line in (("a.sched", "0 advance"), ("a.trace", "0 advance -> entry 0x80000000 0 0")):
            for sign, word in (("# !never 0 sip", "never"), (" #\t! end quiet", "end"), ("# !maybe each 0 sip", "maybe")):
                status, lines = told(self.room, f"{sign}\nboard 1 1 9 0 0x80000000 0\n{line}\n{sign}\n#! some 0 advance\n", name=name)
                found = [it for it in points(lines) if it.endswith(" is a comment, and no condition")]
                must(f"{name}, {sign}: {lines}", status == 1 and found == [f"not ok line {at}: '\\# !{word}' is a comment, and no condition" for at in (1, 4)])
        for sign in ("# ! important", "# never 1 load", "# it is !never so", "#!/usr/bin/env never", "# !", "#", "## !never 1 load"):
            status, found, _ = in_way(self.room, WAYS[0], f"{sign}\n{RACE}")
            must(f"{sign}: {found}", status == 0 and len(found) == 1)

    def test_refused_lines_of_schedules_are_told(self):
        """`test` tells each line of a schedule that was refused, and by which number; of a trace they are compared."""
        text = "board 2 2 3 0 0x80000000 0\n1 advance\n5 sip\n0 advance\ncut\n0 poll\n0 ecall 0x53525354 0 0 0\n0 sip\n"
        status, lines = told(self.room, text, name="a.sched")
        must(f"{lines}", status == 0 and lines[1:7] == ["ok 1 - a.sched (7 lines)", "# line 2: refused 3", "# line 3: refused 2", "# line 6: refused 2", "# line 8: refused 1", "1..1"])

    def test_explore_tells_what_is_odd(self):
        """`explore` tells what is odd about a program, as `test` does."""
        text = "#! end quiet\n" + RACE.replace("at 0x80001000\n", "ecall 0x48534d 0 9 0x80001000\nat 0x80003000\n")
        odd = lambda lines: [it for it in lines if it.startswith(("# line ", "# a hart "))]
        (_, few), (_, seeds), (_, all_of) = told(self.room, text), told(self.room, text, *SEEDS), explored(self.room, text)
        must(f"{few}, {seeds}, {all_of}", odd(few) == odd(seeds) == odd(all_of) and len(odd(few)) == 3)

    def test_records_of_files_of_one_name_are_kept(self):
        """Records of two files of one name don't take each other's place: the later file's name has a number behind it."""
        for folder, text in (("a", RACE), ("b", WAKE), ("c", RACE)):
            os.mkdir(os.path.join(self.room, folder))
            write(os.path.join(self.room, folder, "x.program"), f"#! end off\n{text}")
            write(os.path.join(self.room, folder, "x.sched"), f"#! never 0 advance\nboard 1 1 9 0 0x80000000 {'abc'.index(folder)}\n0 advance\n")
        write(os.path.join(self.room, "x.program~2"), f"#! end off\n{RACE}")
        names = ["a/x.program", "b/x.program", "x.program~2", "c/x.program"]
        for name, words, label in (("sbiboard explore", (), "1.failed"), ("sbiboard", (), "1.failed"), ("sbiboard", ("--times", "9"), "0-0.failed")):
            _, lines = told_of(self.room, *words, *names, name=name)
            kept = [it.split('"')[1] for it in lines if it.startswith("  record: ")]
            must(f"{kept}", kept == [f"./x.program{more}.{label}" for more in ("", "~3", "~2", "~4")])
            texts = [read(os.path.join(self.room, it)) for it in kept]
            must(f"{texts}", texts[0].startswith("board 2 4 ") and texts[1] != texts[0])
        _, lines = told_of(self.room, "a/x.sched", "b/x.sched", "a/x.sched")
        kept = [it.split('"')[1] for it in lines if it.startswith("  record: ")]
        must(f"{kept}", kept == ["./x.sched.failed", "./x.sched~2.failed", "./x.sched~3.failed"])
        must(f"{kept}", [read(os.path.join(self.room, it)).split("\n")[0].split()[6] for it in kept] == ["0x0", "0x1", "0x0"])

    def test_tested_files_are_not_overwritten(self):
        """No record takes a tested file's place, however its path is written: the next free number stands in the record's name. Where the tested file is a link to it, the point says that it isn't written."""
        differs = "board 1 1 9 0 0x80000000 0\n0 advance -> gone\n"
        for folder in ("a", "kept"):
            os.mkdir(os.path.join(self.room, folder))
        write(os.path.join(self.room, "x.program"), f"#! end off\n{RACE}")
        write(os.path.join(self.room, "x.sched"), "#! never 0 advance\nboard 1 1 9 0 0x80000000 0\n0 advance\n")
        write(os.path.join(self.room, "y.program"), f"#! some 0 advance\n{RACE}")
        explore, tried = ("sbiboard explore",), ("sbiboard", "--times", "9")
        rows = (
            (explore, "x.program", "1.failed", "."), (("sbiboard",), "x.program", "1.failed", "."), (("sbiboard",), "y.program", "1.reached", "."), (explore, "y.program", "1.reached", "kept"),
            (tried, "x.program", "0-0.failed", "."), (tried, "x.program", "0-0.failed", "./kept"), (("sbiboard",), "x.sched", "failed", "."),
        )  # fmt: skip
        for (name, *words), first, label, folder in rows:
            for shape in ("{}/{}", "./{}/{}", "a/../{}/{}", self.room + "/{}/{}", "{}//{}"):
                path = os.path.join(self.room, folder, f"{first}.{label}")
                second = shape.format(folder, f"{first}.{label}")
                for text in (differs, None):
                    for it in os.listdir(os.path.join(self.room, folder)):
                        if "~" in it or it.endswith(label):
                            os.remove(os.path.join(self.room, folder, it))
                    if text is not None:
                        write(path, text)
                    status, lines = told_of(self.room, *words, "--failed", folder, first, second, name=name)
                    records = [it.split('"')[1] for it in lines if it.startswith("  record: ")]
                    must(f"{words} {second}: {lines}", status == 1 and records[:1] == [f"{folder}/{first}~2.{label}"] and len(records) == 1)
                    must(f"{words} {second}: {lines}", [it for it in lines if it.startswith(("ok ", "not ok "))][-1].startswith("not ok 2 - "))
                    must(f"{words} {second}", read(path) == text if text is not None else not os.path.exists(path))
        # (the first record of its name is taken as well, and another file of the name comes behind)
        write(os.path.join(self.room, "a", "x.program"), f"#! end off\n{RACE}")
        write(os.path.join(self.room, "x.program~2.1.failed"), differs)
        names = ("x.program", "y.program", "a/x.program")
        for others, numbers in (((), ("", "~2")), (("x.program.1.failed",), ("~2", "~3")), (("x.program~2.1.failed",), ("", "~3"))):
            _, lines = told_of(self.room, *names, *others)
            records = [it.split('"')[1] for it in lines if it.startswith('  record: "./x')]
            must(f"{others}: {lines}", records == [f"./x.program{number}.1.failed" for number in numbers])
        for link in (os.link, os.symlink):
            path, other = os.path.join(self.room, "x.program.1.failed"), os.path.join(self.room, "good.trace")
            write(path, differs)
            link(path, other)
            for words in (("x.program", "good.trace"), ("good.trace", "x.program")):
                found = tester(self.room, *words)
                lines = found.stdout.splitlines()
                must(f"{found}", found.returncode == 7 and found.stderr.startswith("sbiboard: ./x.program.1.failed: ") and read(path) == differs)
                must(f"{found}", sum(it.startswith("  unwritten: ") for it in lines) == 1 and sum(it.startswith("not ok ") for it in lines) == 2)
            os.remove(other)

    def test_the_last_order_of_a_seed_is_tried(self):
        """`--order 18446744073709551615` tries that order, as any other."""
        for order in ("18446744073709551615", "18446744073709551614", "0"):
            status, lines = told(self.room, "#! end off\n" + RACE, "--order", order)
            must(f"{order}: {lines}", status == 1 and "  orders: 1" in lines and f"  order: {order}" in lines and f'  record: "./race.program.0-{order}.failed"' in lines)
            must("no record", read(os.path.join(self.room, f"race.program.0-{order}.failed")).startswith("board 2 4 "))
        status, lines = told(self.room, RACE, "--order", "18446744073709551615")
        must(f"{lines}", status == 0 and lines[1] == "ok 1 - race.program: no order ends stuck: holds in 1 orders of unknown many, seed 0")
        found = tester(self.room, "--order", "18446744073709551616", "race.program")
        must(f"{found}", found.returncode == 2)

    def test_each_end_is_told_once(self):
        """`# orders` tells each end once, and how many orders have it."""
        both = "board 2 1 100 0 0x80000000 0x0\nat 0x80000000\necall 0x48534d 0 1 0x80000010\nwfi\nat 0x80000010\necall 0x53525354 0 0 0\n"
        for text in (RACE, WAKE, both, SOME_END, ENDLESS, OFF):
            _, lines = explored(self.room, text)
            orders = next(it for it in lines if it.startswith("# orders: "))
            for end in ("off", "quiet", "stuck"):
                must(f"{orders}", len(re.findall(rf"\b{end}\b", orders)) == (end in all_orders.Orders(text).ends))

    def test_conditions_of_examples_are_about_something(self):
        """No condition of an example is vacuous, and of each program some order ends or that is told."""
        folder = os.path.join(EXAMPLES, "orders")
        for name in sorted(os.listdir(folder)):
            _, lines = told_of(self.room, os.path.join(folder, name))
            must(f"{name}: {lines}", not any(": vacuous: " in it or ": not judged: " in it or ": no order ends" in it for it in lines))
