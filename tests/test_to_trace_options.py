"""tools/to-trace by tables: each option, each bound, and the rules of hart lists."""
import gzip
import os
import re

from .fixtures import Test, checked, must, named, read, read_bytes, script, write
from .test_to_trace import TO_TRACE, printed_by

ENTRY = "record 2\n0 entry 0x80000000 0 0\n"
CALL = "0 call {} 0 0 0 0 0 0\n0 ret {} {}\n"
# A call that is passed over by each name.
PASSED_OVER = {"legacy": CALL.format("1 0", -2, 0), "pmu": CALL.format("0x504d55 0", 0, 7), "console": CALL.format("0x4442434e 0", 0, 1), "impl": CALL.format("0x10 1", 0, 1)}

# Hart lists that this board refuses and a firmware accepted: the mask, the base, and the sentence of the rule.
LISTS = (
    (0, 2, "a base that is no hart's is refused with mask 0 too"), (0, 9, "a base that is no hart's is refused with mask 0 too"),
    (1, 2, "a bit that names no hart refuses the whole list, and nobody is reached"), (6, 0, "a bit that names no hart refuses the whole list, and nobody is reached"),
    (4, 1, "a bit that names no hart refuses the whole list, and nobody is reached"),
)  # fmt: skip

TWO = """record 2
0 entry 0x80000000 0 0
0 call 0x48534d 0 1 0x80000000 0 0 0 0
0 ret 0 0
1 entry 0x80000000 1 0
"""
SLEEP = "1 call 0x48534d 3 0 0 0 0 0 0 sie=2 sip=0\n1 ret 0 0 sie=2 sip=2\n"


class ToTraceOptions(Test):
    @named("options of to-trace")
    def test_options_of_to_trace(self):
        """Each option of `to-trace`: where the trace goes, where the report, what is passed over, and what is refused."""
        path = script(self.room, (ENTRY + CALL.format("0x10 0", 0, 0x1000000)).encode())
        made = os.path.join(self.room, "made")
        trace, _ = printed_by([TO_TRACE, path])
        report, _ = printed_by([TO_TRACE, "--report", path])
        must(f"{trace} {report}", trace.count(" -> ") == 2 and report.startswith("calls 1, entries 1: 2 agree\n") and " -> " not in report)
        for words, printed, is_written in ((["--out", made], "", True), (["--report", "--out", made], report, True), (["--report"], report, False)):
            out, said = printed_by([TO_TRACE, *words, path])
            is_there = os.path.exists(made)
            must(f"{words}: {out!r}, {said!r}, {is_there}", out == printed and not said and is_there == is_written)
            if is_there:
                must(f"{words}: the trace in the file is another one", read(made) == trace)
                os.remove(made)
        for words in ([], ["--fly", path], [path, path], ["--map", "1", path], ["--map", "x=y", path], ["--map", path], ["--ignore", "all", path], ["--ignore", "", path], ["--out"], ["--spec", "9.9", path], ["--symbols", path, path]):
            must(f"{words}", printed_by([TO_TRACE, *words], 2)[0] == "")
        for words in ([os.path.join(self.room, "none")], ["--out", os.path.join(path, "in it"), path]):
            printed, said = printed_by([TO_TRACE, *words], 1)
            must(f"{words}: {printed!r}, {said!r}", not printed and said.startswith("to-trace: ") and said.count("\n") == 1)
        asked = write(os.path.join(self.room, "asked"), "# of all\n#! never 0 poll\nboard\n#! some 0 advance\n")
        with_them, _ = printed_by([TO_TRACE, "--conditions", asked, path])
        printed, said = printed_by([TO_TRACE, "--report", "--conditions", asked, path], 2)
        must(f"conditions of a trace that isn't written: {printed!r}, {said!r}", not printed and "--conditions stand in the trace" in said)
        must("the report has conditions in it", printed_by([TO_TRACE, "--report", "--conditions", asked, "--out", made, path])[0] == report and "#! some 0 advance\n" in read(made))
        heads = [line for line in with_them.split("board ")[0].splitlines() if line.startswith("#!")]
        must(f"{with_them}", heads == ["#! never 0 poll", "#! some 0 advance"] and [line for line in with_them.splitlines() if line not in heads] == trace.splitlines())

    def test_compressed_records(self):
        """A record that gzip compressed is read as it is; one that was cut off is told."""
        path = script(self.room, (ENTRY + CALL.format("0x10 0", 0, 0x1000000)).encode())
        packed = gzip.compress(read_bytes(path))
        wanted = printed_by([TO_TRACE, "--report", path])
        write(path, packed)
        must(f"it isn't {wanted}", printed_by([TO_TRACE, "--report", path]) == wanted)
        write(path, packed[:40])
        printed, said = printed_by([TO_TRACE, path], 1)
        must(f"{printed!r}, {said!r}", not printed and said == f"to-trace: {path}: what gzip compressed is broken\n")

    def test_calls_that_are_passed_over_by_each_name(self):
        """--ignore passes over the calls of each name, alone and together, and no others."""
        text = ENTRY + "".join(PASSED_OVER.values())
        path = script(self.room, text.encode())
        for names in (*([it] for it in PASSED_OVER), ["legacy", "console"], list(PASSED_OVER)):
            trace, _ = printed_by([TO_TRACE, "--ignore", ",".join(names), path])
            passed = [line for line in trace.splitlines() if line.startswith("# passed over: ")]
            must(f"{names}: {trace}", passed == [f"# passed over: 1 of {name}" for name in sorted(names)] and trace.count(" ecall ") == 4 - len(names))

    def test_addresses_in_either_radix(self):
        """--map takes decimal numbers and hexadecimal ones, and each is what it says."""
        path = script(self.room, b"record 1\n0 entry 0x40000000 0 0\n0 call 0x48534d 0 0 0x40000010 0 0 0 0\n0 ret -6 0\n")
        traces = {printed_by([TO_TRACE, "--map", it, path])[0] for it in ("0x40000000=0x80000000", "1073741824=2147483648", "0x40000000=2147483648", "1073741824=0x80000000")}
        must(f"{traces}", len(traces) == 1 and "board 1 " in min(traces) and " 0x80000010 " in min(traces) and "0 entry" not in min(traces))

    def test_bounds_of_records_and_traces(self):
        """A record has 1 to 128 harts; the board of a trace has as many, and a history of as many steps as there are. An error has 64 bits
        and a sign, however it is written."""
        for harts in (1, 2, 127, 128):
            trace, _ = printed_by([TO_TRACE, script(self.room, f"record {harts}\n0 entry 0x80000000 0 9\n".encode())])
            board = next(line for line in trace.splitlines() if line.startswith("board "))
            must(f"{harts}: {board}", board.split()[1:4:2] == [str(harts), "1"] and board.split()[4:] == ["0", "0x80000000", "0x9"])
            checked(self.room, trace.encode(), 0, b"agrees 1\n", b"")
        for harts in (0, 129, 130, 1 << 32):
            _, said = printed_by([TO_TRACE, script(self.room, f"record {harts}\n0 entry 0x80000000 0 0\n".encode())], 1)
            must(f"{harts}: {said}", said.endswith(": line 1: a board has 1 to 128 harts\n"))
        for error, is_least in ((-(1 << 63), True), ((1 << 63) - 1, False)):
            for word in (str(error), f"{'-' * is_least}{abs(error):#x}"):
                trace, _ = printed_by([TO_TRACE, script(self.room, (ENTRY + CALL.format("0x10 0", word, 0)).encode())])
                must(f"{word}: {trace}", f" -> ret {error} 0x0  # " in trace)
        for calls in (1, 9, 130):
            trace, _ = printed_by([TO_TRACE, script(self.room, (ENTRY + CALL.format("0x10 0", 0, 0x1000000) * calls).encode())])
            board = next(line for line in trace.splitlines() if line.startswith("board "))
            must(f"{calls}: {board}", int(board.split()[3]) == calls + 1 == trace.count(" -> "))

    def test_names_and_comments_that_are_not_ascii(self):
        """A trace is ASCII, whatever its record is called and its conditions' comments say; a page shows the name."""
        text = ENTRY + CALL.format("0x10 0", 0, 0x1000000)
        asks = os.path.join(self.room, "asks")
        with open(asks, "wb") as file:
            file.write(b"#! some _ ecall BASE 0  # na\xc3\xafve \xff\n")
        for name, shown in (("\u00e9 r.record", "\u00e9 r.record"), ("b\udcefd.record", "b\ufffdd.record")):
            path, out = write(os.path.join(self.room, name), text), os.path.join(self.room, "out")
            trace, _ = printed_by([TO_TRACE, "--conditions", asks, path])
            must(f"{trace}", trace.startswith(f"# of the record {re.sub('[^ -~]', '?', name)}\n#! some _ ecall 0x10 0  # na"))
            checked(self.room, trace.encode("ascii"), 0, b"agrees 2\n", b"")
            printed_by([TO_TRACE, "--conditions", asks, "--out", out, path])
            must("another trace", read(out) == trace)
            for words in ([os.path.join(os.path.dirname(TO_TRACE), "timeline"), path], [os.path.join(os.path.dirname(TO_TRACE), "record-stats"), "--page", out, path]):
                printed, _ = printed_by(words)
                must(f"{words}: {printed[:300]}", f"<title>{shown}" in (printed if words[1] == path else read(out)))

    def test_rules_of_hart_lists(self):
        """A hart list that is refused here, and was accepted there, is told by its own rule."""
        for mask, base, sentence in LISTS:
            for call, answer in (("0x735049 0", "0 0"), ("0x52464e43 1", "0 0")):
                path = script(self.room, f"{ENTRY}0 call {call} {mask:#x} {base} 0 0 0 0\n0 ret {answer}\n".encode())
                report, _ = printed_by([TO_TRACE, "--report", path])
                told = re.findall(r"^  \d+ x .*$", report, re.M)
                must(f"{mask:#x} {base}: {report}", len(told) == 1 and told[0].startswith(f"  1 x {sentence} (") and told[0].endswith("docs/FIRMWARE.md, Hart lists)"))

    def test_hart_lists_reach_their_harts(self):
        """An IPI wakes each hart that its list names, however it names it: a hart that sleeps meanwhile wakes by it, and no step differs."""
        for mask, base in ((2, "0"), (3, "0"), (1, "1"), (0, "0xffffffffffffffff"), (7, "0xffffffffffffffff")):
            text = f"{TWO}0 call 0x735049 0 {mask} {base} 0 0 0 0\n0 ret 0 0\n{SLEEP}"
            path = script(self.room, text.encode())
            report, _ = printed_by([TO_TRACE, "--report", path])
            trace, _ = printed_by([TO_TRACE, path])
            must(f"{mask} {base}: {report} {trace}", "calls 3, entries 2: 5 agree\n" in report and "1 sie 0x2 -> done" in trace and "clearssip" not in trace)
            checked(self.room, trace.encode(), 0, b"agrees %d\n" % trace.count(" -> "), b"")

    def test_hart_lists_of_interrupts_that_come_again(self):
        """SSIP that was set, isn't seen, and is seen later, was cleared meanwhile exactly where an IPI came in between, however its list names the hart."""
        told = "1 call 0x10 0 0 0 0 0 0 0 sie=2 sip={}\n1 ret 0 0x1000000\n"
        for mask, base, is_named in ((2, "0", True), (1, "1", True), (0, "0xffffffffffffffff", True), (5, "0xffffffffffffffff", True), (1, "0", False), (0, "1", False)):
            ipi = lambda mask, base: f"0 call 0x735049 0 {mask} {base} 0 0 0 0\n0 ret 0 0\n"
            trace, _ = printed_by([TO_TRACE, script(self.room, (TWO + ipi(2, 0) + told.format(0) + ipi(mask, base) + told.format(2)).encode())])
            must(f"{mask} {base}: {trace}", ("1 clearssip -> done" in trace) == is_named)

    def test_clocks_that_begin_anew(self):
        """After a reset the recorded clock may be behind the board's by any number of ticks: what follows is later by as many."""
        for entered in (30, 98, 99, 100):
            late = 100 - entered
            text = f"record 1\n0 entry 0x80000000 0 5 time=100\nm reset\n0 entry 0x80000000 0 5 time={entered}\n0 call 0x54494d45 0 {entered + 50} 0 0 0 0 0 time={entered + 40}\n0 ret 0 0\n"
            trace, _ = printed_by([TO_TRACE, script(self.room, text.encode())])
            steps = [line.partition("  #")[0] for line in trace.splitlines() if " -> " in line]
            wanted = ["c tick 0x28 -> done", f"0 ecall 0x54494d45 0x0 {entered + 50 + late:#x} 0x0 0x0 0x0 0x0 0x0 -> ret 0 0x0"]
            must(f"{entered}: {steps}", steps[-2:] == wanted)
