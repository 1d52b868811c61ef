"""`--html DIR` of the script: a page for each point that fails, with its order and one that passes, and a page that lists them."""
import glob
import html
import json
import os
import re
import shutil
import sys
from urllib.parse import unquote

from passing import Failing, NoOrder, ends_well, near
from program_model import Program

from . import judge
from .fixtures import EXAMPLES, PROGRAM, ROOT, TESTER, Test, must, read, tester
from .test_timelines import Parts
from .test_wrapper import clone, must_end, put, ran

ORDERS = ("forgotten-hart.program", "lost-wakeup.program")
TRACE = "board 1 1 9 0 0x80000000 0x0\n0 advance -> entry 0x80000000 0 0x0\n0 sip -> value 0x2\n"
SCHEDULE = "#! each _ sip -> value 0x2\nboard 1 1 9 0 0x80000000 0x0\n0 advance\n0 sip\n"
# Of the calls that are drawn: the words, and which points have a page, with an order that passes (None: with none).
FAILS = {"forgotten-hart.program": {4: True, 3: None}, "lost-wakeup.program": {2: True}, "bare.program": {None: True}, "stuck.program": {None: None}, "a.sched": {1: None}, "a.trace": {None: None}}


class Drawn:
    """A page: its titles, what stands below them, and of each course its steps as lines of a trace."""

    def __init__(self, path):
        parts = Parts(read(path))
        scripts = dict(parts.all_of("script"))
        self.data, texts = json.loads(scripts["data"]), re.sub(r"\\(.)", r"\1", scripts["texts"]).split("\n")
        self.titles, self.lines, self.whys = [it["title"] for it in self.data["courses"]], [], []
        for course in self.data["courses"]:
            own, texts = texts[: len(course["actors"])], texts[len(course["actors"]) :]
            self.lines.append([it.partition("   ")[0] for it in own])
            self.whys.append([it.partition("   # ")[2] for it in own])


def rows(path):
    """Of each row of the list: the page that it leads to and the step (None: none), the point, and what is said."""
    found = []
    for row in re.findall(r"<tr><td>(.*)</tr>", read(path)):
        point, orders, record, said = row.split("<td>")
        link = re.fullmatch(r'<a href="([^"]*)\.html#(\d+)">(.*)</a>', point)
        page = (unquote(link[1]), int(link[2])) if link else None
        found.append((page, html.unescape(link[3] if link else point), orders, html.unescape(record), said))
    return found


def ends_of(text, lines):
    """The steps of an order of a program, and how it ends."""
    followed = judge.Followed(Program(text), "\n".join(["", *lines]))
    return followed.steps, followed.end


class HtmlPages(Test):
    programs = (TESTER,)

    def setUp(self):
        super().setUp()
        self.front = clone(self.room)
        self.work = os.path.join(self.room, "work")
        os.mkdir(self.work)
        out = os.path.join(self.room, "clone/crates/sbiboard_test/out")
        os.makedirs(out)
        shutil.copy(TESTER, out)
        for name in ORDERS:
            shutil.copy(os.path.join(EXAMPLES, "orders", name), self.work)
        shutil.copy(os.path.join(EXAMPLES, "stuck.program"), self.work)
        put(os.path.join(self.work, "bare.program"), re.sub(r"(?m)^#!.*$", "", read(os.path.join(EXAMPLES, "orders/lost-wakeup.program"))))
        put(os.path.join(self.work, "a.trace"), TRACE)
        put(os.path.join(self.work, "a.sched"), SCHEDULE)

    def called(self, *words, front=None, **more):
        """What the script does in the folder of the scripts."""
        return ran(self.room, ["bash", "-c", 'cd work; exec "$@"', "-", front or self.front, *words], seconds=300, **more)

    def must_be_drawn(self, folder, text, point, page):
        """A point's page has the record, and below it an order of the program that is as it asks, and begins alike."""
        drawn = Drawn(os.path.join(folder, f"{page[0]}.html"))
        record = [it for it in read(os.path.join(self.work, page[0])).splitlines() if " -> " in it]
        must(f"{point}: {drawn.lines[0]}", drawn.lines[0] == record and page[1] == drawn.data["at"] + 1 and drawn.titles[0] == f"fails: {page[0]}")
        line = re.search(r": line (\d+): ", point)
        asked = next((it for it in judge.conditions(text) if line and it.line == int(line[1])), None)
        is_so = lambda steps, end: judge.holds(asked, steps, end) if asked else end in ("quiet", "off")
        must(f"{point}: the record is good", not is_so(*ends_of(text, drawn.lines[0])))
        if len(drawn.lines) < 2:
            return None
        must(f"{point}: {drawn.lines[1]}", is_so(*ends_of(text, drawn.lines[1])) and drawn.lines[1][: drawn.data["parting"]] == record[: drawn.data["parting"]])
        return drawn

    def test_html__pages_of_points_that_fail(self):
        """`test` and `explore` draw each point that fails: its record, opened at the step at which it fails, and an order that passes below."""
        for place, (words, files) in enumerate((
            (["test"], list(FAILS)), (["explore"], [it for it in FAILS if it.endswith(".program")]), (["test", "--times", "60"], ["forgotten-hart.program"]),
        )):  # fmt: skip
            folder = os.path.join(self.work, f"pages{place}")
            status, out, said = self.called(*words, "--html", folder, *files)
            own = tester(self.work, *words[1:], *files, name="sbiboard" if words[0] == "test" else "sbiboard explore", timeout=200)
            must(f"{words}: {out}, and not {own.stdout}", (status, out) == (own.returncode, own.stdout) == (1, own.stdout))
            listed = rows(os.path.join(folder, "index.html"))
            failing = re.findall(r"^not ok \d+ - (.*)$", out, re.M)
            drawn = [it for it in listed if it[0]]
            blocks = re.findall(r"(?m)^not ok \d+ - .*\n(?:  ---\n((?:.*\n)*?)  \.\.\.\n)?", out)
            counts = [re.search(r"  failing: (\d+)\n  orders: (\d+)\n", it) for it in blocks]
            records = [re.search(r'  record: "(.*)"\n', it) for it in blocks]
            wanted = [(f"{count[1]} of {count[2]}" if count else "", record[1] if record else "") for count, record in zip(counts, records)]
            must(f"{words}: {listed}, and not {wanted}", [(it[2], it[3]) for it in listed] == wanted and any(records))
            must(f"{words}: {listed}", [it[1] for it in listed] == failing and said == f"sbiboard: {folder}/index.html lists the points that fail ({len(listed)}, and {len(drawn)} drawn)\n")
            must(f"{words}: {os.listdir(folder)}", sorted(os.listdir(folder)) == sorted([*(f"{it[0][0]}.html" for it in drawn), "index.html"]) and len(drawn) >= len(files))
            for page, point, *_ in drawn:
                name = point.partition(":")[0]
                if name.endswith(".program"):
                    line = re.search(r": line (\d+): ", point)
                    both = self.must_be_drawn(folder, read(os.path.join(self.work, name)), point, page)
                    must(f"{words}, {point}: with an order that passes: {both is not None}", (both is not None) == bool(FAILS[name][int(line[1]) if line else None]))

        # (of orders of a seed it is told how many fail)
        _, out, _ = self.called("test", "--times", "60", "--html", "some", "lost-wakeup.program")
        failing = int(re.search(r"\n  failing: (\d+)\n", out)[1])
        orders = [it[2] for it in rows(os.path.join(self.work, "some/index.html"))]
        must(f"{orders}", orders == [f"{failing} of 60"] and 0 < failing < 60)

    def test_html__an_order_that_passes_is_near(self):
        """The order that passes parts from the one that fails where the bug is: the clear that came too late comes before the IPI."""
        self.called("test", "--html", "pages", "lost-wakeup.program")
        drawn = Drawn(os.path.join(self.work, "pages/lost-wakeup.program.2.failed.html"))
        one, other = drawn.lines
        must(f"{one} {other}", drawn.data["parting"] == 9 and one[9].startswith("0 ecall 0x735049") and other[9] == "1 clearssip -> done" == one[10] and other[10] == one[9])
        must(f"{drawn.whys}", drawn.whys[0][0] == "the firmware" and drawn.whys[0][7] == "line 9" and drawn.whys[1][9].startswith("line 15: this belongs in front of the line above"))
        text = read(os.path.join(self.work, "pages/lost-wakeup.program.2.failed.html"))
        must("what it waits for", "stuck: hart 1: line 16 &#x27;wfi&#x27;: SSIP is 0" in text and "whose first 9 steps are the same" in text)

    def test_html__nothing_fails(self):
        """Where nothing fails it says so and writes no page; those of an earlier run are taken away, and no others."""
        put(os.path.join(self.work, "good.sched"), "board 1 1 9 0 0x80000000 0x0\n0 advance\n")
        good = (0, None, "sbiboard: no point fails, so no page is written\n")
        must_end(self.called("test", "--html", "pages", "good.sched"), *good)
        must("a folder was made", not os.path.exists(os.path.join(self.work, "pages")))
        self.called("test", "--html=pages", "a.sched")
        put(os.path.join(self.work, "pages/own.html"), "<html></html>")
        must("pages", sorted(os.listdir(os.path.join(self.work, "pages"))) == ["a.sched.failed.html", "index.html", "own.html"])
        must_end(self.called("test", "good.sched", "--html", "pages"), *good)
        must("older pages", os.listdir(os.path.join(self.work, "pages")) == ["own.html"])

    def test_html__folders_with_brackets(self):
        """A folder's name is no pattern: its older pages are taken away, and those of another folder aren't."""
        put(os.path.join(self.work, "good.sched"), "board 1 1 9 0 0x80000000 0x0\n0 advance\n")
        for folder in ("pa", "p[a]", "p*", "[p] a/b?"):
            self.called("test", "--html", folder, "a.sched")
        for folder, left in (("p[a]", ["p*", "pa", "[p] a/b?"]), ("p*", ["pa", "[p] a/b?"]), ("[p] a/b?", ["pa"])):
            must_end(self.called("test", "--html", folder, "good.sched"), 0, None, "sbiboard: no point fails, so no page is written\n")
            found = {it: os.listdir(os.path.join(self.work, it)) for it in (folder, *left)}
            must(f"{folder}: {found}", not found[folder] and all(len(found[it]) == 2 for it in left))

    def test_html__pages_of_somebody_else(self):
        """A list that --html hasn't made stays, and nothing is tested or taken away; nor does a page take the place of another one."""
        pages, own = os.path.join(self.work, "pages"), "<!DOCTYPE html>\n<title>mine</title>\n"
        self.called("test", "--html", "pages", "a.sched")
        os.remove(os.path.join(self.work, "a.sched.failed"))
        put(os.path.join(pages, "index.html"), own)
        kept = {name: read(os.path.join(pages, name)) for name in os.listdir(pages)}
        must_end(self.called("test", "--html", "pages", "a.sched"), 7, "", "sbiboard: pages/index.html: not a page of --html, which overwrites no other\n")
        must("it was tested", not os.path.exists(os.path.join(self.work, "a.sched.failed")) and {name: read(os.path.join(pages, name)) for name in os.listdir(pages)} == kept)
        os.rename(os.path.join(pages, "index.html"), os.path.join(pages, "own"))
        for make in (os.mkdir, lambda path: os.symlink("own", path), lambda path: os.symlink("none", path)):
            make(os.path.join(pages, "index.html"))
            must_end(self.called("explore", "--html=pages", "stuck.program")[:2], 7, "")
            (os.rmdir if make is os.mkdir else os.remove)(os.path.join(pages, "index.html"))
        must("what it named was written", sorted(os.listdir(pages)) == ["a.sched.failed.html", "own"] and read(os.path.join(pages, "own")) == own)
        put(os.path.join(pages, "a.sched.failed.html"), own)
        self.called("test", "--html", "pages", "a.sched")
        (page, *_), *_ = rows(os.path.join(pages, "index.html"))
        must(f"{page}", page == ("a.sched.failed-2", 2) and read(os.path.join(pages, "a.sched.failed.html")) == own)

    def test_html__points_that_are_cut_off(self):
        """Where a run ends before it has told all points, it isn't said that none fails, and no older page is left."""
        self.called("test", "--html", "pages", "a.sched")
        unread = [self.front, "test", "--html", "pages", "lost-wakeup.program"]
        status, _, said = ran(self.room, ["bash", "-c", 'cd work; "$@" | true; exit "${PIPESTATUS[0]}"', "-", *unread], seconds=300)
        must(f"{status} {said}", status != 0 and "no point fails" not in said and not glob.glob(os.path.join(self.work, "pages/*")))
        # (what wasn't judged is told all the same, and is drawn as what fails)
        for words, status, many in ((["--times", "0", "lost-wakeup.program"], 8, 2), (["--failed", "none", "a.sched"], 7, 1)):
            found = self.called("test", "--html", "pages", *words)
            listed = rows(os.path.join(self.work, "pages/index.html"))
            must(f"{words}: another count", f"<h1>Points that fail: {many}</h1>" in read(os.path.join(self.work, "pages/index.html")))
            must(f"{words}: {found}, {listed}", found[0] == status and len(listed) == many and f"pages/index.html lists the points that fail ({many}, and 0 drawn)\n" in found[2])

    def test_html__no_room_for_a_page(self):
        """A page for which there is no room is named with the reason and taken away; the points are told all the same."""
        status, out, said = ran(self.room, ["bash", "-c", 'cd work; ulimit -f 8; exec "$@"', "-", self.front, "test", "--html", "new", "lost-wakeup.program"])
        must_end((status, said), 7, "sbiboard: new/lost-wakeup.program.2.failed.html: File too large\n")
        must(f"{out}", "not ok 1 - lost-wakeup.program: line 2" in out and not os.listdir(os.path.join(self.work, "new")))

    def test_html__points_without_a_plan(self):
        """Where some points are told, and then no plan, no page is written, and it isn't said that these points are all."""
        for told in ("not ok 1 - a.sched: line 1: x", "ok 1 - a.sched: line 1: x"):
            for status in (0, 1, 7):
                put(os.path.join(self.room, "clone/crates/sbiboard_test/out/sbiboard_test"), f'#!/bin/bash\nwhile [ "$1" != --tap ]; do shift; done\nprintf "TAP version 13\\n{told}\\n" > "$2"\nexit {status}\n')
                must_end(self.called("test", "--html", "pages", "a.sched"), status, "", "sbiboard: not all points were told, so no page is written\n")
        must("a page was written", not os.path.exists(os.path.join(self.work, "pages")))

    def test_html__orders_are_judged_by_the_program(self):
        """An order near the one that fails is judged by the program: which conditions its trace breaks. One with which the board doesn't agree passes in no way, nor does one that can't be read."""
        sys.path.insert(0, os.path.join(ROOT, "tools/front"))
        from html_pages import Pages

        asked = "#! never 0 sip\n#! each 0 advance -> entry _ 0 _\n#! some 0 wfi\n"
        trace = asked + "board 1 1 9 0 0x80000000 0\n0 advance -> entry 0x80000000 0 0x0\n{}0 sie 2 -> done\n"
        rows = (("", {2}), ("0 sip -> value 0\n", {0, 2}), ("0 sip -> value 2\n", None), ("0 sie 2 -> value 0\n", None), ("0 sie 2 -> don\n", None), ("0 ecall 0x735049 0 1 0 -> ret 0 0\n0 sie 2 -> done\n0 wfi -> done\n", set()))
        found = Pages(TESTER, self.work).judge([trace.format(it) for it, _ in rows])
        must(f"{found}", found == [it for _, it in rows])

    def test_html__older_points(self):
        """A file of points that this run hasn't written isn't taken for its own."""
        put(os.path.join(self.work, "points"), "not ok 1 - a.sched: line 1: x\n1..1\n")
        put(os.path.join(self.room, "clone/crates/sbiboard_test/out/sbiboard_test"), "#!/bin/bash\nexit 1\n")
        must_end(self.called("test", "--html", "pages", "--tap", "points", "a.sched"), 1, "", "sbiboard: not all points were told, so no page is written\n")
        must("a page was written", not os.path.exists(os.path.join(self.work, "pages")))

    def test_html__names_and_texts_are_escaped(self):
        """Whatever a file is called, its page is found by the list, and no name is read as a page's own text. A trace that differs is drawn with its own answers."""
        name = "a <b>&% \"c'.program"
        shutil.copy(os.path.join(self.work, "lost-wakeup.program"), os.path.join(self.work, name))
        self.called("test", "--html", "new/pages", name, "a.trace", "none")
        folder = os.path.join(self.work, "new/pages")
        (page, point, *_), (trace, *_), (none, *_, said) = rows(os.path.join(folder, "index.html"))
        must(f"{page} {point}", page == (f"{name}.2.failed", 11) and point.startswith(f"{name}: line 2") and none is None and said == "no order of it is kept")
        parts = Parts(read(os.path.join(folder, f"{name}.2.failed.html")))
        must(f"{parts.found}", [it[1] for it in parts.all_of("title") + parts.all_of("b")] == [f"{name}.2.failed"] * 2)
        drawn = Drawn(os.path.join(folder, "a.trace.html"))
        must(f"{trace} {drawn.lines}", trace == ("a.trace", 2) and drawn.lines == [TRACE.splitlines()[1:]] and drawn.data["courses"][0]["other"] == [1])

    def test_html__records_of_one_name(self):
        """Of two files of one name each point has a record and a page of its own."""
        os.mkdir(os.path.join(self.work, "below"))
        put(os.path.join(self.work, "below/a.sched"), SCHEDULE.replace("0 sip", "0 sie 2\n0 sip"))
        self.called("test", "--html", "pages", "a.sched", "below/a.sched")
        (first, *_), (second, *_) = rows(os.path.join(self.work, "pages/index.html"))
        must(f"{first} {second}", (first, second) == (("a.sched.failed", 2), ("a.sched~2.failed", 3)))
        # (traces that differ have no records, and are drawn themselves)
        put(os.path.join(self.work, "below/a.trace"), TRACE.replace("0 sip", "0 sie 2 -> done\n0 sip"))
        self.called("test", "--html", "pages", "a.trace", "below/a.trace", "a.trace")
        pages = [page for page, *_ in rows(os.path.join(self.work, "pages/index.html"))]
        steps = [Drawn(os.path.join(self.work, "pages", f"{name}.html")).lines[0] for name, _ in pages]
        must(f"{pages} {steps}", pages == [("a.trace", 2), ("a.trace-2", 3), ("a.trace-3", 2)] and [len(it) for it in steps] == [2, 3, 2])
        # (the list has a name, too)
        put(os.path.join(self.work, "index"), TRACE)
        self.called("test", "--html", "pages", "index", "a.trace")
        pages = [page for page, *_ in rows(os.path.join(self.work, "pages/index.html"))]
        must(f"{pages}", pages == [("index-2", 2), ("a.trace", 2)])

    def test_html__words(self):
        """--html has a folder, once, of `test` and `explore` alone; what it can't write or read is said before a test begins."""
        for words, end in ((["--html"], "a value is required for '--html <DIR>' but none was supplied"), (["--html", "a", "--html", "b", "a.sched"], "cannot be used multiple times"), (["--html", "--", "a.sched"], "none was supplied")):
            status, out, said = self.called("test", *words)
            must(f"{words}: {out!r} {said!r}", (status, out) == (2, "") and end in said)
        must_end(self.called("replay", "--html", "x", "a.sched")[:2], 2, "")
        must_end(self.called("test", "--html", "a.trace", "a.sched"), 7, "", "sbiboard: a.trace: not a folder\n")
        must_end(self.called("test", "--html", "a.trace/b/c", "a.sched"), 7, "", "sbiboard: a.trace/b/c: a.trace is not a folder\n")
        must_end(self.called("test", "--html", "pages", "--tap", "/dev/null", "a.sched"), 7, "", "sbiboard: /dev/null: not a file, from which the points could be read\n")
        status, out, _ = self.called("test", "--html", "pages", "--tap", "points", "a.sched")
        must("the points", status == 1 and read(os.path.join(self.work, "points")) == out)
        must_end(self.called("test", "--html", "pages", "--", "--html"), 1, None)
        must_end(self.called("test", "--failed", "none", "--html", "pages", "a.sched")[:1], 7)
        status, out, said = self.called("explore", "--html", "pages", "--times", "3", "a.sched")
        must(f"{said}", (status, out) == (2, "") and "unexpected argument '--times' found" in said)

    def test_html__of_try_and_of_an_installed_copy(self):
        """--try draws the same pages, and so does an installed copy, which needs no source."""
        self.called("test", "--html", "pages", "lost-wakeup.program")
        wanted = {name: read(os.path.join(self.work, "pages", name)) for name in os.listdir(os.path.join(self.work, "pages"))}
        must(f"{list(wanted)}", len(wanted) == 2)
        made = {"RT_PROGRAM": TESTER}
        must_end(self.called("--install", os.path.join(self.room, "copy"), SBIBOARD_PROGRAM=PROGRAM if os.path.exists(PROGRAM) else TESTER)[:1], 0)
        os.remove(os.path.join(self.room, "clone/crates/sbiboard_test/out/sbiboard_test"))
        must_end(self.called("--try", "test", "--html", "tried", "lost-wakeup.program", **made)[:1], 1)
        shutil.rmtree(os.path.join(self.room, "clone"))
        must_end(self.called("test", "--html", "copied", "lost-wakeup.program", front=os.path.join(self.room, "copy/sbiboard"))[:1], 1)
        for folder in ("tried", "copied"):
            must(folder, {name: read(os.path.join(self.work, folder, name)) for name in os.listdir(os.path.join(self.work, folder))} == wanted)


class NearOrders(Test):
    programs = ()

    def test_html__orders_near_one_that_fails(self):
        """Each order that is tried is one of the program, up to an end, and has the steps in common that are told; the first that is good is chosen."""
        text = read(os.path.join(EXAMPLES, "orders/forgotten-hart.program"))
        program, point, steps = Program(text), Program(text).start(), []
        while found := [*program.steps(point)]:
            *step, point = found[-1]
            steps.append(tuple(step))
        record = "\n".join(["board 3 6 100 0 0x80000000 0x0", *(f"{judge.spelled(*it)}" for it in steps)])
        failing, tried = Failing(text, record, len(steps) - 1), 0
        for order in failing.others():
            lines = order.trace(failing.board_line, []).splitlines()
            followed = judge.Followed(program, "\n".join(lines))
            must(f"{lines}", followed.end == order.end and followed.steps == order.steps and order.steps[: order.same] == steps[: order.same] and order.steps[order.same] != steps[order.same])
            tried += 1
        must(f"{tried} orders", tried >= 20)
        asked = []
        found = near(failing, ["#! never 0 wfi"], "#! never 0 wfi", lambda traces: asked.extend(traces) or [None if place % 2 == 0 else set() for place, _ in enumerate(traces)])
        must("the first that is good", found is not None and found.trace(failing.board_line, ["#! never 0 wfi"]) == asked[1])
        with self.assertRaises(NoOrder):
            Failing(text, record + "\n0 wfi -> done", 0)
        must("ends", ends_well("#! end off", "history-full") and ends_well("#! maybe end off quiet # so", "quiet") and not ends_well("#! end off", "quiet") and not ends_well("#! end off", "stuck"))
        must("without conditions", ends_well(None, "off") and ends_well(None, "quiet") and ends_well(None, "history-full") and not ends_well(None, "stuck"))
        must("ways out", ends_well("#! can end", "stuck") and ends_well("#! can end quiet", "quiet") and not ends_well("#! can end", "history-full") and not ends_well("#! maybe can end off quiet", "stuck"))
        must("none is good", near(failing, ["#! never 0 wfi"], "#! never 0 wfi", lambda traces: [{0} for _ in traces]) is None)

    def test_html__an_order_that_can_end_is_near(self):
        """Of `can end` an order passes that ends so; it is no condition of traces."""
        text = read(os.path.join(EXAMPLES, "orders/wake-storm.program"))
        late = ["0 advance", "0 ecall 0x48534d 0x0 0x1 0x80001000 0x0 0x0 0x0 0x0", "1 advance", "1 sie 0x2", "1 clearssip", "0 ecall 0x735049 0x0 0x2 0x0 0x0 0x0 0x0 0x0"]
        failing = Failing(text, "\n".join(["board 2 4 100 0 0x80000000 0x0", *late]), len(late))
        for asked, end in (("#! can end", "stuck"), ("#! maybe can end stuck", "stuck"), ("#! can end quiet", None)):
            traces = []
            found = near(failing, [asked], asked, lambda batch: traces.extend(batch) or [set() for _ in batch])
            must(f"{asked}: {found and found.end}", (found and found.end) == end and traces and not any("can" in it for it in traces))
