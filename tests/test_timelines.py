"""tools/timeline: pages of records, traces and schedules, as data and as they are drawn, and pictures."""
import glob
import html.parser
import json
import os
import re
import shutil
from unittest import SkipTest

from board_model import STATES, board_of, spelled_answer, spelled_step, words_of

from .fixtures import EXAMPLES, RECORDS, ROOT, TESTER, Test, add, must, ran, read, script, shown, write
from .replays import steps, traced
from .test_to_trace import TO_TRACE, printed_by, record, tool
from .test_to_trace_options import TWO

TIMELINE = os.path.join(ROOT, "tools/timeline")
PICTURE = os.path.join(ROOT, "docs/forgotten-hart.svg")
DRAWN = os.path.join(RECORDS, "drawn.js")
IN_CALL = len(STATES)

# Which steps of the examples answer what is stale.
STALE = {
    "forgotten-hart.sched": [20, 22, 23], "remapped-page.sched": [12], "tlb-shootdown.sched": [18], "crossing-fences.sched": [], "hart-life.sched": [],
    "goes-on.sched": [14],
    "ipi-wakes-a-hart.sched": [], "real-firmware.sched": [], "reboot-mid-shootdown.sched": [], "short-asid.sched": [13], "timer.sched": [], "two-entries.sched": [],
}  # fmt: skip


def data_of(page):
    found = re.search(rb'<script id="data" type="application/json">(.*?)</script>', page, re.S)
    texts = re.search(rb'<script id="texts" type="text/plain">(.*?)</script>', page, re.S)
    must("the page has no data", found is not None and texts is not None and b"@" + b"DATA@" not in page)
    return of_one(found[1]), texts[1].decode().split("\n")


def of_one(text):
    """The data of a page of one course."""
    data = json.loads(text)
    (course,) = data.pop("courses")
    return data | course


def must_be_told_stale(path, data):
    """The lines of a script that `test` tells as stale are those of the steps that its timeline marks."""
    found = ran([path], program=TESTER)
    with open(path, "rb") as file:
        lines = [number for number, line in enumerate(file, 1) if re.match(rb"\s*([0-9]+|clock|cut)\b", line)]
    told = [int(it) for it in re.findall(rb"^# line ([0-9]+): stale: ", found.stdout, re.M)]
    marked = [lines[place] for place in data["stale"]]
    must(f"{path}: told as stale are the lines {told}, and marked {marked}; {shown(found.stdout)}", told == marked)


# Steps, and the word that each has in a picture.
WORDS = (
    ("0 advance", ""), ("0 ecall 0x48534d 0 1 0x80000000 0", "start"), ("1 advance", ""), ("0 ecall 0x48534d 2 1", "status"), ("0 ecall 0x735049 0 2 0", "ipi"), ("1 sip", "sip"), ("1 clearssip", "clearssip"),
    ("0 ecall 0x52464e43 0 2 0", "fence.i"), ("1 serve", "serve"), ("0 poll", "poll"), ("0 ecall 0x52464e43 1 2 0", "fence"), ("1 serve", "serve"), ("0 poll", "poll"), ("0 ecall 0x52464e43 2 2 0", "fence"), ("1 serve", "serve"),
    ("0 poll", "poll"), ("0 ecall 0x10 0", "call"), ("0 ecall 0x54494d45 0 5", "call"), ("0 store 0x80000000 0x7", "store 0x7"), ("0 store 0x80000008 0x10000", "store"), ("1 load 0x80000000", "load 0x7"), ("1 load 0x1000", "load"),
    ("1 fetch 0x80000008", "fetch 0x10000"), ("1 sie 2", "sie"), ("1 fencei", "fencei"), ("1 sfence - -", "sfence"), ("c tick 1", "tick"), ("1 ecall 0x48534d 3 0 0", "suspend"), ("0 ecall 0x53525354 0 1 0", "reset"),
    ("0 advance", ""), ("0 ecall 0x48534d 1", "stop"),
)  # fmt: skip


def picture(room):
    """The picture of the README is the one that the tool makes, and a long file has none."""
    made, _ = tool([TIMELINE, "--svg", os.path.join(EXAMPLES, "forgotten-hart.sched")])
    must("docs/forgotten-hart.svg isn't what tools/timeline --svg examples/forgotten-hart.sched prints", made == open(PICTURE, "rb").read())
    part, _ = tool([TIMELINE, "--svg", "--steps", "5-10", os.path.join(EXAMPLES, "forgotten-hart.sched")])
    must("a picture of six steps has other ones", part.count(b'text-anchor="middle"') == 6 and b'viewBox="0 0 458 192"' in part)
    # (each call has its own word)
    found = tool([TIMELINE, "--svg", script(room, ("board 2 1 100 0 0x80000000 0\n" + "".join(f"{it}\n" for it, _ in WORDS)).encode())])[0].decode()
    words = re.findall(r'text-anchor="middle">([^<]*)</text>', found)
    must(f"the steps are named {words}", words == [word or "&#8226;" for _, word in WORDS])
    # (a part has the arrows and the marks of its own steps)
    whole, _ = data_of(tool([TIMELINE, os.path.join(EXAMPLES, "forgotten-hart.sched")])[0])
    last, seen = len(whole["actors"]) - 1, set()
    for first, behind in ((0, last), (4, 9), (0, 3), (2, 17), (16, last), (19, last), (20, 20), (23, last), (last, last)):
        part = tool([TIMELINE, "--svg", "--steps", f"{first + 1}-{behind + 1}", os.path.join(EXAMPLES, "forgotten-hart.sched")])[0].decode()
        arrows = sum(first <= a and b <= behind for a, _, b, _, _ in whole["arrows"])
        stale = sum(first <= it <= behind for it in whole["stale"])
        marks, named = part.count('fill="none" stroke="#b00020"'), part.count(">stale</text>")
        must(f"steps {first} to {behind}: {part.count('marker-end=')} arrows, {marks} marks", (part.count("marker-end="), marks, named) == (arrows, stale + bool(stale), int(bool(stale))))
        seen |= {(bool(arrows), bool(stale))}
    must(f"{seen}", len(seen) == 4)
    for words, said in ((["--svg"], b"are too many for a picture"), (["--svg", "--steps", "1-99999"], b"it has the steps 1-"), (["--svg", "--steps", "9-8"], b"it has the steps 1-")):
        must(f"{words}: another fault is told", said in tool([TIMELINE, *words, record("kernel")], 1)[1])
    tool([TIMELINE, "--svg", "--steps", "8", record("kernel")], 2)
    tool([TIMELINE, "--steps", "1-8", record("kernel")], 2)
    _, told = tool([TIMELINE, script(room, b"board 1 1 1 0 0x80000000 0\n0 advance\nhello\n")], 1)
    must(f"it said {shown(told)}", b"line 3: 'hello' is no line of a record, a trace or a schedule" in told)
    _, told = tool([TIMELINE, script(room, b"board 1 1 1 0 0x80000000 0\n" + 30 * b"hello " + b"\n")], 1)
    must(f"of a long line it said {shown(told)}", b"line 2: '" + 10 * b"hello " + b"..' is no line of a record" in told)


def many_steps(harts, steps):
    """A schedule in which all harts fence, are asked and suspend."""
    lines = [f"board {harts} 1 {steps} 0 0x80000000 0", "0 advance"]
    for hart in range(1, harts):
        lines += [f"0 ecall 0x48534d 0 {hart} 0x80000000 0", f"{hart} advance"]
    while len(lines) < steps:
        hart = len(lines) * 7 % harts
        other = (hart * 5 + len(lines)) % harts
        lines += [f"{hart} ecall 0x52464e43 1 1 {other} 0x1000 0x1000", f"{other} serve", f"{hart} poll", f"{hart} ecall 0x735049 0 1 {other}"]
        lines += ["c tick 1", f"{hart} ecall 0x48534d 2 {other}"]
    return "".join(line + "\n" for line in lines)


def must_be_labelled(dom, timed):
    """Of a page by steps and by time: calls have their names, from near and from far, and the axis is what it should be."""
    found = [re.search(rb'data-labels="([^"]*)"', it) for it in (dom, timed)]
    must("a page has no labels", None not in found)
    by_steps, by_time = (it[1].split() for it in found)
    times = [int(it[5:]) for it in by_time if it.startswith(b"time:")]
    must(f"by steps the labels are {by_steps}", not ({b"fence", b"ipi"} - set(by_steps)) and not any(it.startswith(b"time:") for it in by_steps))
    must(f"by time the labels are {by_time}", len(times) >= 3 and times == sorted(times) and {b"fence", b"start", b"ipi", b"serve"} & set(by_time))


# ---- pages, as data

# Harts that start, stop, sleep, fence and reboot, with ticks, comments that a page could take for its own, and recorded answers
# that this board doesn't give: two of them, of harts 2 and 3.
PAGE_TRACE = """\
board 4 4 100 1 0x80000000 0x7
1 advance -> entry 0x80000000 1 0x7   # <b>begins</b> & "so"
1 ecall 0x48534d 0 2 0x80000010 9 -> ret 0 0x0 # </script><script>alert(1)</script>
1 ecall 0x48534d 0 3 0x80000020 -> ret 0 0x0
2 advance -> entry 0x80000010 2 0x9
3 advance -> entry 0x80000020 3 0x0 # a \\ and a <\\/ here
c tick 0x10 -> done # 16 ticks
2 sip -> value 0x2 # it isn't so
2 sie 2 -> done # <!--<script> begins what no page ends, and <\\! is no such thing
2 ecall 0x48534d 3 0 -> waiting
2 advance -> moved 4
3 ecall 0x735049 0 0x4 0 -> ret -3 0x0
2 advance -> moved 6
2 advance -> ret 0 0x0
1 ecall 0x52464e43 0 0xc 0 -> waiting
cut -> done
3 serve -> served
2 serve -> served
1 poll -> ret 0 0x0
3 ecall 0x48534d 1 -> gone
3 advance -> moved 1
c tick 0x20 -> done
0 sip -> refused 2
2 ecall 0x53525354 0 2 0 -> gone
1 advance -> entry 0x80000000 1 0x7
"""


class Wanted:
    """What a page of a trace must have, by the model: of each step its lane, its text, its mark and its time, and each hart's states."""

    def __init__(self, text):
        lines = text.splitlines()
        self.actors, self.texts, self.other, self.times, self.shades = [], [], [], [], [shades_of(board_of(words_of(lines[0])))]
        for at, board, actor, op, answer in steps(text):
            said, _, comment = lines[at - 1].partition("->")[2].partition("#")
            self.see(actor, op, " ".join(said.split()), spelled_answer(answer), at, comment.strip())
            self.shades.append(shades_of(board))
            if actor is None and op[0] == "tick":
                self.times.append([len(self.actors) - 1, f"{board.time:x}"])
        # (what is behind the last step isn't drawn)
        self.shades.pop()

    def see(self, actor, op, said, answer, at, comment):
        self.actors.append(-1 if actor is None else actor)
        here = f"   (here {answer})" if said != answer else ""
        if here:
            self.other.append(len(self.texts))
        self.texts.append(f"{spelled_step(actor, op)} -> {said}{here}   # line {at}" + (f": {comment}" if comment else ""))


def shades_of(board):
    return [IN_CALL if hart.outstanding is not None else hart.state for hart in board.harts]


class Parts(html.parser.HTMLParser):
    """A page's title, its bold words, and what stands in its scripts, as a browser reads them."""

    def __init__(self, page):
        super().__init__()
        self.found, self.inside = [], None
        self.feed(page)

    def handle_starttag(self, tag, attrs):
        self.inside = (tag, dict(attrs).get("id"))
        if tag in ("script", "title", "b"):
            self.found.append([*self.inside, ""])

    def handle_endtag(self, tag):
        self.inside = None

    def handle_data(self, data):
        if self.inside and self.found and self.inside == tuple(self.found[-1][:2]):
            self.found[-1][2] += data

    def all_of(self, tag):
        return [(it[1], it[2]) for it in self.found if it[0] == tag]


def unescaped(texts):
    return re.sub(r"\\(.)", r"\1", texts).split("\n")


def must_be_wanted(data, told, wanted):
    for name, is_there, it in (
        ("lanes", data["actors"], wanted.actors), ("times", data["times"], wanted.times), ("marks", data["other"], wanted.other), ("texts", told, wanted.texts),
        ("harts", data["harts"], len(wanted.shades[0])), ("stale", data["stale"], []),
    ):  # fmt: skip
        must(f"the page's {name} are {is_there}, and not {it}", is_there == it)
    for hart, lane in enumerate(data["segments"]):
        shades = [shade for first, last, shade in lane for _ in range(first, last)]
        must(f"hart {hart} is drawn as {shades}", shades == [it[hart] for it in wanted.shades] and lane[0][0] == 0)


# The words of calls in a page.
CALLS = {
    0x48534D: ("start", "stop", "status", "suspend"), 0x735049: ("ipi",), 0x52464E43: ("fence.i", "fence", "fence"), 0x54494D45: ("timer",), 0x53525354: ("reset",),
}  # fmt: skip


def word_of(words):
    """The word that a page has of a step."""
    return dict(enumerate(CALLS.get(int(words[2], 0), ()))).get(int(words[3], 0), "call") if words[1] == "ecall" else words[1]


def must_draw_marks(drawn, wanted, data, x, near):
    """Arrows lead from lane to lane in the colour of their kind; a reset is a bar across all lanes; what is stale, or answered otherwise, is marked; steps have numbers from 1."""
    lane, tops = drawn["lane"], drawn["tops"]
    for a, h, b, t, kind in data["arrows"]:
        ends = (x(a + 0.5), tops[h + 1] + (lane if t > h else 0), x(b + 0.5), tops[t + 1] + (0 if t > h else lane))
        must(f"the arrow {a} {h} {b} {t} is not drawn in {drawn['lines']}", any(all(map(near, it, ends)) and it[4] == data["kindColours"][kind] for it in drawn["lines"]))
    bars = [it for it in drawn["rects"] if it[2] == 3 and it[4] == "#b00020"]
    must(f"the resets {data['resets']} are drawn as {bars}", [near(it[0] + 1.5, x(place + 0.5)) and it[1] == tops[0] and it[3] > tops[-1] - tops[0] for it, place in zip(bars, data["resets"], strict=True)] == [True] * len(bars))
    for places, colour in ((data["stale"], "#d00020"), (sorted({*data["other"]} - {*data["stale"]}), "#e07000")):
        marks = sorted(([it[0] + it[2] / 2, it[1]] for it in drawn["rects"] if it[4] == colour), key=lambda it: it[0])
        must(f"the marks of {places} are {marks}", len(marks) == len(places) and all(near(it[0], x(place + 0.5)) and it[1] == tops[wanted.actors[place] + 1] - 3 for it, place in zip(marks, places)))
    numbers = [(int(text), at) for text, at, y in drawn["words"] if y == 12]
    must(f"the steps have the numbers {numbers}", len(numbers) > 5 and all(near(at + 8, x(number - 0.5)) for number, at in numbers))
    counts = [f"{len(data[name])} {said}" for name, said in (("stale", "stale"), ("other", "where the board does otherwise")) if data[name]]
    must(f"the key is {drawn['keys']}, and not {counts}", [it for it in drawn["keys"] if it.endswith((" stale", " otherwise"))] == counts and len(data["arrows"]) == len(drawn["lines"]) > 2)


def must_draw(drawn, wanted, data):
    x = lambda place: drawn["lefts"] + place * drawn["per"]
    near = lambda one, other: abs(one - other) < 1.5
    for hart, lane in enumerate(data["segments"]):
        for first, last, shade in (it for it in lane if it[0] < it[1]):
            is_one = lambda it: near(it[0], x(first)) and near(it[2], x(last) - x(first)) and it[1] == drawn["tops"][hart + 1] and it[3] == drawn["lane"]
            must(f"hart {hart} is not drawn as {data['names'][shade]} from step {first} to {last}", any(is_one(it) and it[4] == data["colours"][shade] for it in drawn["rects"]))
    for place, actor in enumerate(wanted.actors):
        top = drawn["tops"][actor + 1]
        is_one = lambda it, word=word_of(wanted.texts[place].split(" ")): near(it[1], x(place + 0.5)) and top <= it[2] <= top + drawn["lane"] and it[0] == word
        must(f"step {place} has no word in the lane of {actor}: {wanted.texts[place]}", any(is_one(it) for it in drawn["words"]))
    times = [[place, word] for place, word in wanted.times if not any(it[0] == "0x" + word for it in drawn["words"])]
    must(f"the times {times} are not drawn", not times)
    must_draw_marks(drawn, wanted, data, x, near)
    heads = [["clock" if not at else f"hart {at - 1}", top] for at, top in enumerate(drawn["tops"])]
    must("the lanes have other names", all(any(it[0] == name and top < it[2] < top + drawn["lane"] for it in drawn["words"]) for name, top in heads))


class Timelines(Test):
    def test_timelines(self):
        """Pages of the stored records and of the examples: each step is there, and each lane is whole."""
        for path in [record(name) for name in ("kernel", "survey", "u-boot")] + sorted(glob.glob(os.path.join(EXAMPLES, "*.sched"))):
            page, _ = tool([TIMELINE, path])
            must(f"the page of {path} needs the network", not re.search(rb"https?://", page.replace(b"http://www.w3.org/", b"")))
            data, texts = data_of(page)
            steps = len(data["actors"])
            if len(texts) != steps or any(lane[-1][1] != steps for lane in data["segments"]):
                raise AssertionError(f"of {path}: {steps} steps, {len(texts)} lines, lanes up to {[lane[-1][1] for lane in data['segments']]}")
            for lane in data["segments"]:
                must(f"of {path}: a lane has gaps: {lane}", lane[0][0] == 0 and not any(a[1] != b[0] or a[2] == b[2] for a, b in zip(lane, lane[1:])))
            if path.endswith(".record"):
                trace, _ = tool([TO_TRACE, path])
                must(f"of {path}: {steps} steps, and the trace has {trace.count(b' -> ')}", steps == trace.count(b" -> "))

    def test_timelines__stale_answers(self):
        """Marked is what used a translation that a walk at its place wouldn't give, or a word that memory hasn't: so tells the proved board."""
        for name, places in STALE.items():
            path = os.path.join(EXAMPLES, name)
            data, texts = data_of(tool([TIMELINE, path])[0])
            must(f"{name}: stale are {[place + 1 for place in data['stale']]}, not {places}", [place + 1 for place in data["stale"]] == places)
            must_be_told_stale(path, data)
        for name in ("kernel", "survey", "u-boot"):
            made, _ = tool([TO_TRACE, record(name)])
            path = os.path.join(self.room, f"{name}.trace")
            write(path, made)
            must_be_told_stale(path, data_of(tool([TIMELINE, path])[0])[0])

    def test_timelines__arrows(self):
        """What belongs together is joined: counted in a small schedule of one of each."""
        text = """board 2 1 100 0 0x80000000 0
0 advance
0 ecall 0x48534d 0 1 0x80000000 0
1 advance
1 sie 0x22
1 ecall 0x48534d 3 0 0
1 advance
0 ecall 0x735049 0 0x2 0
1 advance
1 advance
1 clearssip
1 ecall 0x54494d45 0 5
1 ecall 0x48534d 3 0 0
1 advance
c tick 5
1 advance
1 advance
0 ecall 0x52464e43 0 0x2 0
1 serve
0 poll
0 ecall 0x53525354 0 1 0
0 advance
"""
        data, _ = data_of(tool([TIMELINE, script(self.room, text.encode())])[0])
        found = sorted((data["kinds"][kind], a + 1, h, b + 1, t) for a, h, b, t, kind in data["arrows"])
        wanted = [("fence", 17, 0, 18, 1), ("ipi", 7, 0, 8, 1), ("poll", 18, 1, 19, 0), ("start", 2, 0, 3, 1), ("start", 20, 0, 21, 0), ("time", 14, -1, 15, 1)]
        must(f"the arrows are {found}, the resets {data['resets']}", found == wanted and data["resets"] == [19])
        must(f"the times of the steps are {data['clock']}", data["clock"][:13] == [0] * 13 and data["clock"][13:] == [5] * 8)
        seen = data_of(tool([TIMELINE, script(self.room, text.replace("1 ecall 0x48534d 3 0 0\n1 advance\n0 ecall", "0 ecall", 1).encode())])[0])[0]
        must("leading zeros", len(data_of(tool([TIMELINE, script(self.room, b"board 01 0x01 009 00 0x80000000 0\n00 advance\n0x00 sie 002\n")])[0])[1]) == 2)
        must("a call without arguments", len(data_of(tool([TIMELINE, script(self.room, b"board 1 1 9 0 0x80000000 0\n0 advance\n0 ecall 0x735049 0\n0 ecall 0x48534d 0\n")])[0])[1]) == 3)
        must(f"an IPI to a hart that is awake has the arrows {seen['arrows']}", [data["kinds"][arrow[4]] for arrow in seen["arrows"]][:2] == ["start", "ssip"])
        must(f"a reset leaves hart 1's lane as {data['segments'][1]}", data["names"][data["segments"][1][-1][2]] == "STOPPED" and data["segments"][1][-1][:2] == [20, 21])

    def test_timelines_in_a_browser(self):
        """A real browser draws the pages, that of 100,000 steps of 128 harts too."""
        chosen = next((name for name in ("chromium", "chromium-browser", "google-chrome") if shutil.which(name)), None)
        if chosen is None:
            raise SkipTest("no chromium is there")
        for path, place in ((record("kernel"), 20), (script(self.room, many_steps(128, 100_000).encode()), 60_000)):
            page = os.path.join(self.room, "page.html")
            write(page, tool([TIMELINE, path])[0])
            words = [chosen, "--headless", "--no-sandbox", "--disable-gpu", f"--user-data-dir={self.room}/own", "--window-size=1400,800"]
            dom, _ = tool([*words, "--dump-dom", f"file://{page}#{place}"])
            drawn = re.search(rb'<body data-drawn="([0-9]+)" data-ms="([0-9]+)"', dom)
            must(f"{path}: drawn {drawn and drawn[0]}", drawn is not None and int(drawn[1]) >= 20 and int(drawn[2]) <= 1000)
            must(f"{path}: the step's line isn't shown", b'<div class="here">' in dom)
            must_be_labelled(dom, tool([*words, "--dump-dom", f"file://{page}#20t"])[0])

    def test_timelines__pages_have_their_data(self):
        """The page of a trace has of each step its lane, its time, its mark and its text; names and comments are text and nothing else."""
        wanted = Wanted(PAGE_TRACE)
        for name in ("a.trace", 'a <b>"&amp;</title><script>.trace'.replace("/", "|"), "@TEXTS@ @DATA@ @ABOUT@.trace"):
            page, _ = printed_by([TIMELINE, write(os.path.join(self.room, name), PAGE_TRACE)])
            parts = Parts(page)
            scripts = dict(parts.all_of("script"))
            must(f"{name}: {parts.found}", [it[1] for it in parts.all_of("title") + parts.all_of("b")] == [name, name] and list(scripts) == ["data", "texts", None])
            # (where both stand, a script goes on behind its end)
            must(f"{name}: a comment's sign stands in a script", "<!--" not in scripts["texts"])
            must_be_wanted(of_one(scripts["data"]), unescaped(scripts["texts"]), wanted)

    def test_timelines__options(self):
        """Each option of `timeline`: a page or a picture, addresses by --map, and what is refused with which status."""
        name = 'a <b>"&.trace'
        path = write(os.path.join(self.room, name), "board 1 1 9 0 0x80000000 0\n0 advance -> entry 0x80000000 0 0x0\n")
        picture, _ = printed_by([TIMELINE, "--svg", path])
        must(f"{picture}", picture.startswith("<svg ") and "<title>a &lt;b&gt;&quot;&amp;.trace</title>" in picture and picture.count(">hart 0</text>") == 1)
        moved = write(os.path.join(self.room, "moved.record"), "record 1\n0 entry 0x40000000 0 0\n")
        for words, address in ((["--map", "0x40000000=0x80000010"], "0x80000010"), (["--map", "1073741824=2147483664"], "0x80000010")):
            texts = unescaped(dict(Parts(printed_by([TIMELINE, *words, moved])[0]).all_of("script"))["texts"])
            must(f"{words}: {texts}", [it.partition("   # ")[0] for it in texts] == [f"0 advance -> entry {address} 0 0x0"])
        steps = lambda many: write(os.path.join(self.room, "steps.sched"), "board 1 1 200 0 0x80000000 0\n0 advance\n" + "0 sip\n" * (many - 1))
        must("120 steps", printed_by([TIMELINE, "--svg", steps(120)])[0].count("<text ") > 120)
        _, said = printed_by([TIMELINE, "--svg", steps(121)], 1)
        must(said, said.endswith(": 121 steps are too many for a picture: at most 120\n"))
        for chosen, is_there in (("1-120", True), ("120-120", True), ("1-1", True), ("1-121", False), ("121-121", False), ("5-4", False), ("0-5", False)):
            out, said = printed_by([TIMELINE, "--svg", "--steps", chosen, steps(120)], 0 if is_there else 1)
            must(f"{chosen}: {said}", bool(out) == is_there and said.endswith("" if is_there else ": it has the steps 1-120\n"))
        must("a page of 121 steps", len(of_one(dict(Parts(printed_by([TIMELINE, steps(121)])[0]).all_of("script"))["data"])["actors"]) == 121)
        for words, status in (([], 2), (["--fly", path], 2), ([path, path, path], 2), (["--svg", path, path], 2), ([os.path.join(self.room, "none")], 1), ([path, self.room], 1)):
            out, said = printed_by([TIMELINE, *words], status)
            must(f"{words}: {out!r}, {said!r}", not out and said)

    def test_timelines__differences_at_entries(self):
        """A register that was another one at an entry is marked there, and told with both values."""
        for name, note, here, there in (("sie", "sie=2 sip=0 sstatus=0", "0x0", "0x2"), ("sip", "sie=0 sip=2 sstatus=0", "0x0", "0x2")):
            path = script(self.room, TWO.replace("1 entry 0x80000000 1 0", f"1 entry 0x80000000 1 0 {note}").encode())
            page, _ = printed_by([TIMELINE, path])
            scripts = dict(Parts(page).all_of("script"))
            data, texts = of_one(scripts["data"]), unescaped(scripts["texts"])
            place = next(at for at, it in enumerate(texts) if it.startswith("1 advance -> entry"))
            must(f"{name}: {data['other']}, {texts}", place in data["other"] and f": here {here}, there {there}" in texts[place])

    def test_timelines__pages_are_drawn(self):
        """What a page draws: each hart's states in its own lane, in their colours and between their steps, and each step in the lane of its actor."""
        if shutil.which("node") is None:
            raise SkipTest("node is missing")
        for text in (PAGE_TRACE, traced(read(os.path.join(EXAMPLES, "forgotten-hart.sched")))):
            page, _ = printed_by([TIMELINE, write(os.path.join(self.room, "a.trace"), text)])
            scripts = dict(Parts(page).all_of("script"))
            drawn = json.loads(printed_by(["node", DRAWN, write(os.path.join(self.room, "page.html"), page), "2000", "600"])[0])
            must(f"the page reads its texts as {drawn['texts']}", drawn["texts"] == unescaped(scripts["texts"]))
            (drawn["tops"],) = drawn["tops"]
            must_draw(drawn, Wanted(text), of_one(scripts["data"]))


add(Timelines, "timelines: a picture", picture)
