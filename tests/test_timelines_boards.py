"""What a page of tools/timeline shows of the board behind a step, why an answer is stale, and two courses beside each other."""
import json
import os
import random
import re
import shutil
from unittest import SkipTest

from board_model import WIDTHS, access_of, board_of, is_in, step_of, words_of

from . import replays, test_modes
from .fixtures import EXAMPLES, Test, every, must, read, script, write
from .test_timelines import DRAWN, TIMELINE, Parts, data_of, tool
from .test_to_trace import printed_by

# How many random schedules are looked at, and their steps.
RANDOM, STEPS = 20, 250
ROOTS = (0x80001000, 0x80006000)
LEAVES = (0x80003008, 0x80003010, 0x80008008)
PAGES = (0x80004, 0x80005, 0x80009)


def start():
    """Two harts with two page tables each."""
    tables = ((0x80001000, 0x80002), (0x80002000, 0x80003), (0x80006000, 0x80007), (0x80007000, 0x80008))
    lines = ["board 3 12 100000 0 0x80000000 0x0", "0 advance", "0 ecall 0x48534d 0 1 0x80000000 0", "0 ecall 0x48534d 0 2 0x80000000 0", "1 advance", "2 advance"]
    lines += [f"0 store {at:#x} {to << 10 | 1:#x}" for at, to in tables]
    lines += [f"{hart} satp {8 << 60 | 5 << 44 | ROOTS[0] >> 12:#x}" for hart in (1, 2)]
    return lines + [f"0 store {at:#x} {PAGES[0] << 10 | 0xCF:#x}" for at in LEAVES]


def some_line(of):
    """A step that uses, changes or fences a translation, as often one as another."""
    hart, guest, page = of.randrange(3), of.choice((1, 2)), of.choice((0x1000, 0x1000, 0x2000))
    leaf = f"{of.choice(PAGES) << 10 | of.choice((0xCF, 0xCF, 0xC3, 0xEF, 0)):#x}"
    return of.choice((
        *[f"{guest} load {page:#x}"] * 4, *[f"{guest} fetch {page:#x}", f"{guest} fetch {page + 8:#x}", f"{guest} fetch {page:#x}"] * 2, f"{guest} store {page:#x} {of.randrange(9):#x}",
        f"{guest} amoadd.w {page + 4:#x} {of.randrange(9):#x}", f"{guest} store2 {page + 6:#x} {of.randrange(9):#x}", f"0 amoor {of.choice(LEAVES):#x} {of.choice((0x80, 0xC0, 0)):#x}",
        f"0 amocas {of.choice(PAGES) * 4096:#x} {of.randrange(3):#x} {of.randrange(9):#x}",
        *[f"0 store {of.choice(LEAVES):#x} {leaf}"] * 3, *[f"0 store {of.choice(PAGES) * 4096:#x} {of.randrange(9):#x}"] * 2,
        f"{guest} satp {of.choice((0, *(8 << 60 | of.choice((5, 5, 6)) << 44 | it >> 12 for it in ROOTS * 2))):#x}", f"{guest} fencei",
        f"{hart} sfence {of.choice(('-', f'{page:#x}'))} {of.choice(('-', '5'))}",
        f"{hart} ecall 0x52464e43 {of.choice((0, 1, 1, 2))} {of.randrange(8):#x} 0 {page:#x} {of.choice((0x1000, 0x1000, 0))} 5",
        *[f"{it} {op}" for it in range(3) for op in ("serve", "poll")], "c tick 1", f"{guest} sie 0x22", f"{hart} ecall 0x735049 0 {of.randrange(8)} 0",
    ))  # fmt: skip


def random_text(seed):
    of = random.Random(seed)
    return "\n".join([*start(), *(some_line(of) for _ in range(STEPS))]) + "\n"


def of_modes(seed, width):
    """A schedule with pages of all sizes, of either mode, and short ASIDs."""
    some = random.Random(seed)
    steps = [*test_modes.ENTRIES.split("|"), *(" ".join(it) for it in test_modes.SETUP), *(" ".join(it) for _ in range(300) for it in test_modes.random_step(some))]
    return "\n".join([f"board 3 {test_modes.PAGES} 1000 0 0x80000000 0x0 {some.choice((16, 9, 1, 0))} {width}", *steps]) + "\n"


class Boards:
    """A schedule's board before its steps, and behind each."""

    def __init__(self, text):
        lines = [words_of(line.partition("->")[0]) for line in text.splitlines()]
        lines = [it for it in lines if it]
        self.board, self.steps, self.answers, self.stale = board_of(lines[0]), [step_of(it) for it in lines[1:]], [], []
        self.behind = []
        for place, step in enumerate(self.steps):
            self.answers.append(self.board.step(*step))
            if self.board.is_stale:
                self.stale.append(place)
            self.behind.append(self.board.copy())


# ---- what the page has of each board


def value_at(series, place):
    return [value for at, value in zip(series[::2], series[1::2]) if at <= place][-1]


def held_at(course, h, kind, place):
    return [course["labels"][it[3]] for it in course["held"][h] if it[0] == kind and it[1] <= place and (it[2] is None or it[2] > place)]


def numbers_of(text):
    return [int(it, 0) for it in re.findall(r"\b(?:0x[0-9a-f]+|[0-9]+)\b", text)]


def must_show(course, fields, h, place, board):
    """The page's data of a hart behind a step are the board's."""
    hart, found = board.harts[h], {name: value_at(course["values"][h][at], place) for at, name in enumerate(fields)}
    wanted = {
        "state": hart.state, "ssip": int(bool(hart.ssip)), "stip": int(board.is_due(h)), "sie": hart.sie, "sstatus": hart.sstatus, "satp": f"{hart.satp:#x}",
        "deadline": "" if hart.deadline is None else f"{hart.deadline:#x}",
    }  # fmt: skip
    must(f"step {place + 1}, hart {h}: {found}, and not {wanted}", wanted.items() <= found.items())
    must(f"step {place + 1}, hart {h}: {found['out']!r}", found["out"] == ("" if hart.outstanding is None else " ".join(map(str, sorted(hart.outstanding))) or "none"))
    is_kept = any(line.startswith(f"# entry {h:3} ") for line in replays.below(h, hart))
    must(f"step {place + 1}, hart {h}: {found['kept']!r}", numbers_of(found["kept"]) == (list(hart.kept) if is_kept else []))
    tlb = [(numbers_of(it)[:2], "global" in it) for it in held_at(course, h, 0, place)]
    must(f"step {place + 1}, hart {h}: its TLB is {tlb}", tlb == [([entry[0], entry[4]], entry[3]) for _, entry in hart.tlb])
    words = [numbers_of(it) for it in held_at(course, h, 1, place)]
    must(f"step {place + 1}, hart {h}: its words are {words}", words == [[at, word] for _, at, word in hart.words])
    fences = [(numbers_of(it)[0], "FENCE.I" in it) for it in held_at(course, h, 2, place)]
    must(f"step {place + 1}, hart {h}: its fences are {fences}", fences == [(caller, fence is None) for caller, fence in hart.waiting])


# ---- why an answer is stale, by looking at every earlier board


def is_of_space(satp, entry):
    return satp and (entry[3] or entry[2] == satp >> 44 & 0xFFFF)


def is_other_at(boards, h, entry, filled, place):
    """Whether a walk behind a step wouldn't give an entry: by the last satp that the hart wrote with its address space."""
    satp = next(it.harts[h].satp for it in reversed(boards.behind[: place + 1]) if is_of_space(it.harts[h].satp, entry))
    kind, _ = access_of(boards.steps[filled][1])
    return boards.behind[place].is_other(satp, kind, entry[0], entry)


def changed_at(filled, place, is_other):
    """The first step of those up to this one behind which it is another one, and stays one."""
    return max((at for at in range(filled, place + 1) if not is_other(at)), default=filled - 1) + 1


def wanted_cause(boards, place):
    """The steps that filled and changed what a stale access used."""
    h, op = boards.steps[place]
    _, va = access_of(op)
    hart = boards.behind[place - 1].harts[h]
    used = lambda board: next(((n, it) for n, it in reversed(board.harts[h].tlb) if hart.satp and is_in(va, it) and is_of_space(hart.satp, it)), None)
    entry = used(boards.behind[place - 1])
    if entry:
        filled = filled_at(boards, h, "tlb", entry)
        if is_other_at(boards, h, entry[1], filled, place - 1):
            return filled, changed_at(filled, place - 1, lambda at: is_other_at(boards, h, entry[1], filled, at))
    entry = used(boards.behind[place])
    address = entry[1][4] + va - entry[1][0] if entry else va
    word = next(it for it in reversed(hart.words) if it[1] == address)
    filled = filled_at(boards, h, "words", word)
    return filled, changed_at(filled, place - 1, lambda at: boards.behind[at].ram.get(address, 0) != word[2])


def filled_at(boards, h, name, item):
    return next(at for at, it in enumerate(boards.behind) if item in getattr(it.harts[h], name))


def must_mark(course, boards, place):
    """What each hart holds behind a step is marked as stale where it is."""
    board = boards.behind[place]
    for h, hart in enumerate(board.harts):
        held = lambda kind: [it for it in course["held"][h] if it[0] == kind and it[1] <= place and (it[2] is None or it[2] > place)]
        marked = lambda it: next((a for a, b in (it[4] if len(it) > 4 else ()) if a <= place and (b is None or place <= b)), None)
        for kind, items in ((0, [it for _, it in hart.tlb]), (1, hart.words)):
            for it, item in zip(held(kind), items):
                is_other = is_other_at(boards, h, item, it[1], place) if kind == 0 else board.ram.get(item[1], 0) != item[2]
                must(f"step {place + 1}, hart {h}: {it}, and stale is {is_other}", (marked(it) is not None) == is_other)


def must_tell(course, boards):
    """Each stale step has its cause, and no other step has one; the steps of the fill and of the change are those of a long search."""
    must(f"stale are {course['stale']}, not {boards.stale}", course["stale"] == boards.stale and [int(it) for it in course["causes"]] == boards.stale)
    for place in boards.stale:
        why, *steps = course["causes"][str(place)]
        must(f"step {place + 1}: {steps}, not {wanted_cause(boards, place)}", tuple(steps) == wanted_cause(boards, place))
        told, h = course["whys"][why], boards.steps[place][0]
        must(f"step {place + 1}: {told}", len(told) > 2 and told[0][1] == steps[0] and told[1][1] == steps[1] and f"step {steps[0] + 1} (line " in told[0][0])
        must(f"step {place + 1}: {told}", told[0][0].startswith(f"used: hart {h}'s ") and told[1][0].startswith(f"changed at step {steps[1] + 1} (line "))
        must_tell_fences(told[2:], boards, place, steps[1])


def must_tell_fences(told, boards, place, changed):
    """The last fences since the change are told, with the harts that were asked."""
    is_word = boards.steps[place][1][0] == "fetch" and "memory has" in " ".join(text for text, _ in told)
    for text, at in told:
        if at < 0 or "before the change" in text:
            continue
        actor, op = boards.steps[at]
        must(f"step {place + 1}: {text}", changed < at < place and f"step {at + 1} (" in text)
        if op[0] == "ecall":
            others = boards.behind[at].harts[actor].outstanding
            asked = re.search(r", which asked ((?:harts? )?[\d, nohart]+?)(?:;|, and not|$)", text)[1]
            named = {int(it) for it in re.findall(r"\d+", asked)}
            must(f"step {place + 1}: {text}, and asked were {others}", named - {actor} == set(others) and boards.answers[at] == ("waiting",) and not is_word)
        else:
            must(f"step {place + 1}: {text}", f"hart {actor}'s own" in text and op[0] in ("sfence", "fencei"))


class TimelineBoards(Test):
    programs = ()

    def course_of(self, text):
        data, _ = data_of(tool([TIMELINE, script(self.room, text.encode())])[0])
        return data

    def test_timelines__the_board_behind_each_step(self):
        """A page has each hart's registers, translations, words and fences behind each step: those of the model of the board."""
        texts = [read(os.path.join(EXAMPLES, name)) for name in ("forgotten-hart.sched", "hart-life.sched", "reboot-mid-shootdown.sched", "timer.sched", "crossing-fences.sched")]
        texts += [every(400, 1_000).decode(), *(random_text(seed) for seed in range(3))]
        for text in texts:
            course, boards = self.course_of(text), Boards(text)
            for place, board in enumerate(boards.behind):
                for h in range(len(board.harts)):
                    must_show(course, course["fields"], h, place, board)

    def test_timelines__why_an_answer_is_stale(self):
        """Of a stale access the translation or word that it used, its fill, what changed since, and the fences, in random schedules too."""
        stale = 0
        texts = [read(os.path.join(EXAMPLES, name)) for name in ("forgotten-hart.sched", "short-asid.sched")]
        texts += [*(random_text(seed) for seed in range(RANDOM)), *(of_modes(seed, width) for seed in range(5) for width in WIDTHS.values())]
        for text in texts:
            course, boards = self.course_of(text), Boards(text)
            stale += len(boards.stale)
            must_tell(course, boards)
            for place in range(0, len(boards.behind), 3):
                must_mark(course, boards, place)
        must(f"{stale} stale steps", stale > 10 * RANDOM)

    def test_timelines__what_is_told_of_fences(self):
        """Each way in which fences miss a stale translation: not asked, asked and waiting, of another page, too early, one's own, none."""
        load, remap = "1 load 0x1000", f"0 store 0x80003008 {PAGES[1] << 10 | 0xCF:#x}"
        first = [*start(), "2 satp 0x0", load]
        fence = lambda mask, page=0x1000: f"0 ecall 0x52464e43 1 {mask} 0 {page:#x} 0x1000"
        for lines, wanted in (
            ([remap, fence(4)], "which asked hart 2, and not hart 1"), ([remap, fence(6)], "which asked harts 1, 2; hart 1 hasn't served it yet"), ([remap, fence(2, 0x2000), "1 serve"], "which asked hart 1; it doesn't cover this"),
            ([remap, "0 sfence - -"], "sfence.vma of all pages: hart 0's own, and not hart 1's"), ([remap, "1 sfence 0x2000 -"], "hart 1's own, which doesn't cover this"), ([remap, fence(1)], "which asked hart 0, and not hart 1"),
            ([remap, fence(0)], "which asked no hart, and not hart 1"), ([fence(2), remap], f"fenced at step {len(first)} (line {len(first) + 1}: 0 ecall), before the change, and not since"), ([remap], "no fence at hart 1 since then"),
            ([remap, "0 fencei"], "no fence at hart 1 since then"), ([remap, *["0 sfence 0x2000 -"] * 6], "2 more fences since then"),
        ):  # fmt: skip
            # (a fence call that asks others is open until they serve)
            text = "\n".join([*first, *(it.replace("0 store 0x80003008", "2 store 0x80003008") for it in lines), load]) + "\n"
            course = self.course_of(text)
            *_, told = course["whys"]
            must(f"{lines}: {told}", any(it.endswith(wanted) for it, _ in told))
        text = "\n".join([*start(), "1 satp 0x0", "1 fetch 0x80004000", "0 store 0x80004000 0x7", "1 sfence - -", "1 fetch 0x80004000"]) + "\n"
        (told,) = self.course_of(text)["whys"]
        wanted = ["used: hart 1's fetched word 0x80004000 is 0x0, filled at step 16 (line 17: 1 fetch)", "changed at step 17 (line 18: 0 store): memory has 0x7", "no fence at hart 1 since then"]
        must(f"{told}", [it for it, _ in told] == wanted)


# ---- two courses


def both(page):
    scripts = dict(Parts(page).all_of("script"))
    return json.loads(scripts["data"]), scripts["texts"].split("\n")


# Steps of one hart, and what each changes of what a page shows of it. The last one switches the board off.
SHOWN = (
    ("0 advance", ["STARTED", "entered"]), ("0 sie 0x2", ["sie SSIE"]), ("0 sie 0x20", ["sie STIE"]), ("0 sie 0x22", ["sie SSIE+STIE"]), ("0 sie 0", ["sie 0"]), ("0 sip", []), ("0 ecall 0x735049 0 1 0", ["pending SSIP"]),
    ("0 clearssip", ["SSIP 0"]), ("0 ecall 0x54494d45 0 5", ["deadline 0x5"]), ("c tick 5", ["pending STIP"]), ("0 ecall 0x54494d45 0 9", ["STIP 0", "deadline 0x9"]), ("0 sstatus 1", ["sstatus.SIE"]), ("0 sstatus 0", ["sstatus.SIE 0"]),
    ("0 satp 0x8000000000080000", ["satp 0x8000000000080000"]), ("0 satp 0", ["satp 0"]), ("0 ecall 0x52464e43 0 1 0", ["in a fence call, waits for: none"]), ("0 poll", ["out of the fence call"]),
    ("0 ecall 0x53525354 0 0 0", None),
)  # fmt: skip


class TimelinesBeside(Test):
    programs = ()

    def pages(self):
        """The page of the forgotten hart beside the same with its hart asked, as a file."""
        text = read(os.path.join(EXAMPLES, "forgotten-hart.sched"))
        other = write(os.path.join(self.room, "mended <b>.sched"), text.replace("0x2 0 0x1000 0x1000", "0x6 0 0x1000 0x1000").replace("\n1 serve", "\n1 serve\n2 serve"))
        page, _ = printed_by([TIMELINE, os.path.join(EXAMPLES, "forgotten-hart.sched"), other])
        return write(os.path.join(self.room, "both.html"), page), page

    def test_timelines__two_beside_each_other(self):
        """Of two courses each is whole, they part at the first step that differs, and a step's twin is the same one of the same hart."""
        _, page = self.pages()
        parts = Parts(page)
        must(f"{parts.found}", [it[1] for it in parts.all_of("title") + parts.all_of("b")] == ["forgotten-hart.sched beside mended <b>.sched"] * 2)
        data, texts = both(page)
        first, second = data["courses"]
        must("the texts", len(texts) == len(first["actors"]) + len(second["actors"]) and [first["title"], second["title"]] == ["forgotten-hart.sched", "mended <b>.sched"])
        done = lambda place, course: texts[place + (len(first["actors"]) if course else 0)].partition("   # ")[0].removesuffix("   STALE")
        parting = data["parting"]
        must(f"they part at {parting}", parting == 15 and done(14, 0) == done(14, 1) and "0x2 0x0 0x1000" in done(15, 0) and "0x6 0x0 0x1000" in done(15, 1))
        for course, other in ((0, 1), (1, 0)):
            for place, twin in enumerate(data["courses"][course]["twins"]):
                step = done(place, course).partition(" -> ")[0]
                alone = step not in [done(it, other).partition(" -> ")[0] for it in range(len(data["courses"][other]["actors"]))]
                must(f"{step}: {twin}", twin == -1 if alone else done(twin, other).startswith(f"{step} -> "))
        same, _ = both(printed_by([TIMELINE, *[os.path.join(EXAMPLES, "timer.sched")] * 2])[0])
        must("the same twice", same["parting"] == len(same["courses"][0]["actors"]))
        # (two answers part them as two steps do)
        traces = [write(os.path.join(self.room, f"{at}.trace"), f"board 1 1 9 0 0x80000000 0\n0 advance -> entry 0x80000000 0 0x0\n0 sip -> value {at}\n0 wfi -> refused 3\n") for at in (0, 2)]
        other, _ = both(printed_by([TIMELINE, *traces])[0])
        must(f"two answers: {other['parting']}", other["parting"] == 1)

    def test_timelines__a_page_shows_the_board(self):
        """What a page shows behind a step: each hart, what is stale, why, and what the other course has there."""
        if shutil.which("node") is None:
            raise SkipTest("node is missing")
        path, _ = self.pages()
        shown = json.loads(printed_by(["node", DRAWN, path, "1400", "700", "20"])[0])
        must(f"{shown['tops']}", [len(it) for it in shown["tops"]] == [4, 4] and shown["tops"][1][0] > shown["tops"][0][-1] + 26)
        stale = [text for kind, text in shown["board"][2] if kind == "stale"]
        must(f"{shown['board']}", [it[0][1] for it in shown["board"]] == ["hart 0", "hart 1", "hart 2"] and stale == ["translation 0x1000 to 0x80004000 rw-d (ASID 5), filled at step 14, STALE since step 15"])
        must(f"{shown['why']}", len(shown["why"]) == 4 and shown["why"][2].endswith("asked hart 1, and not hart 2") and shown["why"][3].startswith("beside: 21  2 load 0x1000 -> value 0x22"))
        # (a box is around each step whose answer is another one than beside)
        data, texts = both(read(path))
        first = len(data["courses"][0]["actors"])
        answers = [it.partition("   # ")[0].partition(" -> ")[2] for it in texts]
        answers, wanted = [answers[:first], answers[first:]], []
        for index, course in enumerate(data["courses"]):
            differing = [place for place, twin in enumerate(course["twins"]) if twin >= 0 and answers[index][place] != answers[1 - index][twin]]
            wanted += [(shown["lefts"] + place * shown["per"] + 1, shown["tops"][index][course["actors"][place] + 1] - 1) for place in differing]
        boxes = [it[:2] for it in shown["boxes"] if it[2] > 0 and it[4] == "#0050c0"]
        must(f"the boxes are {boxes}, and not {wanted}", len(boxes) == len(wanted) >= 4 and all(any(abs(x - a) < 1.5 and y == b for x, y in boxes) for a, b in wanted))
        asked = json.loads(printed_by(["node", DRAWN, path, "1400", "700", "16"])[0])["board"]
        must(f"{asked}", ["new", "fence from hart 0: sfence.vma of 0x1000 to 0x1fff, asked at step 16"] in asked[1] and ["new", "in a fence call, waits for: 1"] in asked[0])
        must("a word for each", {"from here on others", "forgotten-hart.sched", "mended <b>.sched"} <= {it[0] for it in shown["words"]})

    def test_timelines__registers_that_a_page_shows(self):
        """A page shows behind each step what it changed of a hart's registers, each by its own name, and whether the power is off."""
        if shutil.which("node") is None:
            raise SkipTest("node is missing")
        path = write(os.path.join(self.room, "page.html"), printed_by([TIMELINE, script(self.room, "".join(f"{it}\n" for it in ("board 1 1 99 0 0x80000000 0", *(line for line, _ in SHOWN))).encode())])[0])
        for step, (line, wanted) in enumerate(SHOWN, 1):
            shown = json.loads(printed_by(["node", DRAWN, path, "1400", "700", str(step)])[0])
            found = [text for kind, text in shown["board"][0] if kind == "new"]
            must(f"{line}: {found}, and not {wanted}", wanted is None or found == wanted)
            must(f"{line}: {shown['head']}", shown["head"].startswith(f"the board behind step {step}") and (", power off" in shown["head"]) == (step == len(SHOWN)))

    def test_timelines__two_in_a_browser(self):
        """A real browser shows two courses, with the board and the cause of the step at which the page opens."""
        chosen = next((name for name in ("chromium", "chromium-browser", "google-chrome") if shutil.which(name)), None)
        if chosen is None:
            raise SkipTest("no chromium is there")
        path, _ = self.pages()
        words = [chosen, "--headless", "--no-sandbox", "--disable-gpu", f"--user-data-dir={self.room}/own", "--window-size=1400,800", "--dump-dom", f"file://{path}#20"]
        dom = tool(words)[0].decode()
        must("it isn't drawn", int(re.search(r'data-drawn="([0-9]+)"', dom)[1]) > 60)
        for wanted in ('class="stale">translation 0x1000 to 0x80004000', "asked hart 1, and not hart 2</a>", "beside: 21  2 load", "behind step 20", "<b>hart 2</b>", "another answer than beside"):
            must(f"the page lacks {wanted}", wanted in dom)
        # (the mouse moves over the call of the first course)
        moves = "canvas.dispatchEvent(new MouseEvent('mousemove', { clientX: canvas.getBoundingClientRect().left + toX(15.5), clientY: canvas.getBoundingClientRect().top + laneTop(courses[0], 1) + 9 }));"
        write(path, read(path).replace("</body>", f"<script>{moves} document.body.dataset.under = panel.textContent;</script></body>"))
        dom = tool([*words[:-1], f"file://{path}"])[0].decode()
        tip = re.search(r'<div id="tip"[^>]*>([^<]*)<', dom)[1]
        must(f"the tip is {tip}", tip.startswith("16:  0 ecall 0x52464e43 0x1 0x2"))
        # (the browser's own mouse, which is elsewhere, may come later)
        under = re.search(r'data-under="([^"]*)"', dom)[1]
        must(f"the board under the mouse is {under}", "behind step 16" in under and "fence from hart 0: sfence.vma of 0x1000 to 0x1fff, asked at step 16" in under)
