"""Which of the things that harts hold are stale, step by step, and why an answer is: which translation or fetched word it used,
which step filled it, which step changed the tables or the memory since, and which harts were fenced. It follows the board of a
course, beside the model of the board."""
import contextlib
import re
from bisect import bisect_left
from collections import defaultdict

from board_model import GONE, RFENCE, WAITING, Board, Fault, access_of, covers, is_full, is_in, is_valid, targets
from holdings import FENCE, TRANSLATION, WORD, spelled_entry, spelled_fence

# How many fences are told.
MOST_FENCES = 4


class Noted:
    """A memory that notes what is read."""

    def __init__(self, words):
        self.words, self.read = words, set()

    def get(self, address, _=0):
        self.read.add(address)
        return self.words.get(address, 0)


class Fenced:
    """A fence: its step, who asked, what it covers (as the board has it), and which harts were asked (None: an own sfence)."""

    def __init__(self, place, hart, fence, asked):
        self.place, self.hart, self.fence, self.asked = place, hart, fence, asked


class Watched:
    """A translation or a fetched word of a hart: for a translation also the kind of access that filled it, and the satp by which a
    walk is done: the last one that the hart wrote with its address space."""

    def __init__(self, item, hart, kind, satp):
        self.item, self.hart, self.kind, self.satp = item, hart, kind, satp

    def is_of_kind(self, fence):
        """Whether a fence is one of what is held: FENCE.I of words, and others of translations."""
        return (fence is None) == (self.item.kind == WORD)

    def is_covered(self, fence):
        return self.is_of_kind(fence) and (fence is None or covers(fence, self.item.what))

    def has_space(self, satp):
        """Whether satp's address space is that of the translation."""
        return satp and (self.item.what[3] or self.item.what[2] == satp >> 44 & 0xFFFF)


class Causes:
    """`of` has for each stale step its cause: what is told, as pairs of a text and a step (or None), the step of the fill and
    that of the change. `reasons` has where each step comes from."""

    def __init__(self, board, holdings):
        self.board, self.holdings, self.ram = board, holdings, {}
        self.fences, self.reasons, self.of = [], [], {}
        # What is watched, by the words of memory that decide it, and by its item.
        self.watched, self.of_item = defaultdict(list), {}
        # A board for walks in the memory that is behind the last step.
        self.walker = Board(*board.config)
        self.walker.asids, self.walker.width = board.asids, board.width

    def take(self, place, actor, op, answer, why):
        """Behind a step that isn't refused."""
        self.reasons.append((f"{'c' if actor is None else actor} {op[0]}", why))
        kind, va = access_of(op) or (None, None)
        if self.board.is_stale:
            self.of[place] = self.cause(actor, kind, va)
        if kind:
            self.watch(place, actor, kind)
        if kind in ("store", "amo") and answer[0] != "fault":
            self.write(place, self.reached(va))
        elif op[0] == "satp":
            self.judge_all(place, [it for it in self.held(actor) if it.item.kind == TRANSLATION and it.has_space(self.board.harts[actor].satp)])
        elif op[0] == "ecall" and op[1] == RFENCE and answer == WAITING:
            self.fences.append(Fenced(place, actor, *self.asked(actor, *op[2:])))
        elif op[0] in ("sfence", "fencei"):
            self.fences.append(Fenced(place, actor, self.own(*op[1:]) if op[0] == "sfence" else None, None))
        elif answer == GONE and not self.board.ram:
            self.ram = {}

    def pass_over(self):
        """Behind one that is refused, or a cut."""
        self.reasons.append(("", ""))

    def asked(self, actor, fid, *numbers):
        """What the board made of a fence call's numbers: what it covers, and which harts were asked."""
        mask, base, start, size, asid = (*numbers, 0, 0, 0, 0, 0)[:5]
        span = None if is_full(start, size) else (start, start + size)
        fence = (span, asid & self.board.asids if fid == 2 else None) if fid else None
        asked = set(self.board.harts[actor].outstanding)
        return fence, asked | ({actor} & targets(mask, base, len(self.board.harts)))

    def own(self, va, asid):
        span = None
        if va is not None:
            span = (va, va + 1) if is_valid(va, self.board.width) else (0, 0)
        return span, None if asid is None else asid & self.board.asids

    # ---- what is stale

    def held(self, hart):
        """What is watched of what a hart holds now."""
        return [self.of_item[it] for kind in (TRANSLATION, WORD) for it in self.holdings.open[hart][kind].values()]

    def reached(self, va):
        """The physical address of the last access."""
        used = self.board.used
        return used[4] + va - used[0] if used else va

    def watch(self, place, actor, kind):
        """Begins to watch what an access has filled."""
        for it in self.holdings.items[actor][-2:]:
            if it.begin == place and it.kind != FENCE:
                made = self.of_item[it] = Watched(it, actor, kind, self.board.harts[actor].satp)
                self.judge_all(place, [made])

    def write(self, place, address):
        self.ram[address] = self.board.ram.get(address, 0)
        self.watched[address] = [it for it in self.watched[address] if it.item.end is None]
        self.judge_all(place, list(self.watched[address]))

    def judge_all(self, place, watched):
        """Tells which of these are stale behind a step."""
        for it in watched:
            if it.item.kind == WORD:
                address, word = it.item.what
                read, is_other = {address}, self.ram.get(address, 0) != word
            else:
                it.satp = self.board.harts[it.hart].satp if it.has_space(self.board.harts[it.hart].satp) else it.satp
                noted = self.walker.ram = Noted(self.ram)
                is_other = self.walker.is_other(it.satp, it.kind, it.item.what[0], it.item.what)
                read = noted.read
            it.item.turn(place, is_other)
            for address in read:
                if it not in self.watched[address]:
                    self.watched[address].append(it)

    # ---- causes

    def step(self, place):
        """A step, as it is named in a text."""
        done, why = self.reasons[place]
        line = re.match(r"line \d+(?: to \d+)?", why)
        return f"step {place + 1}" + (f" ({line[0]}: {done})" if line else f" ({done})")

    def cause(self, actor, kind, va):
        """Why the last step is stale, by what was so before it."""
        hart, used = self.board.harts[actor], self.board.used
        if used:
            number = next(it[0] for it in reversed(hart.tlb) if it[1] == used and is_in(va, it[1]))
            item = self.holdings.open[actor][TRANSLATION][number]
            if item.is_stale():
                self.walker.ram, gives = self.ram, None
                with contextlib.suppress(Fault):
                    gives = self.walker.walk(hart.satp, kind, va)
                now = f"the tables give {spelled_entry(gives)}" if gives else "the tables give no translation"
                return self.told(self.of_item[item], f"used: hart {actor}'s translation {item.text}", now)
        address = self.reached(va)
        number = next(it[0] for it in reversed(hart.words) if it[1] == address)
        item = self.holdings.open[actor][WORD][number]
        return self.told(self.of_item[item], f"used: hart {actor}'s fetched word {item.text}", f"memory has {self.ram.get(address, 0):#x}")

    def told(self, use, used, now):
        filled, changed = use.item.begin, use.item.stale[-1][0]
        told = [(f"{used}, filled at {self.step(filled)}", filled), (f"changed at {self.step(changed)}: {now}", changed)]
        return told + self.fences_told(use, changed), filled, changed

    # ---- fences

    def fences_told(self, use, changed):
        first = bisect_left(self.fences, changed, key=lambda it: it.place)
        since = [it for it in self.fences[first:] if use.is_of_kind(it.fence)]
        told = [(self.fence_told(it, use), it.place) for it in since[-MOST_FENCES:]]
        if len(since) > MOST_FENCES:
            told.insert(0, (f"{len(since) - MOST_FENCES} more fences since then", None))
        if since:
            return told
        before = next((it for it in reversed(self.fences[:first]) if it.asked and use.hart in it.asked and use.is_covered(it.fence)), None)
        if before:
            return [(f"fenced at {self.step(before.place)}, before the change, and not since", before.place)]
        return [(f"no fence at hart {use.hart} since then", None)]

    def fence_told(self, it, use):
        """What a fence that came after the change did to this hart."""
        what = f"fenced at {self.step(it.place)}, {spelled_fence(it.fence)}"
        if it.asked is None:
            return f"{what}: hart {it.hart}'s own, " + ("which doesn't cover this" if it.hart == use.hart else f"and not hart {use.hart}'s")
        asked = "no hart" if not it.asked else ("hart " if len(it.asked) == 1 else "harts ") + ", ".join(map(str, sorted(it.asked)))
        if use.hart not in it.asked:
            return f"{what}, which asked {asked}, and not hart {use.hart}"
        waits = any(one.begin == it.place for one in self.holdings.open[use.hart][FENCE])
        end = f"hart {use.hart} hasn't served it yet" if waits else "it was served" if use.is_covered(it.fence) else "it doesn't cover this"
        return f"{what}, which asked {asked}; {end}"
