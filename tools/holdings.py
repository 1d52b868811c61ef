"""What each hart of a board has at each step of a course: its registers as they change, and the translations, fetched words and
fences that it holds, each from the step that brings it to the one that takes it away."""
from board_model import RESUME_PENDING, START_PENDING, SUSPEND_PENDING, SUSPENDED

# The kinds of what is held.
TRANSLATION, WORD, FENCE = range(3)
FIELDS = ("state", "ssip", "stip", "sie", "sstatus", "satp", "deadline", "out", "kept")
PAGES = ("4 KiB", "2 MiB", "1 GiB", "512 GiB")


def spelled_entry(entry):
    """A translation as it is shown."""
    page, level, asid, is_global, pa, *rights = entry
    letters = "".join(letter if has else "-" for letter, has in zip("rwxd", rights))
    size = f", {PAGES[level]}" if level else ""
    return f"{page:#x} to {pa:#x} {letters} ({'global' if is_global else f'ASID {asid}'}{size})"


def spelled_fence(fence):
    """What a fence covers: FENCE.I, or a range of addresses (None: all) and an ASID (None: each)."""
    if fence is None:
        return "FENCE.I"
    span, asid = fence
    place = "of all pages" if span is None else f"of {span[0]:#x} to {span[1] - 1:#x}"
    return f"sfence.vma {place}" + ("" if asid is None else f", ASID {asid}")


class Item:
    """What a hart holds: its kind, the steps that brought it (-1: before the first) and took it away (None: never), what it is,
    and the pieces of its life in which it is stale: from a step to another one (None: to its end)."""

    def __init__(self, kind, begin, what, text):
        self.kind, self.begin, self.end, self.what, self.text = kind, begin, None, what, text
        self.stale = []

    def is_stale(self):
        return bool(self.stale) and self.stale[-1][1] is None

    def turn(self, place, is_stale):
        """From this step on it is stale, or it isn't."""
        if is_stale and not self.is_stale():
            self.stale.append([place, None])
        elif self.is_stale() and not is_stale:
            self.stale[-1][1] = place - 1


class Holdings:
    """Of each hart its registers, as lists of steps and values, and what it holds."""

    def __init__(self, board):
        self.board = board
        self.values = [{name: [] for name in FIELDS} for _ in board.harts]
        self.items = [[] for _ in board.harts]
        # Of each hart what it still holds: by the number of the fill, and fences in their order.
        self.open = [({}, {}, []) for _ in board.harts]
        self.seen = [None] * len(board.harts)
        # The harts with a deadline, which a tick may bring.
        self.timed = set()
        for h in range(len(board.harts)):
            self.see(-1, h)

    def begin(self):
        """Before a step: which harts it writes is told by what is copied for it."""
        self.board.owned = set()

    def take(self, place, has_ticked):
        """Behind a step."""
        for h in self.board.owned:
            self.see(place, h)
        for h in self.timed if has_ticked else ():
            self.put(place, h, "stip", int(self.board.is_due(h)))

    def see(self, place, h):
        hart, before = self.board.harts[h], self.seen[h]
        self.seen[h] = hart
        (self.timed.discard if hart.deadline is None else self.timed.add)(h)
        for name, value in self.registers(h, hart):
            self.put(place, h, name, value)
        if before is None or hart.tlb is not before.tlb:
            self.keep(place, h, TRANSLATION, [(number, entry, spelled_entry(entry)) for number, entry in hart.tlb])
        if before is None or hart.words is not before.words:
            self.keep(place, h, WORD, [(number, (at, word), f"{at:#x} is {word:#x}") for number, at, word in hart.words])
        if before is None or hart.waiting is not before.waiting:
            self.wait(place, h, before.waiting if before else (), hart.waiting)

    def registers(self, h, hart):
        is_kept = hart.state == START_PENDING or hart.state in (SUSPEND_PENDING, SUSPENDED, RESUME_PENDING) and not hart.is_retentive
        yield "state", hart.state
        yield "ssip", int(bool(hart.ssip))
        yield "stip", int(self.board.is_due(h))
        yield "sie", hart.sie
        yield "sstatus", int(bool(hart.sstatus))
        yield "satp", f"{hart.satp:#x}"
        yield "deadline", "" if hart.deadline is None else f"{hart.deadline:#x}"
        yield "out", "" if hart.outstanding is None else " ".join(map(str, sorted(hart.outstanding))) or "none"
        yield "kept", f"{hart.kept[0]:#x}, opaque {hart.kept[1]:#x}" if is_kept else ""

    def put(self, place, h, name, value):
        series = self.values[h][name]
        if not series or series[-1] != value:
            series += (place, value)

    def keep(self, place, h, kind, now):
        """What a cache has now: by the numbers of the fills."""
        held = self.open[h][kind]
        for number in held.keys() - {it[0] for it in now}:
            held.pop(number).end = place
        for number, what, text in now:
            if number not in held:
                held[number] = Item(kind, place, what, text)
                self.items[h].append(held[number])

    def wait(self, place, h, before, now):
        """The fences that wait now. A step adds one behind the others, or takes some of the first away."""
        held = self.open[h][FENCE]
        gone = 0 if now[: len(before)] == before else len(before) - len(now)
        for it in held[:gone]:
            it.end = place
        del held[:gone]
        for caller, fence in now[len(before) - gone :]:
            held.append(Item(FENCE, place, (caller, fence), f"from hart {caller}: {spelled_fence(fence)}"))
            self.items[h].append(held[-1])
