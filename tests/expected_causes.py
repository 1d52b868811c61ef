"""Why an access of a record is stale or unsteady, and the lines that `test` must tell of it: by looking at the board before each earlier
step, and by the definitions of docs/FORMATS.md."""
from board_model import CUT, GONE, GUEST, MISALIGNED, PAGE_FAULT, RFENCE, SRST, WAITING, WIDTHS, Fault, access_of, allows, board_of, is_full, is_in, is_valid, number, spelled_step, step_of, targets, words_of

PAGE = 4096


def rights_of(entry):
    return "".join(letter if has else "-" for letter, has in zip("rwxd", entry[5:]))


def result_of(entry, kind, va):
    """What a leaf gives an access: the physical address, or the fault."""
    return entry[4] + va - entry[0] if allows(entry, kind) else ("fault", PAGE_FAULT[kind])


def leaf_of(board, satp, kind, va):
    """What a walk gives: a leaf, or the fault."""
    if not satp or not is_valid(va, WIDTHS[satp >> 60]):
        return ("fault", PAGE_FAULT[kind])
    try:
        return board.walk(satp, kind, va)
    except Fault as fault:
        return ("fault", fault.args[0])


def walked(board, satp, kind, va):
    found = leaf_of(board, satp, kind, va)
    return found if found[0] == "fault" else result_of(found, kind, va)


def has_space(satp, entry):
    return bool(satp) and (entry[3] or entry[2] == satp >> 44 & 0xFFFF)


def without_space(entry):
    return entry[:2] + entry[3:]


def of_file(text):
    """The record of a schedule or a trace."""
    lines = [(at, words_of(line.partition("->")[0])) for at, line in enumerate(text.split("\n"), 1)]
    (_, head), *steps = [it for it in lines if it[1]]
    return Causes(board_of(head), [(at, *step_of(words)) for at, words in steps])


def of_program(program, record):
    """The record of a program's order, a trace."""
    blocks, addr = {}, None
    for at, words in enumerate(map(words_of, program.split("\n")), 1):
        if words[:1] == ["at"]:
            addr = blocks.setdefault(number(words[1]), [])
        elif words and words[0] not in ("board", "clock"):
            addr.append(at)
    found, left = of_file(record), {}
    for place, (actor, op, answer) in enumerate(found.steps):
        found.lines[place] = left.get(actor, []).pop(0) if op[0] in GUEST else None
        if answer[0] == "entry":
            left[actor] = list(blocks.get(answer[1], []))
    return found


class Causes:
    """A record: its accepted steps (actor, operation and answer), the line of each (None: none), and the board before each and behind
    the last."""

    def __init__(self, board, steps):
        self.steps, self.lines, self.boards = [], [], [board.copy()]
        for line, actor, op in steps:
            answer = board.step(actor, op)
            if answer[0] != "refused" and (actor, op) != CUT:
                self.steps.append((actor, op, answer))
                self.lines.append(line)
                self.boards.append(board.copy())

    def hart(self, m, h):
        return self.boards[m].harts[h]

    def named(self, place):
        said = spelled_step(*self.steps[place][:2])
        return f"step {place} ({said})" if self.lines[place] is None else f"step {place} (line {self.lines[place]}: {said})"

    # ---- what an access used

    def used(self, place):
        """Of an access the entry that it finds, if there is one, with its number."""
        h, op, _ = self.steps[place]
        _, va = access_of(op)
        hart = self.hart(place, h)
        is_used = self.boards[place + 1].used is not None
        return next((it for it in reversed(hart.tlb) if is_in(va, it[1]) and has_space(hart.satp, it[1])), None) if is_used else None

    def is_stale(self, place):
        """Whether the entry gives the access another result, as the mark says."""
        found = self.used(place)
        h, op, _ = self.steps[place]
        return found is not None and result_of(found[1], *access_of(op)) != walked(self.boards[place], self.hart(place, h).satp, *access_of(op))

    def space_satp(self, h, entry, m):
        return next((self.hart(at, h).satp for at in range(m, -1, -1) if has_space(self.hart(at, h).satp, entry)), 0)

    def since(self, first, place, is_other):
        """The step since which it is so that is so before this place."""
        return max((m for m in range(first, place + 1) if not is_other(m)), default=first - 1)

    def entry_cause(self, place):
        """An entry that was used, its fill, and the change: the step since which a walk gives the access another result, or, where the
        result is the same, another leaf."""
        h, op, _ = self.steps[place]
        kind, va = access_of(op)
        number, entry = self.used(place)
        filled = next(at for at in range(place) if (number, entry) in self.hart(at + 1, h).tlb)

        def is_other(m):
            satp = self.space_satp(h, entry, m)
            if self.is_stale(place):
                return walked(self.boards[m], satp, kind, va) != result_of(entry, kind, va)
            leaf = leaf_of(self.boards[m], satp, kind, va)
            return leaf[0] == "fault" or without_space(leaf) != without_space(entry)

        # (where a walk faults as the entry does, nothing is stale)
        has_leaf = leaf_of(self.boards[place], self.hart(place, h).satp, kind, va)[0] != "fault"
        return filled, self.since(filled + 1, place, is_other), is_other(place) and (has_leaf or self.is_stale(place))

    def word_cause(self, place):
        h, op, answer = self.steps[place]
        at = self.fetched(place)
        found = next((it for it in reversed(self.hart(place, h).words) if it[1] == at), None)
        if found is None or answer[0] != "value" or self.boards[place].ram.get(at, 0) == found[2]:
            return None
        filled = next(m for m in range(place) if found in self.hart(m + 1, h).words)
        return at, found[2], filled, self.since(filled + 1, place, lambda m: self.boards[m].ram.get(at, 0) != found[2])

    def fetched(self, place):
        _, op, _ = self.steps[place]
        used, va = self.boards[place + 1].used, op[1]
        return used[4] + va - used[0] if used else va

    # ---- what an access may use

    def effect(self, t, h):
        """The fence that a step applies at a hart: "reset", a fence (None: FENCE.I), or no such word."""
        actor, op, answer = self.steps[t]
        if op[0] == "ecall" and op[1] == SRST and answer == GONE:
            return "reset"
        if actor != h:
            return "none"
        if op[0] == "fencei":
            return None
        if op[0] == "sfence":
            return self.fence_of_step(t)
        if op[0] == "serve":
            return self.hart(t, h).waiting[0][1]
        if self.is_call(t) and h in self.asked(t):
            return self.fence_of_step(t)
        return "none"

    def drops(self, t, h, entry):
        done = self.effect(t, h)
        return done == "reset" or isinstance(done, tuple) and self.covers_entry(done, entry)

    def covers_entry(self, fence, entry):
        span, asid = fence
        size = PAGE << 9 * entry[1]
        return (asid is None or not entry[3] and entry[2] == asid) and (span is None or max(entry[0], span[0]) < min(entry[0] + size, span[1]))

    def runs(self, h, satps=None):
        """The satps that a hart had: each with the step that wrote it and the step that wrote the next one."""
        found, begin = [], -1
        for t in range(len(self.steps)):
            if self.hart(t + 1, h).satp != self.hart(t, h).satp:
                found.append((self.hart(t, h).satp, begin, t))
                begin = t
        return [*found, (self.hart(len(self.steps), h).satp, begin, len(self.steps))]

    def given(self, h, va, m):
        """What a walk may give at a place: by a satp that the hart had at some place, since which no fence dropped it."""
        found = set()
        for j in range(m, -1, -1):
            satp = self.hart(j, h).satp
            for kind in ("load", "store", "fetch"):
                leaf = leaf_of(self.boards[m], satp, kind, va)
                if leaf[0] != "fault" and not any(self.drops(t, h, leaf) for t in range(j, m)):
                    found.add(leaf)
        return found

    def possible(self, place):
        """The entries that may be used and give another result: each with from when to when walks gave it; None: they still do."""
        h, op, answer = self.steps[place]
        kind, va = access_of(op)
        satp = self.hart(place, h).satp
        if answer == ("fault", MISALIGNED[kind]) or not satp or not is_valid(va, WIDTHS[satp >> 60]):
            return []
        given, wanted, found = [self.given(h, va, m) for m in range(place + 1)], walked(self.boards[place], satp, kind, va), []
        for entry in set().union(*given):
            last = max(m for m in range(place + 1) if entry in given[m])
            if any(self.drops(t, h, entry) for t in range(last, place)) or not has_space(satp, entry) or result_of(entry, kind, va) == wanted:
                continue
            first = max((m for m in range(last + 1) if entry not in given[m]), default=-1) + 1
            found.append((entry, first - 1, None if last == place else last))
        return found

    def possible_word(self, place):
        """A word that memory had since the last FENCE.I, and that it hasn't now."""
        h, op, _ = self.steps[place]
        if op[0] != "fetch":
            return None
        satp, va = self.hart(place, h).satp, op[1]
        at = walked(self.boards[place], satp, "fetch", va) if satp else va
        if va % 8 or isinstance(at, tuple) or not self.boards[place].in_ram(at):
            return None
        fenced = max((t + 1 for t in range(place) if self.effect(t, h) in (None, "reset")), default=0)
        changes = [t for t in range(fenced, place) if self.boards[t].ram.get(at, 0) != self.boards[t + 1].ram.get(at, 0)]
        return (at, self.boards[changes[-1]].ram.get(at, 0), changes[-1]) if changes else None

    # ---- fences

    def is_call(self, t):
        _, op, answer = self.steps[t]
        return op[0] == "ecall" and op[1] == RFENCE and answer == WAITING

    def asked(self, t):
        actor, op, _ = self.steps[t]
        mask, base = (*op[3:], 0, 0)[:2]
        return set(self.hart(t + 1, actor).outstanding) | ({actor} & targets(mask, base, len(self.boards[t].harts)))

    def fence_of_step(self, t):
        """What the fence of a step covers (None: fetched words): addresses (None: all) and an ASID (None: each)."""
        actor, op, _ = self.steps[t]
        board = self.boards[t]
        if op[0] == "sfence":
            _, va, asid = op
            span = None if va is None else (va, va + 1) if is_valid(va, board.width) else (0, 0)
            return span, None if asid is None else asid & board.asids
        if op[0] == "fencei" or op[2] == 0:
            return None
        _, _, start, size, asid = (*op[3:], 0, 0, 0, 0, 0)[:5]
        return None if is_full(start, size) else (start, start + size), asid & board.asids if op[2] == 2 else None

    def is_of(self, t, va, entry):
        """Whether the fence of a step is of what is held for an address; without an entry of fetched words."""
        fence = self.fence_of_step(t)
        if entry is None or fence is None:
            return entry is None and fence is None
        span, asid = fence
        page = va // PAGE * PAGE
        return (asid is None or not entry[3] and entry[2] == asid) and (span is None or max(page, span[0]) < min(page + PAGE, span[1]))

    def fencing(self, place, changed, entry):
        h, op, _ = self.steps[place]
        va = op[1] if entry is None else access_of(op)[1]
        calls = [t for t in range(len(self.steps)) if self.is_call(t) and self.is_of(t, va, entry)]
        own = [t for t, (actor, it, answer) in enumerate(self.steps) if actor == h and it[0] in ("sfence", "fencei") and answer == ("done",) and self.is_of(t, va, entry)]
        between = [t for t in calls if changed < t < place]
        if between:
            asked = sorted(self.asked(between[0]))
            names = "no hart" if not asked else f"hart{'s' if len(asked) > 1 else ''} {', '.join(map(str, asked))}"
            fence, caller = self.fence_of_step(between[0]), self.steps[between[0]][0]
            waits = (caller, fence) in self.hart(place, h).waiting
            why = f", and not hart {h}" if h not in asked else f"; hart {h} hasn't served it yet" if waits else f"; hart {h} stopped before it served it"
            return f"fenced at {self.named(between[0])}, which asked {names}{why}"
        here = sorted(own + [t for t in calls if h in self.asked(t)])
        before, behind = [t for t in here if t < changed], [t for t in here if t > place]
        covers = f"no fence at hart {h} covers {va:#x} before this" if entry else f"no FENCE.I at hart {h} before this"
        absent = f"fenced at {self.named(before[-1])}, before the change, and not since" if before else covers
        return absent + (f"; the next is {self.named(behind[0])}" if behind else "")

    def is_missed(self, place):
        """Whether a call that covers the access succeeded, since which the tables never gave what the entry gives."""
        if self.used(place) is None or not self.is_stale(place):
            return False
        h, op, _ = self.steps[place]
        kind, va = access_of(op)
        entry, satp = self.used(place)[1], self.hart(place, h).satp
        gives = result_of(entry, kind, va)
        is_other = [all(walked(board, it, kind, va) != gives for it in (satp, board.harts[h].satp)) for board in self.boards[: place + 1]]
        for q in range(place):
            if self.is_call(q) and self.is_of(q, va, entry) and all(is_other[q:]):
                polled = next((t for t in range(q, place) if self.steps[t][0] == self.steps[q][0] and self.steps[t][1][0] == "poll"), place)
                if polled < place and not any(self.effect(t, h) == "reset" for t in range(q, polled)):
                    return True
        return False

    def stale(self):
        """The places of the accesses that used what a walk, or memory, no longer gives."""
        return [place for place, (_, op, _) in enumerate(self.steps) if access_of(op) and self.told(place, may=False)]

    # ---- what is told

    def told(self, place, may=True):
        """The lines of an access's cause, each in the ways in which it may be told; none if it is neither stale nor unsteady."""
        _, op, _ = self.steps[place]
        if access_of(op) is None:
            return []
        said = spelled_step(*self.steps[place][:2])
        if self.used(place):
            filled, changed, is_other = self.entry_cause(place)
            if is_other:
                entry = self.used(place)[1]
                return [self.lines_of(f"{said} used {entry[4]:#x} {rights_of(entry)}, filled at {self.named(filled)}", place, changed, entry)]
        if op[0] == "fetch" and (found := self.word_cause(place)):
            at, word, filled, changed = found
            return [self.lines_of(f"{said} used the word {word:#x} of {at:#x}, filled at {self.named(filled)}", place, changed, None)]
        return self.told_may(place, said) if may else []

    def told_may(self, place, said):
        found = self.possible(place)
        last = max(((len(self.steps) if until is None else until, first) for _, first, until in found), default=None)
        ways = []
        for entry, first, until in found:
            if (len(self.steps) if until is None else until, first) != last:
                continue
            may, h = f"{said} may use {entry[4]:#x} {rights_of(entry)}, which the tables", self.steps[place][0]
            if until is not None:
                ways.append(self.lines_of(f"{may} gave from step {first} to {until}", place, until, entry))
                continue
            _, va = access_of(self.steps[place][1])
            satp, begin, end = [it for it in self.runs(h) if it[2] < place and self.gives(h, it, entry, va, place)][-1]
            ways.append(self.lines_of(f"{may} give by satp {satp:#x}, which hart {h} had from step {begin} to {end}", place, end, entry))
        if not found and (word := self.possible_word(place)):
            at, value, changed = word
            ways.append(self.lines_of(f"{said} may use the word {value:#x} of {at:#x}, which memory had up to step {changed}", place, changed, None))
        return ways

    def gives(self, h, run, entry, va, place):
        satp, _, end = run
        leaves = [leaf_of(self.boards[place], satp, kind, va) for kind in ("load", "store", "fetch")]
        return entry in leaves and not any(self.drops(t, h, entry) for t in range(end, place))

    def lines_of(self, first, place, changed, entry):
        return [first, f"  changed at {self.named(changed)}", f"  {self.fencing(place, changed, entry)}"]
