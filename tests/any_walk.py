"""What any TLB may hold that also keeps pointers and invalid entries, and whose walks read words of different times, in plain Python, by
docs/FORMATS.md ("What any TLB may hold") alone: which accesses of a program are unfirm, and which unlenient. Which former satps and words a
hart may still see is kept here as sets, for each kind of walk; the other marks come from any_tlb.py."""
from collections import namedtuple

import board_model
from board_model import access_of, allows, is_valid

from . import any_tlb
from .any_tlb import Marker, fences_of, given, result_of

UNFIRM, UNLENIENT = "unfirm", "unlenient"

# What a hart may still see. Of each kind of walk (whether it meets G; else its ASID): the satps by which it may begin; by physical
# addresses the words that are pointers to it; and, for each page of each level that has an address, those at which a walk for the page may
# end at this level, and those at which it may though a pointer has stood there since, above the lowest level.
Seen = namedtuple("Seen", "satps pointers ends turned")


def is_of(fence, met, asid):
    return fence[1] is None or not met and fence[1] == asid


def orders_pointers(fences, met, asid):
    return any(it is not None and it[0] is None and is_of(it, met, asid) for it in fences)


def orders_ends(fences, page, met, asid):
    """Whether a fence orders the entries, leaves or invalid ones, that map this page as a whole: it has an address of the page."""
    first, end = page
    return any(it is not None and (it[0] is None or max(first, it[0][0]) < min(end, it[0][1])) and is_of(it, met, asid) for it in fences)


def page_of(va, level):
    """The page that an entry of this level maps, by its first address and its end."""
    size = 4096 << 9 * level
    return va - va % size, va - va % size + size


def is_pointer(word):
    return word & 0xDF == 1 and not word >> 54


def meets_g(word):
    """Whether a walk that reads this word meets G. Where V is 0, the other bits are software's."""
    return word & 0x21 == 0x21


def asid_of(satp):
    return satp >> 44 & 0xFFFF


class WalkMarker(Marker):
    """The marks of steps by these operations, with those of walks."""

    def __init__(self, ops, board):
        super().__init__(ops, board)
        self.pages = sorted({page_of(va, level) for va in self.places for level in range((board.width - 12) // 9)})
        self.kinds = [(True, 0)] + [(False, it) for it in sorted({asid_of(satp) & board.asids for satp in self.satps})]

    # ---- what a step leaves

    def after(self, watch, before, board, actor, op, answer):
        new = super().after(watch, before, board, actor, op, answer)
        was_reset = op[:2] == ("ecall", board_model.SRST) and answer == board_model.GONE
        applied = fences_of(before, actor, op, answer)
        old = (None,) * self.harts if was_reset else getattr(watch, "seen", (None,) * self.harts)
        new.seen = tuple(self.seen_by(old[h], before, board, h, [fence for at, fence in applied if at == h]) for h in range(self.harts))
        new.key = lambda key=new.key: (key(), tuple(tuple(frozenset(part.items()) for part in seen) for seen in new.seen))
        return new

    def seen_by(self, old, before, board, h, fences):
        """What a hart may see behind a step that applies these fences there; `old`: before it, or None at the beginning and behind a reset."""
        places = set(before.ram) | set(board.ram)
        now = {pa: board.ram.get(pa, 0) for pa in places}
        was = lambda part, key, pa: part.get((key, pa), frozenset([before.ram.get(pa, 0)]))
        satps, pointers, ends, turned = {}, {}, {}, {}
        for kind in self.kinds:
            left = frozenset() if old is None else frozenset(it for it in old.satps[kind] if not orders_pointers(fences, kind[0], asid_of(it)))
            satps[kind] = left | {board.harts[h].satp}
            stops = old is None or orders_pointers(fences, *kind)
            for pa in places:
                pointers[kind, pa] = frozenset([now[pa]]) | (frozenset() if stops else was(old.pointers, kind, pa))
            for page in self.pages:
                hides = old is None or orders_ends(fences, page, *kind)
                for pa in places:
                    ends[(kind, page), pa] = frozenset([now[pa]]) | (frozenset() if hides else was(old.ends, (kind, page), pa))
                    by_now = was(old.ends, (kind, page), pa) if old is not None and is_pointer(now[pa]) else frozenset()
                    turned[(kind, page), pa] = frozenset() if stops else old.turned.get(((kind, page), pa), frozenset()) | by_now
        return Seen(satps, pointers, ends, turned)

    # ---- what walks give

    def results(self, seen, board, h, kind, va):
        """What walks may give an access: each result with its kind of walk."""
        for walks in self.kinds:
            met, asid = walks
            for satp in seen.satps[walks]:
                if not satp >> 60 or not is_valid(va, board_model.WIDTHS[satp >> 60]) or not met and asid_of(satp) != asid_of(board.harts[h].satp):
                    continue
                if not met and asid != asid_of(satp):
                    continue
                levels = (board_model.WIDTHS[satp >> 60] - 12) // 9
                yield from self.walk(seen, board, walks, kind, va, (satp & (1 << 44) - 1) << 12, False, levels - 1)

    def walk(self, seen, board, walks, kind, va, table, is_global, level):
        at = table + 8 * (va >> 12 + 9 * level & 0x1FF)
        if not board.in_ram(at):
            if walks[0] == is_global:
                yield "fault", board_model.ACCESS_FAULT[kind]
            return
        alone = frozenset([board.ram.get(at, 0)])
        page = page_of(va, level)
        ends = seen.ends.get(((walks, page), at), alone)
        if level:
            ends = ends | seen.turned.get(((walks, page), at), frozenset())
            for word in seen.pointers.get((walks, at), alone):
                if is_pointer(word):
                    yield from self.walk(seen, board, walks, kind, va, (word >> 10 & (1 << 44) - 1) << 12, is_global or meets_g(word), level - 1)
        for word in ends:
            if not (level and is_pointer(word)) and walks[0] == (is_global or meets_g(word)):
                yield self.end(word, kind, va, level)

    def end(self, word, kind, va, level):
        size, pa = 4096 << 9 * level, (word >> 10 & (1 << 44) - 1) << 12
        rights = [bool(word & bit) for bit in (2, 4, 8, 0x80)]
        r, w, x, _ = rights
        is_leaf = word & 1 and not word >> 54 and (r or x) and (r or not w) and not word & 0x10 and word & 0x40 and not pa % size
        entry = (va & board_model.ALL - (size - 1), level, 0, False, pa, *rights)
        return result_of(entry, kind, va) if is_leaf and allows(entry, kind) else ("fault", board_model.PAGE_FAULT[kind])

    # ---- marks of a step

    def marks(self, watch, before, board, h, op):
        found, reach = set(super().marks(watch, before, board, h, op)), access_of(op) if h is not None else None
        if reach is None:
            return frozenset(found)
        kind, va = reach
        satp = before.harts[h].satp
        is_odd = op[0] in ("load", "store", "fetch") and op[1] % 8 or op[0] in board_model.CHANGES and op[1] % board_model.CHANGES[op[0]][0]
        if kind == "fetch" and not is_odd and self.is_other_word(watch, before, h, va, satp):
            found |= {UNFIRM, UNLENIENT}
        if not is_odd and satp and is_valid(va, board_model.WIDTHS[satp >> 60]):
            walked = given(before, satp, kind, va)
            now, matching = result_of(walked, kind, va), [it for it in watch.possible[h] if board_model.is_in(va, it) and (it[3] or it[2] == asid_of(satp))]
            may = set(self.results(watch.seen[h], before, h, kind, va)) | {result_of(it, kind, va) for it in matching}
            if may - {now}:
                found.add(UNFIRM)
            if may - {now} - ({("fault", board_model.PAGE_FAULT[kind])} if isinstance(walked, tuple) else set()):
                found.add(UNLENIENT)
        return frozenset(found)


def marker_of(program):
    return WalkMarker([op for block in program.blocks.values() for _, op in block], program.board)


def marks_of_all_orders(text):
    return any_tlb.marks_of_all_orders(text, marker_of=marker_of)


def marks_of_record(text, record):
    return any_tlb.marks_of_record(text, record, marker_of=marker_of)


def marks_of_schedule(text):
    return any_tlb.marks_of_schedule(text, make=WalkMarker)


class Told:
    """The accepted steps of a schedule, and what walks may see of them. Places count accepted steps."""

    def __init__(self, text):
        first, *rest = filter(None, map(board_model.words_of, text.split("\n")))
        board, steps, self.boards, self.taken = board_model.board_of(first), [*map(board_model.step_of, rest)], [], []
        self.marker = WalkMarker([op for _, op in steps], board)
        for actor, op in steps:
            before, board = board, board.copy()
            answer = board.step(actor, op)
            if answer[0] != "refused":
                self.boards.append(before)
                self.taken.append((actor, op, answer))
        self.boards.append(board)

    def marks(self, first, place, fence=None):
        """The marks of the access in a place, if nothing is known of what was before the first step, and if its hart also fences behind a
        step: `fence` has the step's place, and the address and the ASID, or None."""
        watch, hart = self.marker.first(self.boards[first]), self.taken[place][0]
        for at in range(first, place):
            watch = self.marker.after(watch, self.boards[at], self.boards[at + 1], *self.taken[at])
            if fence and fence[0] == at:
                watch = self.marker.after(watch, self.boards[at + 1], self.boards[at + 1], hart, ("sfence", *fence[1:]), ("done",))
        return self.marker.marks(watch, self.boards[place], self.boards[place + 1], *self.taken[place][:2])

    def change(self, place, mark):
        """The last step such that the access in a place has the mark, even if nothing is known of what was before that step."""
        return next(at for at in range(place - 1, -1, -1) if mark in self.marks(at, place))

    def fences(self, first, place):
        """The fences that the hart of the access applied behind a step and before the access: each with whether it has no address, and its ASID."""
        hart, va = self.taken[place][0], access_of(self.taken[place][1])[1]
        for at in range(first + 1, place):
            for h, fence in fences_of(self.boards[at], *self.taken[at]):
                if h == hart and fence and (fence[0] is None or orders_ends([(fence[0], None)], page_of(va, 0), True, 0)):
                    yield fence[0] is None, fence[1]

    def called(self, at):
        """The fence that a call asks for: whether it has no address, and its ASID."""
        span, asid = any_tlb.call_of(self.boards[at], *self.taken[at][1:])[1]
        return span is None, asid
