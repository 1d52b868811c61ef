"""Finds a supervisor's missing fences in a record with page tables (tools/record --tables): harts that may still hold a translation
that was removed before a fence, and pages that are remapped meanwhile. It rests on a model of page tables (page_tables.py), in
which a hart may hold whatever the tables gave it since its last fence; not on the proof."""
from board_model import ALL, RFENCE, is_full
from page_tables import asid_of, levels_of, mappings, takes_away
from records import CALLERS, UNSEEN, is_reset

PAGE = 4096


class Change:
    """A mapping that was taken away: what it was and what it is now (None: nothing), and between which lines, by some hart."""

    def __init__(self, before, after, satp, begin, end):
        self.before, self.after, self.asid, self.begin, self.end = before, after, asid_of(satp), begin, end

    def __str__(self):
        now = f"{self.after.pa:#x} {self.after.rights()}" if self.after else "nothing"
        return f"{self.before}, which between lines {self.begin} and {self.end} some hart changed to {now}"

    def is_covered(self, span, asid):
        if asid is not None and (self.before.pte & 0x20 or self.asid != asid):
            return False
        return span is None or max(self.before.va, span[0]) < min(self.before.va + self.before.size, span[1])


class Finding:
    """A hart that may hold what was taken away. `until`: the line at which it is fenced at last."""

    def __init__(self, kind, at, hart, change, text):
        self.kind, self.at, self.hart, self.change, self.text, self.until = kind, at, hart, change, text, None


LEFT_OUT, MAPPED_ANEW = "left out of a fence", "mapped anew"


class Stale:
    """names: of an address the function, or None. `findings`, and `needless`: lines of fences before which nothing had changed."""

    def __init__(self, record, names=lambda address: None):
        self.record, self.names = record, names
        # Of each hart the satps by which it may hold something: the line at which it left each, or None while it uses it.
        self.entries, self.satp, self.used = {}, {}, {h: {} for h in range(record.harts)}
        # Of each hart what it may still hold, and of each satp what it maps.
        self.held, self.maps = {h: [] for h in range(record.harts)}, {}
        self.findings, self.needless, self.changes = [], [], 0
        # Of each hart whether anything has changed since its last fence: its satp, or an entry of tables that it used.
        self.has_news = dict.fromkeys(range(record.harts), False)
        # Svinval: of each hart the line of its last sfence.w.inval, and what its sinval.vmas invalidate at the next sfence.inval.ir.
        self.ordered, self.invalid = {}, {h: [] for h in range(record.harts)}
        self.calls = {record.lines[call.reply].number: call for call in record.lines if call.reply is not None}
        # If the firmware's own fences are recorded, they count instead of its answers.
        self.is_trusted = not any("firmware" in line.notes for line in record.tables)
        self.follow()

    def follow(self):
        steps, last, stores = sorted(self.record.lines + self.record.tables, key=lambda line: line.number), 0, []
        for line in steps:
            if line.kind == "store":
                stores.append(line)
                continue
            if stores:
                self.stored(stores, last, line.number)
                stores = []
            getattr(self, "do_" + line.kind, lambda line: None)(line)
            last = line.number
        self.stored(stores, last, last)

    # ---- what is stored

    def table_at(self, address):
        page = self.entries.get(address)
        return None if page is None else [page.get(at, 0) for at in range(512)]

    def stored(self, stores, begin, end):
        touched = set()
        for line in stores:
            address, value = line.numbers
            self.entries.setdefault(address & -PAGE, {})[address % PAGE // 8] = value
            touched.add(address & -PAGE)
        for satp in set().union(*self.used.values()) if touched else ():
            self.compare(satp, begin, end)

    def compare(self, satp, begin, end):
        before, after = self.maps.get(satp, {}), mappings(satp, self.table_at)
        if before.keys() != after.keys() or any(before[key].pte != after[key].pte for key in after):
            self.has_news |= {hart: True for hart, used in self.used.items() if satp in used}
        self.maps[satp] = after
        for key, mapping in after.items():
            if key not in before or before[key].pa != mapping.pa:
                self.mapped(mapping, satp, end)
        for key, mapping in before.items():
            if takes_away(mapping, after.get(key)):
                change = Change(mapping, after.get(key), satp, begin, end)
                self.changes += 1
                for hart, used in self.used.items():
                    if satp in used:
                        self.held[hart].append(change)

    def mapped(self, mapping, satp, at):
        """A page is mapped: a hart may hold it under another translation that was taken away before."""
        for hart, changes in self.held.items():
            for change in changes:
                is_there = change.is_covered((mapping.va, mapping.va + mapping.size), None) and (change.asid == asid_of(satp) or change.before.pte & 0x20)
                if is_there and change.before.pa != mapping.pa - mapping.va + change.before.va:
                    self.findings.append(Finding(MAPPED_ANEW, at, hart, change, f"before line {at} {mapping.va:#x} is mapped to {mapping.pa:#x}"))

    # ---- steps

    def do_reset(self, line):
        """No hart holds anything of before."""
        for hart in range(self.record.harts):
            self.held[hart], self.used[hart], self.satp[hart], self.invalid[hart] = [], {}, 0, []
        self.maps, self.ordered = {}, {}

    def do_call(self, line):
        if is_reset(line.numbers) and line.reply is None:
            self.do_reset(line)
        if line.numbers[0] == RFENCE and line.numbers[1] in (1, 2) and not any(self.has_news[hart] for hart in self.named(*line.numbers[2:4])):
            self.needless.append(line)

    def do_satp(self, line):
        used, before, satp = self.used[line.hart], self.satp.get(line.hart), line.numbers[0]
        self.satp[line.hart] = satp
        self.has_news[line.hart] = True
        if before in used and before != satp:
            used[before] = line.number
        if levels_of(satp):
            if not any(satp in others for others in self.used.values()):
                # (nobody has looked at these tables meanwhile)
                self.maps[satp] = mappings(satp, self.table_at)
            used[satp] = None

    def do_sfence(self, line):
        self.fenced(line.hart, *self.asked(line), line.number, line.number)

    def asked(self, line):
        """What a fence of one address, or of all, covers."""
        va, asid = line.numbers
        if not self.has_news[line.hart] and "firmware" not in line.notes:
            self.needless.append(line)
        return None if va is None else (va, va + 1), None if asid is None else asid & 0xFFFF

    def do_winval(self, line):
        self.ordered[line.hart] = line.number

    def do_sinval(self, line):
        """It covers what was changed before the hart's last sfence.w.inval; without one nothing that is certain."""
        covered = self.asked(line)
        if line.hart in self.ordered:
            self.invalid[line.hart].append((*covered, self.ordered[line.hart]))

    def do_invalir(self, line):
        for span, asid, since in self.invalid[line.hart]:
            self.fenced(line.hart, span, asid, since, line.number)
        self.invalid[line.hart] = []

    def fenced(self, hart, span, asid, since, at):
        """Drops what is covered and was taken away before a line; and, if all addresses are, the tables that the hart left before it."""
        self.has_news[hart] = False
        if span is None:
            used = self.used[hart].items()
            self.used[hart] = {satp: left for satp, left in used if left is None or left > since or asid not in (None, asid_of(satp))}
        dropped = [change for change in self.held[hart] if change.end <= since and change.is_covered(span, asid)]
        self.held[hart] = [change for change in self.held[hart] if change not in dropped]
        for finding in self.findings:
            if finding.hart == hart and finding.change in dropped and finding.until is None:
                finding.until = at

    def do_ret(self, line):
        call = self.calls.get(line.number)
        if call is None or call.numbers[0] != RFENCE or call.numbers[1] not in (1, 2) or line.numbers is UNSEEN or line.numbers[0] != 0:
            return
        _, fid, mask, base, start, size, asid, _ = call.numbers
        span = None if is_full(start, size) else (start, start + size)
        asid = asid & 0xFFFF if fid == 2 else None
        named = self.named(mask, base)
        if self.is_trusted:
            for hart in named:
                self.fenced(hart, span, asid, call.number, line.number)
        for hart, changes in self.held.items():
            for change in changes:
                if change.end <= call.number and change.is_covered(span, asid) and (hart != line.hart) and not self.is_told(hart, change):
                    self.findings.append(Finding(LEFT_OUT, line.number, hart, change, self.of_fence(call, line, hart in named)))

    def is_told(self, hart, change):
        return any(it.kind == LEFT_OUT and it.hart == hart and it.change is change for it in self.findings)

    def of_fence(self, call, line, is_named):
        by = f" in {self.name(call.notes['pc'])}" if "pc" in call.notes else ""
        callers = [self.name(call.notes[note]) for note in CALLERS if note in call.notes]
        by += f" from {', '.join(callers)}" if callers else ""
        mask, base, start, size = call.numbers[2:6]
        asked = ", which names it" if is_named else ""
        whole = "everything" if is_full(start, size) else f"{start:#x} and {size:#x} bytes"
        return f"after line {line.number} has returned: the fence of line {call.number}{by}, of {whole}, of the harts {mask:#x} from {base & ALL:#x}{asked}"

    def name(self, address):
        return self.names(address) or hex(address)

    def named(self, mask, base):
        place_of = self.record.place_of
        if base == ALL:
            return list(range(self.record.harts))
        return [place_of[base + at] for at in range(64) if mask >> at & 1 and base + at in place_of]

    # ---- what is told

    def lines(self):
        yield f"what harts may hold, by the tools' model of page tables and not by the proof: {self.changes} mappings taken away, {len(self.findings)} findings"
        for finding in self.findings:
            hart = self.record.ids[finding.hart]
            until = f"; it is fenced at line {finding.until}" if finding.until else "; it is never fenced"
            yield f"  {finding.kind}: {finding.text}, hart {hart} may hold {finding.change}{until}"
