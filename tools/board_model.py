"""The board in plain Python, by docs/CALLS.md: what each step of a schedule answers. The tests compare it with the
program. An operation is a tuple of its name and its numbers (None for `-`), an answer one of its word and its numbers."""

BASE, TIME, IPI, RFENCE, HSM, SRST = 0x10, 0x54494D45, 0x735049, 0x52464E43, 0x48534D, 0x53525354
EXTENSIONS = (BASE, TIME, IPI, RFENCE, HSM, SRST)
STARTED, STOPPED, START_PENDING, STOP_PENDING, SUSPENDED, SUSPEND_PENDING, RESUME_PENDING = range(7)
STATES = ("STARTED", "STOPPED", "START_PENDING", "STOP_PENDING", "SUSPENDED", "SUSPEND_PENDING", "RESUME_PENDING")
INTERRUPTIBLE = (STARTED, SUSPENDED, SUSPEND_PENDING, RESUME_PENDING)
ALL = (1 << 64) - 1
LOW = (1 << 32) - 1
RAM = 0x80000000
SSI, STI = 1 << 1, 1 << 5
FAILED, NOT_SUPPORTED, INVALID_PARAM, INVALID_ADDRESS, ALREADY_AVAILABLE = -1, -2, -3, -5, -6


def signed(value, size):
    return value - (value >> 8 * size - 1 << 8 * size)


# What AMOs make of the old value and their operand, on so many bytes (unprivileged ISA 8.4).
FUNCTIONS = {
    "amoswap": lambda old, value, size: value, "amoadd": lambda old, value, size: old + value, "amoand": lambda old, value, size: old & value,
    "amoor": lambda old, value, size: old | value, "amoxor": lambda old, value, size: old ^ value,
    "amomin": lambda old, value, size: min(old, value, key=lambda it: signed(it, size)),
    "amomax": lambda old, value, size: max(old, value, key=lambda it: signed(it, size)),
    "amominu": lambda old, value, size: min(old, value), "amomaxu": lambda old, value, size: max(old, value),
}  # fmt: skip
# What is done in one step with the word around an address: on how many bytes, and what is written there, from the old value and the numbers.
CHANGES = {name: (8, function) for name, function in FUNCTIONS.items()} | {f"{name}.w": (4, function) for name, function in FUNCTIONS.items()}
CHANGES["amocas"] = (8, lambda old, expected, value, size: value if old == expected else old)
STORES = {"store1": 1, "store2": 2, "store4": 4}
CHANGES |= {name: (size, lambda old, value, size: value) for name, size in STORES.items()}
GUEST = ("ecall", "load", "store", "fetch", *CHANGES, "satp", "sie", "sstatus", "sip", "clearssip", "sfence", "fencei", "wfi")
DONE, WAITING, GONE = ("done",), ("waiting",), ("gone",)
# The step without an actor: the history is cut, and its events are counted anew.
CUT = (None, ("cut",))
MISALIGNED = {"fetch": 0, "load": 4, "store": 6, "amo": 6}
ACCESS_FAULT = {"fetch": 1, "load": 5, "store": 7, "amo": 7}
PAGE_FAULT = {"fetch": 12, "load": 13, "store": 15, "amo": 15}
# The bits of a virtual address by satp's MODE: Sv39 and Sv48.
WIDTHS = {8: 39, 9: 48}


class Fault(Exception):
    """The cause of an access that failed."""


class Hart:
    """What a board keeps of a hart."""

    FIELDS = ("state", "kept", "is_retentive", "ssip", "sie", "sstatus", "satp", "deadline", "outstanding", "waiting", "tlb", "words", "fills", "word_fills")

    def __init__(self):
        self.state, self.kept, self.is_retentive = STOPPED, (0, 0), False
        self.fills = self.word_fills = 0
        self.clear()

    def clear(self):
        """As a reset leaves it; fills are counted on."""
        self.state, self.ssip, self.sie, self.sstatus, self.satp = STOPPED, 0, 0, 0, 0
        self.deadline = self.outstanding = None
        self.waiting, self.tlb, self.words = (), (), ()

    def copy(self):
        other = Hart.__new__(Hart)
        for name in Hart.FIELDS:
            setattr(other, name, getattr(self, name))
        return other

    def enter(self, is_start):
        self.satp = self.sstatus = 0
        if is_start:
            self.sie, self.ssip, self.deadline = 0, 0, None


def targets(mask, base, harts):
    """The harts that a hart list names, or None where it is refused."""
    if base == ALL:
        return frozenset(range(harts))
    if base >= harts:
        return None
    named = [base + i for i in range(64) if mask >> i & 1]
    return None if named and named[-1] >= harts else frozenset(named)


def is_full(start, size):
    return start == size == 0 or size == ALL


def suspend_error(kind):
    if kind in (0, 1 << 31):
        return 0
    return INVALID_PARAM if kind & 0x7FFFFFFF <= 0x0FFFFFFF else NOT_SUPPORTED


def reset_error(kind, reason):
    if kind >= 0xF0000000:
        return NOT_SUPPORTED
    return INVALID_PARAM if kind > 2 or 2 <= reason <= 0xDFFFFFFF else 0


def covers(fence, entry):
    """fence: (range or None for all, asid or None); entry: (page, level, asid, is_global, ..)."""
    span, asid = fence
    page, level, of, is_global = entry[:4]
    if asid is not None and (is_global or of != asid):
        return False
    return span is None or max(page, span[0]) < min(page + (4096 << 9 * level), span[1])


class Board:
    def __init__(self, harts, pages, limit, boot_hart, boot_addr, boot_opaque, asid_len=16, width=39):
        self.config = (harts, pages, limit, boot_hart, boot_addr, boot_opaque)
        self.asids, self.width = (1 << asid_len) - 1, width
        self.harts = [Hart() for _ in range(harts)]
        # Which of the harts no copy of this board shares.
        self.owned = set(range(harts))
        self.ram = {}
        self.time = self.events = 0
        # The pairs of a fence and a hart that were asked and applied, and the type and reason of the last reset.
        self.asked = self.applied = 0
        self.is_off, self.last_reset = False, None
        # The accepted starts since then, and those of them that were entered.
        self.starts = self.entries = 0
        self.start_boot_hart()
        # Of the last step: the TLB entry that it used, and whether its answer was stale.
        self.used, self.is_stale = None, False

    def start_boot_hart(self):
        _, _, _, hart, addr, opaque = self.config
        it = self.mine(hart)
        it.state, it.kept = START_PENDING, (addr, opaque)
        self.starts += 1

    def copy(self):
        self.owned = set()
        other = Board.__new__(Board)
        other.__dict__.update(self.__dict__)
        other.owned = set()
        other.harts = list(self.harts)
        other.ram = dict(self.ram)
        return other

    def mine(self, h):
        """The hart, to be written."""
        if h not in self.owned:
            self.harts[h] = self.harts[h].copy()
            self.owned.add(h)
        return self.harts[h]

    # ---- look-ups

    def is_due(self, h):
        deadline = self.harts[h].deadline
        return deadline is not None and deadline != ALL and self.time >= deadline

    def sip(self, h):
        return (SSI if self.harts[h].ssip else 0) | (STI if self.is_due(h) else 0)

    def wakes(self, h):
        return self.sip(h) & self.harts[h].sie != 0

    def in_ram(self, address):
        return RAM <= address < RAM + 4096 * self.config[1]

    # ---- one step

    def step(self, actor, op):
        """actor: a hart's number, or None for the clock."""
        self.used, self.is_stale = None, False
        if (actor, op) == CUT:
            self.events = 0
            return DONE
        number = self.refusal(actor, op)
        if number:
            return ("refused", number)
        self.events += 1
        if actor is None:
            self.time += op[1]
            return DONE
        if op[0] in CHANGES:
            return self.change(actor, *op)
        return getattr(self, "do_" + op[0])(actor, *op[1:])

    def refusal(self, actor, op):
        name = op[0]
        if self.is_off:
            return 1
        if actor is None:
            if name != "tick":
                return 2
        elif actor >= len(self.harts) or name == "tick":
            return 2
        else:
            number = self.hart_refusal(self.harts[actor], actor, name)
            if number:
                return number
        if self.events >= self.config[2]:
            return 4
        return 5 if name == "tick" and self.time + op[1] > ALL - 1 else 0

    def hart_refusal(self, hart, h, name):
        in_call = hart.outstanding is not None
        if name in GUEST:
            if hart.state != STARTED or in_call:
                return 2
            return 3 if name == "wfi" and not self.wakes(h) else 0
        if name == "poll":
            return 2 if not in_call else 3 if hart.outstanding else 0
        if name == "serve":
            return 2 if hart.state not in INTERRUPTIBLE else 0 if hart.waiting else 3
        if hart.state == STARTED:
            return 2
        return 3 if hart.state == STOPPED or hart.state == SUSPENDED and not self.wakes(h) else 0

    # ---- the firmware's operations

    def do_advance(self, h):
        hart = self.mine(h)
        if hart.state == START_PENDING or hart.state == RESUME_PENDING and not hart.is_retentive:
            self.entries += hart.state == START_PENDING
            hart.enter(hart.state == START_PENDING)
            hart.state = STARTED
            return ("entry", hart.kept[0], h, hart.kept[1])
        if hart.state == RESUME_PENDING:
            hart.state = STARTED
            return ("ret", 0, 0)
        hart.state = {STOP_PENDING: STOPPED, SUSPEND_PENDING: SUSPENDED, SUSPENDED: RESUME_PENDING}[hart.state]
        return ("moved", hart.state)

    def do_poll(self, h):
        self.mine(h).outstanding = None
        return ("ret", 0, 0)

    def do_serve(self, h):
        hart = self.mine(h)
        caller, fence = hart.waiting[0]
        hart.waiting = hart.waiting[1:]
        self.apply(h, fence)
        self.applied += 1
        self.mine(caller).outstanding -= {h}
        return ("served",)

    def apply(self, h, fence):
        """fence: None for a FENCE.I."""
        hart = self.mine(h)
        if fence is None:
            hart.words = ()
        else:
            hart.tlb = tuple(item for item in hart.tlb if not covers(fence, item[1]))

    def discharge(self, h):
        for caller, _ in self.mine(h).waiting:
            self.mine(caller).outstanding -= {h}
        self.applied += len(self.mine(h).waiting)
        self.mine(h).waiting = ()

    # ---- the guest's operations

    def do_satp(self, h, value):
        mode = value >> 60
        if mode == 0:
            self.mine(h).satp = 0
        elif WIDTHS.get(mode, ALL) <= self.width:
            self.mine(h).satp = value & ~((0xFFFF & ~self.asids) << 44)
        return DONE

    def do_sie(self, h, value):
        self.mine(h).sie = value & (SSI | STI)
        return DONE

    def do_sstatus(self, h, value):
        self.mine(h).sstatus = value
        return DONE

    def do_sip(self, h):
        return ("value", self.sip(h))

    def do_clearssip(self, h):
        self.mine(h).ssip = 0
        return DONE

    def do_sfence(self, h, va, asid):
        span = None
        if va is not None:
            span = (va, va + 1) if is_valid(va, self.width) else (0, 0)
        self.apply(h, (span, None if asid is None else asid & self.asids))
        return DONE

    def do_fencei(self, h):
        self.apply(h, None)
        return DONE

    def do_wfi(self, h):
        return DONE

    # ---- accesses

    def do_load(self, h, va):
        return self.access(h, "load", va, lambda pa: ("value", self.ram.get(pa, 0)))

    def do_store(self, h, va, value):
        def store(pa):
            self.ram[pa] = value
            return DONE

        return self.access(h, "store", va, store)

    def change(self, h, name, va, *numbers):
        """An AMO, a compare-and-swap, or a store of 1, 2 or 4 bytes."""
        size, makes = CHANGES[name]
        kind, word_at = access_of((name, va))
        if va % size:
            return ("fault", MISALIGNED[kind])
        low, mask = 8 * (va % 8), (1 << 8 * size) - 1

        def change(pa):
            word = self.ram.get(pa, 0)
            old = word >> low & mask
            made = makes(old, *(it & mask for it in numbers), size) & mask
            self.ram[pa] = word & ~(mask << low) | made << low
            return DONE if name in STORES else ("value", signed(old, size) & ALL)

        return self.access(h, kind, word_at, change)

    def do_fetch(self, h, va):
        return self.access(h, "fetch", va, lambda pa: ("value", self.word(h, pa)))

    def word(self, h, pa):
        hart = self.mine(h)
        for _, at, word in reversed(hart.words):
            if at == pa:
                self.is_stale |= word != self.ram.get(pa, 0)
                return word
        word, number = self.ram.get(pa, 0), hart.word_fills
        hart.words = tuple(item for item in hart.words if item[0] != number - 16) + ((number, pa, word),)
        hart.word_fills += 1
        return word

    def access(self, h, kind, va, then):
        if va % 8:
            return ("fault", MISALIGNED[kind])
        try:
            pa = self.translate(h, kind, va)
        except Fault as fault:
            return ("fault", fault.args[0])
        return then(pa) if self.in_ram(pa) else ("fault", ACCESS_FAULT[kind])

    def translate(self, h, kind, va):
        hart = self.mine(h)
        if not hart.satp:
            return va
        if not is_valid(va, WIDTHS[hart.satp >> 60]):
            raise Fault(PAGE_FAULT[kind])
        asid = hart.satp >> 44 & 0xFFFF
        entry = next((item[1] for item in reversed(hart.tlb) if is_in(va, item[1]) and (item[1][3] or item[1][2] == asid)), None)
        if entry is None:
            entry = self.walk(hart.satp, kind, va)
            hart.tlb = tuple(item for item in hart.tlb if item[0] != hart.fills - 16) + ((hart.fills, entry),)
            hart.fills += 1
        else:
            self.is_stale = self.is_other(hart.satp, kind, va, entry)
        self.used = entry
        if not allows(entry, kind):
            raise Fault(PAGE_FAULT[kind])
        return entry[4] + va - entry[0]

    def is_other(self, satp, kind, va, entry):
        """Whether a walk now wouldn't give this entry."""
        try:
            walked = self.walk(satp, kind, va)
        except Fault:
            # (an entry without the right faults, and so does a walk)
            return allows(entry, kind)
        return walked[:2] + walked[3:] != entry[:2] + entry[3:]

    def walk(self, satp, kind, va):
        """The leaf as a TLB entry: page, level, ASID, whether it is global, physical page, rights."""
        table, is_global = (satp & (1 << 44) - 1) << 12, False
        for level in range((WIDTHS[satp >> 60] - 12) // 9 - 1, -1, -1):
            at = table + 8 * (va >> 12 + 9 * level & 0x1FF)
            if not self.in_ram(at):
                raise Fault(ACCESS_FAULT[kind])
            pte = self.ram.get(at, 0)
            is_global |= bool(pte & 0x20)
            r, w, x = pte & 2, pte & 4, pte & 8
            is_bad = not pte & 1 or w and not r or pte >> 54
            if not is_bad and not (r or x) and level and not pte & 0xD0:
                table = (pte >> 10 & (1 << 44) - 1) << 12
                continue
            size = 4096 << 9 * level
            pa = (pte >> 10 & (1 << 44) - 1) << 12
            entry = (va & ALL - (size - 1), level, satp >> 44 & 0xFFFF, is_global, pa, bool(r), bool(w), bool(x), bool(pte & 0x80))
            if is_bad or not (r or x) or pte & 0x10 or not pte & 0x40 or pa % size or not allows(entry, kind):
                break
            return entry
        raise Fault(PAGE_FAULT[kind])

    # ---- calls

    def do_ecall(self, h, eid, fid, *numbers):
        a = (*numbers, 0, 0, 0, 0, 0, 0)[:6]
        call = {
            (TIME, 0): self.set_timer, (IPI, 0): self.send_ipi, (RFENCE, 0): self.fence, (RFENCE, 1): self.fence, (RFENCE, 2): self.fence,
            (HSM, 0): self.start, (HSM, 1): self.stop, (HSM, 2): self.status, (HSM, 3): self.suspend, (SRST, 0): self.reset,
        }.get((eid, fid))  # fmt: skip
        if eid == BASE and fid <= 6:
            answer = self.base(fid, a[0])
        elif call is None:
            answer = NOT_SUPPORTED
        else:
            answer = call(h, fid, *a)
        return ("ret", answer, 0) if isinstance(answer, int) else answer

    def base(self, fid, a0):
        return ("ret", 0, (0x01000000, 0x5A5A5A, 1, int(a0 in EXTENSIONS), 0, 0, 0)[fid])

    def set_timer(self, h, _, time, *rest):
        self.mine(h).deadline = time
        return 0

    def send_ipi(self, h, _, mask, base, *rest):
        named = targets(mask, base, len(self.harts))
        if named is None:
            return INVALID_PARAM
        for t in named:
            if self.harts[t].state in INTERRUPTIBLE:
                self.mine(t).ssip = 1
        return 0

    def fence(self, h, fid, mask, base, start, size, asid, *rest):
        named = targets(mask, base, len(self.harts))
        if named is None:
            return INVALID_PARAM
        if fid and not is_full(start, size) and start + size > 1 << 64:
            return INVALID_ADDRESS
        fence = None
        if fid:
            fence = (None if is_full(start, size) else (start, start + size), asid & self.asids if fid == 2 else None)
        asked = frozenset(t for t in named if self.harts[t].state in INTERRUPTIBLE)
        self.asked += len(asked)
        if h in asked:
            self.apply(h, fence)
            self.applied += 1
        for t in asked - {h}:
            self.mine(t).waiting += ((h, fence),)
        self.mine(h).outstanding = asked - {h}
        return WAITING

    def is_right(self, address):
        return address % 2 == 0 and self.in_ram(address)

    def start(self, h, _, t, addr, opaque, *rest):
        if t >= len(self.harts):
            return INVALID_PARAM
        if not self.is_right(addr):
            return INVALID_ADDRESS
        if self.harts[t].state != STOPPED:
            return ALREADY_AVAILABLE
        self.mine(t).state, self.mine(t).kept = START_PENDING, (addr, opaque)
        self.starts += 1
        return 0

    def stop(self, h, *rest):
        hart = self.mine(h)
        if hart.sstatus:
            return FAILED
        self.discharge(h)
        hart.tlb, hart.words, hart.deadline, hart.state = (), (), None, STOP_PENDING
        return GONE

    def status(self, h, _, t, *rest):
        return ("ret", 0, self.harts[t].state) if t < len(self.harts) else INVALID_PARAM

    def suspend(self, h, _, kind, addr, opaque, *rest):
        kind &= LOW
        if error := suspend_error(kind):
            return error
        if kind and not self.is_right(addr):
            return INVALID_ADDRESS
        hart = self.mine(h)
        hart.state, hart.is_retentive = SUSPEND_PENDING, kind == 0
        if kind:
            hart.kept = (addr, opaque)
        return GONE if kind else WAITING

    def reset(self, h, _, kind, reason, *rest):
        kind, reason = kind & LOW, reason & LOW
        if error := reset_error(kind, reason):
            return error
        for t in range(len(self.harts)):
            self.applied += len(self.harts[t].waiting)
            self.mine(t).clear()
        if kind == 1:
            self.ram = {}
        self.is_off, self.last_reset = kind == 0, (kind, reason)
        self.starts = self.entries = 0
        if kind:
            self.start_boot_hart()
        return GONE


def is_valid(va, width):
    return va >> width - 1 in (0, (1 << 65 - width) - 1)


def is_in(va, entry):
    return entry[0] <= va < entry[0] + (4096 << 9 * entry[1])


def access_of(op):
    """The kind of an operation's access, and the address of the word that it reads or writes; None if it is no access."""
    if op[0] in CHANGES:
        return "store" if op[0] in STORES else "amo", op[1] - op[1] % 8
    return op[:2] if op[0] in ("load", "store", "fetch") else None


def allows(entry, kind):
    r, w, x, d = entry[5:]
    return {"load": r, "store": w and d, "fetch": x, "amo": r and w and d}[kind]


# ---- scripts


def number(word):
    return None if word == "-" else int(word, 0) if word[:2] == "0x" else int(word)


def words_of(line):
    return line.partition("#")[0].split()


def board_of(words):
    """The board of a board line's words."""
    return Board(*(number(word) for word in words[1:]))


def step_of(words):
    """The actor and the operation of a step's words."""
    if words == ["cut"]:
        return CUT
    return None if words[0] == "c" else number(words[0]), (words[1], *(number(word) for word in words[2:]))


HEX = {"ecall", "load", "store", "fetch", *CHANGES, "satp", "sfence", "sie", "tick"}


def spelled_step(actor, op):
    """As `replay` prints it."""
    if (actor, op) == CUT:
        return "cut"
    numbers = op[1:] + (0,) * (9 - len(op)) if op[0] == "ecall" else op[1:]
    words = ["-" if it is None else f"{it:#x}" if op[0] in HEX else str(it) for it in numbers]
    return " ".join(["c" if actor is None else str(actor), op[0], *words])


def spelled_answer(answer):
    name, *numbers = answer
    if name == "ret":
        return f"ret {numbers[0]} {numbers[1]:#x}"
    if name == "entry":
        return f"entry {numbers[0]:#x} {numbers[1]} {numbers[2]:#x}"
    return " ".join([name, *(f"{it:#x}" if name == "value" else str(it) for it in numbers)])
