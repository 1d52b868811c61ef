"""A reader of page tables: Sv39, Sv48 and Sv57, superpages, user pages, any number of pages. It is the recorder's and the
report's own, by the Privileged Architecture 20211203, 4.3 to 4.6; nothing here is proved, and nothing of it goes into a trace."""

LEVELS = {8: 3, 9: 4, 10: 5}
PAGE, ENTRIES = 4096, 512
V, R, W, X, U, G, A, D = (1 << bit for bit in range(8))
# What a processor may write by itself: it is no change of a mapping.
BY_HARDWARE = A | D
PPN = (1 << 44) - 1
ALL = (1 << 64) - 1


def levels_of(satp):
    """How many levels satp's mode has; 0 where nothing is translated, or by a mode that isn't known."""
    return LEVELS.get(satp >> 60, 0)


def root_of(satp):
    return (satp & PPN) * PAGE


def asid_of(satp):
    return satp >> 44 & 0xFFFF


def is_pointer(pte):
    return pte & (V | R | W | X) == V


def is_leaf(pte, level):
    """Whether a valid entry of this level maps something: superpages must be aligned, and W needs R."""
    return bool(pte & V and pte & (R | X) and not (pte & W and not pte & R)) and address_of(pte) % size_of(level) == 0


def address_of(pte):
    return (pte >> 10 & PPN) * PAGE


def size_of(level):
    return PAGE << 9 * level


def extended(va, levels):
    """A virtual address with its upper bits as the highest one that is translated."""
    bits = 12 + 9 * levels
    return va | ALL & ~((1 << bits) - 1) if va >> bits - 1 & 1 else va


def tables(satp, table_at):
    """Each table that is reached: its address, its level, the first virtual address, its entries, and G where an entry above
    has it. table_at: of an address its 512 entries, or None where nothing can be read."""
    levels = levels_of(satp)
    waiting = [(root_of(satp), levels - 1, 0, 0)] if levels else []
    while waiting:
        address, level, va, above = waiting.pop()
        entries = table_at(address)
        if entries is None:
            continue
        yield address, level, va, entries, above
        if level:
            waiting += [(address_of(pte), level - 1, va + at * size_of(level), above | pte & G) for at, pte in enumerate(entries) if is_pointer(pte)]


def reached(satps, table_at):
    """The tables of several satps, by their addresses: the level and the entries of each. A table that is reached twice is
    read once."""
    found = {}
    waiting = [(root_of(satp), levels_of(satp) - 1) for satp in satps if levels_of(satp)]
    done = set(waiting)
    while waiting:
        address, level = waiting.pop()
        entries = found[address][1] if address in found else table_at(address)
        if entries is None:
            continue
        found[address] = max(level, found.get(address, (0,))[0]), entries
        below = {(address_of(pte), level - 1) for pte in entries if is_pointer(pte)} - done if level else set()
        done |= below
        waiting += below
    return found


def translated(satp, va, table_at):
    """The physical address of a virtual one, whatever the rights; None where nothing is mapped."""
    levels, address = levels_of(satp), root_of(satp)
    for level in reversed(range(levels)):
        entries = table_at(address)
        pte = entries[va // size_of(level) % ENTRIES] if entries else 0
        if not is_pointer(pte):
            return address_of(pte) + va % size_of(level) if pte & V and is_leaf(pte, level) else None
        address = address_of(pte)
    return None if levels else va


class Mapping:
    """What a leaf maps; its entry has G also where one above it has."""

    def __init__(self, va, level, pte):
        self.va, self.level, self.pte = va, level, pte
        self.size, self.pa = size_of(level), address_of(pte)

    def rights(self):
        return "".join(letter for letter, bit in zip("rwxug", (R, W, X, U, G)) if self.pte & bit)

    def __str__(self):
        return f"{self.va:#x} -> {self.pa:#x} {self.rights()}"


def mappings(satp, table_at):
    """All that a satp maps: by virtual address and level."""
    levels = levels_of(satp)
    found = {}
    for _, level, va, entries, above in tables(satp, table_at):
        for at, pte in enumerate(entries):
            if pte & V and is_leaf(pte, level):
                begin = extended(va + at * size_of(level), levels)
                found[begin, level] = Mapping(begin, level, pte | above)
    return found


def takes_away(before, after):
    """Whether a hart that still has the first translation sees something that the second doesn't give it."""
    return after is None or before.pa != after.pa or before.pte & (R | W | X | U | G) & ~after.pte != 0


# ---- instructions, by their encodings

# (what it is, mask, value)
INSTRUCTIONS = [
    ("sfence", 0xFE007FFF, 0x12000073),  # sfence.vma
    ("fencei", 0xFFFFFFFF, 0x0000100F),
    # Svinval (Privileged Architecture 20211203, 7)
    ("sinval", 0xFE007FFF, 0x16000073),  # sinval.vma
    ("winval", 0xFFFFFFFF, 0x18000073),  # sfence.w.inval
    ("invalir", 0xFFFFFFFF, 0x18100073),  # sfence.inval.ir
]


def is_satp_write(word):
    """csrrw, csrrs, csrrc of satp and their forms with a number; one that sets or clears nothing only reads."""
    if word & 0xFFF0007F != 0x18000073 or word >> 12 & 3 == 0:
        return False
    return word >> 12 & 3 == 1 or word >> 15 & 31 != 0


def instruction_of(word):
    """The kind of its line in a record, or None."""
    if is_satp_write(word):
        return "satp"
    return next((name for name, mask, value in INSTRUCTIONS if word & mask == value), None)


def found_in(code, begin):
    """Of a piece of code: the address of each such instruction, at each two bytes, with the instruction's word."""
    for at in range(0, len(code) - 3, 2):
        if code[at] & 0x7F not in (0x73, 0x0F):
            continue
        word = int.from_bytes(code[at : at + 4], "little")
        if name := instruction_of(word):
            yield begin + at, name, word
