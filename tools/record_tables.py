"""The part of tools/record --tables that runs in gdb (record_gdb.py): it also stops where harts fence or write satp, and compares
the page tables at each stop with those at the stop before."""
import struct
from bisect import bisect_left

from elf import Elf
from page_tables import BY_HARDWARE, ENTRIES, PAGE, V, X, address_of, asid_of, found_in, is_leaf, levels_of, mappings, reached, root_of, size_of, translated

# How much of the firmware's memory is looked through for its own fences.
FIRMWARE, FIRMWARE_SIZE = 0x80000000, 0x60000
# How much of a stack is looked through for callers, and how many are told.
STACK, CALLERS = 1 << 14, 7


class Tables:
    """read: of physical memory (None where there is none). put: writes a line. `stops`: where harts fence or write satp, with
    the kind and the instruction's word."""

    def __init__(self, image, entry, harts, read, put):
        self.read, self.put, self.stops, self.known = read, put, {}, {}
        # The image's own, by their physical addresses, in order.
        self.places, self.own = [], {}
        self.fresh(harts)
        elf = Elf(image)
        for physical, virtual, code, is_code in elf.segments if elf.is_elf else [(entry, entry, elf.data, True)]:
            if is_code:
                found = {place: (name, word) for place, name, word in found_in(code, physical)}
                self.own |= found
                self.stops |= {place - physical + begin: it for begin in (physical, virtual) for place, it in found.items()}
        self.places = sorted(self.own)

    def fresh(self, harts):
        """As after a reset: of each hart its satp, and all by which it may still hold something."""
        self.satp, self.used = dict.fromkeys(range(harts), 0), {hart: set() for hart in range(harts)}

    def look_for_the_firmware(self):
        """The firmware is in memory once a hart has entered."""
        code = b"".join(filter(None, (self.read(at, PAGE) for at in range(FIRMWARE, FIRMWARE + FIRMWARE_SIZE, PAGE))))
        self.stops |= {address: (name, word) for address, name, word in found_in(code, FIRMWARE)}

    def table_at(self, address):
        data = self.read(address, PAGE)
        return None if data is None else struct.unpack(f"<{ENTRIES}Q", data)

    def look(self, hart, satp):
        """The hart has this satp now. What has changed since the stop before, of all tables of which some hart may hold something."""
        is_new = satp != self.satp[hart]
        if is_new and levels_of(satp):
            self.used[hart].add(satp)
        seen = reached({(root_of(it), levels_of(it)): it for used in self.used.values() for it in used}.values(), self.table_at)
        for address, (level, entries) in seen.items():
            before = self.known.get(address, (0,) * ENTRIES)
            if before != entries:
                for at, (old, new) in enumerate(zip(before, entries)):
                    if (old ^ new) & ~BY_HARDWARE:
                        self.put("m", "store", f"{address + 8 * at:#x}", f"{new:#x}")
                        is_new |= self.is_of_the_image(new, level)
            self.known[address] = entries
        if satp != self.satp[hart]:
            self.satp[hart] = satp
            self.put(hart, "satp", f"{satp:#x}")
        if is_new:
            self.look_for_addresses()

    def mapped(self, begin, size):
        """The image's fences and writes of satp in a piece of physical memory."""
        return self.places[bisect_left(self.places, begin) : bisect_left(self.places, begin + size)]

    def is_of_the_image(self, pte, level):
        return bool(pte & V and pte & X and is_leaf(pte, level) and self.mapped(address_of(pte), size_of(level)))

    def look_for_addresses(self):
        """Where the tables map the image's code, harts meet its instructions at virtual addresses; a raw image tells none."""
        for satp in set(self.satp.values()):
            for it in mappings(satp, lambda address: self.known.get(address)).values():
                if it.pte & X:
                    self.stops |= {it.va + place - it.pa: self.own[place] for place in self.mapped(it.pa, it.size)}

    def instruction(self, hart, pc, register):
        """The hart is about to fence, or to write satp: a csrrw is seen here, other forms at its next stop."""
        name, word = self.stops[pc]
        where = f"pc={pc:#x}", *(["firmware=1"] if FIRMWARE <= pc < FIRMWARE + FIRMWARE_SIZE else [])
        if name == "satp":
            if word >> 12 & 7 == 1:
                self.look(hart, register(f"x{word >> 15 & 31}") if word >> 15 & 31 else 0)
            return
        va, asid = (register(f"x{number}") if number else None for number in (word >> 15 & 31, word >> 20 & 31))
        numbers = ["-" if number is None else f"{number:#x}" for number in (va, asid)] if name in ("sfence", "sinval") else []
        self.put(hart, name, *numbers, *where)
        if name == "sfence" and va is None:
            # (of tables that it has left it holds nothing more)
            self.used[hart] = {it for it in self.used[hart] if it == self.satp[hart] or asid is not None and asid & 0xFFFF != asid_of(it)}

    def callers(self, satp, frame, stack):
        """The return addresses behind that of the register ra, by the frame pointer s0, where the image keeps one."""
        found, end = [], stack + STACK
        while stack < frame <= end and frame % 16 == 0 and len(found) < CALLERS:
            before, back = (self.word_at(satp, frame - down) for down in (16, 8))
            if back is None:
                break
            # (the function of the ECALL keeps no return address where it calls nothing)
            if not found and frame < back <= end:
                before = back
            else:
                found.append(back)
            stack, frame = frame, before
        return found

    def word_at(self, satp, va):
        """What the supervisor has at an address, by the tables that were read at this stop."""
        address = translated(satp, va, lambda at: self.known.get(at))
        page = None if address is None else self.read(address & -PAGE, PAGE)
        return None if page is None else int.from_bytes(page[address % PAGE : address % PAGE + 8], "little")
