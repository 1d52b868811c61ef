"""What the tools read of an ELF file: its segments, and the names of its functions; these also from the lines of `nm`."""
import re
import struct
from bisect import bisect_right

EXECUTABLE, LOADED, SYMBOLS, FUNCTION = 1, 1, 2, 2
# (each place at which one begins, also inside of another)
CSR_0X14D = re.compile(rb"(?=([\x73\xf3][\x00-\xff][\xd0-\xdf]\x14))", re.S)


class Elf:
    """A file for RV64, little-endian: `segments`, as (physical address, virtual address, bytes, whether it is code); None of it
    where the file is another one: a raw image, or an ELF file that is cut."""

    def __init__(self, path):
        with open(path, "rb") as file:
            self.data = file.read()
        self.is_elf = self.data[:6] == b"\x7fELF\x02\x01"
        self.segments, self.names = [], []
        try:
            if self.is_elf:
                self.segments, self.names = list(self.read_segments()), sorted(self.read_names())
        except (struct.error, IndexError, ValueError):
            self.is_elf = False

    def read_segments(self):
        at, size, count = struct.unpack_from("<Q", self.data, 32)[0], *struct.unpack_from("<HH", self.data, 54)
        for place in range(count):
            kind, flags, offset, virtual, physical, length = struct.unpack_from("<IIQQQQ", self.data, at + place * size)
            if kind == LOADED:
                yield physical, virtual, self.data[offset : offset + length], bool(flags & EXECUTABLE)

    def read_names(self):
        at, size, count = struct.unpack_from("<Q", self.data, 40)[0], *struct.unpack_from("<HH", self.data, 58)
        heads = [struct.unpack_from("<IIQQQQII", self.data, at + place * size) for place in range(count)]
        for _, kind, _, _, offset, length, link, _ in heads:
            if kind != SYMBOLS:
                continue
            texts = heads[link][4]
            for place in range(offset, offset + length, 24):
                name, info, _, _, value, _ = struct.unpack_from("<IBBHQQ", self.data, place)
                # (names that begin with `$` mark what code is, and name no function)
                if info & 15 in (0, FUNCTION) and value and self.data[texts + name] not in (0, ord("$")):
                    end = self.data.index(b"\0", texts + name)
                    yield value, self.data[texts + name : end].decode(errors="replace")

    def function(self, address):
        """The function in which an address is, virtual or physical; or None."""
        for there in (address, *(address - physical + virtual for physical, virtual, code, _ in self.segments if physical <= address < physical + len(code))):
            at = bisect_right(self.names, (there, "\U0010ffff"))
            inside = any(virtual <= there < virtual + len(code) for _, virtual, code, _ in self.segments)
            if at and inside:
                return self.names[at - 1][1]
        return None


def writes_stimecmp(elf):
    """Whether the code has an instruction that writes the CSR stimecmp (Sstc)."""
    codes = [code for _, _, code, is_code in elf.segments if is_code] if elf.is_elf else [elf.data]
    return any(found.start() % 2 == 0 and is_write(int.from_bytes(found[1], "little")) for code in codes for found in CSR_0X14D.finditer(code))


def is_write(word):
    """Whether a CSR instruction writes: a csrrs or csrrc of x0, or of 0, only reads."""
    kind, of = word >> 12 & 7, word >> 15 & 31
    return kind & 3 == 1 or kind & 3 != 0 and of != 0


class Names:
    """The names of functions in lines `ADDRESS TYPE NAME`, as `nm` prints them, and as Linux's System.map has them."""

    def __init__(self, data):
        found = re.findall(rb"^([0-9a-fA-F]{1,16}) ([A-Za-z]) ([^$\s]\S*)$", data, re.M)
        # (at one address a function's name is the last, behind those of data)
        self.names = sorted((int(address, 16), kind.lower() in b"tw", name.decode(errors="replace")) for address, kind, name in found)

    def function(self, address):
        at = bisect_right(self.names, (address, True, "\U0010ffff"))
        # (behind the last symbol nothing tells where it ends)
        return self.names[at - 1][2] if 0 < at < len(self.names) and self.names[at - 1][1] else None


def functions_of(path):
    """Gives the function of an address, by an ELF file or by lines of `nm`; None where the file is neither."""
    elf = Elf(path)
    if elf.is_elf:
        return elf.function
    names = Names(elf.data)
    return names.function if names.names else None
