"""What a record's numbers are on the board: ids of harts, hart lists, and addresses."""
from board_model import ALL, HSM, IPI, LOW, RAM, RFENCE
from records import Broken

PAGE = 4096
# How far a map reaches.
REACH = 1 << 40


class Numbers:
    """Maps (A, B): what a record has at A, the board has at B. A page that is entered and that no map brings into the
    board's RAM is renamed to the first page that is free there, in the order in which they occur."""

    def __init__(self, record, maps, pages):
        self.record, self.maps, self.end = record, sorted(maps), RAM + PAGE * pages
        self.is_plain = record.ids == list(range(record.harts))
        # Of pages: where they are on the board; and the lines at which one had no room.
        self.renamed, self.without_room = {}, {}
        self.rename(pages)

    def is_in_ram(self, address):
        return RAM <= address < self.end

    def rename(self, pages):
        taken = {self.mapped(address) // PAGE for address in named_addresses(self.record)}
        free = [page for page in range(RAM // PAGE, RAM // PAGE + pages) if page not in taken][::-1]
        for line in self.record.lines:
            page = line.numbers[0] // PAGE if line.kind == "entry" else None
            if page is None or page in self.renamed or self.is_in_ram(self.mapped(page * PAGE)):
                continue
            if free:
                self.renamed[page] = free.pop()
            else:
                self.without_room.setdefault(page, line.number)

    def mapped(self, address):
        near = [(a, b) for a, b in self.maps if min(a, b) <= address < min(a, b) + REACH]
        below = [(a, b) for a, b in near if a <= address]
        a, b = below[-1] if below else near[0] if near else (0, 0)
        return (address - a + b) & ALL

    def address(self, address):
        page = self.renamed.get(address // PAGE)
        return self.mapped(address) if page is None else page * PAGE + address % PAGE

    def hart(self, number):
        """A hart's id; of one that isn't there, an id that nobody has here either."""
        place_of, harts = self.record.place_of, self.record.harts
        if number in place_of:
            return place_of[number]
        if number > LOW and number & LOW in place_of:
            return number & ~LOW | place_of[number & LOW]
        return number if number >= harts else number + harts

    def hart_list(self, mask, base):
        """Ids that a mask names lie close together, so their places do, too, and fit one mask."""
        place_of, harts = self.record.place_of, self.record.harts
        if self.is_plain or base == ALL:
            return mask, base
        if base not in place_of:
            return mask, self.hart(base)
        named = [base + i for i in range(64) if mask >> i & 1]
        if any(number not in place_of for number in named):
            return 1, harts
        return sum(1 << place_of[number] - place_of[base] for number in named), place_of[base]

    def op(self, numbers):
        eid, fid, *a = numbers
        if (eid, fid) in ((HSM, 0), (HSM, 2)):
            a[0] = self.hart(a[0])
        if (eid, fid) in ((HSM, 0), (HSM, 3)):
            a[1] = self.address(a[1])
        if (eid, fid) == (IPI, 0) or eid == RFENCE:
            a[:2] = self.hart_list(*a[:2])
        return ["ecall", eid, fid, *a]

    def told(self):
        """What a reader of the trace must know."""
        if not self.is_plain:
            guess = ", which no list in the record says" if self.record.is_guessed else ""
            yield f"harts {' '.join(map(str, self.record.ids))} are 0 to {self.record.harts - 1} here{guess}"
        for page, here in self.renamed.items():
            yield f"the page at {page * PAGE:#x} is at {here * PAGE:#x} here"
        for page, at in self.without_room.items():
            yield f"line {at}: the page at {page * PAGE:#x} has no room here"

    def first(self):
        """The address of the first entry, which must be one of the board's."""
        line = self.record.lines[0]
        address = self.address(line.numbers[0])
        if not self.is_in_ram(address) or address % 2:
            raise Broken(line.number, f"hart {self.record.ids[line.hart]} enters at {line.numbers[0]:#x}, where no hart can begin")
        return address


def named_addresses(record):
    """The addresses at which harts enter, and are to."""
    for line in record.lines:
        if line.kind == "entry":
            yield line.numbers[0]
        elif line.kind == "call" and line.numbers[:2] in ((HSM, 0), (HSM, 3)):
            yield line.numbers[3]
