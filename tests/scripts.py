"""Scripts of all kinds, good ones and ones with each fault: what tests give the built program and judge by `tests/grammar.py`. Each
function gives texts; `all_texts` gives all of them, each once."""
import random

BOARD = b"board 3 2 100 0 0x80000000 0x0\n"

EMPTY = b"# a board alone\nboard 128 256 1000000 127 0x80000ffe 0xFfffffffffffffff # no line\n\n\t# and no more"
PROGRAM = b"""\
board 2 4 100 0 0x80000000 0x0
at 0x80000000 # hart 0
ecall 0x48534d 0 1 0x80001000 0x7
sfence - 5
at 2147487744
sstatus 1
store 0x80000008 18446744073709551615
clock
tick 3
tick 0x0
at 18446744073709551615
wfi"""
SCHEDULE = b"""\
board 3 2 100 0 0x80000000 0x0
0 advance
0 ecall 0x10 3 0x54494d45
c tick 7\r
2 sfence 0x1000 -
127 sstatus 0x1

0x0 store 0x80000008 0xAb # a store
 cut	# the history
1 poll"""
TRACE = b"""\
board 2 2 100 0 0x80000000 0x0
0 advance -> entry 0x80000000 0 0x0
0 ecall 0x10 7 -> ret -2 0x0
c tick 5 -> done
1 sip -> refused 2
0 load 1 -> fault 4 # misaligned
cut -> done
0 ecall 0x48534d 0 1 0x80000000 -> ret 0 0
1 advance -> moved 1"""

# Words that are numbers, or nearly so.
NUMBERS = """
0 1 2 00 01 127 128 0127 00000000000000000000000127 0x7f 0x7F 0x80 0x0000000000000000000007f 0X7f 0x 0xg 0x1g x1 x 1x
0x-1 0x+1 +1 -1 -0 - -- + 1_0 1. 1e1 0b1 0o7 010 ->0 0-> 18446744073709551614 18446744073709551615 18446744073709551616
018446744073709551615 99999999999999999999 100000000000000000000 0xffffffffffffffff 0xFFFFFFFFFFFFFFFF 0xfFfFfFfFfFfFfFfF
0x10000000000000000 0x0ffffffffffffffff 0x00000000000000000000 9223372036854775807 9223372036854775808 9223372036854775809
-9223372036854775808 -9223372036854775809 -0009223372036854775808 09223372036854775807 -18446744073709551615
-18446744073709551616 -18446744073709551617 -0x1 --1 -x 0x8000000000000000 36893488147419103232 18446744073709551626
27670116110564327424 184467440737095516150 0x1ffffffffffffffff 340282366920938463463374607431768211456
""".split()

# Each operation with good numbers after it, and how many of them may be left out.
OPERATIONS = [
    ("ecall 1 2 3 4 5 6 7 8", 6), ("load 1", 0), ("store 1 2", 0), ("fetch 1", 0), ("satp 1", 0), ("sie 1", 0), ("sstatus 1", 0), ("sip", 0),
    ("clearssip", 0), ("sfence 1 2", 0), ("fencei", 0), ("wfi", 0), ("poll", 0), ("serve", 0), ("advance", 0), ("tick 1", 0),
    ("amoswap 1 2", 0), ("amomaxu.w 1 2", 0), ("amocas 1 2 3", 0), ("store1 1 2", 0), ("store2 1 2", 0), ("store4 1 2", 0),
]  # fmt: skip
REPLIES = ["ret -1 2", "waiting", "gone", "served", "done", "entry 1 2 3", "value 1", "fault 1", "moved 1", "refused 1"]

# Where an operation may stand: before it, and after it.
PLACES = [("0 ", ""), ("c ", ""), ("127 ", " -> done"), ("c ", " -> ret 0 0")]
PLACES += [("at 1\n", ""), ("clock\n", ""), ("", ""), ("at 1\nclock\n", "")]

# Words that aren't an operation's name, or nearly are.
NAMES = """Ecall ecal ecalls ecall# load, loads lod sipp si SIP fence.i sfence.vma sret - -> c 0 at clock tick: board cut ret
done ecalL wfI advanced serv pol stor ssip clearssi amo amoadd. amoadd.d amoadd.w. amocas.w Amocas store3 store8 store11""".split()


def text(*lines):
    return BOARD + "\n".join(lines).encode() + b"\n"


def beginnings():
    """Every beginning of a script of each kind, each without its last line feed and with it."""
    for whole in (EMPTY, PROGRAM, SCHEDULE, TRACE):
        for size in range(len(whole) + 1):
            yield whole[:size]
            yield whole[:size] + b"\n"


def line_ends():
    """A script of each kind with other line ends, and with a carriage return in each place of its first lines."""
    for whole in (EMPTY, PROGRAM, SCHEDULE, TRACE):
        plain = whole.replace(b"\r", b"")
        for end in (b"\r\n", b"\n\r", b"\r", b"\r\r\n", b"\n\n", b" \n", b"\t\r\n", b"#\r\n", b"\n\r\n"):
            yield plain.replace(b"\n", end)
            yield plain.replace(b"\n", end) + end
        for last in (b"\r", b"\r\n", b"\r\r\n", b"\n\r", b"\x00", b" \r", b"#\r", b"#\r\n"):
            yield plain + last
    for place in range(len(BOARD) + 8):
        whole = BOARD + b"0 sip\n0 wfi\n"
        yield whole[:place] + b"\r" + whole[place:]


def bytes_in_words():
    """Each byte inside a word, between words, and before the board line."""
    for byte in range(256):
        it = bytes([byte])
        yield it + BOARD
        yield BOARD + b"0 si" + it + b"p\n"
        yield BOARD + b"0" + it + b"sip -> value 0\n"


def comments():
    """A comment in each place of a line, and blanks in the place of each byte."""
    for line in (b"0 sfence 0x10 - -> ret -1 0x20", b"at 0x80000000", b"0 ecall 1 2", b"clock"):
        for place in range(len(line) + 1):
            yield BOARD + line[:place] + b"#" + line[place:]
            yield BOARD + line[:place] + b"\t# " + line[place:] + b"\n"
            yield BOARD + line[:place] + b" " + line[place:]
    for place in range(len(BOARD)):
        yield BOARD[:place] + b"#" + BOARD[place:] + BOARD


def numbers():
    """Each number in each place for one."""
    for word in NUMBERS:
        yield text(f"{word} sip")
        yield text(f"{word} sip -> value 0")
        yield text(f"at {word}")
        yield text("clock", f"tick {word}")
        yield text("at 16", f"at {word}")
        for place in range(1, 7):
            words = BOARD.decode().split()
            words[place] = word
            yield " ".join(words).encode()
        for op, _ in OPERATIONS:
            first, *rest = op.split()
            for place in range(len(rest)):
                words = [*rest[:place], word, *rest[place + 1 :]]
                yield text(" ".join(["0", first, *words]))
        for reply in REPLIES:
            first, *rest = reply.split()
            for place in range(len(rest)):
                words = [*rest[:place], word, *rest[place + 1 :]]
                yield text(" ".join(["0 sip ->", first, *words]))


def counts():
    """Each operation with too few, enough and too many words, of which some are no numbers, in each place for it."""
    for op, _ in OPERATIONS:
        first, *rest = op.split()
        for before, after in PLACES:
            for count in range(len(rest) + 3):
                words = [*rest, "9", "9", "9"][:count]
                yield text(before + " ".join([first, *words]) + after)
                if words:
                    yield text(before + " ".join([first, *words[:-1], "x"]) + after)
                    yield text(before + " ".join([first, "-", *words[1:]]) + after)
    for reply in REPLIES:
        first, *rest = reply.split()
        for count in range(len(rest) + 3):
            words = [*rest, "9", "9", "9"][:count]
            for actor in ("0 sip", "c tick 1", "0", "128 sip", "0 lod 1", "0 sip 1", "0 load x"):
                yield text(" ".join([actor, "->", first, *words]))
            if words:
                yield text(" ".join(["0 sip ->", first, *words[:-1], "->"]))
                yield text(" ".join(["0 sip ->", first, *words, "->"]))
                yield text(" ".join(["0 sip ->", first, *words, "-> done"]))


def names():
    """Names that aren't there, in each place for one."""
    for name in NAMES:
        for before, after in PLACES:
            yield text(before + name + after)
            yield text(before + name + " 1 2" + after)
        yield text(f"0 sip -> {name}")
        yield text(f"0 sip -> {name} 1")
        yield name.encode() + BOARD[5:]


ARROWS = """\
0 ->|0 -> done|128 -> done|128 ->|c -> done|c ->|->|-> done|0 sip ->|0 sip -> ->|0 sip -> done ->
0 sip -> done -> done|0 -> sip|0 -> ->|0 sip 1 ->|0 lod ->|0 load x ->|0 load ->|0 load -> value 0
0 load 1 2 -> value 0|0 sip->|0 sip-> done|0 sip ->done|0 sip - > done|0 sip # -> done|0 sip -># done
x -> done|at -> done|at 1 -> done|clock -> done|clock ->|at ->|0 sip => done|0 sip -> done # ->
0 sfence - - -> done|0 sfence - -> done|0 sfence -> - done|- -> done|0 sip -> -> done|0 ecall 1 -> done
0 ecall 1 2 -> done|0 tick 1 -> refused 2|c sip -> refused 2|cut ->|cut -> done|cut -> ret 0 0|cut -> done 1|cut -> don
cut ->done|cut 1 -> done|cut x ->|cut -> ->|cuts -> done|Cut -> done|0 cut -> done|c cut -> done|cut# -> done""".replace("\n", "|").split("|")


def arrows():
    """Arrows in lines of all kinds, alone and after a line of each kind."""
    for line in ARROWS:
        for before in ([], ["0 sip"], ["0 sip -> done"], ["at 1"], ["clock"], ["at 1", "sip"], ["clock", "tick 1"]):
            yield text(*before, line)


KINDS = ["0 sip", "c tick 1", "0 sip -> done", "at 0x10", "at 16", "at 17", "clock", "sip", "tick 1", "poll"]
KINDS += ["# none", "lod", "128 x", "0", "cut", "cut x", "0 cut", "c cut", "cut -> done", "cuts"]


def kinds():
    """Lines of all kinds, two and three together."""
    for first in KINDS:
        for second in KINDS:
            yield text(first, second)
            for third in ("0 sip", "0 sip -> done", "cut", "cut -> done", "at 0X10", "at 0x0010", "clock", "clock 1", "sip", "tick 1"):
                yield text(first, second, third)


def orders():
    """Lines with two faults of different tests, of which the first test decides."""
    faulty = ["\x01", "128", "12x", "lod", "load", "load x", "load 1 2", "sip 1", "->", "-> nope"]
    faulty += ["-> value", "-> value x", "-> ret x y", "-> ret 0", "cut", "cut x"]
    for one in faulty:
        for other in faulty:
            yield text(f"0 {one} {other}")
            yield text(f"{one} {other}")
            yield text(f"128 sip {one} {other}")
            yield text(f"0 sip {one} {other}")
            yield text("at 1", f"{one} {other}", f"{other}")
        yield text(f"0 {one}", "0 sip \x7f")
        yield text("0 sip", f"0 {one}", "\x00")
        yield f"bard {one}\n".encode()
        yield f"board 1 1 1 {one} 0\n".encode() + BOARD
        yield b"board 0 1 1 0 0 0\n" + f"0 sip {one}".encode()


PRINTED = [
    b"0 ecall 0x10 0x0 0xffffffffffffffff 0x0 0x1 0x0 0x0 0x0", b"127 ecall 0x52464e43 0x1 0x2 0x0 0x1000 0x1000 0x0 0x0 -> ret -3 0x0",
    b"0 sfence 0x1000 - -> done", b"12 store 0x80000008 0x1234567890abcdef", b"c tick 0x5", b"1 sstatus 1 -> refused 2",
    b"3 advance -> entry 0x80000000 3 0x7", b"cut -> done", b"cut",
]  # fmt: skip


def printed():
    """Lines as they are printed, each byte left out, doubled, or another one."""
    for line in PRINTED:
        for place in range(len(line)):
            yield BOARD + line[:place] + line[place + 1 :] + b"\n"
            for byte in (line[place : place + 1], b"0", b"x", b" ", b"-", b"g", b"F", b"\t"):
                yield BOARD + line[:place] + byte + line[place + 1 :] + b"\n"
                yield BOARD + line[:place] + byte + line[place:] + b"\r\n"


BOARDS = """\
0 1 10 0 0x80000000 0|129 1 10 0 0x80000000 0|1 1 10 1 0x80000000 0|1 0 10 0 0x80000000 0
1 257 10 0 0x80000000 0|1 1 0 0 0x80000000 0|1 1 1000001 0 0x80000000 0|1 1 10 0 0x7ffffffe 0
1 1 10 0 0x80000001 0|1 1 10 0 0x80001000 0|1 1 10 0 0x80000ffe 0|128 256 1000000 127 0x800ffffe 0
1 1 10 0 0x80000000 0 0|1 1 10 0 0x80000000 0 16 39|1 1 10 0|x y|1 1 10 0 0x80000000 0 16 48|1 1 10 0 0x80000000 0 0 0x27
1 1 10 0 0x80000000 0 17 39|1 1 10 0 0x80000000 0 16 40|1 1 10 0 0x80000000 0 18446744073709551615 48|1 1 10 0 0x80000000 0 1 0
1 1 10 0 0x80000000 0 16 39 0|1 1 10 0 0x80000000 x 16|1 1 10 0 0x80000000 0 x 39|1 1 10 0 0x80000000 0 16 -|0 1 10 0 0x80000000 0 9 48""".replace("\n", "|").split("|")


def boards():
    """Boards outside their limits, with lines of each kind after them."""
    for board in BOARDS:
        for after in ("", "0 sip", "0 sip -> refused 2", "at 1", "clock", "sip", "0 lod", "# none"):
            yield f"board {board}\n{after}\n".encode()


def changed(seed, often):
    """Scripts of each kind with a few changes of bytes, words and lines."""
    random_of = random.Random(seed)
    words = b"at clock cut c 0 1 127 128 sip load tick ecall -> done ret value refused 0x10 16 - # sfence board".split()
    for _ in range(often):
        whole = random_of.choice((EMPTY, PROGRAM, SCHEDULE, TRACE, SCHEDULE, TRACE, PROGRAM))
        for _ in range(random_of.choice((1, 1, 1, 2, 3))):
            whole = random_of.choice(CHANGES)(random_of, whole, words)
        yield whole


def byte_changed(random_of, whole, _):
    place = random_of.randrange(len(whole) + 1)
    byte = bytes([random_of.choice(b" \t\n\r#->0129xaZ~\x00\x7f\x80\xff")])
    return whole[:place] + byte + whole[place + random_of.randrange(2) :]


def word_changed(random_of, whole, words):
    lines = whole.split(b"\n")
    place = random_of.randrange(len(lines))
    line = lines[place].split(b" ")
    at = random_of.randrange(len(line) + 1)
    line[at : at + random_of.randrange(3)] = [random_of.choice(words)] * random_of.randrange(2)
    lines[place] = b" ".join(line)
    return b"\n".join(lines)


def line_changed(random_of, whole, _):
    lines, others = whole.split(b"\n"), random_of.choice((PROGRAM, SCHEDULE, TRACE)).split(b"\n")
    at = random_of.randrange(len(lines) + 1)
    lines[at : at + random_of.randrange(3)] = [random_of.choice(others)] * random_of.randrange(2)
    return b"\n".join(lines)


CHANGES = (byte_changed, word_changed, line_changed)


def all_texts():
    """Every text once."""
    makers = (beginnings, line_ends, bytes_in_words, comments, numbers, counts, names, arrows, kinds, orders, printed, boards)
    texts = dict.fromkeys(text for maker in makers for text in maker())
    texts.update(dict.fromkeys(changed(0, 1500)))
    return [*texts]
