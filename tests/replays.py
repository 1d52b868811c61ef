"""What a replay prints of a schedule, by the model of the tools: each step with its answer, and the board's table. And the schedules
of the worked rows."""
import os
import re

from board_model import RESUME_PENDING, START_PENDING, STATES, SUSPEND_PENDING, SUSPENDED, board_of, spelled_answer, spelled_step, step_of

from .fixtures import ROOT, read_bytes


def steps(text):
    """Of each step of a schedule, or of a trace, whose replies are passed over: its line's number, the board behind it, and actor,
    operation and answer."""
    board = None
    for number, line in enumerate(text.splitlines(), 1):
        words = line.partition("#")[0].partition("->")[0].split()
        if words and board is None:
            board = board_of(words)
        elif words:
            actor, op = step_of(words)
            yield number, board, actor, op, board.step(actor, op)


def spelled(actor, op, answer):
    return f"{spelled_step(actor, op)} -> {spelled_answer(answer)}"


def answered(text):
    """The lines of its steps, each with its answer."""
    return [spelled(*step) for _, _, *step in steps(text)]


def traced(text):
    """A schedule as the trace of these answers."""
    return "".join(line + "\n" for line in (board_line(text), *answered(text)))


def printed(text):
    """All lines that a replay of a schedule with at least one step prints."""
    lines, last = [board_line(text)], None
    for _, last, *step in steps(text):
        lines.append(spelled(*step))
    return lines + table(last)


def board_line(text):
    """The board line, as it is printed."""
    _, *numbers = next(words for words in (line.partition("#")[0].split() for line in text.splitlines()) if words)
    harts, pages, limit, boot, addr, opaque, *spaces = (int(it, 0) if it[:2] == "0x" else int(it) for it in numbers)
    return " ".join([f"board {harts} {pages} {limit} {boot} {addr:#x} {opaque:#x}", *map(str, spaces if spaces != [16, 39] else [])])


# ---- the table


def table(board):
    harts, power = board.harts, "off" if board.is_off else "on"
    reset = "none" if board.last_reset is None else "{:08x} {:08x}".format(*board.last_reset)
    pending, waiting = sum(it.state == START_PENDING for it in harts), sum(len(it.waiting) for it in harts)
    return [
        f"# time {board.time:016x} events {board.events:7} power {power} reset {reset}",
        totals(board.starts, board.entries, pending, board.asked, board.applied, waiting),
        "# hart state           wait out ss st ie se satp             deadline         tlb ic",
        *(row(board, h) for h in range(len(harts))),
        *(line for h, hart in enumerate(harts) for line in below(h, hart)),
    ]


def row(board, h):
    hart = board.harts[h]
    out = "-" if hart.outstanding is None else len(hart.outstanding)
    registers = f"{hart.ssip:2} {int(board.is_due(h)):2} {hart.sie:02x} {hart.sstatus:2} {hart.satp:016x}"
    deadline = "-" * 16 if hart.deadline is None else f"{hart.deadline:016x}"
    return f"# {h:4} {STATES[hart.state]:<15} {len(hart.waiting):4} {out:>3} {registers} {deadline} {len(hart.tlb):3} {len(hart.words):2}"


def below(h, hart):
    """The lines of a hart below the rows."""
    suspends = hart.state in (SUSPEND_PENDING, SUSPENDED, RESUME_PENDING) and not hart.is_retentive
    if hart.state == START_PENDING or suspends:
        yield f"# entry {h:3} {hart.kept[0]:016x} {hart.kept[1]:016x}"
    for _, (page, level, asid, is_global, pa, *rights) in hart.tlb:
        letters = "".join(letter if has else "-" for letter, has in zip("rwxd", rights))
        yield f"# tlb {h:3} {page:016x} {level} {asid:04x} {'g' if is_global else '-'} {pa:016x} {letters}"
    for _, address, word in hart.words:
        yield f"# ic {h:3} {address:016x} {word:016x}"
    for caller, fence in hart.waiting:
        yield f"# fence {h:3} from {caller:3} {spelled_fence(fence)}"


def spelled_fence(fence):
    if fence is None:
        return "i"
    span, asid = fence
    place = "vma full" if span is None else f"vma {span[0]:016x} {span[1] - span[0]:016x}"
    return place if asid is None else f"{place} asid {asid:04x}"


# ---- lines of tables, for tests that say what must be there


def totals(starts, entries, pending=0, asked=0, applied=0, waiting=0):
    return f"# starts {starts} entries {entries} pending {pending} asked {asked} applied {applied} waiting {waiting}"


def hart_row(hart, state, waiting=0, out="-", registers="0  0 00  0"):
    """The row of a hart without address space and deadline. `registers`: SSIP, STIP, sie and sstatus.SIE."""
    return f"# {hart:>4} {state:<15} {waiting:>4} {out:>3}  {registers} 0000000000000000 ----------------   0  0"


# ---- the worked rows

ROWS = os.path.join(ROOT, "tests/rows")
# What stands behind the lines of a row (test_worked_rows.py).
END_OF_LINES = re.compile(r"^(?:(ends|prints|each) (.*)|(says|checks))\n", re.M)


def bare(text):
    """The lines of a script, without comments and replies."""
    lines = [it.partition("#")[0].partition("->")[0].strip() for it in text.splitlines()]
    return [it for it in lines if it]


def parted(line):
    """What stands before the arrow of a line, and the reply behind it, or None. A comment isn't part of either."""
    step, arrow, reply = line.partition("#")[0].partition("->")
    return step.strip(), reply.strip() if arrow else None


def rows_in(file):
    """Of each row of a file its name, its lines, the word behind them, what stands behind that, and the text below it."""
    for text in f"\n{read_bytes(os.path.join(ROWS, file)).decode()}".split("\nrow ")[1:]:
        name, _, body = text.partition("\n")
        found = END_OF_LINES.search(body)
        lines, rest = (body[: found.start()], body[found.end() :]) if found else (body, "")
        yield name, lines, (found[1] or found[3]) if found else "ends", (found[2] if found else None) or "0", rest


def worked_rows():
    """Of each worked row that has lines its name, its board line and the lines behind it."""
    for file in sorted(os.listdir(ROWS)):
        for name, lines, *_ in rows_in(file):
            head, *steps = bare(lines) or [None]
            if head:
                yield f"{file}: {name}", head, steps
