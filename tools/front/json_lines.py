"""`--json`: what a program printed, as JSON lines (docs/FORMATS.md, "JSON lines"). The text is what is proved; these are a reading of it."""
import json

from board_model import number, spelled_answer, spelled_step
from board_table import Table
from course import of_script
from points import Point

# The version of these lines.
VERSION = 1
BOARD = ("harts", "pages", "limit", "boot_hart", "boot_addr", "boot_opaque", "asidlen", "width")


def written(it):
    return json.dumps(it) + "\n"


def head(task, files):
    return written({"format": "sbiboard", "version": VERSION, "task": task, "files": files})


def end(status, said=""):
    return written({"kind": "end", "status": status} | ({"said": said.strip()} if said.strip() else {}))


# ---- replays and checks


def step(line, words):
    """A step of a line, by its words: the actor (None: of a cut), the operation and its operands."""
    actor, name, *operands = [None, *words] if words == ["cut"] else words
    return {"kind": "step", "line": line, "actor": number(actor) if actor and actor != "c" else actor, "operation": name, "operands": operands}


def of_board(line):
    words = line.split()[1:] + ["16", "39"]
    return written({"kind": "board"} | {name: word if name in ("boot_addr", "boot_opaque") else int(word) for name, word in zip(BOARD, words)})


def of_replay(printed, places, changes=None):
    """The lines of a replay. places: of each step the line of the script. changes: of each step what it changed, if that is asked for."""
    first, *rest = printed.splitlines()
    yield of_board(first)
    yield from of_steps(printed, places, changes)
    yield from of_table([it for it in rest if it.startswith("#")])


def of_steps(printed, places, changes=None):
    for at, (place, (actor, op, answer, _)) in enumerate(zip(places, of_script(printed.encode())[1])):
        changed = {"changes": list(changes[at])} if changes else {}
        yield written(step(place, spelled_step(actor, op).split()) | {"reply": spelled_answer(answer).split()} | changed)


def of_table(lines):
    return map(written, Table(lines).objects()) if lines else ()


def of_check(printed, text):
    """The verdict of a check of this text; where a line differs, the step there, what it wants and what the board answers."""
    name, *words = printed.split()
    if name == "agrees":
        yield written({"kind": "verdict", "agrees": True, "lines": int(words[0])})
    elif name == "differs":
        line = int(words[2].rstrip(":"))
        row = text.split(b"\n")[line - 1].partition(b"#")[0].decode("latin-1")
        done, _, wanted = row.partition("->")
        yield written(step(line, done.split()) | {"kind": "verdict", "agrees": False, "wanted": wanted.split(), "reply": words[3:]})


# ---- points


def of_items(items):
    """Of what `test` and `explore` tell, as it is told."""
    for it in items:
        if isinstance(it, Point):
            yield written(of_point(it))
        elif isinstance(it, int):
            yield written({"kind": "plan", "points": it})
        else:
            yield written({"kind": "comment", "text": it})


def of_point(point):
    details = dict(point.details)
    return {
        "kind": "point", "number": point.number, "ok": point.is_ok, "file": point.file, "line": point.line, "column": point.column, "condition": point.condition,
        "why": point.why or ("holds" if point.is_ok else "fails"), "looked": point.looked, "record": details.pop("record", None), "details": details,
    }  # fmt: skip
