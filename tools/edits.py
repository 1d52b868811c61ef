"""The wrong bodies of the crates and of the tools: where they are kept, and the texts that they make.

A crate's mutants are one table, crates/NAME/mutants.toml, and those that the gate tries are the files of must-fail/. Each
changes texts of the crate's files; those of tools/mutants.toml change the tools and the script `sbiboard`. A mutant names the
item in which its old text stands, so that what is added elsewhere doesn't break it.
"""
import functools
import os
import re
import tomllib
from dataclasses import dataclass

ROOT = os.path.dirname(os.path.dirname(os.path.realpath(__file__)))

# A crate's table of mutants, and the folder of the edits that the gate tries.
TABLE, FOLDER = "mutants.toml", "must-fail"
# Under this name the tools and the script `sbiboard` have a table, tools/mutants.toml, whose files are named from the checkout on.
TOOLS = "tools"
# What a table says of a change.
KEYS = {"file", "function", "item", "old", "new"}

# What is no code in a source: comments, strings and characters. Their brackets and words count for nothing.
NO_CODE = re.compile(
    r"""//[^\n]*|/\*.*?\*/|b?r(#*)".*?"\1|b?"(?:\\.|[^"\\])*"|(?<!\w)b?'(?:\\[^\n]{1,9}?|[^\\'\n])'""", re.DOTALL
)
# The head of an item: its indentation, its kind, and what follows.
HEAD = re.compile(r"( *)(?:pub(?:\([^)]*\))? )?(?:(?:unsafe|const) )*(fn|struct|enum|trait|impl|const|static|type|mod|(?:ghost )?use)\b *(.*)")
# What items of these kinds hold are items again.
HOLDING = ("impl", "trait", "mod")


class BadTable(Exception):
    """Why a table of mutants can't be read."""


@dataclass(frozen=True)
class Change:
    """One change of a file: the old text, which stands once in this item, or in the file where none is named, and the new."""

    file: str
    item: str | None
    old: str
    new: str


@dataclass(frozen=True)
class Edit:
    """A wrong body: its changes, one after the other, and the test that judges it, or none where clauses do."""

    crate: str
    name: str
    changes: tuple[Change, ...]
    judge: str | None = None
    is_must_fail: bool = False

    def __str__(self):
        return f"{self.crate}/{FOLDER}/{self.name}" if self.is_must_fail else f"{self.crate}/{self.name}"


@dataclass(frozen=True)
class Item:
    """An item of a source: its name, that of the function where it is one, its first line, of its comment, its head's, and its last."""

    name: str
    function: str | None
    first: int
    head: int
    last: int


# ---- the items of a source


def code_of(text):
    """The source with blanks for what is no code, character for character."""
    return NO_CODE.sub(lambda it: re.sub(r"[^\n]", " ", it[0]), text)


def last_line(code, head, indent):
    """The line where an item ends, from 0, by the layout of `rt fmt`: the one that closes it at its own indentation, or its only one."""
    is_open, depth = False, 0
    for at in range(head, len(code)):
        line = code[at].rstrip()
        depth += sum(map(line.count, "([{")) - sum(map(line.count, ")]}"))
        if line and len(line) - len(line.lstrip(" ")) == indent:
            if line.endswith((";", "}")):
                return at
            is_open = line.endswith(("{", "[", "("))
        elif not is_open and depth == 0 and line.endswith(";"):
            return at
    return head


def without_parameters(text):
    """The head of an impl without the parameters that it begins with, `<..>`."""
    depth = 0
    for at, it in enumerate(text):
        depth += (it == "<") - (it == ">" and text[at - 1] != "-")
        if depth == 0:
            return text[at + 1 :].lstrip() if it == ">" else text
    return text


def names_of(kind, head):
    """The name of an item of this kind, and the name under which what it holds stands: `<Type as Trait>` where it is a trait's impl."""
    if kind == "fn":
        name = re.match(r"\w+", head)[0]
        return name, name
    if kind == "impl":
        head = re.split(r" where |\{", without_parameters(re.sub(r"\s+", " ", head)))[0].strip()
        trait, is_of_trait, owner = head.rpartition(" for ")
        owner = re.sub(r"(?<=\w)<.*", "", owner)
        return (f"impl {trait} for {owner}", f"<{owner} as {trait}>") if is_of_trait else (f"impl {owner}", owner)
    name = re.split(r";|::\{" if kind.endswith("use") else r"\W", head)[0].strip()
    return f"{kind} {name}", name


def items_between(raw, code, first, end, indent, within):
    """The items at this indentation in these lines, from 0, each before those that it holds."""
    found, at, behind = [], first, first
    while at < end:
        head = HEAD.match(code[at])
        if not head or len(head[1]) != indent:
            at += 1
            continue
        kind, last, top = head[2], last_line(code, at, indent), at
        # (its comment and its attributes stand right above it)
        while top > behind and raw[top - 1].strip():
            top -= 1
        body = next((it for it in range(at, last) if code[it].rstrip().endswith("{")), last)
        name, owner = names_of(kind, "\n".join([head[3], *code[at + 1 : body + 1]]))
        found.append(Item("::".join([*within, name]), name if kind == "fn" else None, top + 1, at + 1, last + 1))
        if kind in HOLDING:
            found += items_between(raw, code, body + 1, last, indent + 4, [*within, owner])
        at = behind = last + 1
    return found


@functools.lru_cache
def items_in(text):
    """The items of a source, each before those that it holds: `Type::method`, `<Type as Trait>::method`, `enum Type`, `const NAME` ..."""
    raw = text.split("\n")
    return items_between(raw, code_of(text).split("\n"), 0, len(raw), 0, [])


def item_at(text, line):
    """The innermost item that this line, from 1 on, is of."""
    return next((it for it in reversed(items_in(text)) if it.first <= line <= it.last), None)


def function_at(text, line):
    """The name of the function in whose head or body this line is."""
    item = item_at(text, line)
    return item.function if item and line >= item.head else None


# ---- the texts that edits make


def place_of(text, change):
    """The first character of the old text, or None with why it can't be changed."""
    first, end = 0, len(text)
    if change.item is not None:
        found = [it for it in items_in(text) if it.name == change.item]
        if len(found) != 1:
            return None, f"{change.file} has {len(found)} items {change.item}"
        sizes = [len(it) + 1 for it in text.split("\n")]
        first, end = sum(sizes[: found[0].first - 1]), sum(sizes[: found[0].last])
    if text.count(change.old, first, end) != 1:
        return None, f"its old text stands {text.count(change.old, first, end)} times in {change.item or change.file}"
    return text.index(change.old, first, end), ""


def edited(edit, folder):
    """Returns the texts that an edit makes in this crate's folder, by their files, or None with why it can't be applied."""
    texts = {}
    for change in edit.changes:
        if change.file not in texts:
            try:
                with open(os.path.join(folder, change.file), encoding="utf-8") as source:
                    texts[change.file] = source.read()
            except OSError as error:
                return None, str(error)
        text = texts[change.file]
        at, why = place_of(text, change)
        if at is None:
            return None, why
        texts[change.file] = text[:at] + change.new + text[at + len(change.old) :]
    return (texts, "") if texts else (None, "it changes nothing")


def functions_of(edit, folder):
    """The functions whose bodies an edit changes, by file and name; none where it changes anything else, or can't be applied."""
    found = set()
    for change in edit.changes:
        if not change.file.startswith("src/"):
            return set()
        with open(os.path.join(folder, change.file), encoding="utf-8") as source:
            text = source.read()
        at, _ = place_of(text, change)
        name = None if at is None else function_at(text, text.count("\n", 0, at) + 1)
        if name is None:
            return set()
        found.add((change.file, name))
    return found


# ---- where edits are kept


def folder_of(crate, root=ROOT):
    """Where the files are that a crate's edits name."""
    return root if crate == TOOLS else os.path.join(root, "crates", crate)


def changes_of(entry, where):
    """The changes that an entry of a table says. A further one is of the same file and item, where it names no others."""
    file, item, found = None, None, []
    for it in [entry, *entry.pop("and", [])]:
        is_text = all(isinstance(value, str) for value in it.values())
        if not is_text or not {"old", "new"} <= set(it) <= KEYS or {"function", "item"} <= set(it):
            raise BadTable(f"{where}: a change has texts: file, function or item, old, new")
        if "file" in it:
            file, item = it["file"], None
        item = it.get("function", it.get("item", item))
        if file is None or not it["old"]:
            raise BadTable(f"{where}: it names no file, or its old text is empty")
        found.append(Change(file, item, it["old"], it["new"]))
    return tuple(found)


def mutants_in(text, crate):
    """The mutants of a table."""
    where, found = f"{crate}/{TABLE}", []
    try:
        table = tomllib.loads(text)
    except tomllib.TOMLDecodeError as error:
        raise BadTable(f"{where}: {error}") from None
    if set(table) != {"mutant"}:
        raise BadTable(f"{where} has {', '.join(table)}, and not mutants alone")
    for entry in table["mutant"]:
        name, judge = entry.pop("name", ""), entry.pop("judge", None)
        if not name or name in [it.name for it in found]:
            raise BadTable(f"{where}: a mutant has the name {name!r}, which is none, or is another's")
        if crate == TOOLS and judge is None:
            raise BadTable(f"{where}: {name} has no judge, and no clause is one of a tool")
        found.append(Edit(crate, name, changes_of(entry, f"{where}: {name}"), judge))
    return found


def order_of(edit):
    """By what a table is sorted: the file, the item and the name."""
    return edit.changes[0].file, edit.changes[0].item or "", edit.name


def must_fail_in(text, crate, name):
    """The edit of a file of must-fail/, which is in the toolchain's form."""
    file, old, changes = None, None, []
    for line in text.split("\n"):
        key, _, value = line.partition(":")
        value = value.removeprefix(" ")
        if key == "file":
            file = value.strip()
        elif key == "old":
            old = value
        elif key == "new":
            changes.append(Change(file, None, old, value))
    return Edit(crate, name, tuple(changes), is_must_fail=True)


def edits_of(crate, is_with_must_fail=False, root=ROOT):
    """The mutants of a crate, and with them those of must-fail/ where they are asked for."""
    found, folder = [], folder_of(crate, root)
    if os.path.isfile(table := os.path.join(root, TOOLS, TABLE) if crate == TOOLS else os.path.join(folder, TABLE)):
        with open(table, encoding="utf-8") as file:
            found += mutants_in(file.read(), crate)
    if is_with_must_fail and os.path.isdir(folder := os.path.join(folder, FOLDER)):
        for name in sorted(it.removesuffix(".edit") for it in os.listdir(folder) if it.endswith(".edit")):
            with open(os.path.join(folder, f"{name}.edit"), encoding="utf-8") as file:
                found.append(must_fail_in(file.read(), crate, name))
    return found
