"""The board's table as `replay` and `run` print it (docs/FORMATS.md, "The table"): read, compared, and as what JSON can say."""
from collections import Counter

# The columns of a hart's row, of which those of HEX are hexadecimal; what isn't there is a dash or a row of them.
COLUMNS = ("hart", "state", "wait", "out", "ss", "st", "ie", "se", "satp", "deadline", "tlb", "ic")
HEX = {"time", "ie", "satp", "deadline"}
# What stands below the rows, with the names of its words: a number is hexadecimal but for a hart's and a level.
LISTS = {
    "entry": ("hart", "address", "opaque"), "tlb": ("hart", "page", "level", "asid", "global", "physical", "rights"), "ic": ("hart", "address", "word"),
    "fence": ("hart", "from", "kind"),
}  # fmt: skip
DECIMAL = {"hart", "level", "from"}


class Table:
    """A table: the words of its totals and of each hart's row, by their columns, and the lines below the rows, with their words."""

    def __init__(self, lines):
        self.totals, self.harts, self.lists = {}, [], []
        for line in lines:
            words = line.removeprefix("#").split()
            if words[0] == "time":
                *pairs, reset = " ".join(words).partition("reset ")
                words = pairs[0].split() + ["reset", reset]
            if words[0] in ("time", "starts"):
                self.totals |= dict(zip(words[::2], words[1::2]))
            elif words[0] in LISTS:
                self.lists.append(words)
            elif words[0] != "hart":
                self.harts.append(dict(zip(COLUMNS, words)))

    def changes(self, later):
        """What is otherwise in a later table, as texts: of the totals, of each hart, and what went and came below the rows."""
        if said := changed(self.totals, later.totals):
            yield f"board: {said}"
        for old, new in zip(self.harts, later.harts):
            # (how many a hart has is told by what went and came)
            counted = [it for it in COLUMNS if it not in ("hart", "tlb", "ic")]
            if said := changed({it: old[it] for it in counted}, new):
                yield f"hart {old['hart']}: {said}"
        before, behind = (Counter(map(" ".join, it.lists)) for it in (self, later))
        yield from (f"gone: {it}" for it in (before - behind).elements())
        yield from (f"new: {it}" for it in (behind - before).elements())

    def objects(self):
        """The totals, and each hart with what it has: as dictionaries of numbers and texts."""
        yield {"kind": "table"} | {name: value_of(name, word) for name, word in self.totals.items()}
        for row in self.harts:
            own = [words for words in self.lists if words[1] == row["hart"]]
            lists = {name: [named(words) for words in own if words[0] == name] for name in LISTS}
            hart = {name: value_of(name, word) for name, word in row.items()}
            yield {"kind": "hart"} | hart | {"entry": next(iter(lists["entry"]), None), "tlb": lists["tlb"], "ic": lists["ic"], "fences": lists["fence"]}


def changed(old, new):
    return ", ".join(f"{name} {word} -> {new[name]}" for name, word in old.items() if new[name] != word)


def value_of(name, word):
    if set(word) == {"-"} or word == "none":
        return None
    if name == "reset":
        return dict(zip(("type", "reason"), (f"{int(it, 16):#x}" for it in word.split())))
    if name in HEX:
        return f"{int(word, 16):#x}"
    return int(word) if word.isdigit() else word


def named(words):
    """A line below the rows: its words by their names, without the hart's."""
    kind, *rest = words
    if kind == "fence":
        return {"from": int(rest[2]), "what": " ".join(rest[3:])}
    found = dict(zip(LISTS[kind], rest))
    if "global" in found:
        found["global"] = found["global"] == "g"
    return {name: spelled(name, word) for name, word in found.items() if name != "hart"}


def spelled(name, word):
    if name == "rights" or not isinstance(word, str):
        return word
    return int(word) if name in DECIMAL else f"{int(word, 16):#x}"
