"""Known TLB bugs, each beside its mended twin: what `test` answers of both is what docs/TLB_BUGS.md says, and what a model of any TLB
says of all their orders."""
import os
import re

from .any_walk import marks_of_all_orders, marks_of_record
from .fixtures import EXAMPLES, ROOT, TESTER, Test, at_once, must, read, told

PAGE, FOLDER = os.path.join(ROOT, "docs/TLB_BUGS.md"), os.path.join(EXAMPLES, "tlb")
# The conditions of the page's columns, with the mark that each forbids.
COLUMNS = {"never missed": "missed", "never stale": "stale", "steady": "unsteady", "lenient": "unlenient", "firm": "unfirm"}
# Where the twin fails, too: it moves no leaf, and has no fence.
TWINS = {("superpage-split", "firm")}
# The store that the cause must name, of bugs that `firm` alone finds.
STORES = {"table-page-reused": "0 store 0x80002000 0x0", "superpage-collapsed": "0 store 0x80002008 0x200000c7", "invalid-to-valid": "0 store 0x80003008 0x200010c7", "walk-behind-the-stores": "0 store 0x80003008 0x200010c7"}


def rows():
    """Of each bug of the page what `test` answers to each condition."""
    found = re.findall(r"^\| `([\w-]+)` \| [^|]+ \|((?: (?:fails|holds) \|)+)$", read(PAGE), re.M)
    return {name: dict(zip(COLUMNS, answers.replace("|", "").split())) for name, answers in found}


def asked_of(text):
    """The condition of a program: its second line, and the only one."""
    asked = re.findall(r"^#! (.*)$", text, re.M)
    must(f"{text}", len(asked) == 1 and text.split("\n")[1] == f"#! {asked[0]}" and asked[0] in COLUMNS)
    return asked[0]


class TlbBugs(Test):
    programs = (TESTER,)

    def judged(self, name, text, asked):
        """What `test` answers of a program with a condition in place of its own; and whether its failing record has the mark first where that fails."""
        room = os.path.join(self.room, name)
        os.makedirs(room, exist_ok=True)
        text = text.replace(f"#! {asked_of(text)}\n", f"#! {asked}\n")
        status, lines = told(room, text, "--times", "60", name="a.program")
        holds = lines[1].startswith(f"ok 1 - a.program: line 2: {asked}: holds in ")
        must(f"{name}: {asked}: {status} {lines}", status == (0 if holds else 1) and (holds or lines[1].startswith(f"not ok 1 - a.program: line 2: {asked}: fails in ")))
        if not holds:
            record = re.search(r'  record: "(.*)"', "\n".join(lines))[1]
            place = int(re.search(r"  place: (\d+)", "\n".join(lines))[1])
            marks = marks_of_record(text, read(os.path.join(room, record)))
            must(f"{name}: {asked}: {marks}, and not first {place}", next(at for at, it in enumerate(marks) if COLUMNS[asked] in it) == place)
        return "holds" if holds else "fails"

    def test_tlb_bugs__the_page_and_the_folder(self):
        """The page and the folder's own list have each bug of the folder; a bug and its twin ask the same, which tells them apart where a column fails."""
        names, listed = rows(), re.findall(r"^- `([\w-]+)`: .*[^.]$", read(os.path.join(FOLDER, "BUGS.md")), re.M)
        files = sorted(it for it in os.listdir(FOLDER) if it.endswith(".program"))
        must(f"{files}, {names}", files == sorted(f"{name}{it}.program" for name in names for it in ("", ".mended")) and len(names) > 12)
        must(f"{listed}", listed == list(names))
        for name, answers in names.items():
            bug, mended = (read(os.path.join(FOLDER, f"{name}{it}.program")) for it in ("", ".mended"))
            must(f"{name}", asked_of(bug) == asked_of(mended) and (answers[asked_of(bug)] == "fails") == ("fails" in answers.values()))
            must(f"{name}", mended.startswith("# Mended: ") and 1 <= int(bug.split("\nboard ")[1].split()[0]) <= 3 and " 16 " in bug.split("\nboard ")[1].split("\n")[0])

    def test_tlb_bugs__what_test_answers(self):
        """Each condition fails of a bug, or holds, as the page says, and holds of the twin; in all orders so it is by the model, and the record's first access with the mark is the one that is told."""
        cases = [(name, it, asked, answers[asked] if not it or (name, asked) in TWINS else "holds") for name, answers in rows().items() for it in ("", ".mended") for asked in COLUMNS]
        texts = {(name, it): read(os.path.join(FOLDER, f"{name}{it}.program")) for name, it, *_ in cases}
        marks = {key: {it[0] for it in marks_of_all_orders(text)[0]} for key, text in texts.items()}
        answers = at_once(lambda it: self.judged(f"{it[0]}{it[1]}-{it[2].replace(' ', '-')}", texts[it[:2]], it[2]), cases)
        for (name, it, asked, wanted), answer in zip(cases, answers):
            must(f"{name}{it}: {asked}: {answer}, and the page says {wanted}", answer == wanted)
            must(f"{name}{it}: {asked}: {answer}, and the model has {marks[name, it]}", (COLUMNS[asked] in marks[name, it]) == (answer == "fails"))

    def test_tlb_bugs__as_they_stand(self):
        """As it stands each bug that some condition finds ends with status 1, and each other file with 0."""
        for name, answers in rows().items():
            for it in ("", ".mended"):
                status, lines = told(self.room, read(os.path.join(FOLDER, f"{name}{it}.program")), name=f"{name}{it}.program")
                must(f"{name}{it}: {status} {lines}", status == (1 if not it and "fails" in answers.values() else 0))
                if not it and name in STORES:
                    must(f"{name}: {lines}", any(line.startswith("      changed at step ") and line.endswith(f": {STORES[name]})") for line in lines))
