"""What editors know of scripts: the syntax file of vim and the grammar of TextMate, the words of which are those of the page of
formats; and what vim and the problem matcher of docs/EDITORS.md read of faults, conditions and lines that differ."""
import glob
import json
import os
import re
import shutil
import subprocess
from unittest import SkipTest

from .fixtures import EXAMPLES, ROOT, Test, must, read, write

VIM = os.path.join(ROOT, "editors/vim")
GRAMMAR = os.path.join(ROOT, "editors/sbiboard.tmLanguage.json")

# Lines that no example has, and words of them that none of the formats has.
ODD = (
    "0 sie 0x2#2", " \tc  tick 3 -> done\t# the clock", "0x7f sfence - 5", "1 sfence 0x1000 -", "cut", "cut -> done", "cut#", "0 poll -> ret -1 0x0", "#! before 1 serve, 1 load 0x1000 -> value 0x22",
    "#! never _ load 0x1000 -> value 0x11 after c tick # and no other", "#! maybe never 1 load 0x10 -> value 1", "#!maybe end quiet", "  #! end off history-full quiet stuck", "#!can end quiet off # in some order", "#! maybe can end", "#! each _ sfence - _ -> done", "#!/usr/bin/env sbiboard", "#!some 0 sip", "# a#b", "clock # ticks",
)  # fmt: skip
WRONG = (("0 ecal 0x10", "ecal"), ("laod 1", "laod"), ("1 store8 1 2", "store8"), ("1 amoadd.d 1 2", "amoadd.d"), ("amoaddxw 1 2", "amoaddxw"), ("0 sip -> valu 1", "valu"), ("0 load 0X10", "0X10"), ("bord 1", "bord"), ("#! nevr 1 load", "nevr"), ("#! never 1 laod", "laod"))

# What `sbiboard` writes, with the file, the line, the column (0: none) and the text that an editor makes of it.
FAULTS = "TAP version 13\nok 1 - b.sched (3 lines)\n# line 3: stale: a walk gives another translation\n"
TOLD = (
    ("not ok 2 - a.sched:2:3: unknown operation 'ecal' (fault 3)", ("a.sched", 2, 3, "unknown operation 'ecal' (fault 3)")), ("not ok 3 - a.program:8:12: unknown word: 'laod'", ("a.program", 8, 12, "unknown word: 'laod'")),
    ("not ok 4 - a.program: line 2: end quiet: fails", ("a.program", 2, 0, "end quiet: fails")), ("not ok 5 - a.sched: bad board: HARTS is 200, at most 128", ("a.sched", 0, 0, "bad board: HARTS is 200, at most 128")),
    ("not ok 6 - none: no such file", ("none", 0, 0, "no such file")), ("not ok 7 - a.program: line 3: can end quiet: not judged: no time", ("a.program", 3, 0, "can end quiet: not judged: no time")),
)  # fmt: skip
DIFFERS = 'not ok 8 - a.trace (4 lines)\n  ---\n  differing: 2\n  lines:\n    - line: 2\n      wanted: "0 poll -> gone"\n      got: "0 poll -> refused 2"\n    - line: 4\n      wanted: "0 sip -> value 0x2"\n      got: "0 sip -> value 0x0"\n  ...\n'
# What --explain says.
EXPLAINED = (("a.sched:4:8: not a number, or too large: '0X1' (fault 4): did you mean '0x1'?", ("a.sched", 4, 8, "not a number, or too large: '0X1' (fault 4): did you mean '0x1'?")),)
# What is said of the one script at hand, without its name.
UNNAMED = (("sbiboard: line 3: fault 4", 3, "fault 4"), ("differs at line 9: refused 3", 9, "refused 3"))


def words_of_formats():
    """The operations, replies, kinds of conditions, ends of a program and marks that the page of formats names."""
    page = read(os.path.join(ROOT, "docs/FORMATS.md"))
    blocks = page.split("```")
    block = lambda begin: next(it for it in blocks if it.lstrip("\n").startswith(begin))
    heads = lambda text: {word for line in re.findall(r"^(\S.*?)(?:  |$)", text, re.M) for word in re.findall(r"(?:^|, )([a-z][a-z0-9.]*)", line)}
    rules = block("condition = #! ")
    ends, marks = (re.search(rf"^{name} +=(.*?)(?:   |$)", rules, re.M)[1].replace("|", " ").split() for name in ("END", "MARK"))
    return heads(block("ecall EID")), heads(block("ret ERROR")), set(re.findall(r"^(?:rule +=| +\|) ([a-z]+)", rules, re.M)), set(ends), set(marks)


OPERATIONS, REPLIES, RULES, ENDS, MARKS = words_of_formats()


def kind_of(word, is_answer):
    if re.fullmatch("-?(0x[0-9A-Fa-f]+|[0-9]+)", word):
        return "number"
    known = {"->": "arrow", "-": "all"}
    return known.get(word) or ("reply" if is_answer else "operation" if word in OPERATIONS else "error")


def kinds_of(line):
    """The column of each word of a line, from 0, and what it is; of a comment that of its sign."""
    condition = re.match(r"\s*#!(?!/)", line)
    begin = condition.end() if condition else 0
    comment = line.find("#", begin)
    code = line[:comment] if comment >= 0 else line
    kinds = {comment: "comment"} if comment >= 0 else {}
    if condition:
        kinds[begin - 2] = "sign"
        known = {**dict.fromkeys(RULES, "rule"), **dict.fromkeys(ENDS, "end"), **dict.fromkeys(MARKS, "mark"), "after": "after", "maybe": "after", "_": "any", ",": "comma", "c": "actor", **dict.fromkeys(REPLIES, "reply")}
        for found in re.finditer(r",|[^\s,]+", code[begin:]):
            kinds[begin + found.start()] = known.get(found[0]) or kind_of(found[0], False)
        return kinds
    is_answer = False
    for place, found in enumerate(re.finditer(r"\S+", code)):
        first = {"board": "board", "at": "head", "clock": "head", "cut": "cut", "c": "actor"}.get(found[0]) if place == 0 else None
        kind = kind_of(found[0], is_answer)
        kinds[found.start()] = first or ("actor" if place == 0 and kind == "number" else kind)
        is_answer = is_answer or kind == "arrow"
    return kinds


def lines():
    """All lines of the examples, those that none has, and one for each word."""
    scripts = [path for ending in ("sched", "trace", "program") for path in sorted(glob.glob(os.path.join(EXAMPLES, "**/*." + ending), recursive=True))]
    found = [line for path in scripts for line in read(path).splitlines()]
    must("the examples", len(scripts) > 15 and len(found) > 300)
    asked = [f"#! {it}" for it in sorted(RULES)] + [f"#! end {it}" for it in sorted(ENDS)] + [f"#! never {it}" for it in sorted(MARKS)]
    return [*found, *ODD, *(f"0 {it}" for it in sorted(OPERATIONS)), *sorted(OPERATIONS), *(f"0 poll -> {it} 1" for it in sorted(REPLIES)), *asked]


# ---- TextMate


class TextMate:
    """As much of an editor's reader of grammars as this one needs, where a rule ends on its line."""

    def __init__(self, grammar):
        self.grammar = grammar

    def rules(self, patterns):
        for it in patterns:
            yield self.grammar["repository"][it["include"][1:]] if "include" in it else it

    def read(self, line):
        """The column of each part with a name, and the name."""
        found = {}
        self.read_from(line, 0, self.grammar["patterns"], None, found)
        return found

    def read_from(self, line, at, patterns, end, found):
        """Reads on, up to the end of a rule. Returns where that is."""
        while True:
            best = None
            for rule in self.rules(patterns):
                match = re.compile(rule.get("match") or rule["begin"]).search(line, at)
                if match and match.end() > match.start() and (best is None or match.start() < best[0].start()):
                    best = match, rule
            stop = re.compile(end).search(line, at) if end else None
            if best is None or stop and stop.start() <= best[0].start():
                return stop.end() if stop else len(line)
            match, rule = best
            names = {0: rule.get("name")} | {int(group): it["name"] for group, it in rule.get("captures", rule.get("beginCaptures", {})).items()}
            for group, name in names.items():
                if name:
                    found[match.start(group)] = (match.end(group), name)
            at = match.end()
            if "begin" in rule:
                at = self.read_from(line, at, rule["patterns"], rule["end"], found)


def kind_of_scope(scope):
    kind = scope.split(".")[-2]
    return {"numeric": "number"}.get(kind, kind)

    def test_the_commands_of_the_page_of_editors(self):
        """The page's lines for shells have a shell complete `./sbiboard`, and those for vim and VS Code put there what these look for."""
        page = read(os.path.join(ROOT, "docs/EDITORS.md"))
        in_bash, in_fish, manual = page.split("```\n")[1].splitlines()
        in_vim, in_code = (next(line.strip() for line in page.splitlines() if line.startswith("    mkdir ") and it in line) for it in ("vim", "vscode"))
        run = lambda shell, text: subprocess.run([*shell, text], stdin=subprocess.DEVNULL, capture_output=True, text=True, timeout=60, cwd=ROOT, env={**os.environ, "HOME": self.room})
        must("bash", "_sbiboard" in run(["bash", "--norc", "-c"], f"{in_bash}; complete -p sbiboard").stdout)
        if shutil.which("fish"):
            found = run(["fish", "--no-config", "-c"], f"{in_fish}; complete -C './sbiboard exp'")
            must(f"{found}", found.stdout.startswith("explore"))
        made = run(["bash", "-c"], manual.partition(";")[0].replace("> sbiboard.1", f"> {self.room}/sbiboard.1"))
        must(f"{made}", made.returncode == 0 and read(os.path.join(self.room, "sbiboard.1")).startswith(".TH SBIBOARD 1"))
        for line in (in_vim, in_code):
            found = run(["bash", "-c"], line)
            must(f"{found}", found.returncode == 0 and not found.stderr)
        must("vim", os.path.isfile(os.path.join(self.room, ".vim/pack/sbiboard/start/sbiboard/syntax/sbiboard.vim")))
        folder = os.path.join(self.room, ".vscode/extensions/sbiboard")
        made = json.loads(read(os.path.join(folder, "package.json")))
        (language,), (grammar,) = made["contributes"]["languages"], made["contributes"]["grammars"]
        scope = json.loads(read(os.path.join(folder, grammar["path"])))["scopeName"]
        must(f"{made}", grammar["language"] == language["id"] and grammar["scopeName"] == scope and {".sched", ".trace", ".program"} <= set(language["extensions"]))


def words_of_pattern(grammar, place, scope):
    """The words that a rule of the grammar lists."""
    rules = grammar["repository"][place].get("patterns", [grammar["repository"][place]])
    return set(next(it for it in rules if it.get("name") == scope)["match"].split("(?:")[1].split(")")[0].replace("\\.", ".").split("|"))


# ---- vim

ASKS = r"""
set runtimepath^=VIMFILES
filetype on
syntax on
edit all.sched
let told = [&filetype]
for line in range(1, line('$'))
  let kinds = []
  for column in range(1, strlen(getline(line)))
    call add(kinds, synIDattr(synID(line, column, 1), 'name'))
  endfor
  call add(told, join(kinds, ' '))
endfor
call writefile(told, 'told')
qall!
"""
READS = r"""
set runtimepath^=VIMFILES
edit a.sched
compiler! sbiboard
edit b.sched
cgetfile said
call writefile(map(getqflist(), 'json_encode([v:val.bufnr ? bufname(v:val.bufnr) : "", v:val.lnum, v:val.col, v:val.text])'), 'told')
call writefile([&makeprg], 'makes')
qall!
"""


def kind_of_group(name):
    kind = name.removeprefix("sbiboard").removeprefix("Pattern").lower()
    return {"dash": "all", "clock": "actor"}.get(kind, kind)


def places(pattern, line):
    """The file, line, column (0: none) and text that a problem matcher finds in a line, if it matches."""
    found = re.search(pattern["regexp"], line)
    return found and (found[pattern["file"]], int(found[pattern["line"]]), int(found[pattern["column"]]) if "column" in pattern else 0, found[pattern["message"]])


class Editors(Test):
    programs = ()

    def vim(self, script):
        """Runs a script of vim in this test's folder. Returns the lines that it told."""
        if shutil.which("vim") is None or "+syntax" not in subprocess.run(["vim", "--version"], stdin=subprocess.DEVNULL, capture_output=True, text=True, timeout=60).stdout:
            raise SkipTest("vim is missing, or has no syntax")
        asks = write(os.path.join(self.room, "asks.vim"), script.replace("VIMFILES", VIM))
        call = ["vim", "-es", "-u", "NONE", "-i", "NONE", "-N", "-S", asks]
        found = subprocess.run(call, stdin=subprocess.DEVNULL, cwd=self.room, capture_output=True, text=True, timeout=120, env={**os.environ, "LC_ALL": "C.UTF-8"})
        must(f"{found}", found.returncode == 0 and os.path.exists(os.path.join(self.room, "told")))
        return read(os.path.join(self.room, "told")).splitlines()

    def test_the_words_of_formats(self):
        """The page of formats names operations, replies, conditions, ends and marks: these are listed by both grammars, and no others."""
        must(f"{OPERATIONS, REPLIES, RULES, ENDS, MARKS}", {"ecall", "tick", "fetch", "load"} <= OPERATIONS and {"ret", "refused"} <= REPLIES and {"never", "end"} <= RULES and {"stuck", "off"} <= ENDS and "stale" in MARKS)
        grammar, syntax = json.loads(read(GRAMMAR)), read(os.path.join(VIM, "syntax/sbiboard.vim"))
        places = (
            ("operations", OPERATIONS, "support.function.operation", ("operation", "condition")), ("replies", REPLIES, "support.type.reply", ("reply", "condition")),
            ("rules", RULES, "keyword.control.rule", ("condition",)), ("ends", ENDS, "constant.language.end", ("condition",)),
            ("marks", MARKS, "constant.language.mark", ("condition",)),
        )  # fmt: skip
        for name, wanted, scope, rules in places:
            in_vim = set(re.search(rf"^let s:{name} = '(.*)'$", syntax, re.M)[1].split())
            must(f"vim has the {name} {sorted(in_vim)}, and not {sorted(wanted)}", in_vim == wanted)
            for rule in rules:
                found = words_of_pattern(grammar, rule, f"{scope}.sbiboard")
                must(f"the grammar's rule {rule} has the {name} {sorted(found)}, and not {sorted(wanted)}", found == wanted)

    def test_the_grammar_of_TextMate(self):
        """Each word of each line has the name of what it is, no blank has one, and a wrong word is told."""
        reader = TextMate(json.loads(read(GRAMMAR)))
        for line in lines():
            found = reader.read(line)
            must(f"{line!r}: {found}", {at: kind_of_scope(name) for at, (_, name) in found.items()} == kinds_of(line))
            covered = {at for begin, (end, _) in found.items() for at in range(begin, end)}
            must(f"{line!r}: {found}", all(at in covered or line[at].isspace() for at in range(len(line))))
        for line, word in WRONG:
            found = reader.read(line)
            wrong = [line[begin:end] for begin, (end, name) in found.items() if name.startswith("invalid.")]
            must(f"{line!r}: {found}", wrong == [word])

    def test_the_syntax_of_vim(self):
        """Vim tells a script by its board line, names each word for what it is, and tells a wrong one."""
        asked = [*lines(), *(line for line, _ in WRONG)]
        write(os.path.join(self.room, "all.sched"), "\n".join(["board 1 1 10 0 0x80000000 0x0", *asked]) + "\n")
        filetype, _, *told = self.vim(ASKS)
        must(f"{filetype}, {len(told)} lines", filetype == "sbiboard" and len(told) == len(asked))
        wrong = dict(WRONG)
        for line, names in zip(asked, told):
            kinds = [kind_of_group(it) for it in names.split(" ")]
            wanted = kinds_of(line) | ({line.index(wrong[line]): "error"} if line in wrong else {})
            must(f"{line!r}: {kinds}", {at: kinds[at] for at in wanted} == wanted)

    def test_the_error_format_of_vim(self):
        """`:make` finds the place of all that `test`, `replay` and `check` say of a script."""
        for name in ("a.sched", "b.sched", "a.program", "a.trace"):
            write(os.path.join(self.room, name), "board 1 1 10 0 0x80000000 0x0\n" * 20)
        write(os.path.join(self.room, "said"), FAULTS + "".join(line + "\n" for line, _ in TOLD) + DIFFERS + "1..8\n" + "".join(line + "\n" for line, *_ in (*UNNAMED, *EXPLAINED)))
        found = [json.loads(it) for it in self.vim(READS)]
        differing = [["a.trace", 2, 0, '\n"0 poll -> gone"\n"0 poll -> refused 2"'], ["a.trace", 4, 0, '\n"0 sip -> value 0x2"\n"0 sip -> value 0x0"']]
        wanted = [["", 3, 0, "stale: a walk gives another translation"], *(list(it) for _, it in TOLD), *differing, *(["", line, 0, text] for _, line, text in UNNAMED), *(list(it) for _, it in EXPLAINED)]
        must(f"{found}, and not {wanted}", found == wanted)
        must("it makes", read(os.path.join(self.room, "makes")).startswith("sbiboard test "))

    def test_the_page_of_editors(self):
        """The problem matcher of the page finds the same places, also as a terminal is told them; and the page is short."""
        page = read(os.path.join(ROOT, "docs/EDITORS.md"))
        must(f"the page has {len(page.split())} words", len(page.split()) <= 350)
        test, check = json.loads(page.split("```json\n")[1].split("```")[0])["tasks"]
        for line, (path, at, column, text) in TOLD:
            for said in (line, re.sub(r"^not ok \d+ - ", "OPEN  " if "not judged" in text else "FAIL  ", line)):
                found = [places(it["pattern"], said) for it in test["problemMatcher"]]
                must(f"{said}: {found}", [it for it in found if it] == ([(path, at, column, text)] if at else []))
        must("no fault", not [it for it in test["problemMatcher"] for line in (FAULTS + DIFFERS).splitlines() if places(it["pattern"], line)])
        # (the shell's part of the task, as the editor gives it to a shell)
        _, _, names_it = check["command"].replace("${relativeFile}", "a b.trace").partition(" | ")
        for line, at, text in UNNAMED:
            said = subprocess.run(["sh", "-c", names_it], input=line, capture_output=True, text=True, timeout=60).stdout
            must(f"{said}", places(check["problemMatcher"]["pattern"], said) == ("a b.trace", at, 0, text))
