"""The tables of wrong bodies: each applies where it stands, its judge is there, and `tools/mutants --check` tells what is wrong."""
import os
import re
import shutil
import subprocess

import edits

from .fixtures import ROOT, Test, must, must_have, named, read, shown, write

# A crate of one file, in which texts stand more than once.
SOURCE = """\
/// How often.
pub struct Counter {
    count: u64,
}

impl Counter {
    /// Counts it, where it is a "}" or a '{'.
    pub fn count(&mut self, it: char) -> bool
        ensures { result ≡ true }
    {
        if it == '}' || it == '{' {
            self.count += 1;
        }
        true
    }
}

impl From<u64> for Counter {
    fn from(count: u64) -> Counter {
        Counter { count }
    }
}

/// Counts one more.
pub fn count(counter: &mut Counter) -> bool {
    counter.count += 1;
    true
}
"""

TABLE = """\
[[mutant]]
name = "begins_at_0"
file = "src/lib.rt"
function = "<Counter as From<u64>>::from"
old = 'Counter { count }'
new = 'Counter { count: 0 }'

# A method, and not the function of its name.
[[mutant]]
name = "counts_two"
judge = "one more"
file = "src/lib.rt"
function = "Counter::count"
old = '''
            self.count += 1;
        }
        true'''
new = '''
            self.count += 2;
        }
        false'''

[[mutant]]
name = "counts_none"
file = "src/lib.rt"
function = "count"
old = 'counter.count += 1;'
new = 'counter.count += 0;'

[[mutant.and]]
old = 'true'
new = 'false'

[[mutant.and]]
item = "struct Counter"
old = 'count: u64'
new = 'count: u64, // as ever'
"""

# What is changed in the table, and what is told then.
FAULTS = [
    ("= 'true'", "= 'self'", "low/counts_none: its old text stands 0 times in count"),
    ("= 'counter.count += 1;'", "= 'count'", "low/counts_none: its old text stands 4 times in count"),
    ('"Counter::count"', '"Counter::gone"', "low/counts_two: src/lib.rt has 0 items Counter::gone"),
    ('"struct Counter"', '"Counter"', "low/counts_none: src/lib.rt has 0 items Counter"),
    ('"src/lib.rt"', '"src/gone.rt"', "No such file or directory"),
    ('"one more"', '"one less"', "low/counts_two: there is no test 'one less'"),
    ('"one more"', '"another"', "low/counts_two: its judge 'another' runs no program that stands on low"),
    ('"counts_none"', '"counts_two"', "low/mutants.toml: a mutant has the name 'counts_two', which is none, or is another's"),
    ('name = "counts_none"\n', "", "low/mutants.toml: a mutant has the name '', which is none, or is another's"),
    ("new = 'false'", "now = 'false'", "low/mutants.toml: counts_none: a change has texts: file, function or item, old, new"),
    ("new = 'false'", "new = 0", "low/mutants.toml: counts_none: a change has texts: file, function or item, old, new"),
    ("= 'true'", "= ''", "low/mutants.toml: counts_none: it names no file, or its old text is empty"),
    ("[[mutant]]\nname = \"counts_two\"", "[[mutants]]\nname = \"counts_two\"", "low/mutants.toml has mutant, mutants, and not mutants alone"),
    ("[[mutant]]", "[[mutant]", "low/mutants.toml: "),
    ('"<Counter as From<u64>>::from"', '"count"', "low/begins_at_0: its old text stands 0 times in count"),
    (TABLE, TABLE + TABLE.split("\n\n")[0].replace("begins_at_0", "begins"), "low/begins stands behind low/counts_none"),
    (TABLE, "mutant = []", "0 looked at, 0 wrong"),
]


# A tool, what stands for its tests, and wrong bodies of it, with how each ends.
TOOL = "#!/bin/sh\necho right\n"
JUDGES = """\
#!/bin/sh
case "$*" in
    "--list -v") printf 'it is right\\nit is there\\nit is wrong\\n' ;;
    *right) [ "$(tools/told)" = right ] ;;
    *there) [ -x tools/told ] ;;
    *) exit 1 ;;
esac
"""
OF_TOOLS = (
    ("is_judged_by_what_fails", "it is wrong", "right", "wrong", "DOES NOT APPLY: its judge doesn't pass with nothing edited: "), ("is_no_tool", "it is right", "echo left", "", "DOES NOT APPLY: its old text stands 0 times in tools/told"),
    ("says_it_by_another_word", "it is right", "echo", "printf %s", "LET THROUGH: 'it is right' passes"), ("says_right_or_wrong", "it is there", "right", "wrong", "LET THROUGH: 'it is there' passes"),
    ("says_wrong", "it is right", "right", "wrong", "refused"),
)  # fmt: skip


def table_of_tools(rows):
    return "\n".join(f"[[mutant]]\nname = \"{name}\"\njudge = \"{judge}\"\nfile = \"tools/told\"\nold = '{old}'\nnew = '{new}'\n" for name, judge, old, new, _ in rows)


def check(root, *words):
    return ran(root, "--check", *words)


def ran(root, *words):
    command = [os.path.join(root, "tools/mutants"), *words]
    found = subprocess.run(command, stdin=subprocess.DEVNULL, stdout=subprocess.PIPE, stderr=subprocess.STDOUT, text=True, timeout=60)
    return found.returncode, found.stdout


def small_repository(room):
    """A checkout with one crate, SOURCE, and one test, in which the tool stands alone."""
    for name in ("mutants", "copies.py", "edits.py", "entry.py"):
        os.makedirs(os.path.join(room, "tools"), exist_ok=True)
        shutil.copy(os.path.join(ROOT, "tools", name), os.path.join(room, "tools"))
    for name, text in (("crates.txt", "low:\n"), ("crates/low/src/lib.rt", SOURCE), ("tests/run", "#!/bin/sh\nprintf 'one more\\tlow\\nanother\\thigh\\n'\n")):
        os.makedirs(os.path.dirname(os.path.join(room, name)), exist_ok=True)
        write(os.path.join(room, name), text)
    os.chmod(os.path.join(room, "tests/run"), 0o755)
    return os.path.join(room, "crates/low/mutants.toml"), os.path.join(room, "crates/low/src/lib.rt")


class WrongBodies(Test):
    programs = ()

    @named("all wrong bodies apply, and their judges are there")
    def test_all_wrong_bodies_apply_and_their_judges_are_there(self):
        status, said = check(ROOT, "--must-fail")
        last = re.fullmatch(r"(\d+) looked at, 0 wrong", said.rstrip("\n"))
        must(f"tools/mutants --check ends with status {status}: {shown(said)}", not status and last and int(last[1]) >= 1000)

    @named("wrong bodies that don't apply are told")
    def test_wrong_bodies_that_don_t_apply_are_told(self):
        """What doesn't apply is told; what is added elsewhere in a file breaks nothing."""
        table, source = small_repository(self.room)
        write(table, TABLE)
        for text in (SOURCE, SOURCE.replace("impl From", SOURCE.replace("Counter", "Other").replace("fn count(", "fn other(") + "\nimpl From", 1)):
            write(source, text)
            found = check(self.room)
            must(f"a good table is told to be {found}", found == (0, "3 looked at, 0 wrong\n"))
        write(source, SOURCE)
        for old, new, wanted in FAULTS:
            write(table, TABLE.replace(old, new, 1))
            status, said = check(self.room)
            must(f"with {new!r} for {old!r} the status is {status}: {shown(said)}", status == 1)
            must_have(said, wanted)

    def test_wrong_bodies_are_planted_where_their_table_says(self):
        """The texts that a table makes are those that it says."""
        table, _ = small_repository(self.room)
        write(table, TABLE)
        wanted = [
            SOURCE.replace("Counter { count }", "Counter { count: 0 }"),
            SOURCE.replace("self.count += 1;", "self.count += 2;").replace("true\n    }", "false\n    }"),
            SOURCE.replace("counter.count += 1;\n    true", "counter.count += 0;\n    false").replace("count: u64,", "count: u64, // as ever,"),
        ]
        found = [edits.edited(it, os.path.join(self.room, "crates/low")) for it in edits.edits_of("low", root=self.room)]
        must(f"it plants {shown(str(found))}", found == [({"src/lib.rt": it}, "") for it in wanted])

    def test_wrong_bodies_of_tools_are_tried(self):
        """Wrong bodies of tools are tried by their judges: each that a test sees is refused, and each other one is told, and is a failure."""
        small_repository(self.room)
        for name, text in (("tools/told", TOOL), ("tests/run", JUDGES)):
            os.chmod(write(os.path.join(self.room, name), text), 0o755)
        table = write(os.path.join(self.room, "tools/mutants.toml"), table_of_tools(OF_TOOLS))
        status, said = ran(self.room, "-v", "tools")
        *lines, last = said.splitlines()
        ends = dict(re.fullmatch(r"tools/(\w+) \(\d+ s\): (.*)", it).groups() for it in lines)
        must(f"status {status}: {said}", status == 1 and set(ends) == {row[0] for row in OF_TOOLS} and all(ends[name].startswith(end) for name, *_, end in OF_TOOLS))
        must(f"{last}", last == "5 tried, 1 refused, 2 let through, 2 do not apply")
        for words in (["--only", "says_wrong"], ["--only", "says_wrong", "tools", "--by", "tests", "--jobs", "9"]):
            found = ran(self.room, *words)
            must(f"{words}: {found}", found == (0, "1 tried, 1 refused, 0 let through, 0 do not apply\n"))
        must("the tool is another one", read(os.path.join(self.room, "tools/told")) == TOOL)
        none = ran(self.room, "--only", "none", "tools")
        must(f"none is tried, and it says {none}", none == (1, "0 tried, 0 refused, 0 let through, 0 do not apply\n"))
        write(table, table_of_tools(OF_TOOLS[-1:]).replace('judge = "it is right"\n', ""))
        must(f"{check(self.room)}", check(self.room) == (1, "tools/mutants.toml: says_wrong has no judge, and no clause is one of a tool\n"))
