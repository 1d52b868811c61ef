"""The workflow files of docs/MANY_RUNS.md: their commands, as they stand in the page, in a repository that has scripts, with what
stands for the toolchain of an image."""
import os
import re
import shutil
import subprocess
from unittest import SkipTest

from .fixtures import EXAMPLES, ROOT, TESTER, Test, must, read
from .test_wrapper import called, clone, put

PAGE = os.path.join(ROOT, "docs/MANY_RUNS.md")
SERVICES = ("GitHub Actions", "GitLab CI")
ITEM = re.compile(r"( *)- (?:(\w+): )?(.*)")


def workflows():
    """The text of the workflow file of each service."""
    section = read(PAGE).partition("\n## Hosted CI\n")[2].partition("\n## ")[0]
    found = {name: section.partition(f"{name}, `")[2].partition("```yaml\n")[2].partition("```")[0] for name in SERVICES}
    must(f"{found}", all(found.values()))
    return found


def blocks(text):
    """Of each item of a list that is a block of lines its key, if it has one, and the block."""
    found, depth = [], None
    for line in text.splitlines():
        begin = ITEM.fullmatch(line)
        if depth is not None and len(line) - len(line.lstrip()) > depth:
            found[-1][1].append(line.strip())
            continue
        depth = len(begin[1]) if begin and begin[3] == "|" else None
        if depth is not None:
            found.append((begin[2], []))
    return found


def commands(text):
    """The commands of a workflow, one for each step."""
    return ["\n".join(lines) for key, lines in blocks(text) if key in ("run", None)]


class Workflows(Test):
    programs = (TESTER,)

    def setUp(self):
        super().setUp()
        if shutil.which("git") is None:
            raise SkipTest("git is missing")
        source = os.path.dirname(clone(self.room))
        for name in os.listdir(os.path.join(source, "crates")):
            put(os.path.join(source, "crates", name, "src/lib.rt"), "")
        for words in (["init", "--quiet"], ["add", "--all"], ["-c", "user.name=a", "-c", "user.email=a@b", "commit", "--quiet", "--message", "all"]):
            subprocess.run(["git", "-C", source, *words], check=True, timeout=60, capture_output=True)
        commit = subprocess.run(["git", "-C", source, "rev-parse", "HEAD"], check=True, timeout=60, capture_output=True, text=True).stdout.strip()
        path = os.path.join(self.room, "bin") + ":" + os.environ.get("PATH", "")
        # (git has settings of the user, which say nothing of this)
        own = {"GIT_CONFIG_GLOBAL": "/dev/null", "RT_LOG": os.path.join(self.room, "rt.log"), "RT_PROGRAM": TESTER, "TMPDIR": self.room}
        self.given = {"PATH": path, "SOURCE": source, "COMMIT": commit, **own}

    def job(self, work, steps):
        """The steps of a job as a service runs them, up to the first that fails. Returns its status."""
        for it in steps:
            found = subprocess.run(["bash", "-eo", "pipefail", "-c", it], cwd=work, env=self.given, stdin=subprocess.DEVNULL, capture_output=True, text=True, timeout=300)
            if found.returncode:
                return found
        return found

    def test_workflows_of_hosted_ci(self):
        """Both services do the same steps: the first job builds and tests, later ones test what is kept; a bug fails the job and leaves its pages."""
        steps = {name: commands(text) for name, text in workflows().items()}
        must(f"{steps}", len(steps["GitLab CI"]) == 2 and steps["GitHub Actions"] == steps["GitLab CI"])
        for name, text in workflows().items():
            must(f"{name}: what a user names", all(it in text for it in ("IMAGE", "CLONE-URL", "COMMIT-ID")) and "sbiboard-$" in text)
            kept = set(re.findall(r"path: (\w+), key|paths: \[(\w+)\], when: always", text))
            must(f"{name}: kept is {kept}", [any(it) and "".join(it) for it in kept] == ["built"])
            must(f"{name}: the artifact", all(re.search(rf"(?s)(upload-artifact|artifacts).*\b{it}\b", text) for it in ("pages", "failed", "junit.xml")))
        work = os.path.join(self.room, "repository")
        os.makedirs(os.path.join(work, "sbi"))
        bug = os.path.join(work, "sbi/lost-wakeup.program")
        shutil.copy(os.path.join(EXAMPLES, "orders/lost-wakeup.program"), bug)
        found = self.job(work, steps["GitLab CI"])
        must(f"{found}", found.returncode == 1 and "not ok 1 - sbi/lost-wakeup.program: line 2" in found.stdout)
        pages = sorted(os.listdir(os.path.join(work, "pages")))
        must(f"{pages}", pages == ["index.html", "lost-wakeup.program.2.failed.html"] and "lost-wakeup.program.2.failed" in os.listdir(os.path.join(work, "failed")))
        must("the XML of its points", '<testsuites name="sbiboard test" tests="2" failures="1" errors="0">' in read(os.path.join(work, "junit.xml")))
        # (the next job has what was kept, and nothing else)
        count = len(called(self.room))
        shutil.rmtree(os.path.join(work, "sbiboard"))
        shutil.rmtree(self.given["SOURCE"])
        lines = read(bug).splitlines(keepends=True)
        at = next(place for place, line in enumerate(lines) if "belongs in front of the line above" in line)
        put(bug, "".join([*lines[: at - 1], lines[at], lines[at - 1], *lines[at + 1 :]]))
        found = self.job(work, steps["GitHub Actions"])
        must(f"{found}", found.returncode == 0 and "# 2 points, 0 failed" in found.stdout and len(called(self.room)) == count)
        must("the XML of its points", 'tests="2" failures="0" errors="0">' in read(os.path.join(work, "junit.xml")))


class ManyRuns(Test):
    programs = ()

    def test_seeds_are_counted_by_condition(self):
        """The page's line counts of points of several seeds with how many each condition fails."""
        counting = re.search(r"`(sed [^`]*out/\*\.tap[^`]*uniq -c)` counts the seeds with which each condition fails", read(PAGE))[1]
        for seed, ends in ((1, "not ok 2"), (7, "not ok 12"), (10, "ok 2")):
            holds = f"FILE: line 2: some 1 sip -> value 0: holds in some of 1,000 orders of unknown many, seed {seed}"
            fails = f"FILE: line 3: end quiet: {'fails' if ends[0] == 'n' else 'holds'} in some of 1,000 orders of unknown many, seed {seed}"
            put(os.path.join(self.room, f"out/{seed}.tap"), f"TAP version 13\nok 1 - {holds}\n{ends} - {fails}\n  ---\n  seed: {seed}\n  ...\n1..2\n")
        found = subprocess.run(["bash", "-c", counting], cwd=self.room, capture_output=True, text=True, timeout=60)
        must(f"{found}", found.stdout.split(None, 1) == ["2", "FILE: line 3: end quiet: fails in some of 1,000 orders of unknown many\n"] and not found.stderr)

    def test_the_makefile_of_many_runs(self):
        """It counts the statuses of each script, runs one again that was changed, and fails where there is none."""
        if shutil.which("make") is None:
            raise SkipTest("make is missing")
        put(os.path.join(self.room, "many.mk"), read(PAGE).partition("`many.mk`:\n\n```make\n")[2].partition("```")[0])
        script, statuses = os.path.join(self.room, "scripts/one.program"), os.path.join(self.room, "results/one.program.1.status")
        put(os.path.join(self.room, "sbiboard"), "#!/bin/sh\nexit 4\n")
        os.chmod(os.path.join(self.room, "sbiboard"), 0o755)
        put(script, "")

        def must_print(folder, status, printed, said):
            found = subprocess.run(["make", "-f", "many.mk", f"SCRIPTS={folder}"], cwd=self.room, capture_output=True, text=True, timeout=60)
            must(f"{folder}: {found}", found.returncode == status and found.stdout.strip() == printed and said in found.stderr)

        must_print("scripts", 0, "1 4 one.program", "")
        must_print("none", 2, "", "no script in none")
        put(os.path.join(self.room, "sbiboard"), "#!/bin/sh\nexit 5\n")
        must_print("scripts", 0, "1 4 one.program", "")
        later = os.stat(statuses).st_mtime_ns + 1_000_000_000
        os.utime(script, ns=(later, later))
        must_print("scripts", 0, "1 5 one.program", "")
