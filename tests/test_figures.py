"""Tests of tools/record-stats: a small record's tables word by word, and stored records counted anew from their text."""
import os
import re
import subprocess

from .fixtures import RECORDS, ROOT, Test, must, must_have, named, read, script, shown

STATS = os.path.join(ROOT, "tools/record-stats")
SMALL = """record 3 1 2 70
1 entry 0x80200000 1 0 time=10
1 call 0x48534d 0 70 0x80200100 7 0 0 0 time=20
1 ret 0 0 time=35
70 entry 0x80200100 70 7 time=40
70 call 0x735049 0 3 1 0 0 0 0 time=50
70 ret 0 0 time=90
1 call 0x735049 0 0 0xffffffffffffffff 0 0 0 0
1 ret 0 0
1 call 0x735049 0 5 1 0 0 0 0
1 ret 0 0
1 call 0x52464e43 1 1 70 0x1ff8 0x10 0 0 time=100
1 ret 0 0 time=101
1 call 0x52464e43 2 1 70 0x1ff8 0x10 5 0 time=110
1 ret - -
1 call 0x52464e43 1 1 70 0x3000 0 0 0 time=120
1 ret 0 0
1 call 0x52464e43 1 1 70 0 0xffffffffffffffff 0 0 time=130
1 ret 0 0 time=140
1 call 0x1 0 65 0 0 0 0 0 time=150
1 ret 0 0 time=160
m end closed
"""
TABLES = """harts 3, calls 9, of which 5 tell their time; entries 2, resets by no call 0, 150 ticks

Calls, and ticks from call to return
  function                hart 1  hart 2  hart 70  all  least  median  9 of 10  most
  remote_sfence_vma            3       0        0    3      1      10       10    10
  send_ipi                     2       0        1    3     40      40       40    40
  0x1 0                        1       0        0    1     10      10       10    10
  hart_start                   1       0        0    1     15      15       15    15
  remote_sfence_vma_asid       1       0        0    1      -       -        -     -
  all                          8       0        1    9

Hart lists by the number of harts
  function                1  2  3  strange
  remote_sfence_vma       3  0  0        0
  send_ipi                0  1  1        1
  remote_sfence_vma_asid  1  0  0        0

IPIs by sender and target
  from     to 1  to 2  to 70
  hart 1      2     1      1
  hart 2      0     0      0
  hart 70     1     1      0

Remote fences by size
  size           fences
  everything          1
  nothing             1
  2 to 16 pages       2

Remote fences by address range (1 more ranges are left out)
  start   size  fences
  0x1ff8  0x10       2
"""


def ran(words, status=0):
    found = subprocess.run([STATS, *words], stdin=subprocess.DEVNULL, stdout=subprocess.PIPE, stderr=subprocess.PIPE, timeout=60)
    must(f"status {found.returncode}, not {status}; it said {shown(found.stderr)}", found.returncode == status)
    return found.stdout.decode(), found.stderr.decode()


class Figures(Test):
    programs = ()

    def test_figures__a_small_record(self):
        """Ids that aren't from 0, strange lists, empty and full ranges, a return that was seen late, and what is left out."""
        path, page = script(self.room, SMALL.encode()), os.path.join(self.room, "page.html")
        printed, _ = ran(["--most", "1", "--page", page, path])
        must(f"it printed {printed}", printed == TABLES)
        must_have(ran(["--most", "-1", path], 2)[1], "argument --most: '-1' is below 0")
        text = read(page)
        if re.search(r"https?://", text.replace("http://www.w3.org/", "")) or text.count("<rect") != 7 or text.count("<table>") != 5:
            raise AssertionError(f"the page has {text.count('<rect')} calls in its picture, and {text.count('<table>')} tables")

    def test_figures__ipis_in_vain(self):
        """An IPI is in vain where its target had one pending at its line before: not where it had a timer's interrupt, or none, or has no note."""
        for notes, in_vain in (("sip=0x2", 1), ("sip=0x22", 1), ("sip=0x20", 0), ("sip=0x0", 0), ("sip=0x200", 0), ("", 0), ("sip=0x2\n1 call 0x10 0 0 0 0 0 0 0 sip=0x0", 0)):
            lines = f"record 2\n0 entry 0x80200000 0 0\n0 call 0x48534d 0 1 0x80200000 0 0 0 0\n0 ret 0 0\n1 entry 0x80200000 1 0 {notes}\n"
            lines += "0 call 0x735049 0 3 0 0 0 0 0 sip=0x2\n0 ret 0 0\n" + "0 call 0x735049 0 2 0 0 0 0 0 sip=0x0\n0 ret 0 0\n"
            printed, _ = ran([script(self.room, lines.encode())])
            rows = re.findall(r"(?m)^  IPIs to harts that have one pending, by their line before +(\d+) +(\d+)$", printed)
            must(f"{notes}: {printed}", rows == ([(str(2 * in_vain), "3")] if in_vain else []) and ("Costs, which are no faults" in printed) == bool(in_vain))

    def test_figures__what_is_drawn(self):
        """Each call that tells its time is drawn in its hart's lane, from its time on and as long as it takes; resets by no call are counted."""
        timed = [(0, 100, 200), (7, 300, 350), (0, 400, 450), (3, 500, 1000), (7, 600, 600)]
        lines = ["record 3 0 3 7", "0 entry 0x80200000 0 0 time=0", "0 call 0x48534d 0 7 0x80200000 0 0 0 0 time=100", "0 ret 0 0 time=200", "7 entry 0x80200000 7 0", "7 call 0x10 0 0 0 0 0 0 0 time=300", "7 ret 0 0x1000000 time=350"]
        lines += ["0 call 0x48534d 0 3 0x80200000 0 0 0 0 time=400", "0 ret 0 0 time=450", "3 entry 0x80200000 3 0", "3 call 0x10 0 0 0 0 0 0 0 time=500", "3 ret 0 0x1000000 time=1000", "7 call 0x10 0 0 0 0 0 0 0 time=600", "7 ret 0 0x1000000 time=600"]
        for resets in (0, 1, 2):
            page = os.path.join(self.room, "page.html")
            text = "".join(f"{it}\n" for it in [*lines, *["m reset", "0 entry 0x80200000 0 0 time=5"] * resets])
            printed, _ = ran(["--page", page, script(self.room, text.encode())])
            must(printed, printed.startswith(f"harts 3, calls 5, of which 5 tell their time; entries {3 + resets}, resets by no call {resets}, 1000 ticks\n"))
            drawn = [tuple(map(float, it)) for it in re.findall(r'<rect x="([\d.]+)" y="([\d.]+)" width="([\d.]+)"', read(page))]
            scale = 1100 / 900
            wanted = [(80 + (begin - 100) * scale, 26 * [0, 3, 7].index(hart) + 4, max(1, (end - begin) * scale)) for hart, begin, end in timed]
            must(f"{drawn}, and not {wanted}", len(drawn) == len(wanted) and all(abs(a - b) < 0.1 for one, other in zip(drawn, wanted) for a, b in zip(one, other)))

    def test_figures__stored_records(self):
        """Of stored records the sums are those of their lines."""
        for name in ("kernel", "survey", "u-boot", "newer"):
            path = os.path.join(RECORDS, f"{name}.record")
            calls = re.findall(r"^([0-9]+) call (\S+) (\S+) (\S+) (\S+) ", read(path), re.M)
            printed = ran([path])[0]
            harts = sorted({int(hart) for hart, *_ in calls})
            last = re.search(r"^  all +(.*)$", printed, re.M)
            sums = [int(it) for it in last[1].split()] if last else [0]
            must(f"{name}: {len(calls)} calls, and the sums are {sums}", sums[-1] == len(calls) and not any(sums[hart] != sum(int(of) == hart for of, *_ in calls) for hart in harts))
            sent = 0
            for _, eid, fid, mask, base in calls:
                if (int(eid, 0), int(fid, 0)) == (0x735049, 0):
                    named = range(len(sums) - 1) if int(base, 0) == (1 << 64) - 1 else [int(base, 0) + i for i in range(64) if int(mask, 0) >> i & 1]
                    sent += sum(hart < len(sums) - 1 for hart in named)
            rows = re.findall(r"^  hart [0-9]+ +([0-9 ]+)$", printed.partition("IPIs by sender")[2].partition("\n\n")[0], re.M)
            must(f"{name}: {sent} IPIs, and the table is {rows}", sum(int(it) for row in rows for it in row.split()) == sent)

    def test_figures__sizes_of_fences(self):
        """A fence is of as many pages as its range touches, also where it begins or ends at a page's end."""
        sizes = {
            "nothing": [(0x1000, 0), (0x1234, 0)], "1 page": [(0x1000, 1), (0x1000, 0x1000), (0x1FFF, 1), (0x1001, 0xFFF), (0, 0x1000)], "everything": [(0, 0), (0x5000, (1 << 64) - 1)],
            "2 to 16 pages": [(0x1000, 0x1001), (0x1FFF, 2), (0x1001, 0x1000), (0x1000, 0x10000)], "17 to 512 pages": [(0x1000, 0x10001), (0x1FFF, 0xF002), (0x1000, 0x200000)],
            "more": [(0x1000, 0x200001), (0x1FFF, 0x1FF002), (0, (1 << 64) - 2)],
        }  # fmt: skip
        calls = "".join(f"0 call 0x52464e43 1 1 0 {start:#x} {size:#x} 0 0\n0 ret 0 0\n" for of in sizes.values() for start, size in of)
        printed, _ = ran([script(self.room, f"record 1\n0 entry 0x80200000 0 0\n{calls}".encode())])
        rows = re.findall(r"(?m)^  (.*\S) +(\d+)$", printed.partition("Remote fences by size\n")[2].partition("\n\n")[0])
        must(f"{rows}", {name: int(many) for name, many in rows if name != "size"} == {name: len(of) for name, of in sizes.items()})

    def test_figures__of_nothing(self):
        """A record without a call is no table of zeros; a broken one is told with its line."""
        path = script(self.room, b"record 1\n0 entry 0x80200000 0 0\n")
        must("a record without a call passes", ran([path], 1) == ("", f"record-stats: {path}: line 1: the record has no call, so there is nothing to count\n"))
        path = script(self.room, b"record 1\n0 entry 0x80200000 0 0\n0 call 5\n")
        must("a broken record passes", "line 3: 'call' has 8 numbers" in ran([path], 1)[1])
