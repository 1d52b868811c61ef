"""Linux, recorded: the stored record with its trace and its report; of a kernel whose TLB code forgets a hart the report names the hart
and the functions; and what examples/linux/build needs, without building a kernel."""
import gzip
import os
import re
import shutil
import subprocess
from unittest import SkipTest

from records import is_suspend
from records import read as read_record
from standard import FUNCTIONS

from . import test_recorder
from .fixtures import RECORDS, ROOT, Test, must, must_be, ran, read, read_bytes, script, write
from .replays import printed
from .test_to_trace import TO_TRACE, must_be_checked, tool

LINUX = os.path.join(ROOT, "examples/linux")
BUILD = os.path.join(LINUX, "build")
# The sections of the calls that the kernel must have made, and the types of its suspends.
CALLED, SUSPENDS = {"6.1", "7.1", "8.1", "8.3", "9.1", "9.2", "9.3", "9.4", "10.1"}, {0, 1 << 31}


def unpacked(room, name):
    return write(os.path.join(room, name), gzip.decompress(read_bytes(os.path.join(RECORDS, f"{name}.gz"))))


def is_of_linux(room, path):
    """The record is whole, has a call of each kind, and nothing of its report is the firmware's fault."""
    record = read_record(read_bytes(path))
    calls = [line.numbers for line in record.lines if line.kind == "call"]
    lacks = CALLED - {FUNCTIONS[it[:2]].section for it in calls}
    must(f"the record ends {record.end}, and lacks calls of the sections {lacks}, or suspends", record.end == "off" and not lacks and {it[2] for it in calls if is_suspend(it)} == SUSPENDS)
    report, _ = tool([TO_TRACE, "--report", path])
    trace, _ = tool([TO_TRACE, "--ignore", "impl", path])
    must_be_checked(room, trace)
    # (behind the first line that differs the program is asked by its replies)
    schedule = script(room, re.sub(rb" -> [^#\n]*", b"", trace))
    must_be(ran(["replay", schedule]), 0, "".join(line + "\n" for line in printed(trace.decode())).encode(), b"")
    return report, trace


class Linux(Test):
    def test_linux__the_stored_record(self):
        """Linux on four harts, from its entry to its power off: the report and the trace are as stored, and the program agrees with it."""
        report, trace = is_of_linux(self.room, unpacked(self.room, "linux.record"))
        must(f"the report is {report.decode()}", report == read_bytes(os.path.join(RECORDS, "linux.report")))
        stored = unpacked(self.room, "linux.trace")
        must("the trace differs from linux.trace.gz", trace == read_bytes(stored))
        picture, _ = tool([os.path.join(ROOT, "tools/timeline"), "--svg", "--steps", "2833-2856", stored])
        must("docs/linux.svg isn't the picture of its steps 2833-2856", picture == read_bytes(os.path.join(ROOT, "docs/linux.svg")))

    def test_linux__a_kernel_that_forgets_a_hart(self):
        """With one line of the kernel's TLB code changed the report names the hart that may hold what was unmapped, and the functions."""
        path, names = unpacked(self.room, "linux-forgets.record"), os.path.join(RECORDS, "linux-forgets.nm")
        report = tool([TO_TRACE, "--report", "--symbols", names, path], 6)[0].decode()
        must("the record isn't whole", read_record(read_bytes(path)).end == "off")
        must(f"the report is {report}", report == read(os.path.join(RECORDS, "linux-forgets.report")))
        told = [line for line in report.splitlines() if line.startswith("  left out of a fence: ")]
        must(f"{told}", told and all(" hart 3 may hold " in line and "__sbi_tlb_flush_range" in line for line in told))

    def test_linux__what_the_build_refuses(self):
        """It names what is missing, and its package."""
        tools = os.path.join(self.room, "tools")
        os.mkdir(tools)
        for name in ("bash", "dirname", "readlink", "nproc"):
            os.symlink(shutil.which(name), os.path.join(tools, name))
        for words, path, said in (
            ([], None, "name a folder"), (["--forget-harts", self.room], None, "there is no option --forget-harts"),
            ([self.room], tools, "riscv64-linux-gnu-gcc is missing; install the package gcc-riscv64-linux-gnu"),
        ):  # fmt: skip
            found = subprocess.run([BUILD, *words], env=os.environ | ({"PATH": path} if path else {}), capture_output=True, text=True, timeout=60)
            must(f"{words}: status {found.returncode}, and it said {found.stderr}", found.returncode == 1 and found.stderr.startswith(f"build: {said}"))

    def test_linux__the_init_and_the_device_tree(self):
        """Without the kernel's source the build makes the init and the tree: each hart has both idle states, and no Sstc."""
        for name in ("riscv64-linux-gnu-gcc", "gcc", "make", "flex", "bison", "bc", "dtc", "qemu-system-riscv64", "xz"):
            if shutil.which(name) is None:
                raise SkipTest(f"{name} is missing")
        found = subprocess.run([BUILD, "--source", "/none", self.room], capture_output=True, text=True, timeout=test_recorder.LONGEST)
        must(f"status {found.returncode}, and it said {found.stderr}", found.returncode == 1 and found.stderr == "build: /none is missing; install the package linux-source-6.1\n")
        must("there is no init", read_bytes(os.path.join(self.room, "init"))[:4] == b"\x7fELF")
        tree = tool(["dtc", "-q", "-I", "dtb", "-O", "dts", os.path.join(self.room, "machine.dtb")])[0].decode()
        states = re.findall(r'compatible = "riscv,idle-state";\s*riscv,sbi-suspend-param = <(0x[0-9a-f]+)>', tree)
        must(f"the idle states are {states}, in {tree}", states == ["0x00", "0x80000000"] and len(re.findall(r"cpu-idle-states = <0x\w+ 0x\w+>", tree)) == 4 and "sstc" not in tree)

    if "LINUX_FOLDER" in os.environ:

        def test_a_fresh_record__linux(self):
            """The kernel that examples/linux/build made in LINUX_FOLDER, recorded here and now."""
            folder, made = os.environ["LINUX_FOLDER"], os.path.join(self.room, "linux.record")
            test_recorder.recorded_off(os.path.join(folder, "Image"), made, "--dtb", os.path.join(folder, "machine.dtb"))
            is_of_linux(self.room, made)
