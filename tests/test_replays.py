"""Long schedules, and a history without room."""
from .fixtures import FULL, TOO_LONG, Test, must, must_agree, must_be, must_have, ran, replayed, script


class Replays(Test):
    def test_long_schedules(self):
        """With ample memory a schedule of any length is read, parsed and replayed, whether its lines are steps or none."""
        head = b"board 128 256 1000000 0 0x80000000 1\n0 advance\n"
        for line, size, is_step in (
            (b"0 ecall 0x10 0\n", 200_000, True),
            (b"0 ecall 0x10 0\n", 14_900_000, True),
            (b"# no step\n", 14_900_000, False),
        ):
            times = size // len(line)
            found = ran(["replay", script(self.room, head + line * times)])
            must_be(found, 0, None, b"")
            printed = found.stdout.splitlines()
            events = 1 + (times if is_step else 0)
            answer = b"0 ecall 0x10 0x0 0x0 0x0 0x0 0x0 0x0 0x0 -> ret 0 0x1000000"
            must(f"{size} bytes: other lines of steps", len(printed) == 1 + events + 3 + 128 and printed[2 : 1 + events] == [answer] * (events - 1))
            must_have(found.stdout, b"# time 0000000000000000 events %7d power on reset none\n" % events)
            if len(found.stdout) < TOO_LONG:
                must_agree(self.room, found.stdout)

    def test_a_full_history(self):
        """A refusal for want of room in the history ends with status 3, and everything is printed all the same."""
        out = b"""\
board 1 1 1 0 0x80000000 0x0
0 advance -> entry 0x80000000 0 0x0
c tick 0x5 -> refused 4
# time 0000000000000000 events       1 power on reset none
# starts 1 entries 1 pending 0 asked 0 applied 0 waiting 0
# hart state           wait out ss st ie se satp             deadline         tlb ic
#    0 STARTED            0   -  0  0 00  0 0000000000000000 ----------------   0  0
"""
        replayed(self.room, b"board 1 1 1 0 0x80000000 0\n0 advance\nc tick 5\n", 3, out, FULL)
        must_agree(self.room, out)
