"""Failing calls of the system."""
import errno
import os

from .fixtures import ASKED, DIFFERS, FAILED_IO, NO_MEMORY, SHORT, TRACE, TWO_HARTS, Test, must_be, ran, script, shim

ERRORS = (errno.EIO, errno.EAGAIN, errno.ENOMEM, errno.EINTR)

# A schedule whose printed text takes more than one write, of which all but the last are made while lines are still printed.
BUFFER, LONG = 65_536, b"board 1 1 9000 0 0x80000000 0\n0 advance\n" + b"0 sip\n" * 8_000

# The status that each of these errors ends with, by what was called, or None where it makes no difference: a call that
# a signal interrupted is made again, but for a read.
OF_OPEN, OF_READ, OF_WRITE, OF_PRINT = (7, 7, 6, None), (7, 7, 7, 7), (7, 7, 7, None), (7, 7, 6, None)


def each_error(made, words, call, most, statuses):
    """That call of the system fails with each error, and none moves more bytes than the given number, if any."""
    with open(os.devnull, "wb") as sizes:
        env = {"LD_PRELOAD": made, "SIZES": str(sizes.fileno()), "FAILED": str(call), "MOST": str(most)}
        good = ran(words)
        for number, status in zip(ERRORS, statuses):
            found = ran(words, env={**env, "ERROR": str(number)}, pass_fds=[sizes.fileno()])
            try:
                if status is None:
                    must_be(found, good.returncode, good.stdout, good.stderr)
                else:
                    out = None if statuses is OF_WRITE else b""
                    must_be(found, status, out, NO_MEMORY if status == 6 else FAILED_IO)
            except AssertionError as wrong:
                raise AssertionError(f"{words}: call {call}, of {most} bytes at most, {errno.errorcode[number]}: {wrong}")


class SystemCalls(Test):
    def test_each_call_of_the_system_fails(self):
        """Each call that opens, reads or writes fails in turn: a failed read ends all, and a task makes no call but these."""
        made = shim(self.room)
        short = (("run", TWO_HARTS), ("replay", SHORT), ("check", TRACE), ("check", DIFFERS))
        for task, text, mosts in (*((*it, (0, 7)) for it in short), ("replay", LONG, (0,))):
            path = script(self.room, text + b"# \n" * 20)
            printed, size = len(ran([task, path]).stdout), os.path.getsize(path)
            for most in mosts:
                pieces = lambda size: -(-size // (most or BUFFER))
                calls = [OF_OPEN, *[OF_READ] * (pieces(size) + 1), *[OF_WRITE] * pieces(printed), (None,) * 4]
                for call, statuses in enumerate(calls, 1):
                    each_error(made, [task, path], call, most, statuses)
        for words in (*ASKED, [], ["check"], ["--fly"]):
            each_error(made, words, 1, 0, OF_PRINT)
