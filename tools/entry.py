"""How every tool begins and ends: it answers --help, and exits quietly if its output's reader is gone."""
import argparse
import errno
import gzip
import os
import re
import select
import signal
import sys
import zlib


def usage_of(doc):
    """The usage in a tool's text, for its parser of words."""
    return doc.partition("usage: ")[2].partition("\n\n")[0]


def path(word):
    """The value of an option that names a file or a folder. An empty one, as of a shell's variable that isn't set, names none."""
    if not word:
        raise argparse.ArgumentTypeError("a name is wanted, and it is empty")
    return word


def contents(name):
    """The bytes of a file, which gzip may have compressed."""
    with open(name, "rb") as file:
        data = file.read()
    if data[:2] != b"\x1f\x8b":
        return data
    try:
        return gzip.decompress(data)
    except (OSError, EOFError, zlib.error):
        raise OSError(errno.EIO, "what gzip compressed is broken", name) from None


def as_ascii(text):
    """A text for a line of a trace or a record, which are ASCII: any other character is `?`."""
    return re.sub(r"[^\t -~]", "?", text)


def title_of(path):
    """The name of a file for a page: bytes that are no UTF-8 are shown as such."""
    return os.path.basename(os.fsencode(path)).decode("utf-8", "replace")


def run(main, doc):
    """Does the tool's task, and ends with the status that `main` returns or exits with; asked for help it prints its text.

    Where nobody reads on, as behind `| head`, it ends by SIGPIPE like any other command, but only once all is put away. What
    the system refuses, such as a file that isn't there or a write to a full disk, is told in one line, with status 1.
    """
    # (a parent may have left it ignored, and then each child's status would be 0)
    signal.signal(signal.SIGCHLD, signal.SIG_DFL)
    name = os.path.basename(sys.argv[0])
    if sys.stdout is None:
        sys.exit(f"{name}: standard output is closed")
    try:
        try:
            if {"-h", "--help"} & set(sys.argv[1:]):
                print(doc.strip())
                status = 0
            else:
                status = main()
        except SystemExit as end:
            status = end.code
        print(end="", flush=True)
    except BrokenPipeError:
        if not (is_unread(1) or is_unread(2)):
            raise
        signal.signal(signal.SIGPIPE, signal.SIG_DFL)
        os.kill(os.getpid(), signal.SIGPIPE)
    except OSError as error:
        status = f"{name}: {error.filename}: {error.strerror}" if error.filename else f"{name}: {error.strerror}"
        # (what is still to be written would fail once more when Python ends)
        os.dup2(os.open(os.devnull, os.O_WRONLY), 1)
    sys.exit(status)


def is_unread(to):
    """Whether a descriptor is a pipe that nobody reads any more."""
    poll = select.poll()
    poll.register(to, 0)
    return any(event & select.POLLERR for _, event in poll.poll(0))
