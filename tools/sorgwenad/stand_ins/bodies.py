"""What the stand-ins do that are programs. Each takes what is right from the Rust, and is tried without its fault too."""
import os
import subprocess
import sys
import time

from sorgwenad.shared.pages import PAGE, paged, settled


def given(once):
    """Standard input: all of it, or what a first read gets; None where it can't be read."""
    if sys.stdin is None:
        return None
    return os.read(0, 1 << 16) if once else sys.stdin.buffer.read()


def written(data, file=1):
    """Whether it could be written."""
    try:
        os.write(file, data)
        return True
    except OSError:
        return False


def listing(oracle, message, goals):
    """Pages, written one by one. `message`: what is printed where one can't be written; `goals`: whether a terminal shows the goal at
    hand."""
    if sys.stdin is None:
        written(b"listing: the input can't be read\n", 2)
        return
    # what a process has written counts as its parent's once it was waited for, and nothing may be written before the first page
    lists = subprocess.Popen([oracle, "list"], stdin=0, stdout=subprocess.PIPE)
    pages = paged(settled(lists.stdout.read()))
    if goals and os.isatty(2):
        written(b"".join(b"goal %d\r" % goal for goal in range(64)), 2)
    for at in range(0, len(pages), PAGE):
        if not written(pages[at:at + PAGE]):
            written(message, 2)
        # so that a full pipe is emptied before the next page
        time.sleep(0.1)
    lists.wait()


def mend(oracle, first=b"", last=b"", once=False):
    """A mender that prints this before its lines, and this behind them, where its book can't be written."""
    data = given(once)
    if data is None:
        written(b"mend: the input can't be read\n", 2)
        return
    run = subprocess.run([oracle, "mend"], input=data, capture_output=True)
    failed = run.stdout and not written(run.stdout)
    written((first if failed else b"") + run.stderr + (last if failed else b""), 2)


def from_xsb(oracle, once=False):
    run = subprocess.run([oracle, "from-xsb"], input=given(once), capture_output=True)
    written(run.stdout)
    written(run.stderr, 2)


MESSAGE = b"mend: the book can't be written\n"
FAULTS = {
    "listing as it must be": lambda oracle: listing(oracle, b"listing: the lines can't be written\n", True),
    "listing without a word": lambda oracle: listing(oracle, b"", False),
    "mend as it must be": lambda oracle: mend(oracle, last=MESSAGE),
    "mend without a message": mend,
    "mend with its message first": lambda oracle: mend(oracle, first=MESSAGE),
    "mend with a short read as the end": lambda oracle: mend(oracle, last=MESSAGE, once=True),
    "from_xsb as it must be": from_xsb,
    "from_xsb with a short read as the end": lambda oracle: from_xsb(oracle, once=True),
}
