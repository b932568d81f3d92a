"""Books whose pages are written by hand (cases/pages.py), and pages that can't be written.

--rust     whether what the Rust lists of each book, settled and as pages, is as expected
--program  whether the proved `listing`, or a program in its place, prints just that, byte by byte, and reports where a page can't be
           written: to a full device, to a closed output, and where a page is lost and later ones are not; and whether at a terminal the
           goal at hand is shown and the pages stay

Status 0 only if all is as expected.
"""
import fcntl
import os
import re
import select
import subprocess
import time

from cases.pages import SLOW
from sorgwenad.shared import pages, tree
from sorgwenad.shared.book import in_bytes
from sorgwenad.shared.command import parser, sides_of, with_oracle, with_sides
from sorgwenad.shared.compared import reported
from sorgwenad.shared.listed import listed_by_the_rust
from sorgwenad.shared.oracle import find_oracle
from sorgwenad.shared.processes import run
from sorgwenad.shared.streams import streams_reported
from sorgwenad.shared.tables import rows

CANT_READ = b"listing: the input can't be read\n"
# Of each page that can't be written there may be a line.
CANT_WRITE = re.compile(rb"([^\n]*can't be written[^\n]*\n)+")


def filled(lines, count):
    """What is printed: of a book that is accepted the lines, and blank ones up to so many pages."""
    if isinstance(lines, str):
        return lines.encode()
    return "".join(line + "\n" for line in lines).encode() + pages.FILLING * (pages.LINES * count - len(lines))


def expected():
    """Every book: its title, its bytes, and what is expected to be printed."""
    return [(title, in_bytes(book), filled(lines, count)) for title, book, lines, count in rows("PAGES")]


def first_wrong(must, found):
    """The first line that differs, with its number."""
    both = zip(must.split(b"\n") + [b""], found.split(b"\n") + [b""])
    return next(("line %d: %r, expected %r" % (n, f, m) for n, (m, f) in enumerate(both, 1) if m != f), "one of the two is longer")


def by_hand(who, answers):
    """Whether the pages of each book are as expected. `answers`: from books to what is printed of each."""
    asked = expected()
    difference = lambda name, must, found: "%s: %s" % (name, first_wrong(must, found))
    return reported("pages", "books", who, asked, answers([data for _, data, _ in asked]), difference)


def by_the_rust(oracle):
    """What the Rust lists of some books, as pages. The way back, from pages to fields, is tried with each."""
    def answers(books):
        texts = [text.encode() for text in listed_by_the_rust(oracle, books)]
        back = lambda text, page: page if pages.fields(page) == text else b"the pages are not its text"
        return [back(text, pages.paged(text)) for text in texts]
    return answers


def by_the_program(program):
    """What the program writes of some books, on both streams."""
    def printed(data):
        out, err, status = run([program], data)
        return out + err + (b"(status %d)" % status if status else b"")
    return lambda books: [printed(data) for data in books]


# Pages that can't be written.

def failures(program):
    """Whether a failing input or output is reported, of one page or several."""
    cases = [("a folder for input", tree.ROOT, os.devnull, CANT_READ), ("a closed input", None, os.devnull, CANT_READ)]
    for name in ("clauses-256", "goals-64", "largest", "p1", "p9-empty"):
        for where, to in (("a full device", "/dev/full"), ("a closed output", None)):
            cases.append(("%s.book and %s" % (name, where), os.path.join(tree.PAPERS, name + ".book"), to, CANT_WRITE))
    return streams_reported("listing", [program], cases)


def writes_of(run):
    """How often a program that runs has called `write`, whether it could or not."""
    for line in tree.read("/proc/%d/io" % run.pid).splitlines():
        if line.startswith("syscw:"):
            return int(line.split()[1])
    return 0


def page_lost(program, data):
    """A listing of two pages, to a full pipe that is not waited for: the first page is lost. Then the pipe is emptied. What comes behind
    that, what is printed on standard error, and the status."""
    reads, writes = os.pipe2(os.O_NONBLOCK | os.O_CLOEXEC)
    filled = b"." * fcntl.fcntl(writes, fcntl.F_SETPIPE_SZ, 4096)
    os.write(writes, filled)
    run = subprocess.Popen([program], stdin=subprocess.PIPE, stdout=writes, stderr=subprocess.PIPE)
    os.close(writes)
    run.stdin.write(data)
    run.stdin.close()
    ends = time.time() + 60
    while run.poll() is None and not writes_of(run) and time.time() < ends:
        time.sleep(0.0002)
    out = b""
    while select.select([reads], [], [], 60)[0]:
        piece = os.read(reads, 65536)
        if not piece:
            break
        out += piece
    os.close(reads)
    printed = run.stderr.read()
    return out[len(filled):], printed, run.wait()


def a_page_lost(program):
    """Whether it is reported that a page is lost, where the next one is written."""
    data = in_bytes(SLOW)
    second = next(must for _, book, must in expected() if book == data)[pages.PAGE:]
    for _ in range(10):
        out, printed, status = page_lost(program, data)
        # the second page too is lost where the pipe is emptied too late
        if status != 0 or not CANT_WRITE.fullmatch(printed) or out:
            break
    right = out == second and status == 0 and CANT_WRITE.fullmatch(printed)
    result = "it is reported" if right else "NOT REPORTED: %r (status %d), %d bytes" % (printed, status, len(out))
    print("pages: the first of two is lost, the second comes: %s" % result)
    return right


# At a terminal.

def on_screen(shown):
    """What stands on a screen behind these bytes: a carriage return goes to the start of the line, and what is written there stays under
    what comes."""
    rows, at = [""], 0
    for c in shown.decode():
        if c == "\n":
            rows.append("")
        if c in "\r\n":
            at = 0
            continue
        rows[-1] = rows[-1][:at] + c + rows[-1][at + 1:]
        at += 1
    return "\n".join(rows).encode()


def at_a_terminal(program):
    """Whether the goals at hand are shown at a terminal, and the pages alone stay."""
    data = in_bytes(SLOW)
    must = next(must for title, book, must in expected() if book == data)
    screen, slave = os.openpty()
    run = subprocess.Popen([program], stdin=subprocess.PIPE, stdout=slave, stderr=slave)
    os.close(slave)
    run.stdin.write(data)
    run.stdin.close()
    shown = b""
    while select.select([screen], [], [], 60)[0]:
        try:
            shown += os.read(screen, 65536)
        except OSError:
            break
    os.close(screen)
    each = all(b"goal %d\r" % goal in shown for goal in range(64))
    right = run.wait() == 0 and each and on_screen(shown) == must
    print("pages: at a terminal: %s" % ("each goal is shown, and the pages stay" if right else "WRONG: %r" % shown[:2000]))
    return right


def main(words):
    a = with_oracle(with_sides(parser(__doc__), "listing")).parse_args(words)
    (rust, ours), good = sides_of(a), True
    if rust:
        good = by_hand("the Rust", by_the_rust(find_oracle(a.oracle)))
    if ours:
        listing = tree.built("listing", a.program)
        good = by_hand("listing", by_the_program(listing)) and good
        good = all([failures(listing), a_page_lost(listing), at_a_terminal(listing)]) and good
    return good
