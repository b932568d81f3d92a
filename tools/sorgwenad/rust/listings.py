"""Compares the program `listing` with the Rust: the bytes that it prints are the text of `oracle lists`, settled and as pages.

Both read as the exam desk does. First the papers of `papers/`. Then N random books: half of them from the oracle's scripts (`oracle gen S`,
every profile that has books that are read), one in eight with many goals and clauses, so that there are listings of every number of pages
from one to six, one in eight with coinductive goals, so that answers are skipped and every word comes behind one, the others most of them
damaged (`oracle books S`). Each book goes through a process of its own on both sides. Last, `listing` is run where it can't read or can't
write, and has to report it on standard error. Where two listings differ, the book in hex and the first lines that differ are shown. Status
0 only if all are the same, nothing was written on standard error, and, of 1,000 books and more, each number of pages came, and `unsettled`.
"""
import collections
import glob
import os
import random

from sorgwenad.rust.pages import first_wrong
from sorgwenad.shared import pages, tree
from sorgwenad.shared.book import ranges_in
from sorgwenad.shared.chance import long_book, skipping_book
from sorgwenad.shared.command import parser, with_jobs, with_oracle, with_random
from sorgwenad.shared.listed import listed_by_the_rust
from sorgwenad.shared.oracle import books_of_scripts, find_oracle, random_books
from sorgwenad.shared.processes import Broken, each, run
from sorgwenad.shared.streams import failures
from sorgwenad.shared.words import PROFILES


def papers():
    return [(os.path.basename(path), tree.read_bytes(path)) for path in sorted(glob.glob(os.path.join(tree.PAPERS, "*.book")))]


def from_scripts(oracle, seed, count):
    """The books of the oracle's scripts, as many of each profile."""
    share = -(-count // len(PROFILES))
    return [("a book of " + profile, data) for profile in PROFILES for data in books_of_scripts(oracle, seed, share, profile)][:count]


def all_books(oracle, seed, count):
    """The papers, and the random books of each kind."""
    half, eighth = count // 2, count // 8
    books = papers() + from_scripts(oracle, seed, half)
    for title, kind in (("a book with a long listing", long_book), ("a book with coinductive goals", skipping_book)):
        chance = random.Random(seed)
        books += [(title, kind(chance)) for _ in range(eighth)]
    return books + [("a damaged book", data) for data in random_books(oracle, seed, count - half - 2 * eighth)]


def compared(oracle, listing, what, book):
    """Whether a book is listed alike, the fields by the Rust, and what to show if it isn't."""
    try:
        text = listed_by_the_rust(oracle, [book])[0].encode()
    except Broken as broken:
        return False, b"", "%s, %s\n    %s" % (what, book.hex()[:400], broken)
    wanted = pages.paged(text)
    found, complaint, status = run([listing], book)
    if (found, complaint, status) == (wanted, b"", 0):
        return True, text, ""
    complaint = complaint.decode(errors="replace") if status == 0 else "it ended with %d: %s" % (status, complaint.decode(errors="replace"))
    return False, text, "%s, %s\n    %s" % (what, book.hex()[:400], complaint or first_wrong(wanted, found))


def counted(words, many, text):
    """The words of a listing, and its pages."""
    for line in text.decode().splitlines():
        fields = line.split(" ")
        word = fields[0] if fields[0] == "refused" else fields[2]
        words[" ".join([word, fields[-1]]) if word in ("refused", "stop") else word] += 1
    many[len(pages.paged(text)) // pages.PAGE] += 1


def main(words):
    p = with_oracle(with_jobs(with_random(parser(__doc__), 2000, "random books")))
    p.add_argument("--program", metavar="PATH", help="a program in place of the proved listing")
    a = p.parse_args(words)
    oracle, listing = find_oracle(a.oracle), tree.built("listing", a.program)
    books = all_books(oracle, a.seed, a.count)
    words_seen, many, same, ranges = collections.Counter(), collections.Counter(), 0, 0
    for (_, book), (right, text, shown) in zip(books, each(lambda b: compared(oracle, listing, *b), books, a.jobs)):
        same += right
        ranges += not text.startswith(b"refused") and ranges_in(book) > 0
        counted(words_seen, many, text)
        if not right:
            print("different: " + shown)
    for word, number in sorted(words_seen.items()):
        print("%8d %s" % (number, word))
    print("pages: " + ", ".join("%d: %d" % item for item in sorted(many.items())))
    print("listings: %d books, %d of those that are read with ranges, %d alike" % (len(books), ranges, same))
    enough = a.count < 1000 or all(many[n] for n in range(7)) and words_seen["unsettled"] > 0
    return failures(listing, "clauses-256.book") and same == len(books) and same > 0 and enough
