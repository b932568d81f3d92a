"""Lines of listings made wrong (order 2): a yes that can't be derived, in each way, and pairs that clingo has more or less. Each must be
found by `tools/run peers derived`."""
import argparse
import collections
import random

from sorgwenad.peers.derived import Book, Sides, faults_of
from sorgwenad.shared.chance import rich_book

BOOKS = 250


def made_wrong(chance, book, lines):
    """The listing with a line made wrong, in each way in which it can be: its name, and the lines."""
    def instead(n, *words):
        return lines[:n] + [lines[n][:2] + list(words)] + lines[n + 1:]
    for n, (g, _, word, *rest) in enumerate(lines):
        g = int(g)
        if g not in book.clean:
            continue
        others = [v for v in range(10) if (g, v) not in book.derived]
        if word == "yes" and others:
            yield "another variant", instead(n, "yes", str(chance.choice(others)))
        if word == "maybe" and (g, int(rest[0])) not in book.derived:
            yield "maybe made yes", instead(n, "yes", rest[0])
        if word in ("none", "floundered", "stop") and others:
            yield word + " made yes", instead(n, "yes", str(chance.choice(others)))


class Subject:
    """Rich random books with their listings by the Rust, and what clingo derives from each, where it is installed."""

    def __init__(self, folder):
        chance = random.Random(1)
        both = Sides(argparse.Namespace(oracle=None, program=None, rust=True, jobs=2, calls=0, replay=None, installed=True))
        books = [Book(rich_book(chance), "book %d" % n) for n in range(BOOKS)]
        self.rows = list(zip(books, both.listings(books), both.derived(books)))
        self.kinds = collections.defaultdict(list)
        for book, lines, pairs in self.rows:
            for name, changed in made_wrong(chance, book, lines):
                self.kinds[name].append((book, changed, pairs))
            if pairs:
                self.kinds["a pair less by clingo"].append((book, lines, pairs - {min(pairs)}))
                self.kinds["a pair more by clingo"].append((book, lines, pairs | {(0, 4)}))


def right(who):
    return [("peers derived", lambda _, rows: not any(faults_of(*row) for row in rows), who.rows)]


def wrong(who):
    """Each kind of wrong line: it is found where it is reported of every book that has one."""
    for name, rows in sorted(who.kinds.items()):
        yield "%s, %d times" % (name, len(rows)), "peers derived", lambda _, some: not all(faults_of(*row) for row in some), rows
