"""Compares the listing of plain levelled books, and of books with ranges, with other solvers.

Takes plain levelled books from the oracle's generator, those that the exam desk accepts, since the listing reads as the desk does, and has
each listed by `listing`. The same clauses go, as rules, to clingo (Debian: gringo), which gives the stable model, and, as tabled predicates
with `tnot`, to swipl (Debian: swi-prolog-core), which has tabling of its own. On such a book all three mean the layered least model, so the
same goals must hold; where they don't, the book and what each returns are shown. A line of the listing that is neither yes nor none
(unsettled, maybe, cut ..) settles nothing; there must be none.

Then as many random books with variants, wants and ranges, and no flags, in which a clause names later goals alone. They are worked out
here, from the last goal to the first, and by clingo where it is installed: a literal that wants 3 to 7 is `h(1,W), 3 <= W, W <= 7` there,
or `h(1,0)`. The goals that have an answer must be the same.

A solver that is not installed is named and ends the run, with --installed it is left out. With --rust the oracle's listing takes the place
of the proved `listing`. With --time whole processes are timed side by side, start included: median and least of several runs, on a small
paper, on the largest plain one and on the ladder of 20 goals, whose searches double in length with each goal (the listing gives up its
goals at 10,000 turns; `replay` peeks at goal 0 without a limit).
"""
import os
import random
import re
import subprocess

from cases.peers import SMALL
from sorgwenad.peers import ranged as with_ranges
from sorgwenad.shared import tree
from sorgwenad.shared.book import encode
from sorgwenad.shared.command import parser
from sorgwenad.shared.oracle import plain_books
from sorgwenad.shared.plain import clauses_of, for_clingo, rules
from sorgwenad.shared.processes import timed
from sorgwenad.shared.solvers import Listing, clingo, installed, swipl, with_listing

# Books that one process of a peer gets at once: each has names of its own.
TOGETHER = 250


def for_swipl(books):
    """A goal without a clause gets one that fails, so that every goal is a tabled predicate."""
    out = []
    for n, goals in enumerate(books):
        out += [":- table b%dg%d/0." % (n, g) for g in range(len(goals))]
        out += ["b%dg%d :- fail." % (n, g) for g, bodies in enumerate(goals) if not bodies]
        out += rules(goals, "b%dg" % n, "tnot(%s%d)", "true")
        out += ["goal(b%dg%d)." % (n, g) for g in range(len(goals))]
    return ":- style_check(-discontiguous).\n" + "\n".join(out) + "\nmain :- forall((goal(G), call(G)), (write(G), nl)).\n"


class Peers:
    """The solvers, and a folder for what they read."""

    def __init__(self, folder, names):
        self.folder, self.names = folder, names

    def words(self, name, books):
        """The command on these books, for timing."""
        path = os.path.join(self.folder, "books." + ("lp" if name == "clingo" else "pl"))
        tree.write(path, for_clingo(books) if name == "clingo" else for_swipl(books))
        return ["clingo", "--verbose=0", "--warn=none", path] if name == "clingo" else ["swipl", "-q", "-g", "main", "-t", "halt", path]

    def holds(self, name, books, program=None):
        """Of each book the goals that hold. `program`: the rules, where they are others than those of a plain book."""
        if name == "clingo":
            text = clingo(program or for_clingo(books))[0]
        else:
            text = swipl(self.folder, for_swipl(books))
        found = [set() for _ in books]
        for book, goal in re.findall(r"\bb(\d+)g(\d+)\b", text):
            found[int(book)].add(int(goal))
        return found


def differ(at, listing, some, ours, left_open, theirs):
    """How many books differ between the listing and the others; shows them."""
    wrong = 0
    for n, text in enumerate(some):
        others = {name: sorted(found[n]) for name, found in theirs.items() if found[n] != ours[n]}
        if others or left_open[n]:
            wrong += 1
            print("DIFFERS: book %d, %s" % (at + n, text))
            print("%s: %s %s\n%s" % (listing.name, sorted(ours[n]), left_open[n] or "", others))
    return wrong


def agree(a, peers, listing):
    books = plain_books(listing.oracle, a.seed, a.books)
    goals = held = wrong = 0
    for at in range(0, len(books), TOGETHER):
        some = books[at:at + TOGETHER]
        clauses = [clauses_of(data) for data in some]
        ours, left_open = listing.holds(some)
        theirs = {name: peers.holds(name, clauses) for name in peers.names}
        goals, held = goals + sum(map(len, clauses)), held + sum(map(len, ours))
        wrong += differ(at, listing, [data.hex() for data in some], ours, left_open, theirs)
    result = "%d books differ" % wrong if wrong else "the same with %s" % " and ".join([listing.name] + peers.names)
    print("%d plain levelled books, %d goals, %d of them hold: %s" % (len(books), goals, held, result))
    return not wrong and len(books) == a.books


def ranges_agree(a, peers, listing):
    """The same for books with ranges."""
    chance, goals, held, wrong = random.Random(a.seed), 0, 0, 0
    for at in range(0, a.books, TOGETHER):
        some = [with_ranges.book(chance) for _ in range(min(TOGETHER, a.books - at))]
        texts = [with_ranges.text(book) for book in some]
        ours, left_open = listing.holds([encode(one) for one in texts])
        theirs = {"worked out": [with_ranges.model(book) for book in some]}
        if "clingo" in peers.names:
            theirs["clingo"] = peers.holds("clingo", some, with_ranges.for_clingo(some))
        goals, held = goals + sum(map(len, some)), held + sum(map(len, ours))
        wrong += differ(at, listing, texts, ours, left_open, theirs)
    result = "%d books differ" % wrong if wrong else "the same with %s, %s" % (listing.name, " and ".join(theirs))
    print("%d books with ranges, %d goals, %d of them have an answer: %s" % (a.books, goals, held, result))
    return not wrong


# Times.

def largest(seed=1):
    """64 goals in levels of eight, 256 clauses of eight literals. Below the first level the literals are mostly "not"s, which can hold."""
    chance, lines = random.Random(seed), []
    for goal in range(64):
        lines.append("goal %d" % goal)
        for _ in range(4):
            literals = []
            for _ in range(8):
                down = chance.randrange(goal // 8 * 8) if goal >= 8 else None
                side = str(chance.randrange(goal // 8 * 8, goal // 8 * 8 + 8))
                literals.append(side if down is None or chance.random() < 0.02 else ("not %d" if chance.random() < 0.8 else "%d") % down)
            lines.append("%d :- %s" % (goal, ", ".join(literals)))
    return "\n".join(lines)


def ladder(goals, times=2):
    """Each goal rests on the next one by two clauses, of which the second names it so many times: once makes them equal, and the desk
    refuses that. The searches have as many turns either way."""
    lines = []
    for goal in range(goals):
        below = str((goal + 1) % goals)
        lines += ["goal %d" % goal, "%d :- %s" % (goal, below), "%d :- %s" % (goal, ", ".join([below] * times))]
    return "\n".join(lines)


def times(peers, listing, runs):
    print("\n%-28s " % "whole process" + "".join("%-22s" % name for name in [listing.name, "oracle list"] + peers.names) + "`true`")
    for what, text in (("small: 3 goals, 4 clauses", SMALL), ("largest plain paper", largest()), ("ladder of 20 goals", ladder(20))):
        data = encode(text)
        cells = [timed(listing.words(), data, runs), timed([listing.oracle, "list"], data, runs)]
        cells += [timed(peers.words(name, [clauses_of(data)]), b"", runs) for name in peers.names]
        print("%-28s " % what + "".join("%-22s" % c for c in cells + [timed(["true"], b"", runs)]))
        words = [line[2] for line in listing.lines([data])[0]]
        print("    it prints: %s" % ", ".join("%s %d times" % (w, words.count(w)) for w in sorted(set(words))))
    whole_ladder(encode(ladder(20, 1)))


def whole_ladder(data):
    """The listing gives up at 10,000 turns a search; `replay` has no limit but the one that it is given, and accepts equal clauses by the
    old entry."""
    replay = tree.built_or_none("replay")
    if not replay:
        print("the whole ladder was not timed: no proved replay; to build it: rt run </dev/null, in crates/replay")
        return
    script = "book %s clock 18446744073709551614\nopen 0\npeek 0 0 1000 18446744073709551615\n" % data.hex()
    printed = subprocess.run([replay, "quiet"], input=script.encode(), capture_output=True).stdout.decode().split("\n")
    took = timed([replay, "quiet"], script.encode(), 3)
    print("%-28s %s by replay, without a limit: %s" % ("ladder of 20 goals, whole", took, printed[4]))


def main(words):
    p = parser(__doc__)
    p.add_argument("--books", type=int, default=1000, help="how many of each kind (1000)")
    p.add_argument("--seed", type=int, default=1)
    p.add_argument("--time", action="store_true", help="time whole processes too")
    p.add_argument("--runs", type=int, default=41, help="of each process that is timed (41)")
    a = with_listing(p).parse_args(words)
    there, listing = installed(a), Listing(a)
    with tree.folder() as folder:
        peers = Peers(folder, there)
        same = agree(a, peers, listing) if peers.names else True
        same = ranges_agree(a, peers, listing) and same
        if a.time:
            times(peers, listing, a.runs)
    return same
