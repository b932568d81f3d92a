"""Compares every unambiguous yes of a clean goal with what can be derived from the clauses (order 2).

Takes books by hand (cases/derived.py), every paper, N books of each profile of the oracle's scripts (`oracle gen`) and N rich random books,
all of which the exam desk accepts, and has each listed by `listing`. What can be derived from a book, and its largest clean set, are worked
out in shared/clean.py, from the words of the definitions; clingo (Debian: gringo), where it is installed, gets the clauses as rules and
must derive the same. A line `G I yes V` of a clean goal G must have the pair of G and V among what is derived. What is not promised is
counted: what is derived and not listed, maybe, floundered, stops, and the yes lines of goals that are not clean, with those among them that
can't be derived.

Then the scripts of N forests of each profile (--calls), with their cuts, limits and equal clauses, by `replay`: after each call every
unambiguous answer that is stored for a clean goal, and each yes that is replied, must be among what is derived from the forest's book.

With --rust the oracle takes the place of both programs. Status 0 only if nothing is wrong; otherwise the book in hex and as text, the line,
and what each returns are shown.
"""
import collections
import glob
import os
import random
import re

from sorgwenad.shared import clean, tree
from sorgwenad.shared.book import encode, goals_of, text_of
from sorgwenad.shared.chance import rich_book
from sorgwenad.shared.command import parser, with_jobs
from sorgwenad.shared.oracle import accepted, accepted_of_profile, random_script
from sorgwenad.shared.processes import output_of
from sorgwenad.shared.script import BOOK, calls_of
from sorgwenad.shared.solvers import Listing, clingo, installed, with_listing
from sorgwenad.shared.tables import rows
from sorgwenad.shared.words import PROFILES

# Books that one process of clingo gets at once: each has a number of its own.
TOGETHER = 250
# What is shown of each kind of book.
ROW = "%-8s %6d books, %5d with clean goals alone; yes of clean goals %6d, %5d by no fact; of other goals %5d, %5d not derived"
ROW_OF = ("books with clean goals alone", "yes of clean goals", "yes of clean goals, by no fact", "yes of other goals",
          "yes of other goals, not derived")
# A table of a dump: its goal, and its answers; an answer: its variant, and whether it is ambiguous.
TABLE = re.compile(rb"\| t(\d+) g(\d+) f\d m\w A\d+((?: \(v\d+ D\[[^\]]*\] a\d\))*)")
ANSWER = re.compile(rb"\(v(\d+) D\[[^\]]*\] a(\d)\)")


class Book:
    """A book, what can be derived from it, and its clean goals."""

    def __init__(self, data, title):
        self.data, self.title = data, title
        self.goals = goals_of(data)
        self.derived, self.clean = clean.derivable(self.goals), clean.clean(self.goals)

    def shown(self):
        pairs = " ".join("%d/%d" % pair for pair in sorted(self.derived))
        clean_goals = " ".join(map(str, sorted(self.clean)))
        return "%s, %s\n%s\nderived: %s\nclean: %s" % (self.title, self.data.hex(), text_of(self.goals), pairs, clean_goals)


# Where the books come from.

def sources(a, oracle):
    """Every kind of book: its name, and the books."""
    yield "papers", accepted(oracle, [tree.read_bytes(path) for path in sorted(glob.glob(os.path.join(tree.PAPERS, "*.book")))])
    for profile in PROFILES:
        yield profile, accepted_of_profile(oracle, a.seed, profile, a.books)
    chance = random.Random(a.seed)
    yield "rich", [rich_book(chance) for _ in range(a.books)]


# What each side derives.

def by_clingo(books):
    """Of each book the pairs that clingo derives. What a literal wants is an atom of its own, so that no rule joins answers."""
    out = []
    for n, book in enumerate(books):
        wants = {}
        for g, goal in enumerate(book.goals):
            for c in clean.usable(goal):
                body = ["w(%d,%d,%d,%d)" % (n, one.goal, one.low, one.high) for one in c.literals]
                wants.update((one[1:4], None) for one in c.literals)
                out.append("d(%d,%d,%d)%s." % (n, g, c.variant, " :- " + ", ".join(body) if body else ""))
        for want in wants:
            out.append("w(%d,%d,%d,%d) :- d(%d,%d,0)." % (n, *want, n, want[0]))
            out.append("w(%d,%d,%d,%d) :- d(%d,%d,W), %d <= W, W <= %d." % (n, *want, n, *want))
    found = [set() for _ in books]
    for n, g, v in re.findall(r"\bd\((\d+),(\d+),(\d+)\)", clingo("\n".join(out + ["#show d/3."]) + "\n")[0]):
        found[int(n)].add((int(g), int(v)))
    return found


class Sides:
    """The programs that are compared with what can be derived."""

    def __init__(self, a):
        self.listing, self.jobs = Listing(a), a.jobs
        self.oracle = self.listing.oracle
        self.replay = None if a.rust or not a.calls else tree.built("replay", a.replay)
        self.clingo = bool(installed(a, ("clingo",)))

    def listings(self, books):
        """The listing of each book, as lines of words."""
        return self.listing.lines([book.data for book in books], self.jobs)

    def derived(self, books):
        """What clingo derives from each; None where it is not installed."""
        return by_clingo(books) if self.clingo else [None] * len(books)


# What is compared.

def underived(book, lines):
    """The lines that may not be: a yes of a clean goal that is not derived. A refusal can't come: the desk takes the book."""
    def wrong(line):
        return len(line) < 3 or line[2] == "yes" and int(line[0]) in book.clean and (int(line[0]), int(line[3])) not in book.derived
    return [" ".join(line) for line in lines if wrong(line)]


def faults_of(book, lines, theirs):
    """What is wrong with a book's listing, or with what clingo derives, in words."""
    out = ["NOT DERIVED: %s" % line for line in underived(book, lines)]
    if theirs is not None and theirs != book.derived:
        out.append("DIFFERS: clingo derives %s" % " ".join("%d/%d" % pair for pair in sorted(theirs)))
    return out


def by_fact(book, g, v):
    return any(not c.literals and c.variant == v for c in clean.usable(book.goals[g]))


def count_yes(counts, book, g, v):
    if g not in book.clean:
        counts["yes of other goals"] += 1
        if (g, v) not in book.derived:
            counts["yes of other goals, not derived"] += 1
            counts["yes of other goals, not derived, no \"not\" led to"] += g in clean.clean(clean.inductive(book.goals))
        return
    counts["yes of clean goals"] += 1
    counts["yes of clean goals, variant not 0"] += v != 0
    counts["yes of clean goals, by no fact"] += not by_fact(book, g, v)


def unlisted(counts, book, own, g):
    """What is derived of a clean goal and has no line with yes: how often, and how the goal's lines end."""
    answers = {int(line[3]) for line in own if line[2] == "yes"}
    left = [v for h, v in book.derived if h == g and v not in answers]
    if not left:
        return
    last = " ".join(own[-1][2:]) if own else "no line, after a stop"
    why = "behind yes 0" if 0 in answers else "the goal ends with " + last if own else last
    maybe = {int(line[3]) for line in own if line[2] == "maybe"}
    counts["derived and not listed"] += len(left)
    for v in left:
        counts["derived and not listed: " + ("listed as maybe" if v in maybe else why)] += 1


def count(counts, book, lines):
    """What is promised, and what is not."""
    counts["books"] += 1
    counts["books with clean goals alone"] += len(book.clean) == len(book.goals)
    counts["goals"] += len(book.goals)
    counts["clean goals"] += len(book.clean)
    counts["pairs derived"] += len(book.derived)
    for g, _, word, *rest in lines:
        if word == "yes":
            count_yes(counts, book, int(g), int(rest[0]))
        elif int(g) in book.clean:
            counts[" ".join([word] + rest if word == "stop" else [word]) + " of clean goals"] += 1
            counts["maybe of clean goals, derived"] += word == "maybe" and (int(g), int(rest[0])) in book.derived
    for g in book.clean:
        unlisted(counts, book, [line for line in lines if int(line[0]) == g], g)


def by_hand(both):
    """Whether each side derives and lists the books by hand as expected."""
    books = [Book(encode(text.replace("; ", "\n")), "by hand: " + text) for text, _, _, _ in rows("DERIVED")]
    wrong = 0
    for book, lines, pairs, (_, derived, goals, listing) in zip(books, both.listings(books), both.derived(books), rows("DERIVED")):
        right = {tuple(map(int, pair.split("/"))) for pair in derived.split()}
        fields = "; ".join(map(" ".join, lines))
        if book.derived != right or pairs not in (None, right) or book.clean != set(map(int, goals.split())) or fields != listing:
            wrong += 1
            print("%s\nexpected: %s, clean %s, listed %s" % (book.shown(), derived, goals, listing))
            print("clingo: %s\nlisting: %s" % (sorted(pairs or []), fields))
    print("derived: %d books by hand, %d of them wrong" % (len(books), wrong))
    return not wrong


def compared(a, both):
    """Every book of every kind. What is wrong is shown, ten books at most."""
    every, wrong = collections.Counter(), 0
    for kind, data in sources(a, both.oracle):
        counts = collections.Counter()
        for at in range(0, len(data), TOGETHER):
            books = [Book(one, "%s, book %d" % (kind, at + n)) for n, one in enumerate(data[at:at + TOGETHER])]
            for book, lines, pairs in zip(books, both.listings(books), both.derived(books)):
                faults = faults_of(book, lines, pairs)
                wrong += bool(faults)
                if faults and wrong <= 10:
                    print("%s\nlisting:\n%s\n%s" % (book.shown(), "\n".join(map(" ".join, lines)), "\n".join(faults)))
                if not faults:
                    count(counts, book, lines)
        print(ROW % (kind, len(data), *(counts[what] for what in ROW_OF)))
        every += counts
    return every, wrong


# The calls of scripts.

def stored(book, dump):
    """The pairs of unambiguous answers that are stored for clean goals, and the goal of each table."""
    pairs, goal_of = set(), {}
    for table, goal, answers in TABLE.findall(dump):
        goal_of[int(table)] = int(goal)
        if answers and int(goal) in book.clean:
            pairs.update((int(goal), int(v)) for v, ambiguous in ANSWER.findall(answers) if ambiguous == b"0")
    return pairs, goal_of


def held_by_call(counts, book, line, written):
    """What is wrong after a call."""
    pairs, goal_of = stored(book, written[-1])
    counts["calls"] += 1
    counts["stored answers of clean goals"] += len(pairs)
    yes = re.match(rb"yes (\d+)", written[0])
    if yes and goal_of[int(line.split()[1])] in book.clean:
        counts["yes replied of clean goals"] += 1
        pairs.add((goal_of[int(line.split()[1])], int(yes.group(1))))
    return pairs - book.derived


def script_faults(counts, script, output):
    """Each book of a script, and what is wrong on its forest."""
    book = None
    for number, line, written in calls_of(script, output):
        made = BOOK.match(line)
        if made:
            book = Book(bytes.fromhex(made.group(2).decode()), "line %d of the script" % number) if written[0] == b"made" else None
            counts["forests"] += book is not None
        elif book and len(written) == 2:
            pairs = held_by_call(counts, book, line, written)
            if pairs:
                yield book, "%s = %s\nNOT DERIVED: %s\n%s" % (line.decode(), written[0].decode(), sorted(pairs), written[1].decode()[:2000])


def compared_calls(a, both):
    """The scripts of every profile, a hundred forests at a time."""
    counts, wrong = collections.Counter(), 0
    words = [both.replay] if both.replay else [both.oracle, "run"]
    for profile in PROFILES:
        for at in range(0, a.calls, 100):
            seed = a.seed + 7919 * at
            script = random_script(both.oracle, seed, min(100, a.calls - at), profile)
            for book, fault in script_faults(counts, script, output_of(words, script)):
                wrong += 1
                if wrong <= 10:
                    print("oracle gen %d 100 %s: %s\n%s" % (seed, profile, book.shown(), fault))
    return counts, wrong


def parsed(words):
    p = parser(__doc__)
    p.add_argument("--books", type=int, default=250, help="of each profile, and of the rich ones (250)")
    p.add_argument("--calls", type=int, default=50, help="forests of each profile whose calls are compared (50)")
    p.add_argument("--seed", type=int, default=1)
    p.add_argument("--replay", metavar="PATH", help="a program in place of the proved replay")
    return with_listing(with_jobs(p)).parse_args(words)


def main(words):
    a = parsed(words)
    both = Sides(a)
    good = by_hand(both)
    counts, wrong = compared(a, both)
    called, wrong_calls = compared_calls(a, both)
    print("\n".join("%9s %s" % (format(number, ","), what) for what, number in sorted((counts + called).items())))
    print("derived: %s books, %s of them wrong; %s calls, %s wrong; by %s%s" % (
        format(counts["books"] + wrong, ","), wrong, format(called["calls"], ","), wrong_calls, both.listing.name,
        ", clingo beside" * both.clingo))
    enough = counts["yes of clean goals, by no fact"] > 0 and counts["yes of other goals, not derived"] > 0
    return good and not wrong and not wrong_calls and enough
