"""Answers that the listing skips since they are invalid, and the word behind them (change request 5; cases/skips.py).

--rust     by the Rust: the books by hand; then the rule of pages.py, which sees by the index that an answer was skipped, compared with
           `oracle skips`, which makes the searches of each peek one by one and counts those that end in InvalidAnswer; and whether wrong
           rules are found
--program  by the proved `listing`, or a program in its place: the books by hand, and N random books compared with the Rust
--script   a script with the books, by hand and random, on standard output: `tools/run definitions scripts --script` has the definitions
           compute the listing of each short one

In the random books most goals are coinductive, so that answers are skipped. For the rule, as many again of the oracle's scripts. A table
shows how often each word came behind a skipped answer. Status 0 only if all is as expected, and each word came behind one.
"""
import collections
import random
import sys

from sorgwenad.shared import pages, tree
from sorgwenad.shared.book import encode
from sorgwenad.shared.chance import skipping_book
from sorgwenad.shared.command import parser, sides_of, with_oracle, with_random, with_sides
from sorgwenad.shared.compared import reported
from sorgwenad.shared.listed import by_the_program, by_the_rust, listed_by_the_rust
from sorgwenad.shared.oracle import accepted_of_profile, find_oracle, of_each
from sorgwenad.shared.script import makes
from sorgwenad.shared.tables import rows
from sorgwenad.shared.words import LISTED, PROFILES

TOGETHER = 1000


# The rule, and the answers that were skipped.

# A line of `oracle skips`: its words without the count, how many answers of its goal its peek skipped, and how many earlier peeks did; how
# many answers of the goal are listed before it, and how many were skipped in the whole book.
Line = collections.namedtuple("Line", "words now earlier answers all")


def lines_of(text):
    """The lines of a book, as `oracle skips` prints them; none of a refused one."""
    out, goal = [], None
    for words in (line.split() for line in text.decode().splitlines() if not line.startswith("refused")):
        # an open that stopped made no search, and has no count
        words, now = (words[:-2], int(words[-1])) if words[-2] == "skipped" else (words, 0)
        if words[0] != goal:
            goal, earlier, answers = words[0], 0, 0
        out.append(Line(words, now, earlier, answers, now + (out[-1].all if out else 0)))
        earlier, answers = earlier + now, answers + (words[2] in ("yes", "maybe"))
    return out


def written(some, unsettled):
    """The fields of the lines, with the word where a rule has it so."""
    return "".join(" ".join(line.words[:2] + (["unsettled"] if unsettled(line) else line.words[2:])) + "\n" for line in some).encode()


def word(line):
    return line.words[2]


def by_the_request(line):
    """NoMoreSolutions after a skipped answer of that goal, in this peek or an earlier one."""
    return word(line) == "none" and line.now + line.earlier > 0


# Wrong rules, which the run must find.
WRONG = {
    "every none": lambda line: word(line) == "none",
    "every none behind an answer": lambda line: word(line) == "none" and int(line.words[1]) > 0,
    "no none": lambda line: False,
    "an earlier skip is forgotten": lambda line: word(line) == "none" and line.now > 0,
    "a skip of the last peek does not count": lambda line: word(line) == "none" and line.earlier > 0,
    "only where no answer is listed": lambda line: by_the_request(line) and line.answers == 0,
    "a skip of an earlier goal counts": lambda line: word(line) == "none" and line.all > 0,
    **{other + " is unsettled too": lambda line, other=other: word(line) in ("none", other) and line.now + line.earlier > 0
       for other in ("floundered", "again", "negcycle", "cut")},
}
# What has to come behind a skipped answer, by hand or random.
WORDS = [name for name in LISTED if name != "unsettled"]


class Held:
    """What came of books: how often each word came behind a skip, and by how many books each wrong rule is found."""

    def __init__(self):
        self.books = self.wrong = self.skipping = 0
        self.words, self.found_wrong = collections.Counter(), collections.Counter()

    def see(self, data, text, skips):
        """A book, the Rust's text by its peeks, and the same by searches with the skips counted."""
        some, must = lines_of(skips), pages.settled(text)
        self.books += 1
        if not some:
            self.wrong += text != skips
            return
        right = written(some, lambda line: False) == text and written(some, by_the_request) == must
        self.wrong += not right
        if not right and self.wrong <= 10:
            print("DIFFERS: %s\n%sby the index:\n%sby the searches:\n%s" % (data.hex(), text.decode(), must.decode(), skips.decode()))
        self.skipping += some[-1].all > 0
        self.words.update((word(line), bool(line.now), bool(line.earlier)) for line in some)
        self.found_wrong.update(name for name, rule in WRONG.items() if written(some, rule) != must)

    def table(self):
        """A row for each word: behind no skip, behind one of its own peek, of an earlier one, of both."""
        print("%-12s%12s%12s%12s%12s" % ("word", "no skip", "this peek", "earlier", "both"))
        for name in WORDS:
            print("%-12s%12d%12d%12d%12d" % (name, *(self.words[name, now, earlier] for now, earlier in (
                (False, False), (True, False), (False, True), (True, True)))))

    def enough(self):
        """Whether each word came behind a skip, none behind each kind of skip, and each wrong rule is found."""
        kinds = ((True, False), (False, True), (True, True))
        came = all(any(self.words[(name, *kind)] for kind in kinds) for name in WORDS)
        return came and all(self.words[("none", *kind)] for kind in kinds) and all(self.found_wrong[rule] for rule in WRONG)


def rule_held(oracle, seed, count):
    """Whether the rule has what the counted skips have, on the books by hand, random books and the oracle's."""
    books, held = all_books(seed, count), Held()
    for profile in PROFILES:
        books += accepted_of_profile(oracle, seed, profile, -(-count // len(PROFILES)))
    for at in range(0, len(books), TOGETHER):
        some = books[at:at + TOGETHER]
        for one in zip(some, of_each(oracle, "lists", some), of_each(oracle, "skips", some)):
            held.see(*one)
    held.table()
    print("wrong rules, and by how many books they are found: %s" % ", ".join("%s %d" % (name, held.found_wrong[name]) for name in WRONG))
    print("skips: %d books, %d of them with a skipped answer; the index differs from the searches in %d" % (
        held.books, held.skipping, held.wrong))
    return held.enough() and not held.wrong


# What is listed.

def by_hand(who, answers):
    """Whether each book is listed as expected. `answers`: from books to what is listed of each."""
    asked = [(title, encode(book), pages.in_lines(fields).decode()) for title, book, fields in rows("SKIPPED")]
    return reported("skips", "books by hand", who, asked, answers([data for _, data, _ in asked]))


def random_books(seed, count):
    chance = random.Random(seed)
    return [skipping_book(chance) for _ in range(count)]


def all_books(seed, count):
    """The books by hand, and random ones."""
    return [encode(book) for _, book, _ in rows("SKIPPED")] + random_books(seed, count)


def random_ones(listing, oracle, seed, count):
    """Whether the program lists random books as the Rust does, settled."""
    books = random_books(seed, count)
    asked = [("random", data, text) for data, text in zip(books, listed_by_the_rust(oracle, books))]
    unsettled = sum(" unsettled\n" in text for _, _, text in asked)
    counts = "%d of them unsettled somewhere" % unsettled
    return reported("skips", "random books", "listing", asked, by_the_program(listing)(books), counts=counts) and unsettled > 0


def main(words):
    p = with_oracle(with_random(with_sides(parser(__doc__), "listing"), 3000, "random books"))
    p.add_argument("--script", action="store_true", help="print a script for `definitions scripts` and do nothing else")
    a = p.parse_args(words)
    if a.script:
        sys.stdout.write("".join("%s\nopen 0\n" % makes(data, way="desk") for data in all_books(a.seed, a.count)))
        return True
    (rust, ours), good, oracle = sides_of(a), True, find_oracle(a.oracle)
    if rust:
        good = by_hand("the Rust", by_the_rust(oracle))
        good = rule_held(oracle, a.seed, a.count) and good
    if ours:
        listing = tree.built("listing", a.program)
        good = by_hand("listing", by_the_program(listing)) and good
        good = random_ones(listing, oracle, a.seed, a.count) and good
    return good
