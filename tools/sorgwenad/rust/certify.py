"""Which goals' yes can be printed (order 2): books by hand (cases/certify.py), every paper, and random books.

--rust     the Rust (`oracle certify`) on the books by hand and on every paper; then compared with shared/clean.py, which goes another way,
           on N random books and on every way in which three goals can name each other
--program  the proved `certify`, or a program in its place, on the same books by hand; then compared with the Rust on N random books and on
           every way in which two goals can name each other; last, where its input or its output fails

Of a paper that the desk accepts a line for each goal is printed: `GOAL clean`, or `GOAL spoilt by goal S: ` and what S spoils by,
`coinductive` or `a "not" in clause K, literal J`; of another one `refused N` and the sentence of N. The random books are, a quarter each:
rich in what order 2 speaks of, books that lead far to what spoils them, those of the scripts of every profile, and damaged ones. Status 0
only if all is as expected.
"""
import collections
import itertools
import random

from sorgwenad.building.spoilt import of, text
from sorgwenad.shared import clean, tree
from sorgwenad.shared.book import goals_of
from sorgwenad.shared.chance import rich_book
from sorgwenad.shared.command import parser, sides_of, with_jobs, with_oracle, with_random, with_sides
from sorgwenad.shared.compared import often_enough, reported
from sorgwenad.shared.oracle import find_oracle, in_lines, of_profiles, random_books, read
from sorgwenad.shared.processes import printed_each
from sorgwenad.shared.streams import failures
from sorgwenad.shared.tables import rows
from sorgwenad.shared.words import OF_BOOKS, PROFILES, refusal


def every_book():
    """Those by hand and the papers, each with what is expected to be printed of it."""
    of_papers = dict(rows("CERTIFIED_PAPERS"))
    for about, books in rows("CERTIFIED"):
        for title, data, expected in books:
            yield "%s: %s" % (about, title), data, text(expected)
    for name, _, _ in rows("PAPERS"):
        yield name + ".book", tree.paper(name + ".book"), text(of_papers[name])


def worked_out(oracle, books):
    """What is expected of each: by clean.py, and where the desk refuses, by its number."""
    numbers = [36 if "desk" in one else int(one[8:]) if one.startswith("refused") else 0 for one in read(oracle, books)]
    return [refusal(number) if number else clean.certificate(goals_of(data)) for data, number in zip(books, numbers)]


def clean_alike(books, texts):
    """Whether the goals that are printed as clean are the largest clean set, found by leaving goals out."""
    printed_clean = lambda one: {int(line.split()[0]) for line in one.splitlines() if line.endswith(" clean")}
    return all(printed_clean(one) == clean.clean(goals_of(data)) for data, one in zip(books, texts) if not one.startswith("refused"))


def by_hand(who, answers):
    """Whether all is printed as expected. `answers`: from books to what is printed of each."""
    asked = list(every_book())
    return reported("certify", "books by hand", who, asked, answers([data for _, data, _ in asked]))


# Random books.

def far(chance):
    """Up to 64 goals that mostly name the next ones, of which few spoil."""
    goals = chance.choice((3, 5, 8, 20, 64))
    kinds = "".join(chance.choices(".cf", (40, 1, 2))[0] for _ in range(goals))
    clauses = []
    for g in range(goals):
        for _ in range(chance.choice((0, 1, 1, 2, 3))):
            named = [str((g + chance.choice((0, 1, 1, 2, 3, goals - 1))) % goals) for _ in range(chance.choice((1, 1, 2, 3, 8)))]
            if chance.random() < 0.01:
                named[chance.randrange(len(named))] = "not %d" % chance.randrange(goals)
            clauses.append("%d :- %s" % (g, ", ".join(named)))
    return of(kinds, *dict.fromkeys(clauses))


def random_ones(oracle, seed, count):
    each, chance = -(-count // 4), random.Random(seed)
    rich, leading = [("rich", rich_book(chance)) for _ in range(each)], [("far", far(chance)) for _ in range(each)]
    return rich + leading + of_profiles(oracle, seed, each, PROFILES) + [("damaged", data) for data in random_books(oracle, seed, each)]


def every_way(goals):
    """So many goals, each of which is coinductive, or has a "not" of itself, or names some of them in some order."""
    orders = [order for n in range(goals + 1) for order in itertools.permutations(range(goals), n)]
    for ways in itertools.product(range(len(orders) + 2), repeat=goals):
        kinds = "".join("c" if way == 0 else "." for way in ways)
        body = lambda g, way: "not %d" % g if way == 1 else ", ".join(map(str, orders[way - 2]))
        clauses = ["%d :- %s" % (g, body(g, way)) for g, way in enumerate(ways) if way and body(g, way)]
        yield "named " + " ".join(map(str, ways)), of(kinds, *clauses)


def counted(texts, least):
    """Prints how often each kind of line and each number came; whether each came often enough."""
    words = collections.Counter()
    for one in texts:
        if one.startswith("refused"):
            words[one.split("\n")[0]] += 1
            continue
        for goal, rest in (line.split(" ", 1) for line in one.splitlines()):
            own = rest.startswith("spoilt by goal %s:" % goal)
            kind = "coinductive" if rest.endswith("coinductive") else 'by a "not"'
            words["clean" if rest == "clean" else "%s, %s" % (kind, "itself" if own else "led to")] += 1
    order = ["clean"] + ["%s, %s" % pair for pair in itertools.product(("coinductive", 'by a "not"'), ("itself", "led to"))]
    return often_enough("certify", words, order + ["refused %d" % number for number in OF_BOOKS], least, 4)


def compared_on_random_ones(a, who, books, wanted, answers):
    """Whether all is printed of random books as it is by another way."""
    asked = [(title, data, right) for (title, data), right in zip(books, wanted)]
    good = counted(wanted, a.least) and len(books) == len(wanted)
    return reported("certify", "random books", who, asked, answers([data for _, data in books])) and good


def main(words):
    p = with_oracle(with_random(with_sides(parser(__doc__), "certify"), 4000, "random books"))
    p.add_argument("--least", type=int, default=10, help="how often each kind of line and each number must come among them (10)")
    a = with_jobs(p).parse_args(words)
    oracle, (rust, ours), good = find_oracle(a.oracle), sides_of(a), True
    some = random_ones(oracle, a.seed, a.count)
    by_the_rust = lambda books: in_lines(oracle, "certify", books)
    if rust:
        good = by_hand("the Rust", by_the_rust)
        good = by_hand("clean.py", lambda books: worked_out(oracle, books)) and good
        books = some + list(every_way(3))
        worked = worked_out(oracle, [data for _, data in books])
        good = clean_alike([data for _, data in books], worked) and good
        good = compared_on_random_ones(a, "the Rust", books, worked, by_the_rust) and good
    if ours:
        program = tree.built("certify", a.program)
        by_the_program = lambda books: printed_each(program, books, a.jobs)
        good = by_hand("certify", by_the_program) and good
        books = some + list(every_way(2))
        good = compared_on_random_ones(a, "certify", books, by_the_rust([data for _, data in books]), by_the_program) and good
        good = failures(program) and good
    return good
