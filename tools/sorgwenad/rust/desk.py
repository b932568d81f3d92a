"""The same clause twice (cases/desk.py), and every paper at the exam desk: whether each book is read and listed as expected.

--rust     by the Rust: both entries, the place of the first repeat, and the listing
--program  the listing of the proved `listing`, or of a program in its place

The place: the goal, the clause's number in it, and that of the first clause that it is equal to. `tools/run papers` writes the same books
as scripts, and `tools/run definitions scripts --faults` has the definitions compute them. The papers are in no script: two of them are more
than the definitions are computed on. Status 0 only if all is as expected.
"""
from sorgwenad.building.desk import Book
from sorgwenad.shared import tree
from sorgwenad.shared.command import parser, sides_of, with_oracle, with_sides
from sorgwenad.shared.compared import both, reported
from sorgwenad.shared.listed import by_the_program, by_the_rust
from sorgwenad.shared.oracle import find_oracle, read
from sorgwenad.shared.processes import output_of
from sorgwenad.shared.script import makes, peeks
from sorgwenad.shared.tables import rows


def all_books():
    refused, twice = dict(rows("DESK_REFUSED")), dict(rows("DESK_TWICE"))
    for name, (_, some) in rows("DESK"):
        for one in some:
            yield Book("%s: %s" % (name, one.title), one.data, one.number, one.place, one.listing, one.clock)
    for name, _, _ in rows("PAPERS"):
        yield Book(name + ".book", tree.paper(name + ".book"), refused.get(name, 0), twice.get(name))


def script(about, some):
    """The old entry comes last where the desk refuses, so that calls find a forest; elsewhere the two take turns."""
    out = ["# " + about]
    for n, one in enumerate(some):
        ways = ["desk", "book"] if one.place or n % 2 else ["book", "desk"]
        calls = peeks(one.listing, 1) if not one.number and one.clock else []
        out += ["# " + one.title] + [makes(one.data, one.clock, way) for way in ways] + calls
    return ("\n".join(out) + "\n").encode()


def scripts():
    """The files in which the books are called, by their names."""
    return {name + ".script": script(about, some) for name, (about, some) in rows("DESK")}


def both_entries(oracle, some):
    """What the Rust returns for each book: its reader and the place, and making a forest by either entry."""
    asked = "".join(makes(one.data, one.clock, way) + "\n" for one in some for way in ("book", "desk"))
    made = output_of([oracle, "run", "bare"], asked.encode()).decode().splitlines()
    return [(text, *made[2 * n:2 * n + 2]) for n, text in enumerate(read(oracle, [one.data for one in some]))]


def read_by_hand(who, answers):
    """Whether each book is read as expected, by both entries. `answers`: from books to what is returned for each."""
    some = list(all_books())
    asked = [(one.title, one.data, (one.read(), one.made("book"), one.made("desk"))) for one in some]
    return reported("desk", "books read", who, asked, answers(some), both(str))


def by_hand(who, answers):
    """Whether each book is listed as expected. `answers`: from books to what is listed of each."""
    asked = [(one.title, one.data, one.listed()) for one in all_books()]
    twice = "%d of them with a clause twice" % sum(one.place is not None for one in all_books())
    return reported("desk", "books listed", who, asked, answers([data for _, data, _ in asked]), counts=twice)


def main(words):
    a = with_oracle(with_sides(parser(__doc__), "listing")).parse_args(words)
    (rust, ours), good = sides_of(a), True
    if rust:
        oracle = find_oracle(a.oracle)
        good = read_by_hand("the Rust", lambda some: both_entries(oracle, some))
        good = by_hand("the Rust", by_the_rust(oracle)) and good
    if ours:
        good = by_hand("listing", by_the_program(tree.built("listing", a.program))) and good
    return good
