"""Wants that are ranges, at their edges (cases/ranges.py): whether each book is listed as expected.

--rust     by the Rust
--program  by the proved `listing`, or a program in its place

`tools/run papers` writes the same books as scripts, and `tools/run definitions scripts --faults` has the definitions compute them. A paper,
named as a file, is in no script: the largest ones are more than the definitions are computed on. Status 0 only if all is as expected.
"""
from sorgwenad.shared import tree
from sorgwenad.shared.book import in_bytes
from sorgwenad.shared.command import parser, sides_of, with_oracle, with_sides
from sorgwenad.shared.compared import reported
from sorgwenad.shared.listed import by_the_program, by_the_rust
from sorgwenad.shared.oracle import find_oracle
from sorgwenad.shared.script import makes, peeks
from sorgwenad.shared.tables import rows


def expected():
    """Every book: its title, its bytes, and what is expected to be listed; None where any listing is right."""
    for name, (_, books) in rows("LISTED"):
        for title, book, listing in books:
            yield "%s: %s" % (name, title), in_bytes(book), listing
    for name, listing in rows("LISTED_PAPERS"):
        yield name + ".book", tree.paper(name + ".book"), listing


def script(about, books):
    out = ["# " + about]
    for title, book, listing in books:
        out += ["# " + title, makes(in_bytes(book))] + (peeks(listing) if not listing.startswith("refused") else [])
    return ("\n".join(out) + "\n").encode()


def scripts():
    """The files in which the books are called, by their names."""
    return {name + ".script": script(about, books) for name, (about, books) in rows("LISTED")}


def by_hand(who, answers):
    """Whether each book is listed as expected. `answers`: from books to what is listed of each."""
    asked = list(expected())
    return reported("ranges", "books", who, asked, answers([data for _, data, _ in asked]))


def main(words):
    a = with_oracle(with_sides(parser(__doc__), "listing")).parse_args(words)
    rust, ours = sides_of(a)
    good = by_hand("the Rust", by_the_rust(find_oracle(a.oracle))) if rust else True
    return (by_hand("listing", by_the_program(tree.built("listing", a.program))) if ours else True) and good
