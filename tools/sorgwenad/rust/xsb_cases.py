"""The books and texts of `tools/run rust xsb`, and how what is printed of them is compared with what is expected."""
import collections

from cases.xsb import P1
from sorgwenad.building import texts
from sorgwenad.building.books import of_goals
from sorgwenad.rust.levels import every_book
from sorgwenad.shared import tree
from sorgwenad.shared.compared import both, reported
from sorgwenad.shared.plain import book_of, clauses_of, for_xsb
from sorgwenad.shared.tables import rows
from sorgwenad.shared.words import refusal

# Bytes of a long text.
LONG = 3000000


class Asked:
    """A book for to_xsb or a text for from_xsb, and what is expected: bytes, or a number."""

    def __init__(self, title, program, data, result):
        self.title, self.program, self.data, self.result = title, program, data, result


def expected(result):
    """What a program is expected to write, on standard output and on standard error, and its status."""
    return (b"", refusal(result).encode(), 0) if isinstance(result, int) else (result, b"", 0)


def shown(found):
    out, err, status = found
    return "%s%s%s" % (repr(out)[2:600], " on standard error: %r" % err[:300] if err else "", " (status %d)" % status if status else "")


def counts(asked):
    """How often each number is expected."""
    kinds = collections.Counter("refused %d" % one.result if isinstance(one.result, int) else "accepted" for one in asked)
    return ", ".join("%s: %d" % (kind, kinds[kind]) for kind in sorted(kinds, key=lambda k: (len(k), k)))


def compared(what, who, asked, answers):
    """Whether all is as expected. `answers`: from what is asked to both streams and the status of each."""
    wanted = [("%s, %s" % (one.title, one.program), one.data, expected(one.result)) for one in asked]
    return reported("xsb", what, who, wanted, answers(asked), both(shown), counts(asked))


def texts_by_hand():
    """The texts of cases/xsb.py, each with the bytes of its book, or the number."""
    for about, some in rows("XSB"):
        for title, text, result in some:
            book = result if isinstance(result, int) else of_goals(result[0], *result[1])
            yield Asked("%s: %s" % (about, title), "from_xsb", text.encode(), book)


def all_by_hand():
    """The books of cases/levels.py, the texts of cases/xsb.py, and the papers; what is accepted goes back too."""
    books, some = [], list(texts_by_hand())
    for title, data, result in every_book():
        # a book with levels is exported, and so is one with a cycle through "not"
        books.append(Asked(title, "to_xsb", data, result if isinstance(result, int) else for_xsb(clauses_of(data)).encode()))
        if not isinstance(result, int):
            some.append(Asked(title + ", back", "from_xsb", books[-1].result, book_of(clauses_of(data))))
    for name, _, text, result in rows("PAPER_TEXTS"):
        some.append(Asked(name + ".xsb", "from_xsb", text.encode(), result or tree.paper(name + ".book")))
    books += [Asked(one.title + ", back", "to_xsb", one.result, one.data) for one in some if not isinstance(one.result, int)]
    return books + some


def by_hand(who, answers):
    """Whether all books and texts by hand are answered as expected."""
    return compared("books and texts by hand", who, all_by_hand(), answers)


def large_ones():
    """The largest plain books, and texts with a fault at their end."""
    for title, data, result in every_book():
        if len(data) > 10000 and not isinstance(result, int):
            text = for_xsb(clauses_of(data)).encode()
            yield Asked(title, "to_xsb", data, text)
            yield Asked(title, "to_xsb", data + b"\0", 7)
            yield Asked(title, "from_xsb", text, book_of(clauses_of(data)))
            for more, number in ((b"g", 39), (b"g63.\n", 5), (b"\n", 39)):
                yield Asked(title + " and more", "from_xsb", text + more, number)


def long_texts():
    return [Asked(title, "from_xsb", text.encode(), result) for title, text, result in texts.long_texts(LONG, P1)]
