"""Out to a Prolog with tabling, and back: books and texts by hand (cases/levels.py, cases/xsb.py), random ones, and times.

--rust               the Rust (`oracle to-xsb`, `oracle from-xsb`) on the books and texts by hand and on every paper
--program [TO FROM]  the proved `to_xsb` and `from_xsb`, or two programs in their place, on the same; then compared with the Rust:
                     N random books, plain and spoilt ones and damaged ones, out and back; a short text with each byte changed, left out or
                     put in; texts of megabytes; input that comes in pieces of 1, 7, 4095 and 4097 bytes; input without an end, once 39 is
                     settled; last, where the input or the output fails
--time               whole processes on the largest books and texts, the programs (where they are built) and the Rust side by side

`to_xsb` prints the text of a plain book: a line `:- table g0/0.` for each goal, and one for each clause. `from_xsb` prints the bytes of the
book of such a text. Of what is refused nothing is on standard output, and `refused N` and the sentence of N on standard error: to_xsb has
the desk's numbers, then 37 for a book that is not plain, with the first place that is not; from_xsb has 39 for a text of another form,
wherever in the text that shows, and then the desk's numbers 5, 8, 6 and 36. An accepted text comes back from its book byte by byte, and a
book from its text, with each literal behind its clause. Status 0 only if all is as expected.
"""
import itertools
import random

from cases.xsb import P1
from sorgwenad.rust.xsb_cases import Asked, by_hand, compared, expected, large_ones, long_texts, shown, texts_by_hand
from sorgwenad.shared import tree
from sorgwenad.shared.chance import loosened
from sorgwenad.shared.command import parser, sides_of, with_jobs, with_oracle, with_random, with_sides, with_times
from sorgwenad.shared.oracle import find_oracle, in_xsb, random_books
from sorgwenad.shared.plain import book_of, clauses_of
from sorgwenad.shared.processes import each, run, timed
from sorgwenad.shared.streams import PIECES, failures, given_in, in_pieces

# In which 39 must be printed for input without an end.
SECONDS = 20
# Put in the place of each byte of a text, and before it.

NEAR = b"\0\t\n\r !%()+,-./0129:;GTaegnot~\x80\xa0\xb0\xff"
# The largest plain books that are timed.
TIMED = ("levels-chain.book", "sizes: 64 goals in a ring, 256 clauses of 8")
SHORT = b":- table g0/0.\n:- table g1/0.\ng0 :- g1, tnot(g0).\n"


class Side:
    """Who writes and who reads texts: two programs, or the Rust."""

    def __init__(self, name, to, back):
        self.name, self.words = name, {"to_xsb": to, "from_xsb": back}

    def answers(self, jobs, ask=run):
        """From what is asked to both streams and the status, by a process for each."""
        return lambda asked: each(lambda one: ask(self.words[one.program], one.data), asked, jobs)


def out_and_back(a, oracle, side):
    """Random books, compared with the Rust; those that are accepted come back."""
    chance = random.Random(a.seed)
    books = [(kind, data) for kind in ("plain", "few", "damaged") for data in random_books(oracle, a.seed, -(-a.count // 3), kind)]
    results = in_xsb(oracle, "to-xsb", [data for _, data in books])
    pairs = [(kind, data, text) for (kind, data), text in zip(books, results) if not isinstance(text, int)]
    loose = [(kind, loosened(chance, data), text) for kind, data, text in pairs]
    moved = [("a goal before literals, " + kind, data, text) for kind, data, text in loose if data != book_of(clauses_of(data))]
    asked = [Asked(kind, "to_xsb", data, text) for (kind, data), text in zip(books, results)]
    asked += [Asked(title, "to_xsb", data, text) for title, data, text in moved]
    # written as the book was, where that had each literal behind its clause
    asked += [Asked(kind + ", back", "from_xsb", text, book_of(clauses_of(data))) for kind, data, text in pairs]
    enough = len(books) == len(results) and len(pairs) > a.count // 3 and len(moved) > a.count // 20
    what = "random books and their texts, %d of the books with a goal before literals" % len(moved)
    return compared(what, side.name, asked, side.answers(a.jobs)) and enough


def near(a, oracle, side):
    """A short text with each byte changed, left out or doubled, and others put in, compared with the Rust."""
    signs = range(256) if a.near_all else NEAR
    texts = {SHORT[:at] + bytes([sign]) + SHORT[at + more:] for at in range(len(SHORT) + 1) for sign in signs for more in (0, 1)}
    texts |= {SHORT[:at] + SHORT[at + 1:] for at in range(len(SHORT))} | {SHORT[:at] for at in range(len(SHORT))}
    texts = sorted(texts)
    asked = [Asked("near a text", "from_xsb", text, result) for text, result in zip(texts, in_xsb(oracle, "from-xsb", texts))]
    return compared("texts near a short one", side.name, asked, side.answers(a.jobs)) and len(asked) == len(texts)


def pieces(side, jobs, sizes=PIECES):
    """Large books and texts, and texts that are accepted, in pieces."""
    some = [one for one in large_ones() if one.title.startswith(("levels-chain", "sizes"))]
    some += [one for one in texts_by_hand() if one.title.startswith("taken")]
    what = "books and texts in pieces of %d"
    return all([compared(what % size, side.name, some, side.answers(jobs, in_pieces(size))) for size in sizes])


def without_an_end(side):
    """Whether 39 is printed for input that never ends: `yes`, a table line's number that begins with a 0, a long text and stray bytes."""
    rules = next(one.data for one in long_texts() if one.title == "many rules")
    wrong = []
    for title, front, more in (("yes", b"", b"y\n"), ("zeros", b":- table g", b"0"), ("rules, then stray bytes", rules, b"x")):
        found = given_in(side.words["from_xsb"], itertools.chain([front], itertools.repeat(more * 4096)), seconds=SECONDS)
        wrong += ["%s without an end: %s" % (title, shown(found))] if found != expected(39) else []
    print("\n".join(wrong + ["xsb: 3 inputs without an end, %d wrong by %s" % (len(wrong), side.name)]), flush=True)
    return not wrong


def times(a, sides_here):
    """Median, and least in brackets."""
    print("%-80s" % "median (least), processes" + "".join("%-22s" % side.name for side in sides_here) + "`true`")
    some = [Asked("levels-p1.book", "to_xsb", tree.paper("levels-p1.book"), b""), Asked("levels-p1.xsb", "from_xsb", P1.encode(), b"")]
    some += [one for one in large_ones() if one.title in TIMED and not isinstance(one.result, int)]
    for one in some + long_texts():
        title = "%s, %s, %d bytes" % (one.program, one.title, len(one.data))
        runs = a.runs if len(one.data) < 100000 else 5
        cells = [timed(side.words[one.program], one.data, runs) for side in sides_here] + [timed(["true"], b"", runs)]
        print("%-80s" % title + "".join("%-22s" % cell for cell in cells), flush=True)


def parsed(words):
    p = with_oracle(with_random(with_sides(parser(__doc__), "to_xsb and from_xsb", True), 3000, "random books"))
    p.add_argument("--near-all", action="store_true", help="with every byte, not some alone, in the place of each")
    a = with_times(with_jobs(p)).parse_args(words)
    if a.program is not None and len(a.program) not in (0, 2):
        p.error("--program takes two programs, or none")
    return a


def the_programs(a):
    """The programs that are named; otherwise the proved ones."""
    paths = a.program or [None, None]
    return Side("the programs", *([tree.built(name, path)] for name, path in zip(("to_xsb", "from_xsb"), paths)))


def main(words):
    a = parsed(words)
    oracle, (rust, ours), good = find_oracle(a.oracle), sides_of(a), True
    by_rust = Side("the Rust", [oracle, "to-xsb"], [oracle, "from-xsb"])
    if a.time:
        there = a.program or tree.built_or_none("to_xsb") and tree.built_or_none("from_xsb")
        times(a, [the_programs(a), by_rust] if there else [by_rust])
        return True
    if rust:
        good = by_hand("the Rust", by_rust.answers(a.jobs))
        good = compared("long texts", "the Rust", long_texts(), by_rust.answers(a.jobs)) and good
    if ours:
        side = the_programs(a)
        good = by_hand(side.name, side.answers(a.jobs)) and good
        good = all([out_and_back(a, oracle, side), near(a, oracle, side)]) and good
        good = compared("long texts", side.name, long_texts(), side.answers(a.jobs)) and good
        good = all([pieces(side, a.jobs), without_an_end(side)]) and good
        good = failures(side.words["to_xsb"][0], "levels-chain.book") and good
        good = failures(side.words["from_xsb"][0], "levels-p1.xsb") and good
    return good
