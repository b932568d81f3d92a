"""Compares what other solvers find in exported texts (order 13) with the listing and the layered least model.

Takes N plain levelled books from the oracle's generator, half of them small, half of up to 64 goals, and has each written as text by
`to_xsb`. swipl (Debian: swi-prolog-core) consults the text as it is, each in a module of its own, with a line `:- dynamic g1/0.` put in
front for each goal that has no clause, or, with every second book, for each goal whatsoever, which is what this makes of the text:

    sed -n 's/^:- table/:- dynamic/p'

clingo (Debian: gringo) reads what this makes of it:

    sed -e '/^:-/d' -e 's/tnot(\\(g[0-9]*\\))/not \\1/g'

For each goal both must return what the layered least model has (`oracle levels model`), and so must the listing, where its searches come to
an end within their turns. Then N / 3 books that are not levelled: there swipl has a third word, undefined, and is compared with the
well-founded model, which is worked out here. Last the smallest texts that show what must be put in front, and what a book that is not
levelled comes to (cases/peers.py).

XSB itself was not available, and was never run. A solver that is not installed is named and ends the run, with --installed it is left out.
With --rust the oracle takes the place of the proved `to_xsb` and `listing`. Status 0 only if all is as expected.
"""
import os
import re
import subprocess

from sorgwenad.shared import tree
from sorgwenad.shared.command import parser
from sorgwenad.shared.oracle import in_xsb, models, plain_books, random_books
from sorgwenad.shared.plain import clauses_of
from sorgwenad.shared.processes import output_of
from sorgwenad.shared.solvers import Listing, clingo, installed, swipl, with_listing
from sorgwenad.shared.tables import rows

FOR_CLINGO = ["-e", "/^:-/d", "-e", r"s/tnot(\(g[0-9]*\))/not \1/g"]
IN_FRONT = ["-n", "s/^:- table/:- dynamic/p"]
# Texts that one process of swipl gets at once.
TOGETHER = 100
# Each text in a module of its own. What is delayed rests on a "not" that is neither true nor false.
DRIVER = """
said(G, S) :- catch(( call_delays(G, D) -> ( D == true -> S = yes ; S = undefined ) ; S = no ), error(E, _), wrong(E, S)).
wrong(existence_error(procedure, _), missing) :- !.
wrong(E, E).
goal(M, B, N) :- atom_concat(g, N, G), said(M:G, S), format("~w ~w ~w~n", [B, N, S]).
book(B, Goals) :- atom_concat(b, B, M), atom_concat(B, '.P', F), load_files(M:F, [silent(true)]), Last is Goals - 1,
    forall(between(0, Last, N), goal(M, B, N)).
main :- forall(text(B, Goals), book(B, Goals)).
"""


def by_sed(words, text):
    return subprocess.run(["sed", *words], input=text, capture_output=True, text=True, check=True).stdout


def in_front(at, goals, text):
    """The lines for goals without a clause; with every second book for all."""
    if at % 2:
        return by_sed(IN_FRONT, text)
    return "".join(":- dynamic g%d/0.\n" % goal for goal, bodies in enumerate(goals) if not bodies)


def of_books(folder, books, texts):
    """What swipl found_by of each book by its text."""
    some = enumerate(zip(map(clauses_of, books), texts))
    return by_swipl(folder, [(in_front(at, goals, text), text, len(goals)) for at, (goals, text) in some])


def by_swipl(folder, texts):
    """Of each text, with what stands in front of it and how many goals it has, a word for each goal."""
    found = []
    for at in range(0, len(texts), TOGETHER):
        some = texts[at:at + TOGETHER]
        for n, (front, text, _) in enumerate(some):
            tree.write(os.path.join(folder, "%d.P" % n), front + text)
        facts = "".join("text(%d, %d).\n" % (n, goals) for n, (_, _, goals) in enumerate(some))
        words = [[] for _ in some]
        for line in swipl(folder, facts + DRIVER).splitlines():
            n, _, word = line.split(" ", 2)
            words[int(n)].append(word)
        found += words
    return found


def by_clingo(text, goals):
    """A word for each goal, of the one stable model."""
    found = clingo(by_sed(FOR_CLINGO, text), 0)
    if len(found) != 1:
        tree.stop("clingo finds %d models of\n%s" % (len(found), text))
    held = set(map(int, re.findall(r"\bg(\d+)\b", found[0])))
    return ["yes" if goal in held else "no" for goal in range(goals)]


def closed(goals, nots):
    """The least set of goals closed under the clauses, in which "not" of those among `nots` fails."""
    held = set()
    while True:
        fires = lambda body: all(named in held if positive else named not in nots for positive, named in body)
        more = {goal for goal, bodies in enumerate(goals) if any(map(fires, bodies))}
        if more == held:
            return held
        held = more


def well_founded(goals):
    """A word for each goal: what holds grows, and what may hold shrinks, until neither changes."""
    sure, may = set(), set(range(len(goals)))
    while True:
        next_may = closed(goals, sure)
        next_sure = closed(goals, next_may)
        if (next_sure, next_may) == (sure, may):
            return ["yes" if goal in sure else "undefined" if goal in may else "no" for goal in range(len(goals))]
        sure, may = next_sure, next_may


def books_of(a, oracle):
    """Levelled ones, each with the goals that hold, and others."""
    some = plain_books(oracle, a.seed, a.books // 2) + random_books(oracle, a.seed, 3 * a.books, "plain")
    pairs = list(zip(some, models(oracle, some)))
    levelled = [(data, set(map(int, one.split()))) for data, one in pairs if not one.startswith("refused")][:a.books]
    return levelled, [data for data, one in pairs if one == "refused 38"][:a.books // 3]


def exported(a, oracle, books):
    """The texts, by the program, or by the Rust."""
    if a.rust and not a.to_xsb:
        return [text.decode() for text in in_xsb(oracle, "to-xsb", books)]
    program = tree.built("to_xsb", a.to_xsb)
    return [output_of([program], data).decode() for data in books]


def agreed(what, books, found_by):
    """Whether all return what the model has; shows where one does not."""
    wrong, goals, words = 0, 0, {}
    for n, data in enumerate(books):
        must = found_by["the model"][n]
        goals += len(must)
        for word in must:
            words[word] = words.get(word, 0) + 1
        others = {name: found[n] for name, found in found_by.items() if any(one != two for one, two in zip(found[n], must) if one != "cut")}
        if others:
            wrong += 1
            print("DIFFERS: %s\n%s\nthe model: %s\n%s" % (data.hex(), clauses_of(data), must, others))
    counts = ", ".join("%s %d" % (word, words[word]) for word in sorted(words))
    result = "%d books differ" % wrong if wrong else "the same with %s" % ", ".join(found_by)
    print("%d %s as text, %d goals (%s): %s" % (len(books), what, goals, counts, result))
    return not wrong


def listed(listing, books):
    """A word for each goal; `cut` where a search is not over by its last turn, and settles nothing."""
    held, left_open = listing.holds(books)
    out = []
    for data, yes, open_ones in zip(books, held, left_open):
        words = {**{int(line[0]): line[2] for line in open_ones}, **dict.fromkeys(yes, "yes")}
        out.append([words.get(goal, "no") for goal in range(len(clauses_of(data)))])
    cut, some = sum(words.count("cut") for words in out), sum("cut" in words for words in out)
    print("%s: cut in %d goals of %d books" % (listing.name, cut, some))
    return out


def levelled_agree(a, listing, folder, there):
    levelled, rest = books_of(a, listing.oracle)
    books = [data for data, _ in levelled]
    texts = exported(a, listing.oracle, books)
    all_goals = [clauses_of(data) for data in books]
    held_ones = zip((held for _, held in levelled), all_goals)
    found_by = {"the model": [["yes" if goal in held else "no" for goal in range(len(goals))] for held, goals in held_ones]}
    found_by[listing.name] = listed(listing, books)
    if "swipl" in there:
        found_by["swipl"] = of_books(folder, books, texts)
    if "clingo" in there:
        found_by["clingo"] = [by_clingo(text, len(goals)) for goals, text in zip(all_goals, texts)]
    good = agreed("plain levelled books", books, found_by) and len(books) == a.books
    return (others_agree(a, listing, folder, rest) if "swipl" in there else True) and good


def others_agree(a, listing, folder, books):
    """Books that are not levelled, and swipl."""
    texts = exported(a, listing.oracle, books)
    found_by = {"the model": [well_founded(clauses_of(data)) for data in books]}
    found_by["swipl"] = of_books(folder, books, texts)
    return agreed("plain books that are not levelled", books, found_by) and len(books) == a.books // 3


def smallest(folder):
    texts, wrong = rows("PEERS_TEXTS"), 0
    found = by_swipl(folder, [(front, text, text.count(":- table")) for _, front, text, _ in texts])
    for (title, front, text, expected), words in zip(texts, found):
        wrong += " ".join(words) != expected
        if " ".join(words) != expected:
            print("DIFFERS: %s\n%s%sexpected: %s\nswipl: %s" % (title, front, text, expected, " ".join(words)))
    print("%d smallest texts, %d wrong by swipl" % (len(texts), wrong))
    return not wrong


def main(words):
    p = parser(__doc__)
    p.add_argument("--books", type=int, default=300, help="how many levelled ones (300)")
    p.add_argument("--seed", type=int, default=1)
    p.add_argument("--to-xsb", metavar="PATH", help="a program in place of the proved to_xsb")
    a = with_listing(p).parse_args(words)
    there = installed(a)
    with tree.folder() as folder:
        good = levelled_agree(a, Listing(a), folder, there)
        return (smallest(folder) if "swipl" in there else True) and good
