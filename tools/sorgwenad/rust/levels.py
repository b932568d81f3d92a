"""The levelled profile: books by hand (cases/levels.py), every paper, and random books; and times.

--rust     the Rust on the books by hand and on every paper, and compared with all numberings (`oracle numberings`)
--program  the proved `levels`, or a program in its place, on the same books; then compared with the Rust on N random books: plain ones with
           few goals, which the Rust compares with all numberings, plain and spoilt ones with up to 64, damaged ones and those of the
           scripts of every profile; and on every way in which two goals can name each other; last, where its input or its output fails
--time     whole processes on the worst books, `levels` (where it is built), the Rust and clingo (Debian's package gringo) side by side,
           and what the Rust takes within its process

Of a book that is accepted `within demand 3` is printed, and a line for each goal, `GOAL LEVEL`, with the least levels there are; of one
that is refused `refused N` and the sentence of N: the desk's numbers; then, behind `outside demand 3`, 37 for a book that is not plain,
with a line that has the first place that is not, and 38 for one that is not levelled, with a line that has the goals on a cycle through
"not". Status 0 only if all is as expected.
"""
import collections
import itertools
import json
import os
import shutil
import subprocess

from sorgwenad.building.books import not_the_next, of_goals
from sorgwenad.building.levels import ring
from sorgwenad.shared import tree
from sorgwenad.shared.book import encode
from sorgwenad.shared.command import parser, sides_of, with_jobs, with_oracle, with_random, with_sides, with_times
from sorgwenad.shared.compared import often_enough, reported
from sorgwenad.shared.oracle import find_oracle, in_lines, of_profiles, random_books
from sorgwenad.shared.plain import clauses_of, rules
from sorgwenad.shared.processes import median, printed_by_itself, printed_each, output_of, timed
from sorgwenad.shared.streams import failures
from sorgwenad.shared.tables import rows
from sorgwenad.shared.words import PROFILES, SENTENCES, refusal


def every_book():
    """Those by hand and the papers, each with what is expected of it."""
    of_papers = dict(rows("LEVELS_OF_PAPERS"))
    for about, books in rows("LEVELS"):
        for title, data, expected in books:
            yield "%s: %s" % (about, title), data, expected
    for name, _, _ in rows("PAPERS"):
        yield name + ".book", tree.paper(name + ".book"), of_papers[name]


def text(expected):
    """What is expected to be printed: levels, a number, or the goals on a cycle."""
    if isinstance(expected, list):
        return "within demand 3\n" + "".join("%d %d\n" % pair for pair in enumerate(expected))
    if isinstance(expected, int):
        return "outside demand 3\n" * (expected == 37) + refusal(expected)
    return "outside demand 3\n" + refusal(38) + "goals on a cycle through \"not\": %s\n" % " ".join(map(str, expected))


def by_hand(who, answers):
    """Whether all is printed as expected. `answers`: from books to what is printed of each."""
    asked = [(title, data, text(expected)) for title, data, expected in every_book()]
    return reported("levels", "books by hand", who, asked, answers([data for _, data, _ in asked]))


def random_ones(oracle, seed, count):
    """A quarter each: few goals, plain or spoilt, damaged, of scripts."""
    each = -(-count // 4)
    found = [(kind, data) for kind in ("few", "plain", "damaged") for data in random_books(oracle, seed, each, kind)]
    return found + of_profiles(oracle, seed, each, PROFILES)


def every_way():
    """Two goals, each of which names each of them not at all, by a positive literal, by a "not", or by both."""
    for ways in itertools.product(range(4), repeat=4):
        bodies = [[word % other for other in (0, 1) for bit, word in ((1, "%d"), (2, "not %d")) if ways[2 * goal + other] & bit]
                  for goal in (0, 1)]
        clauses = ["%d%s" % (goal, " :- " + ", ".join(body) if body else "") for goal, body in enumerate(bodies)]
        yield "named " + " ".join(map(str, ways)), of_goals(2, *clauses)


def counted(texts, least):
    """Prints how often each number came; whether each came often enough."""
    first = lambda text: text.removeprefix("outside demand 3\n").split("\n")[0]
    words = collections.Counter(first(text) if first(text).startswith("refused") else "levelled" for text in texts)
    highest = [max(int(line.split()[1]) for line in text.splitlines()[1:]) for text in texts if text.startswith("within")]
    order = ["levelled"] + ["refused %d" % number for number in SENTENCES if number < 39]
    enough = often_enough("levels", words, order, least, 5, "%-11s %8s")
    print("highest level of a book: above 0 in %d, above 2 in %d, %d at most" % (
        sum(level > 0 for level in highest), sum(level > 2 for level in highest), max(highest, default=0)))
    return enough


def compared_with_the_rust(a, oracle, program):
    books = random_ones(oracle, a.seed, a.count) + list(every_way())
    data = [one for _, one in books]
    rust = in_lines(oracle, "levels", data)
    asked = [(title, one, text_of_it) for (title, one), text_of_it in zip(books, rust)]
    good = counted(rust, a.least) and len(rust) == len(books)
    return reported("levels", "random books", "levels", asked, printed_each(program, data, a.jobs)) and good


def upside_down(text_of_book):
    """The goals of a plain book in the other order."""
    goals = clauses_of(encode(text_of_book))
    last = len(goals) - 1
    clauses = []
    for goal in range(last, -1, -1):
        for body in goals[goal]:
            literals = ["%s%d" % ("" if positive else "not ", last - named) for positive, named in body]
            clauses.append("%d%s" % (last - goal, " :- " + ", ".join(literals) if literals else ""))
    return of_goals(last + 1, *clauses)


def worst():
    down, round_ = not_the_next("63"), not_the_next("not 0")
    return [
        ("levels-p1", encode("goal 0\n0 :- 1, not 2\ngoal 1\n1\ngoal 2\n2 :- 2")),
        ("levels-chain", encode(down)), ("its goals the other way", upside_down(down)),
        ("levels-cycle", encode(round_)), ("its goals the other way", upside_down(round_)),
        ("the largest plain book", ring(str)),
    ]


def of_clingo(folder, data, runs):
    """Whole processes of clingo and of its grounder alone, and the time that clingo prints itself: reading, grounding and solving."""
    path = os.path.join(folder, "book.lp")
    tree.write(path, "\n".join(rules(clauses_of(data), "g", "not %s%d")) + "\n")
    own = []
    for _ in range(runs):
        run = subprocess.run(["clingo", "--outf=2", "-q", "--warn=none", path], capture_output=True, text=True)
        if run.returncode not in (10, 20, 30):
            tree.stop("clingo ended with %d: %s" % (run.returncode, run.stderr))
        own.append(json.loads(run.stdout)["Time"]["Total"] * 1000)
    whole = [timed(words + ["--warn=none", path], b"", runs) for words in (["clingo", "--outf=3", "-q"], ["gringo"])]
    return whole + ["%.0f ms (%.0f)" % (median(own), min(own))]


def times(a, oracle, program):
    """Median, and least in brackets."""
    heads = [("levels", [program])] * bool(program) + [("oracle levels", [oracle, "levels"]), ("`true`", ["true"])]
    names = [name for name, _ in heads] + ["clingo", "gringo", "clingo's own time"]
    print("%-26s" % "median (least), processes" + "".join("%-20s" % name for name in names))
    inside = []
    with tree.folder() as folder:
        for title, data in worst():
            cells = [timed(words, data, a.runs) for _, words in heads] + of_clingo(folder, data, a.runs)
            print("%-26s" % title + "".join("%-20s" % cell for cell in cells))
            inside.append((title, output_of([oracle, "levels", "time", "2000"], data).decode().splitlines()))
    print("within the Rust's process, in µs:")
    for title, lines in inside:
        print("%-26s" % title + "; ".join(lines))


def main(words):
    p = with_oracle(with_random(with_sides(parser(__doc__), "levels"), 4000, "random books"))
    p.add_argument("--least", type=int, default=10, help="how often each number must come among them (10)")
    a = with_times(with_jobs(p)).parse_args(words)
    oracle, (rust, ours), good = find_oracle(a.oracle), sides_of(a), True
    if a.time:
        if not shutil.which("clingo"):
            tree.stop("clingo is not installed (Debian's package gringo)")
        times(a, oracle, a.program or tree.built_or_none("levels"))
        return True
    if rust:
        good = by_hand("the Rust", lambda some: in_lines(oracle, "levels", some))
        good = printed_by_itself([oracle, "numberings", str(a.seed), str(max(a.count, 1000))]) and good
    if ours:
        program = tree.built("levels", a.program)
        good = by_hand("levels", lambda some: printed_each(program, some, a.jobs)) and good
        good = compared_with_the_rust(a, oracle, program) and good
        good = failures(program) and good
    return good
