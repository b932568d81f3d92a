"""Mending a paper: papers by hand (cases/mend.py), random papers, and times.

--rust     the Rust (`oracle mend`) on the papers by hand and on every one of papers/, and on damaged ones, whose results it compares with
           its reader and its desk (`oracle mend damaged`)
--program  the proved `mend`, or a program in its place, on the same papers; then compared with the Rust on N random papers: torn ones (with
           clauses twice, with literals of no goal, with goals before literals of an earlier clause), damaged ones, plain ones. What is left
           of each goes to the Rust's desk, and is mended again; and some to `levels`, which reads as the desk does. Last, papers that come
           in pieces of 1, 7, 4095 and 4097 bytes, and what is printed where the input or the output fails
--time     whole processes on the largest papers, the program (where it is built) and the Rust side by side

`mend` prints on standard error a line for each clause that is removed, `GOAL CLAUSE REASON`, in the order of the book, and on standard
output the book without these clauses, otherwise unchanged. Of a paper that is refused by another number than 6 and 36 nothing is on
standard output, and `refused N` on standard error. Status 0 only if all is as expected.
"""
import collections
import os

from sorgwenad.building.mend import goes
from sorgwenad.rust import desk, levels
from sorgwenad.shared import tree
from sorgwenad.shared.command import parser, sides_of, with_jobs, with_oracle, with_random, with_sides, with_times
from sorgwenad.shared.compared import both, reported
from sorgwenad.shared.oracle import find_oracle, mended, mended_wrong, random_books, read
from sorgwenad.shared.processes import printed_by_itself, run_each, timed
from sorgwenad.shared.streams import PIECES, in_pieces, streams_reported
from sorgwenad.shared.tables import rows

CANT_READ, CANT_WRITE = b"mend: the input can't be read\n", b"mend: the book can't be written\n"
TIMED = ("mend-behind", "mend-both", "largest", "largest-undefined", "clauses-256-alike", "clauses-256-twice", "mend-256")
# What comes out that is put to `levels`.
TO_LEVELS = 500


def of_others():
    """The books of the desk and of the levels, and every paper. What the desk accepts stays; 6 and 36 are in the case file."""
    for one in desk.all_books():
        yield one.title, one.data, one.number or (36 if one.place else 0)
    for title, data, expected in levels.every_book():
        yield title, data, expected if isinstance(expected, int) and expected < 37 else 0


def every_paper():
    """Each once, with what is expected of it."""
    found, left_of = {}, dict(rows("MENDED_PAPERS"))
    for about, some in rows("MENDED"):
        for title, data, result in some:
            found[data] = "%s: %s" % (about, title), result
    for title, data, number in of_others():
        name = title[:-5] if title.endswith(".book") else None
        if number in (6, 36) and name:
            found[data] = goes(title, data, *left_of[name])[::2]
        elif number not in (6, 36):
            found.setdefault(data, (title, number or ("", data)))
    return [(title, data, result) for data, (title, result) in found.items()]


def expected(result):
    """What a program is expected to write, on standard output and on standard error, and its status."""
    return (b"", b"refused %d\n" % result, 0) if isinstance(result, int) else (result[1], result[0].encode(), 0)


def shown(result):
    out, err, status = result
    return "%s and on standard error %r%s" % (out.hex()[:600] or "nothing", err[:300], " (status %d)" % status if status else "")


def papers_by_hand():
    return [(title, data, expected(result)) for title, data, result in every_paper()]


def counts(result):
    """How often each result came."""
    kinds = collections.Counter()
    for out, err, _ in result:
        kinds[err.decode(errors="replace").strip() if not out else "unchanged" if not err else "mended"] += 1
        kinds.update("clauses for " + line.split()[2] for line in err.decode(errors="replace").splitlines() if out)
    return ", ".join("%s: %d" % (kind, kinds[kind]) for kind in sorted(kinds, key=lambda k: (not k.startswith("refused"), len(k), k)))


def compared(what, who, asked, found):
    """Whether all is as expected."""
    return reported("mend", what, who, asked, found, both(shown), counts([right for _, _, right in asked]))


def by_hand(who, answers, what="papers by hand"):
    """Whether all papers by hand are mended as expected. `answers`: from papers to both streams and the status of each."""
    asked = papers_by_hand()
    return compared(what, who, asked, answers([data for _, data, _ in asked]))


def random_ones(oracle, seed, count):
    """Half of them torn, a quarter damaged, a quarter plain."""
    kinds = (("torn", 2), ("damaged", 4), ("plain", 4))
    return [(kind, data) for kind, share in kinds for data in random_books(oracle, seed, -(-count // share), kind)]


def not_so(oracle, some, found):
    """Where something is wrong that can be seen without a second mender."""
    before, after = read(oracle, some), read(oracle, [out for out, _, _ in found])
    complaints = [mended_wrong(*one) for one in zip(some, found, before, after)]
    return ["%s: %s\nfound: %s" % (what, data.hex()[:600], shown(one)) for what, data, one in zip(complaints, some, found) if what]


def refused_by_levels(a, left):
    """`levels` reads what is left as the desk does: 37 and 38 are numbers of its own."""
    program = tree.built_or_none("levels")
    if not program:
        print("mend: no proved `levels` to read what is left; to build it: rt run </dev/null, in crates/levels")
        return []
    first = [out.split(b"\n")[0] for out, _, _ in run_each([program], left, a.jobs)]
    print("mend: %d of what is left read by levels" % len(first))
    return ["levels prints %s: %s" % (word.decode(), data.hex()[:600]) for data, word in zip(left, first)
            if word not in (b"within demand 3", b"outside demand 3")]


def compared_with_the_rust(a, oracle, words):
    """The program and the Rust; then what must be so of any mender, and what is left mended again."""
    books = random_ones(oracle, a.seed, a.count)
    some = [data for _, data in books]
    found, rust = run_each(words, some, a.jobs), mended(oracle, some)
    good = compared("random papers", "mend", [(*one, right) for one, right in zip(books, rust)], found) and len(rust) == len(books)
    left = [out for data, (out, _, _) in zip(some, found) if out and out != data]
    wrong = not_so(oracle, some, found) + refused_by_levels(a, left[:TO_LEVELS])
    again = zip(left, run_each(words, left, a.jobs))
    wrong += ["mended again it does not stay: " + out.hex()[:600] for out, one in again if one != (out, b"", 0)]
    last = "mend: %d papers were mended and mended again, %d of all wrongly" % (len(left), len(wrong))
    print("\n".join(wrong[:10] + [last]), flush=True)
    return good and not wrong and len(left) > a.count // 5


def pieces(words, jobs, sizes=PIECES):
    """Some of the papers by hand, in pieces."""
    asked = [one for one in papers_by_hand() if one[0].startswith(("order", "sizes", "long", "mend-", "largest"))]
    asked = [one for one in asked if len(one[1]) < 50000]
    data = [one for _, one, _ in asked]
    return all([compared("papers in pieces of %d" % size, "mend", asked, run_each(words, data, jobs, in_pieces(size))) for size in sizes])


def failures(words):
    """What is printed where the input or the output fails, byte by byte. The lines of the removed clauses come first."""
    by_data = {data: result for _, data, result in papers_by_hand()}
    cases = [("a folder for input", tree.ROOT, os.devnull, CANT_READ), ("a closed input", None, os.devnull, CANT_READ)]
    for name in ("largest.book", "mend-both.book", "largest-undefined.book", "p9-empty.book"):
        out, err, _ = by_data[tree.paper(name)]
        # of what is refused there is nothing to be written
        must = err + (CANT_WRITE if out else b"")
        for where, to in (("a full device", "/dev/full"), ("a closed output", None)):
            cases.append(("%s and %s" % (name, where), os.path.join(tree.PAPERS, name), to, must))
    return streams_reported("mend", words, cases)


def times(a, heads):
    """Median, and least in brackets."""
    print("%-44s" % "median (least), processes" + "".join("%-22s" % name for name, _ in heads) + "`true`")
    for name in TIMED:
        data = tree.paper(name + ".book")
        cells = [timed(words, data, a.runs) for _, words in heads] + [timed(["true"], b"", a.runs)]
        print("%-44s" % ("%s, %d bytes" % (name, len(data))) + "".join("%-22s" % cell for cell in cells), flush=True)


def main(words):
    p = with_oracle(with_random(with_sides(parser(__doc__), "mend"), 4000, "random papers"))
    p.add_argument("--damaged", type=int, default=100000, help="how many papers within the Rust (100000)")
    a = with_times(with_jobs(p)).parse_args(words)
    oracle, (rust, ours), good = find_oracle(a.oracle), sides_of(a), True
    if a.time:
        there = a.program or tree.built_or_none("mend")
        times(a, [("mend", [there])] * bool(there) + [("oracle mend", [oracle, "mend"])])
        return True
    if rust:
        good = by_hand("the Rust", lambda some: run_each([oracle, "mend"], some, a.jobs))
        # what the program is compared with, on the same papers
        good = by_hand("the Rust", lambda some: mended(oracle, some), "papers by hand, as lines") and good
        good = printed_by_itself([oracle, "mend", "damaged", str(a.seed), str(a.damaged)]) and good
    if ours:
        program = [tree.built("mend", a.program)]
        good = by_hand("mend", lambda some: run_each(program, some, a.jobs)) and good
        good = all([compared_with_the_rust(a, oracle, program), pieces(program, a.jobs), failures(program)]) and good
    return good
