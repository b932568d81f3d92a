"""Compares the definition of order 11, `mend`, with cases by hand and with the Rust, by computation.

The papers of `tools/run rust mend` that are short enough, each with what is expected by hand, and N random papers, torn ones and damaged
ones, with what the Rust returns for them (`oracle mend`), are written as closed equations, which the checker computes (`rt check`) in a
copy of the crate outside the tree. Prints how many agreed and the first that did not. Status 0 only if all agree.
"""
from sorgwenad.rust.mend import counts, papers_by_hand, shown
from sorgwenad.shared import computed
from sorgwenad.shared.command import parser
from sorgwenad.shared.computed import HOMES, cons
from sorgwenad.shared.oracle import find_oracle, mended, random_books

HEADER = """-- written by tools/run definitions mend
use Rattle.std.specs.Prelude.{◌≡◌, refl, List, [], ◌∷◌}
use %(d)s.Refusal.{refused, accepted}
use %(p)s.Mend.{mend, Mended}
""" % HOMES
# Longer ones are more than the checker computes.
LONGEST = 1100


def equation(name, data, result):
    """Of the mending of a paper: what is left and the lines, or the number."""
    out, err, _ = result
    bytes_of = lambda some: cons(map(str, some))
    right = "accepted (record { bytes = %s; lines = %s })" % (bytes_of(out), bytes_of(err)) if out else err.decode().strip()
    return "%s : mend (%s) ≡ %s\n%s = refl\n" % (name, bytes_of(data), right, name)


def random_ones(oracle, seed, count):
    """Torn papers and damaged ones, and what the Rust returns for them."""
    some = [data for kind in ("torn", "damaged") for data in random_books(oracle, seed, -(-count // 2), kind)]
    short = [data for data in some if len(data) <= LONGEST]
    return [("random", data, result) for data, result in zip(short, mended(oracle, short))]


def main(words):
    a = computed.with_words(parser(__doc__), 200, "random papers").parse_args(words)
    asked = [one for one in papers_by_hand() if len(one[1]) <= LONGEST] + random_ones(find_oracle(a.oracle), a.seed, a.count)
    names = {"m%d" % n: one for n, one in enumerate(asked)}
    good, bad, beyond, text = computed.all_computed(a, HEADER, {name: equation(name, *one[1:]) for name, one in names.items()})
    agreed = [names[name] for name in good]
    print("%d papers, %d of them random, agreed; %d did not%s; results: %s" % (
        len(agreed), sum(title == "random" for title, _, _ in agreed), len(bad), computed.more_than_it_computes(beyond),
        counts([result for _, _, result in agreed])))
    if bad:
        title, data, result = names[bad[0]]
        print("the first that did not agree: %s, %s\nexpected: %s\n%s" % (title, data.hex(), shown(result), text[:4000]))
    return not bad and 10 * len(beyond) <= len(names)
