"""Compares the definitions of order 13, `check_export` and `import`, with cases by hand and with the Rust, by computation.

The books and texts of `tools/run rust xsb` that are short enough, each with what is expected by hand, and N damaged texts, with what the
Rust returns for them (`oracle from-xsb`), are written as closed equations, which the checker computes (`rt check`) in a copy of the crate
outside the tree. The book of an accepted text is compared with what `desk` reads in its bytes. Prints how many agreed and the first that
did not. Status 0 only if all agree.
"""
import random

from sorgwenad.rust.xsb_cases import Asked, all_by_hand, counts
from sorgwenad.shared import computed
from sorgwenad.shared.command import parser
from sorgwenad.shared.computed import HOMES, cons
from sorgwenad.shared.damage import damaged_text
from sorgwenad.shared.oracle import find_oracle, in_xsb, random_books

HEADER = """-- written by tools/run definitions xsb
use Rattle.std.specs.Prelude.{◌≡◌, refl, List, [], ◌∷◌}
use %(d)s.Refusal.{refused, accepted}
use %(d)s.Desk.{desk}
use %(p)s.Xsb.{check_export, import}
""" % HOMES
# Longer ones are more than the checker computes.
LONGEST = 1100


def equation(name, one):
    """Of a book to its text, or of a text to its book."""
    left = "%s (%s)" % ({"to_xsb": "check_export", "from_xsb": "import"}[one.program], cons(map(str, one.data)))
    right = "refused %d" % one.result if isinstance(one.result, int) else "%s (%s)" % (
        "accepted" if one.program == "to_xsb" else "desk", cons(map(str, one.result)))
    return "%s : %s ≡ %s\n%s = refl\n" % (name, left, right, name)


def random_ones(oracle, seed, count):
    """Damaged texts of plain books with few goals, and what the Rust returns for them."""
    chance = random.Random(seed)
    texts = in_xsb(oracle, "to-xsb", random_books(oracle, seed, count, "few"))
    some = [damaged_text(chance, text, chance.choice(texts)) for text in texts]
    short = [text for text in some if len(text) <= LONGEST]
    return [Asked("a damaged text", "from_xsb", text, result) for text, result in zip(short, in_xsb(oracle, "from-xsb", short))]


def main(words):
    a = computed.with_words(parser(__doc__), 200, "damaged texts").parse_args(words)
    asked = [one for one in all_by_hand() if len(one.data) <= LONGEST] + random_ones(find_oracle(a.oracle), a.seed, a.count)
    names = {"x%d" % n: one for n, one in enumerate(asked)}
    good, bad, beyond, text = computed.all_computed(a, HEADER, {name: equation(name, one) for name, one in names.items()})
    agreed = [names[name] for name in good]
    print("%d books and %d texts, %d of them damaged, agreed; %d did not%s; results: %s" % (
        sum(one.program == "to_xsb" for one in agreed), sum(one.program == "from_xsb" for one in agreed),
        sum(one.title == "a damaged text" for one in agreed), len(bad), computed.more_than_it_computes(beyond), counts(agreed)))
    if bad:
        one = names[bad[0]]
        print("the first that did not agree: %s, %r\nexpected: %s\n%s" % (one.title, one.data, one.result, text[:4000]))
    return not bad and 10 * len(beyond) <= len(names)
