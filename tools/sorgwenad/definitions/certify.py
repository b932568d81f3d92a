"""Compares the definitions of which yes can be printed (order 2), `check_spoilers` and `spoil`, with cases by hand and with the Rust, by
computation.

The books of `tools/run rust certify` that are short enough, each with what is expected by hand, and N random books, with what the Rust
returns for them (`oracle certify`), are written as closed equations, which the checker computes (`rt check`) in a copy of the crate outside
the tree. Prints how many agreed and the first that did not. Status 0 only if all agree.
"""
import re

from sorgwenad.rust.certify import every_book, every_way, random_ones
from sorgwenad.shared import computed
from sorgwenad.shared.command import parser
from sorgwenad.shared.computed import HOMES, cons
from sorgwenad.shared.oracle import find_oracle, in_lines

HEADER = """-- written by tools/run definitions certify
use Rattle.std.specs.Prelude.{◌≡◌, refl, List, [], ◌∷◌}
use Rattle.std.proofs.Math.Option.{none, some}
use %(d)s.Refusal.{refused, accepted}
use %(p)s.Spoilt.{a_coinductive_goal, a_not, check_spoilers}
use %(p)s.Shown.{spoils}
""" % HOMES
SHOWN = """-- what each goal of a book spoils by itself
use Rattle.std.specs.Prelude.{ℕ, List, [], map}
use Rattle.std.proofs.Math.Option.{Option}
use %(d)s.Refusal.{Refusable, refused, accepted}
use %(d)s.Book.{Book}
use %(d)s.Desk.{desk}
use %(p)s.Spoilt.{Spoil, spoil}

abbrev pub spoils_of : Refusable Book → List (Option Spoil)
spoils_of (refused n) = []
spoils_of (accepted book) = map spoil book

abbrev pub spoils : List ℕ → List (Option Spoil)
spoils bytes = spoils_of (desk bytes)
""" % HOMES
LINE = re.compile(r'(\d+) (?:clean|spoilt by goal (\d+): (?:(coinductive)|a "not" in clause (\d+), literal (\d+)))')


def own(goal, by, coinductive, clause, literal):
    """What a goal spoils by itself, out of its line."""
    if by != goal:
        return "none"
    return "some a_coinductive_goal" if coinductive else "some (a_not %s %s)" % (clause, literal)


def equation(name, data, text):
    """By which goal each goal is spoilt, or the number; and what each spoils by itself."""
    lines = [] if text.startswith("refused") else [LINE.fullmatch(line).groups() for line in text.splitlines()]
    found = "accepted (%s)" % cons("some %s" % by if by else "none" for _, by, _, _, _ in lines)
    right = text.split("\n")[0] if text.startswith("refused") else found
    given = cons(map(str, data))
    return "%s : (check_spoilers (%s) ≡ %s) × (spoils (%s) ≡ %s)\n%s = (refl, refl)\n" % (
        name, given, right, given, cons(own(*one) for one in lines), name)


def short_random_ones(oracle, a):
    """Random books with what the Rust returns for them, and every way in which two goals can name each other."""
    books = random_ones(oracle, a.seed, a.count) + list(every_way(2))
    short = [data for _, data in books if len(data) <= a.longest]
    return [("random", data, text) for data, text in zip(short, in_lines(oracle, "certify", short))]


def main(words):
    p = computed.with_words(parser(__doc__), 200, "random books")
    p.add_argument("--longest", type=int, default=500, help="bytes of the longest book; a long one takes the checker seconds (500)")
    a = p.parse_args(words)
    asked = [one for one in every_book() if len(one[1]) <= a.longest] + short_random_ones(find_oracle(a.oracle), a)
    names = {"c%d" % n: one for n, one in enumerate(asked)}
    good, bad, beyond, text = computed.all_computed(a, HEADER, {name: equation(name, *one[1:]) for name, one in names.items()}, SHOWN)
    agreed = [names[name] for name in good]
    some, refused = (sum(map(test, agreed)) for test in (lambda one: one[0] == "random", lambda one: one[2].startswith("refused")))
    print("%d books, %d of them random, %d refused, agreed; %d did not%s" % (
        len(agreed), some, refused, len(bad), computed.more_than_it_computes(beyond)))
    if bad:
        title, data, right = names[bad[0]]
        print("the first that did not agree: %s, %s\nexpected:\n%s%s" % (title, data.hex(), right, text[:4000]))
    return not bad and 10 * len(beyond) <= len(names)
