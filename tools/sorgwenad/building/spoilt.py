"""Cases of which goals' yes can be printed. What is expected is a word for each goal: `-` is clean, `3c` is spoilt by goal 3, which is
coinductive, and `4n0.1` by goal 4, which has its first "not" in clause 0 as literal 1; or the number of a refusal. A book is a letter for
each goal (`.` without a mark, `c` coinductive, `f` floundered, `b` both) and its clauses in the notation; or bytes in hex.
"""
import re

from sorgwenad.building.books import of_goals
from sorgwenad.shared.book import END, GOAL, commands, in_bytes
from sorgwenad.shared.words import refusal

FLAGS = {".": 0, "c": 1, "f": 2, "b": 3}


def of(kinds, *clauses):
    """The bytes of a book."""
    marks = iter(kinds)
    marked = (bytes([GOAL, FLAGS[next(marks)]]) if command[0] == GOAL else command for command in commands(of_goals(len(kinds), *clauses)))
    return b"".join(marked) + bytes([END])


def case(expected, kinds, *clauses):
    return ("%s %s" % (kinds, "; ".join(clauses)))[:100], of(kinds, *clauses), expected


def book(title, text, expected):
    return title, in_bytes(text), expected


def word_text(goal, word):
    """A goal's line."""
    if word == "-":
        return "%d clean\n" % goal
    by, coinductive, clause, literal = re.fullmatch(r"(\d+)(?:(c)|n(\d+)\.(\d+))", word).groups()
    what = "coinductive" if coinductive else 'a "not" in clause %s, literal %s' % (clause, literal)
    return "%d spoilt by goal %s: %s\n" % (goal, by, what)


def text(expected):
    """What is expected to be printed."""
    if isinstance(expected, int):
        return refusal(expected)
    return "".join(word_text(*pair) for pair in enumerate(expected.split()))


def chained(last, goals=64):
    """Each goal names the next, by one clause."""
    return ["%d :- %d" % (g, g + 1) for g in range(goals - 1)] + last


def wide(goals, literal):
    """Four clauses of eight literals for each goal, which differ in the place of that literal."""
    return ["%d :- %s" % (g, ", ".join(literal(g) if j == c else str(g) for j in range(8))) for g in range(goals) for c in range(4)]
