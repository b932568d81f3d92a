"""Cases of listings: a title, the book, and what is expected to be listed, as fields."""
from sorgwenad.shared.book import lines, numbered

# What is listed of goal 0.
HOLDS = "0 0 yes 0\n0 1 none\n"
FAILS = "0 0 none\n"


def rests_on(literal, *variants):
    """Goal 0 rests on goal 1, whose facts have these variants."""
    return lines("goal 0", "0 :- " + literal, "goal 1", [numbered(1, v) for v in variants])


def case(literal, variant, holds):
    """Goal 0 rests on one fact: the title, the book, and what is listed."""
    fact = "1 0 yes %d\n1 1 none\n" % variant
    return "%s, and the answer %d" % (literal, variant), rests_on(literal, variant), (HOLDS if holds else FAILS) + fact


def refused(title, data, number):
    return title, data, "refused %d\n" % number
