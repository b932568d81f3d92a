"""Smallest books and texts for other solvers, and what they are expected to return."""
from sorgwenad.shared.plain import tabled

SMALL = "goal 0\n0 :- 1, not 2\ngoal 1\n1\n1 :- 0\ngoal 2\n2 :- 2"
# Smallest texts: what stands in front, the text, and what swipl returns for its goals.
PEERS_TEXTS = [
    ("not of a goal without a clause, the text alone", "", tabled(2, "g0 :- tnot(g1)."), "no missing"),
    ("the same with a line in front", ":- dynamic g1/0.\n", tabled(2, "g0 :- tnot(g1)."), "yes no"),
    ("the same with a line for both goals", ":- dynamic g0/0.\n:- dynamic g1/0.\n", tabled(2, "g0 :- tnot(g1)."), "yes no"),
    ("the same with a clause in front", "g1 :- fail.\n", tabled(2, "g0 :- tnot(g1)."), "yes no"),
    ("the same with a clause at the end", "", tabled(2, "g0 :- tnot(g1).", "g1 :- fail."), "yes no"),
    ("a goal without a clause, the text alone", "", tabled(2, "g0 :- g1."), "missing missing"),
    ("the same with a line in front", ":- dynamic g1/0.\n", tabled(2, "g0 :- g1."), "no no"),
    ("no goal has a clause", ":- dynamic g0/0.\n", tabled(1), "no"),
    ("not levelled", "", tabled(1, "g0 :- tnot(g0)."), "undefined"),
    ("not levelled, two of them", "", tabled(2, "g0 :- tnot(g1).", "g1 :- tnot(g0)."), "undefined undefined"),
    ("not levelled, but settled", "", tabled(2, "g0 :- tnot(g0).", "g0 :- g1.", "g1."), "yes yes"),
]
# Smallest papers, the reason for which a clause goes, and the goals that hold before and after.
PEERS_MENDED = [
    ("a clause twice", "goal 0\n0 :- not 1\n0 :- not 1\ngoal 1", 36, {0}, {0}),
    ("a positive literal of no goal: no rule gives it", "goal 0\n0 :- 2\n0 :- 1\ngoal 1\n1", 6, {0, 1}, {0, 1}),
    ("\"not\" of no goal holds, until its clause goes", "goal 0\n0 :- not 2\ngoal 1\n1 :- 0", 6, {0, 1}, set()),
    ("and what rests on \"not\" of that goal holds then", "goal 0\n0 :- not 2\ngoal 1\n1 :- not 0", 6, {0}, {1}),
]
