"""Books of the limits of document 01: live strands, answers, delayed goals, and what a refused book leaves."""
from sorgwenad.building.books import facts
from sorgwenad.shared.book import lines


def live_strands(n):
    """Goal 0 rests twice on goal 1; beside them so many facts."""
    return lines("goal 0", "0/1 :- 1, 1", facts(1, 1), facts(2, n))


def held_answers(n):
    """Three coinductive goals on a cycle, and so many facts that are held."""
    return lines("goal 0 [coinductive]", "0/6 :- 1", "goal 1 [coinductive]", "1/5 :- 2", "1/6 :- 2", "goal 2 [coinductive]", "2/1 :- 0",
                 "2/2", facts(3, n), "goal 4", "4 :- 3/60000")


def delayed_goals(n):
    """Two coinductive goals, the second of which names the first four times."""
    return lines("goal 0 [coinductive]", "0 :- " + ", ".join(["0"] * n + ["1", "1"]), "goal 1 [coinductive]", "1 :- 0, 0, 0, 0")


def left_by(books, calls):
    """Of each refused book, by each entry that refuses it, the calls on the forest that is left."""
    ways = [(number, book, clock, way) for number, book, clock in books for way in ("book", "desk") if (number, way) != (36, "book")]
    return [("%d: what it leaves" % number, book, clock, ["refused %d" % number] + calls, way) for number, book, clock, way in ways]
