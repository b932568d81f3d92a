"""Cases of the levelled profile: a title, the book, and what is expected: the levels as a list, a number, or the goals on a cycle through
"not" as a tuple."""
from sorgwenad.building.books import of_goals
from sorgwenad.shared.book import in_bytes, lines


def plain(expected, *clauses, goals=None):
    """A book out of clauses, with as many goals as it has levels."""
    return "; ".join(clauses)[:100] or "no clause", of_goals(goals or len(expected), *clauses), expected


def loops(expected, goals, *clauses):
    """A book with a cycle through "not"."""
    return plain(expected, *clauses, goals=goals)


def book(title, text, expected):
    return title, in_bytes(text), expected


def each(goals, body):
    """For each goal a clause."""
    return ["%d :- %s" % (g, body(g)) for g in range(goals)]


def one(goal_marks="", clause="0 :- 1, not 1"):
    """A book with one thing that may not be plain: goal 0 or its clause."""
    return lines("goal 0" + goal_marks, clause, "goal 1", "1")


def ring(literal):
    """64 goals in a ring and 256 clauses of 8 literals: 4 clauses a goal, which differ in where they name the next goal."""
    out = []
    for g in range(64):
        for c in range(4):
            out.append("%d :- %s" % (g, ", ".join(literal((g + 1) % 64) if j == c else str(g) for j in range(8))))
    return of_goals(64, *out)
