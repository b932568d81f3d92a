"""Cases of mending: a title, the paper, and what is expected: a number, or the clauses that are removed, a line each, and what is left."""
from sorgwenad.shared.book import in_bytes, lines


def goes(title, old, removed_lines, new):
    """What goes: `0 1 36`, or some of it, parted by commas."""
    return title, in_bytes(old), ("".join(line.strip() + "\n" for line in removed_lines.split(",") if line), in_bytes(new))


def stays(title, old):
    return goes(title, old, "", old)


def refused(title, old, number):
    return title, in_bytes(old), number


def two(one, other):
    """Two clauses of goal 0, beside a goal 1, that are not equal."""
    return stays("%s and %s" % (one, other), lines("goal 0", one, other, "goal 1", "1/3"))


def twice(clause):
    return goes(clause + " twice", lines("goal 0", clause, clause, "goal 1"), "0 1 36", lines("goal 0", clause, "goal 1"))


def undefined(literal, goals=1):
    """A clause of the last goal with a literal of no goal goes, and its neighbours stay."""
    last, rest = goals - 1, ["goal %d" % goal for goal in range(goals)]
    clauses = ["%d/%d" % (last, variant) for variant in (1, 2, 3)]
    old = [clauses[0], "%s :- %s" % (clauses[1], literal), clauses[2]]
    return goes("%s of %d" % (literal, goals), lines(rest, old), "%d 1 6" % last, lines(rest, clauses[::2]))


def defined(literal, goals):
    return stays("%s of %d" % (literal, goals), lines(["goal %d" % goal for goal in range(goals)], "%d :- %s" % (goals - 1, literal)))


def removed(goal, clauses, reason):
    return ",".join("%d %d %d" % (goal, n, reason) for n in clauses)


def each_goal(clauses, goals=64):
    """So many goals, each with these clauses."""
    return lines(*(["goal %d" % g] + [c.format(g) for c in clauses] for g in range(goals)))
