"""Cases of pages: lines as they are printed, goals that print them, and pages made wrong."""
from sorgwenad.shared import tree


def holds(*goals):
    """What is listed of goals with the fact of variant 0."""
    return [line % goal for goal in goals for line in ("%3d     0 yes            0", "%3d     1 none            ")]


def empty(*goals):
    """What is listed of goals that have no clause."""
    return ["%3d     0 none            " % goal for goal in goals]


def answers(goal, count):
    """What is listed of a goal with the facts of variants 1 to that number."""
    return ["%3d %5d yes        %5d" % (goal, n, n + 1) for n in range(count)] + ["%3d %5d none            " % (goal, count)]


def with_fact(*goals):
    return [line % goal for goal in goals for line in ("goal %d", "%d")]


def without(*goals):
    return ["goal %d" % goal for goal in goals]


def stops(goal):
    """A goal that rests on "not" a floundered one, the next."""
    return ["goal %d" % goal, "%d :- not %d" % (goal, goal + 1), "goal %d [floundered]" % (goal + 1)]


def coinductive_pair(goal):
    """p3, from a goal on."""
    return ["%s%d%s" % part for one, other in ((goal, goal + 1), (goal + 1, goal)) for part in (
        ("goal ", one, " [coinductive]"), ("", one, " :- %d" % other))]


def paper(name):
    """A sample paper, in hex."""
    return tree.paper(name + ".book").hex().upper()


def instead(data, old, new):
    """With one thing put in place of another, which stands there once."""
    if data.count(old) != 1:
        raise ValueError("not there once: %r" % old)
    return data.replace(old, new)
