"""Order 2 from its words: what can be derived from a book, which goals are clean, and what spoils each of the others. Nothing here goes
the way of the definitions: they have derivations as a type and find spoilers by passes.
"""
import collections


def usable(goal):
    """The clauses of a goal that a derivation may use and that name nothing which is never derived."""
    if goal.floundered:
        return []
    can_be = lambda one: one.positive and not one.outsized
    return [c for c in goal.clauses if not c.cannot_prove and not c.outsized and all(map(can_be, c.literals))]


def derivable(goals):
    """The pairs of a goal and a variant that can be derived: clauses are used until nothing new comes of it."""
    found = [set() for _ in goals]
    clauses = [(g, c) for g, goal in enumerate(goals) for c in usable(goal)]
    fits = lambda one: any(v == 0 or one.low <= v <= one.high for v in found[one.goal])
    grown = True
    while grown:
        grown = False
        for g, c in clauses:
            if c.variant not in found[g] and all(map(fits, c.literals)):
                found[g].add(c.variant)
                grown = True
    return {(g, v) for g, variants in enumerate(found) for v in variants}


def named_by(goal):
    """The goals that its literals name, clause by clause in order."""
    return [one.goal for c in goal.clauses for one in c.literals]


def spoil_of(goal):
    """What a goal spoils by, in the words of `certify`; None where it does not."""
    if goal.coinductive:
        return "coinductive"
    nots = ((k, j) for k, c in enumerate(goal.clauses) for j, one in enumerate(c.literals) if not one.positive)
    return next(('a "not" in clause %d, literal %d' % place for place in nots), None)


def clean(goals):
    """The largest clean set: goals are taken out of it until none has to be."""
    left = {g for g, goal in enumerate(goals) if not spoil_of(goal)}
    while True:
        out = {g for g in left if not left.issuperset(named_by(goals[g]))}
        if not out:
            return left
        left -= out


def inductive(goals):
    """The same goals, none of them coinductive."""
    return [goal._replace(coinductive=False) for goal in goals]


def spoilers(goals):
    """By which goal each goal is spoilt, None where it is clean. Breadth first, from the goals that spoil to those that name them: a goal
    takes the spoiler of the first of its literals whose goal is nearer by one."""
    namers = collections.defaultdict(set)
    for g, goal in enumerate(goals):
        for other in named_by(goal):
            namers[other].add(g)
    far = {g: 0 for g, goal in enumerate(goals) if spoil_of(goal)}
    by, queue = {g: g for g in far}, collections.deque(far)
    while queue:
        here = queue.popleft()
        for g in namers[here] - far.keys():
            far[g] = far[here] + 1
            queue.append(g)
    for g in sorted(far.keys() - by.keys(), key=far.get):
        by[g] = by[next(other for other in named_by(goals[g]) if far.get(other) == far[g] - 1)]
    return [by.get(g) for g in range(len(goals))]


def certificate(goals):
    """What `certify` prints of a paper that the desk accepts."""
    word = lambda by: "clean" if by is None else "spoilt by goal %d: %s" % (by, spoil_of(goals[by]))
    return "".join("%d %s\n" % (g, word(by)) for g, by in enumerate(spoilers(goals)))
