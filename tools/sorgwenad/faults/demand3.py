"""Faults of demand 3 (cases/faults_demand3.py): books as terms, and how a reply breaks the claim."""
from sorgwenad.shared.computed import cons

CLOCK_LIMIT = 1000


# Books: for each goal its clauses; a clause is a list of literals, a goal's number or Not of one. All clauses and goals are plain.

class Not:
    def __init__(self, goal):
        self.goal = goal


def goal_of(l):
    return l.goal if isinstance(l, Not) else l


def written(book):
    """The book as it is read aloud."""
    def clause(g, c):
        return "%d :- %s." % (g, ", ".join(("not %d" if isinstance(l, Not) else "%d") % goal_of(l) for l in c)) if c else "%d." % g
    lines = [clause(g, c) for g, cs in enumerate(book) for c in cs]
    return "  ".join(lines if len(lines) < 8 else lines[:3] + [".."] + lines[-2:])


def clause_term(c):
    return "rule (%s)" % cons(("neg %d" if isinstance(l, Not) else "pos %d") % goal_of(l) for l in c)


def book_term(book):
    return cons("inductive (%s)" % cons(clause_term(c) for c in cs) for cs in book)


def pairs(items):
    """One of `Each`: nested pairs that end in tt."""
    items = list(items)
    return "(%s, %s)" % (items[0], pairs(items[1:])) if items else "tt"


def plain_term(book):
    def clause(c):
        literals = pairs("refl" if isinstance(l, Not) else "(refl, refl)" for l in c)
        return "record { as_a_whole = refl; provable = refl; small = refl; literals_plain = %s }" % literals
    return pairs("record { inductive = refl; unfloundered = refl; clauses_plain = %s }" % pairs(clause(c) for c in cs) for cs in book)


def levelled_term(book):
    return pairs(pairs(pairs("omega arith" for l in c) for c in cs) for cs in book)


def stages(book):
    """For each goal of the least model of a book without "not": the clause that first gives it."""
    by, grown = {}, True
    while grown:
        new = {g: k for g, cs in enumerate(book) if g not in by for k, c in reversed(list(enumerate(cs))) if all(l in by for l in c)}
        by.update(new)
        grown = bool(new)
    return by


def in_model(book, goal):
    """A proof that the goal of a book without "not" is in the least model."""
    by = stages(book)

    def member(k):
        return "(Memᴰ.head refl)" if k == 0 else "(Memᴰ.tail %s)" % member(k - 1)

    def literals(ls):
        if not ls:
            return "holds_end"
        c = book[ls[0]][by[ls[0]]]
        return "(holds_here (%s) refl %s %s %s)" % (clause_term(c), member(by[ls[0]]), literals(c), literals(ls[1:]))
    return literals([goal])


# Ways in which a reply breaks the claim: what it is in words, and the term of ⊥ drawn from `d`, what demand 3 states of the calls.

def reply_at(k):
    return "d.0%s.0" % (".1" * k)


def names(k, goal):
    return "(opened 0 (left_by %d) %d, refl, refl)" % (k, goal)


class DeniedTruth:
    """NoMoreSolutions at index 0, though the goal is in the model."""
    def __init__(self, goal):
        self.goal = goal

    def words(self, fault):
        return "goal %d is in the model, and the last reply is \"no more solutions\" at index 0" % self.goal

    def term(self, fault):
        k = len(fault.calls) - 1
        return "(%s refl).1 %d %s %s" % (reply_at(k), self.goal, names(k, self.goal), in_model(fault.book, self.goal))


class AffirmedFalsehood:
    """An answer, though the goal is not in the model; `out` proves that it isn't, given its being in it as `x`."""
    def __init__(self, goal, out):
        self.goal, self.out = goal, out

    def words(self, fault):
        return "goal %d is not in the model, and the last reply is yes" % self.goal

    def term(self, fault):
        k = len(fault.calls) - 1
        return "out (%s.1.1 %d %s)" % (reply_at(k), self.goal, names(k, self.goal))


class OtherStop:
    """A stop other than 21."""
    def __init__(self, number):
        self.number = number

    def words(self, fault):
        return "the last search ends in stop %d, and no stop but 21 may come" % self.number

    def term(self, fault):
        return "let e : ◌≡◌ {A = ℕ} %d 21 = %s.0 in omega arith" % (self.number, reply_at(len(fault.calls) - 1))


class TooManyExceeded:
    """More searches end in QuantumExceeded than there are goals and clauses."""
    def __init__(self, number):
        self.number = number

    def words(self, fault):
        return "%d searches end in QuantumExceeded, and the book has %d goals and clauses together" % (self.number, fault.bound())

    def term(self, fault):
        return "let e : %d ≤ %d = d.1 in omega arith" % (self.number, fault.bound())


class Fault:
    def __init__(self, name, **fields):
        self.name, self.levels, self.note, self.also = name, None, "", {}
        self.__dict__.update(fields)
        self.levels = self.levels or [0] * len(self.book)
        for g, cs in enumerate(self.book):
            for c in cs:
                for l in c:
                    assert self.levels[goal_of(l)] + isinstance(l, Not) <= self.levels[g], "%s: not levelled" % name

    def bound(self):
        return len(self.book) + sum(map(len, self.book))


def found(variant, ambiguous):
    return "(found (record { variant = %d; ambiguous = %s }))" % (variant, "true" if ambiguous else "false")


AGAIN, NONE, YES = "(fail QuantumExceeded)", "(fail NoMoreSolutions)", found(0, False)


def searched(ending, turns):
    return "searched %s %d" % (ending, turns)


def opened(table):
    return "table (go %d)" % table
