"""Faults of order 2 (cases/faults_order2.py): each is an edit of crates/derivable/refused, with a book and calls on it.

Those of the engine (FAULTS) make the calls get an unambiguous answer that cannot be derived; the proof that it can't is written from the
book. Those of the check which goals are spoilt (SPOILT) make it report of goal 0 that nothing spoils it, though its answer can't be
derived.
"""
import os

from sorgwenad.faults.demand3 import YES, Not, found
from sorgwenad.shared import edits, tree
from sorgwenad.shared.computed import cons

FLOUNDERED = "(fail Floundered)"


# Books: for each goal its clauses.

class Goal:
    def __init__(self, *clauses, floundered=False, coinductive=False):
        self.clauses, self.floundered, self.coinductive = clauses, floundered, coinductive


class Clause:
    """A literal is a goal's number, that and the variant that it wants, or Not of a goal's number."""
    def __init__(self, *literals, variant=0, cannot_prove=False, outsized=False):
        self.literals = [(l, None) if isinstance(l, int) else l for l in literals]
        self.variant, self.cannot_prove, self.outsized = variant, cannot_prove, outsized


def bool_term(b):
    return "true" if b else "false"


def literal_term(l):
    if isinstance(l, Not):
        return "Negative %d false" % l.goal
    return "Positive %d %s false" % (l[0], "any" if l[1] is None else "(exactly %d)" % l[1])


def clause_term(c):
    return "record { variant = %d; cannot_prove = %s; outsized = %s; literals = %s }" % (
        c.variant, bool_term(c.cannot_prove), bool_term(c.outsized), cons(map(literal_term, c.literals)))


def goal_term(g):
    return "record { coinductive = %s; floundered = %s; clauses = %s }" % (
        bool_term(g.coinductive), bool_term(g.floundered), cons(map(clause_term, g.clauses)))


def book_term(book):
    return cons(map(goal_term, book))


def written(book):
    """The book as it is read aloud: `?` marks a clause that cannot prove, `!` one whose answer is outsized."""
    def of_variant(goal, variant):
        return "%d/%d" % (goal, variant) if variant else "%d" % goal

    def literal(l):
        return "not %d" % l.goal if isinstance(l, Not) else of_variant(*l)

    def clause(g, c):
        head = of_variant(g, c.variant) + "?" * c.cannot_prove + "!" * c.outsized
        return "%s :- %s." % (head, ", ".join(map(literal, c.literals))) if c.literals else head + "."
    lines = [clause(g, c) for g, own in enumerate(book) for c in own.clauses]
    flags = ["(%d %s)" % (g, flag) for g, own in enumerate(book) for flag in ("floundered", "coinductive") if getattr(own, flag)]
    return "  ".join(lines + flags)


def edit_of(name):
    return os.path.join(tree.ROOT, "crates", "derivable", "refused", name.replace("-", "_") + ".edit")


class Fault:
    """`variant` is that of the wrong answer, of goal 0 and in the last reply; `why` is why it can't be derived."""
    def __init__(self, name, **fields):
        self.name, self.note, self.also, self.variant = name, "", {}, 0
        self.edit = edit_of(name)
        self.__dict__.update(fields)
        assert self.replies[-1].startswith("searched %s" % found(self.variant, False)), name

    def words(self):
        return "the last reply is an unambiguous %d, which can't be derived: %s" % (self.variant, self.why)


class SpoiltFault:
    """`reported` is what the check then returns for each goal, `right_reported` what it returns without the fault; the calls get the same
    replies. No clause of the book is a fact, so that nothing can be derived."""
    def __init__(self, name, **fields):
        self.name, self.note, self.also = name, "", {}
        self.edit = edit_of(name)
        self.__dict__.update(fields)
        self.right = self.replies
        assert self.replies[-1].startswith("searched %s" % YES) and self.reported[0] is None and self.right_reported[0] is not None, name

    def words(self):
        return "nothing is reported to spoil goal 0; the last reply is an unambiguous 0, which can't be derived, since no clause is a fact"


def plant(folder, fault):
    """Puts the fault's edit into the copy: the definitions are changed, and what in the proofs follows from the text alone."""
    edits.apply(fault.edit, "derivable", os.path.join(folder, "crates"))
