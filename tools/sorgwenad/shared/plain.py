"""Plain books as rules for other solvers, and as text for a Prolog with tabling (order 13)."""
from sorgwenad.shared.book import CLAUSE, GOAL, WANT, commands, literal, number


def clauses_of(data):
    """The clauses of a plain book, by goal: bodies of (positive, goal). A literal belongs to the last clause."""
    goals, clause = [], None
    for command in commands(data):
        if command[0] == GOAL:
            goals.append([])
        elif command[0] == CLAUSE:
            clause = []
            goals[-1].append(clause)
        else:
            clause.append((command[0] == WANT, number(command, 1)))
    return goals


def book_of(goals):
    """The bytes of a plain book, each literal behind its clause."""
    of_literal = lambda positive, named: literal(("%d" if positive else "not %d") % named)
    of_clause = lambda body: b"\x43\0\0\0" + b"".join(of_literal(*one) for one in body)
    return b"".join(b"\x47\0" + b"".join(map(of_clause, bodies)) for bodies in goals) + b"\x45"


def rules(goals, prefix, negation, truth=""):
    """The clauses as rules, in the syntax that both peers share."""
    out = []
    for goal, bodies in enumerate(goals):
        for body in bodies:
            literals = [("%s%d" if positive else negation) % (prefix, named) for positive, named in body] or [truth]
            out.append("%s%d%s." % (prefix, goal, " :- " + ", ".join(literals) if literals != [""] else ""))
    return out


def tabled(goals, *rules_of_it):
    """A text for a Prolog with tabling: a table line for each goal, and the rules."""
    return "".join(line + "\n" for line in [*(":- table g%d/0." % g for g in range(goals)), *rules_of_it])


def for_xsb(goals):
    """The text of a plain book."""
    return tabled(len(goals), *rules(goals, "g", "tnot(%s%d)"))


def for_clingo(books):
    return "\n".join("\n".join(rules(goals, "b%dg" % n, "not %s%d")) for n, goals in enumerate(books)) + "\n"
