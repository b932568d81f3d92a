"""Random books, by kind. Each takes a `random.Random`, so that a seed gives the same books again."""
from sorgwenad.shared.book import CLAUSE, CLAUSE_MARKS, END, GOAL, LITERAL_MARKS, commands, encode, numbered, ranged, slashed


# Books with long listings.

def long_book(chance):
    """A book of many clauses, most of them facts, none of them twice: its listing has up to six pages, as a rule more than one."""
    goals = chance.choice((1, 2, 4, 8, 16, 32, 48, 60, 63, 64))
    left, out = chance.choice((256, chance.randrange(goals, 257))), []
    for goal in range(goals):
        # about as many for each goal that is left, and the rest for the last one
        count = left if goal + 1 == goals else min(left, chance.randrange(2 * left // (goals - goal) + 1))
        left -= count
        rules = chance.choice((0.0, 0.0, 0.02, 0.2))
        clauses = [long_clause(chance, goals, goal, variant, rules) for variant in chance.sample(range(1, 1000), count)]
        out += ["goal %d%s" % (goal, " [floundered]" * (chance.random() < 0.01))] + clauses
    return encode("\n".join(out))


def long_clause(chance, goals, goal, variant, rules):
    """A fact, now and then with a mark; or a rule with one or two literals."""
    head = numbered(goal, variant) + chance.choices(("", " [cannot prove]", " [outsized]"), (60, 2, 1))[0]
    if chance.random() >= rules:
        return head
    literals = [chance.choices(("%d", "%d/7-500", "not %d"), (5, 3, 1))[0] % chance.randrange(goals) for _ in range(chance.randrange(1, 3))]
    return "%s :- %s" % (head, ", ".join(literals))


# Books with coinductive goals, so that answers are skipped.

def skipping_book(chance):
    """One to five goals, most of them coinductive."""
    goals, out = chance.choice((1, 2, 2, 3, 3, 4, 5)), []
    for goal in range(goals):
        marks = " [coinductive]" * (chance.random() < 0.85) + " [floundered]" * (chance.random() < 0.05)
        count = chance.choices((0, 1, 2, 3, 4), (1, 6, 5, 3, 1))[0]
        # the desk takes no clause twice
        out += ["goal %d%s" % (goal, marks)] + list(dict.fromkeys(skipping_clause(chance, goals, goal) for _ in range(count)))
    return encode("\n".join(out))


def skipping_clause(chance, goals, goal):
    head = numbered(goal, chance.choice((0, 0, 0, 1, 2, 3))) + chance.choices(("", " [cannot prove]", " [outsized]"), (30, 3, 1))[0]
    literal = lambda: chance.choices(("%d", "%d/1", "%d/1-2", "not %d", "%d [outsized]"), (20, 2, 2, 1, 1))[0] % chance.randrange(goals)
    body = ", ".join(literal() for _ in range(chance.choices((0, 1, 2, 3), (3, 8, 4, 1))[0]))
    return head + (" :- " + body if body else "")


# Books rich in what order 2 speaks of: variants, wants, ranges, outsized and cannot prove marks, floundered goals and positive cycles.
# Three of four have no "not" and no coinductive goal, so that every goal is clean; the fourth has one of them in a corner. No goal has the
# same clause twice, so that the desk accepts them all.

VARIANTS = (0, 0, 1, 1, 2, 3, 3, 7, 8, 256, 65535)


class Manner:
    """What is common in one book: how many goals and clauses, how often marks come, and whether literals lead back."""

    def __init__(self, chance):
        self.goals = chance.choice((1, 2, 3, 4, 5, 6, 8, 12))
        self.clauses = chance.choice((1, 2, 3, 4, 5))
        self.literals = chance.choice((1, 1, 2, 2, 3, 8))
        self.facts = chance.choice((0.1, 0.3, 0.5))
        self.back = chance.choice((0.0, 0.1, 0.3, 1.0))
        self.marks = chance.choice((0.0, 0.05, 0.2))
        self.floundered = chance.choice((0.0, 0.0, 0.1, 0.3))
        self.plain = chance.random() < 0.1


def some(chance, how_often):
    return chance.random() < how_often


def some_marks(chance, marks, how_often):
    return "".join(" [%s]" % mark for mark in marks if some(chance, how_often))


def named(chance, manner, goal):
    """A later goal, or with some chance any, the goal itself among them."""
    if goal + 1 == manner.goals or some(chance, manner.back):
        return chance.randrange(manner.goals)
    return chance.randrange(goal + 1, manner.goals)


def rich_literal(chance, manner, goal):
    """Half of the literals want any variant; of the others half are ranges."""
    other = named(chance, manner, goal)
    ends = sorted(chance.choice(VARIANTS) for _ in range(2))
    kinds = [str(other), numbered(other, chance.choice(VARIANTS)), ranged(other, *ends)]
    return chance.choices(kinds, (2, 1, 0 if manner.plain else 1))[0] + some_marks(chance, LITERAL_MARKS, manner.marks / 2)


def rich_clause(chance, manner, goal):
    head = numbered(goal, 0 if manner.plain else chance.choice(VARIANTS)) + some_marks(chance, CLAUSE_MARKS, manner.marks)
    # a book whose last goals have no facts derives little
    if some(chance, manner.facts + (0.5 if goal + 2 >= manner.goals else 0.0)):
        return head
    body = [rich_literal(chance, manner, goal) for _ in range(chance.randint(1, manner.literals))]
    return "%s :- %s" % (head, ", ".join(body))


def spoilt(chance, manner, lines):
    """The lines with a coinductive goal or a "not" in a clause, in goals of the last half."""
    corner = manner.goals // 2
    goal = lambda line: slashed(line.removeprefix("goal ").partition(":-")[0])[0]
    heads = [n for n, line in enumerate(lines) if line.startswith("goal") and goal(line) >= corner]
    rules = [n for n, line in enumerate(lines) if ":-" in line and goal(line) >= corner and line.count(",") < 7]
    if some(chance, 0.6):
        n = chance.choice(heads)
        lines[n] = lines[n].replace("goal %d" % goal(lines[n]), "goal %d [coinductive]" % goal(lines[n]))
    elif rules:
        n = chance.choice(rules)
        head, body = lines[n].split(" :- ")
        parts = body.split(", ")
        parts.insert(chance.randint(0, len(parts)), "not %d" % chance.randrange(manner.goals))
        lines[n] = "%s :- %s" % (head, ", ".join(parts))
    return lines


# Goals that give a literal what it wants, each with the literal, and goals that all but do.
FITTING = (
    (["%d"], "%d/3-7"), (["%d/3"], "%d/3-7"), (["%d/7"], "%d/3-7"), (["%d/3"], "%d/3"), (["%d/2", "%d/5"], "%d/5-5"), (["%d/65535"], "%d"),
    (["%d/256"], "%d/256"), (["%d"], "%d/0-0"), (["%d [cannot prove]", "%d/1"], "%d"),
)
MISFITS = (
    (["%d/2"], "%d/3-7"), (["%d/8"], "%d/3-7"), (["%d/1"], "%d/0-0"), (["%d/3", "%d/2"], "%d/4"), (["%d/1"], "%d/256"), ([], "%d"),
    (["%d/256"], "%d/1"), (["%d [cannot prove]"], "%d"), (["%d/3"], "%d/3 [outsized]"), (["%d :- %d"], "%d"), (["%d/3 [outsized]"], "%d/3"),
)


def nearly(chance):
    """A goal with clauses of up to eight literals, all of which hold but for one, and sometimes that one too."""
    literals = chance.choice((1, 2, 3, 5, 8, 8))
    below = [chance.choice(FITTING) for _ in range(literals)]
    if some(chance, 0.8):
        below[chance.randrange(literals)] = chance.choice(MISFITS)
    body = [want % (n + 1) for n, (_, want) in enumerate(below)]
    heads = [numbered(0, chance.choice(VARIANTS)) for _ in range(chance.randint(1, 3))]
    lines = ["goal 0"] + list(dict.fromkeys("%s :- %s" % (head, ", ".join(chance.sample(body, literals))) for head in heads))
    for n, (clauses, _) in enumerate(below, 1):
        lines.append("goal %d" % n)
        lines += [one.replace("%d", str(n)) for one in clauses]
    return encode("\n".join(lines))


def rich_book(chance):
    """A book's bytes: three of ten are of the kind above."""
    if some(chance, 0.3):
        return nearly(chance)
    manner, lines = Manner(chance), []
    for goal in range(manner.goals):
        lines.append("goal %d%s" % (goal, " [floundered]" if some(chance, manner.floundered) else ""))
        lines += dict.fromkeys(rich_clause(chance, manner, goal) for _ in range(chance.randint(min(1, manner.clauses - 1), manner.clauses)))
    if some(chance, 0.35):
        lines = spoilt(chance, manner, lines)
    return encode("\n".join(lines))


# Plain books with a goal before literals of an earlier clause.

def loosened(chance, data):
    """The same book, with a goal before the literals of the clause that it stood behind."""
    out, last = [], None
    for command in commands(data):
        if command[0] == GOAL and out and last is not None:
            out.insert(chance.randrange(last + 1, len(out) + 1), command)
        else:
            out.append(command)
        # a literal stays behind its own clause
        last = len(out) - 1 if command[0] == CLAUSE else None if command[0] == GOAL else last
    return b"".join(out) + bytes([END])
