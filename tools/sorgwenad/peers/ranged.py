"""Random books with variants, wants and ranges in which a clause names later goals alone: their model, their text, and rules for clingo."""
from sorgwenad.shared.book import numbered, ranged


def book(chance):
    """Of each goal its clauses, no two of them equal: a variant, and literals. A literal is a later goal and the two ends of its want, or
    None for a "not"."""
    near = lambda: chance.choice((0, 1, 1, 2, 3, 4, 255, 256, 257, 65534, 65535))
    one = lambda: (chance.choice((1, 2, 3, 65535)),) * 2
    some = lambda: tuple(sorted((near(), near())))
    goals, made = chance.randrange(2, 9), []
    for goal in range(goals):
        most = 4 if goal + 1 < goals else 1
        clauses = [(near(), [chance.randrange(goal + 1, goals) for _ in range(chance.randrange(most))]) for _ in range(chance.randrange(4))]
        wanted = lambda: chance.choices((lambda: (0, 65535), one, some, lambda: None), (3, 2, 5, 1))[0]()
        all_of_them = [(variant, tuple((named, wanted()) for named in body)) for variant, body in clauses]
        made.append(list(dict.fromkeys(all_of_them)))
    return made


def model(book):
    """The goals that have an answer."""
    answers = {}

    def holds(named, want):
        if want is None:
            return not answers[named]
        return any(v == 0 or want[0] <= v <= want[1] for v in answers[named])
    for goal in reversed(range(len(book))):
        answers[goal] = {variant for variant, body in book[goal] if all(holds(*literal) for literal in body)}
    return {goal for goal in answers if answers[goal]}


def wanted_text(named, want):
    """A literal in the notation: of an odd goal, by command 50 where that can express it."""
    if want is None:
        return "not %d" % named
    if named % 2 and (want == (0, 65535) or want[0] == want[1] > 0):
        return numbered(named, want[0])
    return ranged(named, *want)


def text(book):
    out = []
    for goal, clauses in enumerate(book):
        out.append("goal %d" % goal)
        for variant, body in clauses:
            literals = [wanted_text(*literal) for literal in body]
            out.append(numbered(goal, variant) + (" :- " + ", ".join(literals) if literals else ""))
    return "\n".join(out)


def for_clingo(books):
    out = []
    for n, book in enumerate(books):
        for goal, clauses in enumerate(book):
            out.append("b%dg%d :- b%dh(%d,W)." % (n, goal, n, goal))
            for variant, body in clauses:
                literals = []
                for named, want in body:
                    if want is None:
                        literals.append("not b%dg%d" % (n, named))
                        continue
                    literals.append("b%dw(%d,%d,%d)" % (n, named, *want))
                    out.append("%s :- b%dh(%d,0)." % (literals[-1], n, named))
                    out.append("%s :- b%dh(%d,W), %d <= W, W <= %d." % (literals[-1], n, named, *want))
                out.append("b%dh(%d,%d)%s." % (n, goal, variant, " :- " + ", ".join(literals) if literals else ""))
    return "\n".join(out) + "\n"
