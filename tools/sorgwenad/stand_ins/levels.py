"""Wrong stand-ins for `levels` (order 12): levels worked out here with one fault each, and lines that are not as they must be."""
from sorgwenad.rust import levels
from sorgwenad.shared import tree
from sorgwenad.shared.oracle import find_oracle, in_lines
from sorgwenad.shared.plain import clauses_of
from sorgwenad.shared.processes import printed_each


def worked_out(goals, raise_not=1, raise_other=0, passes=None, literals=lambda body: body):
    """Levels by passes: of each goal the highest that its literals ask for, a "not" one more than its goal's."""
    found = [0] * len(goals)
    for _ in range(len(goals) if passes is None else passes):
        needed = lambda body: [found[named] + (raise_other if positive else raise_not) for positive, named in literals(body)]
        found = [max([found[goal]] + [level for body in bodies for level in needed(body)]) for goal, bodies in enumerate(goals)]
    return found


def leading_to(goals, on):
    """The goals that lead to one of these, these among them."""
    found = set(on)
    while True:
        more = {g for g, bodies in enumerate(goals) if any(named in found for body in bodies for _, named in body)} | found
        if more == found:
            return tuple(sorted(found))
        found = more


# Levels of a levelled book with one fault.
LEVELS = {
    "a \"not\" does not lead lower": lambda goals: worked_out(goals, raise_not=0),
    "a \"not\" leads two lower": lambda goals: worked_out(goals, raise_not=2),
    "every literal leads lower": lambda goals: worked_out(goals, raise_other=1),
    "one pass alone": lambda goals: worked_out(goals, passes=1),
    "a literal is left out": lambda goals: worked_out(goals, literals=lambda body: body[:7]),
    "levels from 1 upward": lambda goals: [level + 1 for level in worked_out(goals)],
}
# From a book and the right text to a wrong one.
TEXTS = {
    "goals that lead to a cycle are on it": lambda data, text: spoilt_cycle(data, text),
    "no line with the cycle": lambda data, text: text.split("goals on a cycle")[0],
    "no place": lambda data, text: "".join(text.splitlines(True)[:3]) if "refused 37" in text else text,
    "38 before 37": lambda data, text: text.replace("refused 37", "refused 38"),
    "37 before 36": lambda data, text: text.replace("refused 36", "refused 37"),
    "no sentence": lambda data, text: text.split("\n")[0] + "\n" if text.startswith("refused") else text,
    "within and outside swapped": lambda data, text: text.replace("outside", "within"),
    "a goal is left out": lambda data, text: "".join(text.splitlines(True)[:-1]) if text.startswith("within") else text,
}


def spoilt_cycle(data, text):
    head, word, rest = text.partition("goals on a cycle through \"not\": ")
    return head + word + " ".join(map(str, leading_to(clauses_of(data), map(int, rest.split())))) + "\n" if word else text


class Subject:
    """The Rust's texts, which the stand-ins change; and `levels` itself, where it is built."""

    def __init__(self, folder):
        self.folder, self.oracle, self.program = folder, find_oracle(), tree.built_or_none("levels")

    def texts(self, books):
        return in_lines(self.oracle, "levels", books)

    def levelled(self, compute):
        """Levels that are worked out here, where the book is levelled."""
        def answers(books):
            rows = zip(books, self.texts(books))
            return [levels.text(compute(clauses_of(data))) if text.startswith("within") else text for data, text in rows]
        return answers


def right(who):
    """The checks, each with the right answers; the passes above without a fault among them."""
    by_program = (lambda books: printed_each(who.program, books, 2)) if who.program else who.texts
    return [("rust levels", levels.by_hand, by_program), ("rust levels", levels.by_hand, who.levelled(worked_out))]


def wrong(who):
    """The stand-ins: what is wrong, the subcommand that must find it, its check, and the wrong answers."""
    for name, compute in LEVELS.items():
        yield name, "rust levels", levels.by_hand, who.levelled(compute)
    for name, change in TEXTS.items():
        yield name, "rust levels", levels.by_hand, lambda books, change=change: list(map(change, books, who.texts(books)))
