"""Wrong stand-ins for `certify` (order 2): what spoils a goal worked out from goals that were changed, and lines that are not as they must
be."""
import re

from sorgwenad.rust import certify
from sorgwenad.shared import tree
from sorgwenad.shared.book import goals_of
from sorgwenad.shared.clean import certificate, inductive
from sorgwenad.shared.oracle import find_oracle, in_lines
from sorgwenad.shared.processes import printed_each


def with_clauses(change):
    """Goals with the list of their clauses changed."""
    return lambda goals: [goal._replace(clauses=change(goal.clauses)) for goal in goals]


def with_literals(change):
    """Goals with the literals of each clause changed."""
    return with_clauses(lambda clauses: [clause._replace(literals=change(clause.literals)) for clause in clauses])


# Goals in place of those of the book.
GOALS = {
    "a coinductive goal spoils nothing": inductive,
    "a \"not\" spoils nothing": with_literals(lambda literals: [one for one in literals if one.positive]),
    "a floundered goal spoils": lambda goals: [goal._replace(coinductive=goal.coinductive or goal.floundered) for goal in goals],
    "the first clause alone": with_clauses(lambda clauses: clauses[:1]),
    "the first literal alone": with_literals(lambda literals: literals[:1]),
    "the last literal first": with_literals(lambda literals: literals[::-1]),
    "the last clause first": with_clauses(lambda clauses: clauses[::-1]),
    "a clause that cannot prove spoils nothing": with_clauses(lambda clauses: [one for one in clauses if not one.cannot_prove]),
    "an outsized literal spoils nothing": with_literals(lambda literals: [one for one in literals if not one.outsized]),
}
# From the right text to a wrong one.
TEXTS = {
    "goals from 1 upward": lambda text: re.sub(r"^(\d+) (?=clean|spoilt)", lambda m: "%d " % (int(m[1]) + 1), text, flags=re.M),
    "clauses from 1 upward": lambda text: re.sub(r"in clause (\d+)", lambda m: "in clause %d" % (int(m[1]) + 1), text),
    "each spoilt by itself": lambda text: re.sub(r"^(\d+) spoilt by goal \d+", r"\1 spoilt by goal \1", text, flags=re.M),
    "36 accepted": lambda text: "0 clean\n" if text.startswith("refused 36") else text,
    "no sentence": lambda text: text.split("\n")[0] + "\n" if text.startswith("refused") else text,
}


class Subject:
    """The Rust's texts, which the stand-ins change; and `certify` itself, where it is built."""

    def __init__(self, folder):
        self.folder, self.oracle, self.program = folder, find_oracle(), tree.built_or_none("certify")

    def texts(self, books):
        return in_lines(self.oracle, "certify", books)

    def of_goals(self, change):
        """Worked out from other goals, where the book is accepted."""
        def answers(books):
            rows = zip(books, self.texts(books))
            return [text if text.startswith("refused") else certificate(change(goals_of(data))) for data, text in rows]
        return answers


def right(who):
    """The checks, each with the right answers; what is worked out from the goals as they are among them."""
    by_program = (lambda books: printed_each(who.program, books, 2)) if who.program else who.texts
    return [("rust certify", certify.by_hand, by_program), ("rust certify", certify.by_hand, who.of_goals(lambda goals: goals))]


def wrong(who):
    """The stand-ins: what is wrong, the subcommand that must find it, its check, and the wrong answers."""
    for name, change in GOALS.items():
        yield name, "rust certify", certify.by_hand, who.of_goals(change)
    for name, change in TEXTS.items():
        yield name, "rust certify", certify.by_hand, lambda books, change=change: list(map(change, who.texts(books)))
