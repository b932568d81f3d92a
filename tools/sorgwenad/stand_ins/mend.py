"""Wrong stand-ins for `mend` (order 11): a mender of our own with one fault each, and streams that are not as they must be."""
from sorgwenad.rust import mend
from sorgwenad.shared import tree
from sorgwenad.shared.book import CLAUSE, END, GOAL, LENGTHS, RANGE, commands, number
from sorgwenad.shared.oracle import find_oracle, mended
from sorgwenad.shared.processes import run_each
from sorgwenad.stand_ins.programs import program

# The most bytes that a book can have.
LARGEST = 17537


class Mender:
    """How a paper is mended. Each method is one decision, which a stand-in takes wrongly."""

    def named(self, literal):
        """The goal that a literal names."""
        return number(literal, 1)

    def defined(self, goal, goals):
        return goal < goals

    def compared_with(self, clause, earlier):
        """The earlier clauses that a clause is compared with."""
        return [other for other in earlier if other["goal"] == clause["goal"]]

    def key(self, clause):
        """What makes two clauses equal."""
        return clause["commands"]

    def reason(self, undefined, twice):
        return 6 if undefined else 36 if twice else 0

    def place(self, clause):
        return clause["goal"], clause["number"]

    def belongs(self, clause, at):
        """Whether a literal is removed with its clause: `at` is how many goals came between."""
        return True


def parts_of(data):
    """The commands of a book, each with its clause, if it has one, and the clauses in order."""
    parts, clauses, goal, own = [], [], -1, 0
    for command in commands(data):
        if command[0] == GOAL:
            goal, own = goal + 1, 0
            parts.append((command, None, goal))
            continue
        if command[0] == CLAUSE:
            clauses.append(dict(goal=goal, number=own, through=len(clauses), commands=[]))
            own += 1
        clauses[-1]["commands"].append(command)
        parts.append((command, clauses[-1], goal))
    return parts, clauses, goal + 1


def mended_by(mender, data):
    """Both streams and the status, of a paper whose commands can be read."""
    parts, clauses, goals = parts_of(data)
    lines, removed = [], []
    for n, clause in enumerate(clauses):
        undefined = any(not mender.defined(mender.named(literal), goals) for literal in clause["commands"][1:])
        twice = any(mender.key(other) == mender.key(clause) for other in mender.compared_with(clause, clauses[:n]))
        reason = mender.reason(undefined, twice)
        if reason:
            removed.append(clause["through"])
            lines.append("%d %d %d\n" % (*mender.place(clause), reason))
    gone = lambda clause, at: clause is not None and clause["through"] in removed and mender.belongs(clause, at)
    left = [command for command, clause, at in parts if not gone(clause, at)]
    return b"".join(left) + bytes([END]), "".join(lines).encode(), 0


class EightBits(Mender):
    def named(self, literal):
        return literal[1]


class OneMore(Mender):
    def defined(self, goal, goals):
        return goal <= goals


class ReasonTwice(Mender):
    def reason(self, undefined, twice):
        return 36 if twice else 6 if undefined else 0


class Neighbour(Mender):
    def compared_with(self, clause, earlier):
        return super().compared_with(clause, earlier)[-1:]


class AllGoals(Mender):
    def compared_with(self, clause, earlier):
        return earlier


class LiteralsStay(Mender):
    def belongs(self, clause, at):
        return at == clause["goal"]


class NumberedThrough(Mender):
    def place(self, clause):
        return clause["goal"], clause["through"]


class FlagsNotCompared(Mender):
    def key(self, clause):
        return [command[:-1] for command in clause["commands"]]


MENDERS = {
    "goals cut to 8 bits": EightBits, "one more goal taken for defined": OneMore, "36 in place of 6": ReasonTwice,
    "compared with the neighbour alone": Neighbour, "compared with the clauses of all goals": AllGoals,
    "literals behind a goal stay": LiteralsStay, "clauses numbered through the book": NumberedThrough,
    "flags are not compared": FlagsNotCompared,
}


def ninth_first(data, found):
    """A ninth literal refused with 5 before its crossed range is refused with 32."""
    at, literals = 0, 0
    while found[1] == b"refused 32\n" and at < len(data):
        command = data[at:at + LENGTHS[data[at]]]
        literals = 0 if command[0] == CLAUSE else literals + (command[0] != GOAL)
        if command[0] == RANGE and number(command, 3) > number(command, 5):
            return (b"", b"refused 5\n", 0) if literals > 8 else found
        at += len(command)
    return found


# From a paper and its right result to a wrong one.
RESULTS = {
    "a status of 1": lambda data, found: (*found[:2], int(found[1].startswith(b"refused"))),
    "a sentence below the number": lambda data, found: (found[0], found[1] + b"it is refused\n" * found[1].startswith(b"refused"), 0),
    "a ninth literal refused before a crossed range": ninth_first,
}


class Subject:
    """The Rust's results, which the stand-ins change; and `mend` itself, where it is built."""

    def __init__(self, folder):
        self.folder, self.oracle, self.program = folder, find_oracle(), tree.built_or_none("mend")

    def results(self, papers):
        return mended(self.oracle, papers)

    def by(self, mender):
        """A mender of our own, where the paper is accepted or mended."""
        def answers(papers):
            return [mended_by(mender, data) if found[0] else found for data, found in zip(papers, self.results(papers))]
        return answers


def right(who):
    """The checks, each with the right answers; the mender above without a fault among them."""
    by_program = (lambda papers: run_each([who.program], papers, 2)) if who.program else who.results
    words = [program(who.folder, "mend as it must be")]
    return [("rust mend", mend.by_hand, by_program), ("rust mend", mend.by_hand, who.by(Mender())),
            ("rust mend", lambda _, given: mend.failures(given), words), ("rust mend", lambda _, given: mend.pieces(given, 2, (1,)), words)]


def wrong(who):
    """The stand-ins: what is wrong, the subcommand that must find it, its check, and the wrong answers."""
    for name, kind in MENDERS.items():
        yield name, "rust mend", mend.by_hand, who.by(kind())
    for name, change in RESULTS.items():
        yield name, "rust mend", mend.by_hand, lambda papers, change=change: list(map(change, papers, who.results(papers)))
    yield "%d bytes read" % LARGEST, "rust mend", mend.by_hand, lambda papers: who.results([data[:LARGEST] for data in papers])
    for fault in ("mend without a message", "mend with its message first"):
        yield fault, "rust mend", lambda _, words: mend.failures(words), [program(who.folder, fault)]
    short = "mend with a short read as the end"
    yield short, "rust mend", lambda _, words: mend.pieces(words, 2, (1,)), [program(who.folder, short)]
