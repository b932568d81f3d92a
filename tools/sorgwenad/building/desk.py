"""Cases of the exam desk: books with a clause twice, or nearly so, and what both entries and the listing are expected to return."""
from sorgwenad.shared.book import in_bytes, lines
from sorgwenad.shared.script import CLOCK


class Book:
    """A book with its title, and what is expected of it. `number`: of both entries, 0 where the old one accepts it. `place`: goal, clause
    and earlier clause, where the desk refuses what the old entry accepts. `listing`: of a book that both accept; None where any is
    right."""

    def __init__(self, title, data, number=0, place=None, listing=None, clock=CLOCK):
        self.title, self.data, self.number, self.place, self.listing, self.clock = title, data, number, place, listing, clock

    def read(self):
        """As `oracle read` prints it."""
        if self.number:
            return "refused %d" % self.number
        return "accepted, desk refused 36 goal %d clause %d as %d" % self.place if self.place else "accepted"

    def made(self, way):
        """What making a forest returns, by an entry."""
        number = self.number or (36 if self.place and way == "desk" else 0 if self.clock else 13)
        return "refused %d" % number if number else "made"

    def listed(self):
        """The listing; None where any is right."""
        refused = self.number or (36 if self.place else 0)
        return "refused %d\n" % refused if refused else self.listing


def taken(title, text, listing):
    return Book(title, in_bytes(text), listing=listing)


def twice(title, text, *place, clock=CLOCK):
    return Book(title, in_bytes(text), place=place, clock=clock)


def refused(title, text, number):
    return Book(title, in_bytes(text), number=number)


def pair(one, other, listing):
    """Two clauses of goal 0, beside a goal 1 with the fact 1/3, which are not equal."""
    return taken("%s and %s" % (one, other), lines("goal 0", one, other, "goal 1", "1/3"), listing + "1 0 yes 3\n1 1 none\n")


def same(clause):
    return twice("%s twice" % clause, lines("goal 0", clause, clause, "goal 1", "1/3"), 0, 1, 0)
