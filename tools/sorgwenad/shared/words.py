"""The words of results, the numbers of refusals and stops, and their sentences: the one place for all of them (docs/FORMAT.md)."""

# The results of a call, in the order in which a table shows them.
RESULTS = "made table yes maybe none floundered again negcycle invalid cut true false".split()
# The words of a line of a listing.
LISTED = "yes maybe none unsettled floundered again negcycle cut stop".split()
# The numbers by which a call is refused, and by which a search stops.
REFUSED = (*range(1, 14), 20, 32, 36)
STOPPED = tuple(range(21, 30))
REFUSALS = ["refused %d" % n for n in REFUSED]
STOPS = ["stop %d" % n for n in STOPPED]
# By which a book is refused: by both entries, and 36 at the exam desk alone.
OF_BOOKS = (*range(1, 9), 32, 36)
# The sentence that is written below a number.
SENTENCES = {
    1: "a command, an operand or the end is missing", 2: "unknown command", 3: "a clause before a goal, or a literal before a clause",
    4: "unknown flag bit", 5: "a 65th goal, a 257th clause or a 9th literal of a clause", 6: "a literal names no goal",
    7: "bytes after the end", 8: "no goal", 32: "a range with its low end above its high end", 36: "a goal has the same clause twice",
    37: "not plain: a variant, a want or a flag that is not 0, or a range",
    38: 'not levelled: no numbers can be given to the goals so that each "not" leads lower and no other literal higher',
    39: "not text of the form that a book is written in",
}
# The profiles of the oracle's generator whose books are read, and all of them.
PROFILES = "mix plain tiny answers small limits large".split()


class Number(int):
    """The number of a refusal, and the place that is printed with it, if there is one."""

    def __new__(cls, number, place=""):
        made = super().__new__(cls, number)
        made.place = place
        return made


def at(place):
    """The refusal of a book that is not plain, with the first place that is not."""
    return Number(37, place)


def refusal(number):
    """The lines of a refusal: its number, its sentence, and its place."""
    place = getattr(number, "place", "")
    return "refused %d\n%s\n%s" % (number, SENTENCES[number], place and place + "\n")
