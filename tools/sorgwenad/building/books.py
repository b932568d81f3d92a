"""Books that the case files build from a few words: goals with facts, chains, ladders, rings, and the largest ones."""
import re

from sorgwenad.shared.book import CLAUSE_MARKS, GOAL_MARKS, LITERAL_MARKS, encode, lines, literal, marked, numbered, ranged, slashed, u16

# Books of document 01 that several case files use.
P1 = "47 00 43 00 00 00 50 01 00 00 00 00 4E 02 00 00 47 00 43 01 00 00 43 02 00 00 47 00 43 00 00 00 50 02 00 00 00 00 45"
P3 = ["goal 0 [coinductive]", "0 :- 1", "goal 1 [coinductive]", "1 :- 0"]
P7 = ["goal 0", "0 :- 1", "0/2", "goal 1", "1/1 [cannot prove]"]
P8 = lines("goal 0", "0 :- 1", "goal 1", "1")
# p3 with a variant, so that goal 1 can have other answers beside the one that is skipped
SKIPS = ["goal 0 [coinductive]", "0 :- 1", "goal 1 [coinductive]", "1/1 :- 0"]


def facts(goal, count, first=1):
    """A goal with so many facts, each of a variant of its own."""
    return ["goal %d" % goal] + ["%d/%d" % (goal, first + i) for i in range(count)]


def ladder(first, goals):
    """Each goal rests on the next by two clauses, the last one on the first: no search ends by its last turn."""
    out = []
    for goal in range(first, first + goals):
        below = goal + 1 if goal + 1 < first + goals else first
        out += ["goal %d" % goal, "%d :- %d" % (goal, below), "%d :- %d, %d" % (goal, below, below)]
    return out


def of_goals(goals, *clauses):
    """So many goals, each with those of the clauses whose head it is."""
    head = lambda clause: slashed(clause.partition(":-")[0])[0]
    return encode(lines(*(["goal %d" % g] + [c for c in clauses if head(c) == g] for g in range(goals))))


def chain(n):
    """n goals, each of which rests on the next; the last is a fact."""
    return "\n".join("goal %d\n%d%s" % (g, g, " :- %d" % (g + 1) if g + 1 < n else "") for g in range(n))


def wide(n):
    """A clause with n literals, on n facts."""
    below = range(1, n + 1)
    return "goal 0\n0 :- %s\n" % ", ".join(map(str, below)) + "\n".join("goal %d\n%d" % (g, g) for g in below)


def largest(of_literal):
    """Every goal, clause and literal that there may be; a literal by the goal that it names, and a variant."""
    lines = []
    for g in range(64):
        lines.append("goal %d%s" % (g, marked(g, GOAL_MARKS)))
        for c in range(4 * g, 4 * g + 4):
            body = (of_literal((c + j) % 64, 256 * j + c) + marked(j % 2, LITERAL_MARKS) for j in range(8))
            lines.append("%s%s :- %s" % (numbered(g, 257 * c), marked(c, CLAUSE_MARKS), ", ".join(body)))
    return "\n".join(lines)


LARGEST = largest(lambda goal, low: ranged(goal, low, 65535 - low))


def alike(lasts):
    """A clause of goal 0 for each: eight ranges, of which the last one alone is its own."""
    rest = [ranged(0, 1, 2)] * 7
    return "goal 0\n" + "\n".join("0 :- " + ", ".join(rest + [ranged(0, last, 256)]) for last in lasts)


def not_the_next(last):
    """64 goals, 256 clauses of 8 literals, no two of a goal equal: each goal rests on "not" the next one, on the one behind that, on "not"
    the third and so on, since every second goal holds, and its clauses have the same literals in another order. The last goal has one
    clause, with a literal eight times."""
    out = []
    for g in range(63):
        ahead = ["not %d" % n if (n - g) % 2 else str(n) for n in range(g + 1, min(g + 8, 63) + 1)]
        ahead += ahead[:1] * (8 - len(ahead))
        out.append("goal %d" % g)
        out += ["%d :- %s" % (g, ", ".join(ahead[c:] + ahead[:c])) for c in range(5 if g < 6 else 4 if g < 62 else 1)]
    return "\n".join(out + ["goal 63", "63 :- " + ", ".join([last] * 8)])


def largest_undefined():
    """The largest book, in which the last literal of each clause names a goal that is not there: the next one, or one whose low byte is
    that of a goal which is."""
    lines = []
    for n, line in enumerate(LARGEST.splitlines()):
        head, comma, last = line.rpartition(", ")
        lines.append(head + comma + re.sub(r"^\d+", str((64, 256 + n % 64)[n % 2]), last) if comma else line)
    return "\n".join(lines)


def to_be_mended():
    """Goals 0 to 4, with literals that stand behind a later goal than their clause's: of a clause that goes and of one that stays."""
    clause = lambda variant, *literals: b"\x43" + u16(variant) + b"\0" + b"".join(map(literal, literals))
    goal, undefined = b"\x47\0", clause(2, "not 9")
    first = goal + 2 * clause(1, "2/3-7") + clause(2) + goal + literal("1") + goal + literal("not 9")
    return first + undefined + clause(3) + goal + literal("not 1") + literal("3/1") + goal + 2 * undefined + 2 * clause(3) + b"\x45"


def eight_ranges(variants):
    """A clause whose literals want an eighth each of so many facts."""
    ends = [variants * n // 8 for n in range(9)]
    wanted = [ranged(1, low + 1, high) for low, high in zip(ends, ends[1:])]
    return "\n".join(["goal 0", "0/9 :- " + ", ".join(wanted), "goal 1"] + ["1/%d" % v for v in range(1, variants + 1)])


def three_to_seven():
    variants = (2, 3, 7, 8, 0)
    rest = ["goal %d\n%d :- %s" % (g, g, ranged(g + 5, 3, 7)) for g in range(5)]
    return "\n".join(rest + ["goal %d\n%s" % (g, numbered(g, v)) for g, v in enumerate(variants, 5)])


def release(goals):
    """The book of a release paper, from what each goal stands for and its clauses."""
    return lines(*(["goal %d" % goal, *clauses] for goal, (_, *clauses) in enumerate(goals)))


def circle(goals, clauses, coinductive=False, want=""):
    """A ring of goals; the clauses besides, so many of each goal, wait on the goal itself, or on goal 0."""
    mark = " [coinductive]" if coinductive else ""
    lines = []
    for goal in range(goals):
        lines += ["goal %d%s" % (goal, mark), "%d :- %d%s" % (goal, (goal + 1) % goals, want)]
        lines += ["%d/%d :- %d%s" % (goal, n + 1, goal if n % 2 else 0, want) for n in range(clauses - 1)]
    return "\n".join(lines)


def fan():
    """One goal with 193 clauses, all of which wait on the first of a chain of 63 goals that comes back to it."""
    lines = ["goal 0"] + ["0/%d :- 1" % n for n in range(193)]
    for goal in range(1, 64):
        lines += ["goal %d" % goal, "%d :- %d" % (goal, (goal + 1) % 64)]
    return "\n".join(lines)
