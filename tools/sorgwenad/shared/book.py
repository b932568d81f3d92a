"""Books: their bytes, and the notation in which they are written by hand.

The notation is the one in which `inspect` prints a book:

    goal 0 [coinductive] [floundered]             a goal, numbered from 0 upward, with its marks
    0/2 [cannot prove] [outsized] :- 1, not 2     a clause of the goal above it: its variant behind a slash (none: 0), its marks, its
                                                  literals; with no `:-` it is a fact
    1/3 [outsized]                                a literal that wants variant 3 of goal 1 (no slash: any), with its mark
    1/3-7 [outsized]                              a literal that wants a variant from 3 to 7
    not 2 [outsized]                              a "not" literal

Nothing here keeps to the limits of a book, so that the books which are refused can be written too.
"""
import collections
import re

# The commands.
GOAL, CLAUSE, WANT, RANGE, NOT, END = 0x47, 0x43, 0x50, 0x52, 0x4E, 0x45
# The bytes of each command but the end, its operands included.
LENGTHS = {GOAL: 2, CLAUSE: 4, WANT: 6, RANGE: 8, NOT: 4}
# The marks, from bit 0 upward.
GOAL_MARKS = ("coinductive", "floundered")
CLAUSE_MARKS = ("cannot prove", "outsized")
LITERAL_MARKS = ("outsized",)

Goal = collections.namedtuple("Goal", "coinductive floundered clauses")
Clause = collections.namedtuple("Clause", "variant cannot_prove outsized literals")
# The ends of what a "not" wants are None.
Literal = collections.namedtuple("Literal", "positive goal low high outsized")


# From the notation to bytes.

def u16(n):
    return bytes([n % 256, n // 256])


def flags(text, marks):
    """The byte of the marks that stand in square brackets."""
    found = re.findall(r"\[([^\]]*)\]", text)
    for mark in found:
        if mark not in marks:
            raise ValueError("no such mark here: " + mark)
    return bytes([sum(1 << i for i, mark in enumerate(marks) if mark in found)])


def slashed(text):
    """`1/3` as (1, 3), `1` as (1, 0)."""
    goal, _, number = text.split("[")[0].strip().partition("/")
    return int(goal), int(number or "0")


def literal(text):
    """The bytes of a literal."""
    text = text.strip()
    if text.startswith("not "):
        goal, want = slashed(text[4:])
        if want:
            raise ValueError('a "not" wants no variant: ' + text)
        return bytes([NOT]) + u16(goal) + flags(text, LITERAL_MARKS)
    ends = re.match(r"(\d+)/(\d+)-(\d+)\s*(\[|$)", text)
    if ends:
        return bytes([RANGE]) + b"".join(u16(int(n)) for n in ends.group(1, 2, 3)) + flags(text, LITERAL_MARKS)
    goal, want = slashed(text)
    return bytes([WANT]) + u16(goal) + u16(want) + flags(text, LITERAL_MARKS)


def encode(text):
    """The bytes of a book in the notation."""
    out, goals = b"", 0
    for line in text.strip().splitlines():
        line = line.strip()
        if line.startswith("goal "):
            if slashed(line[5:]) != (goals, 0):
                raise ValueError("goals are numbered from 0 upward: " + line)
            out += bytes([GOAL]) + flags(line, GOAL_MARKS)
            goals += 1
            continue
        head, _, body = line.partition(":-")
        goal, variant = slashed(head)
        if goal != goals - 1:
            raise ValueError("a clause stands below its goal: " + line)
        out += bytes([CLAUSE]) + u16(variant) + flags(head, CLAUSE_MARKS)
        for part in body.split(",") if body else []:
            out += literal(part)
    return out + bytes([END])


def in_bytes(text):
    """The bytes of a book: of the notation, of hex digits, or as they stand."""
    if isinstance(text, bytes):
        return text
    return bytes.fromhex(text) if re.fullmatch(r"[0-9A-F ]*", text) else encode(text)


def lines(*parts):
    """The text of a book from lines and lists of lines."""
    return "\n".join(line for part in parts for line in ([part] if isinstance(part, str) else part))


def numbered(goal, number):
    """(1, 3) as `1/3`, (1, 0) as `1`."""
    return "%d/%d" % (goal, number) if number else str(goal)


def ranged(goal, low, high):
    """(1, 3, 7) as `1/3-7`."""
    return "%d/%d-%d" % (goal, low, high)


def marked(number, marks):
    return "".join(" [%s]" % mark for i, mark in enumerate(marks) if number >> i & 1)


# From bytes to the notation.

def commands(data):
    """The commands of a book that is read, up to its end, each with its operands."""
    at = 0
    while data[at] != END:
        command = data[at:at + LENGTHS[data[at]]]
        yield command
        at += len(command)


def number(data, at):
    """The number of two bytes."""
    return data[at] + 256 * data[at + 1]


def ranges_in(data):
    """How many literals of a book that is read are ranges."""
    return sum(command[0] == RANGE for command in commands(data))


def literal_of(command):
    """A literal from its command and operands."""
    goal, outsized = number(command, 1), command[-1] == 1
    if command[0] == NOT:
        return Literal(False, goal, None, None, outsized)
    if command[0] == RANGE:
        return Literal(True, goal, number(command, 3), number(command, 5), outsized)
    want = number(command, 3)
    return Literal(True, goal, want, want or 65535, outsized)


def goals_of(data):
    """The goals of a book that is read. A literal belongs to the last clause, even where a goal came between."""
    goals, clause = [], None
    for command in commands(data):
        if command[0] == GOAL:
            goals.append(Goal(bool(command[1] & 1), bool(command[1] & 2), []))
        elif command[0] == CLAUSE:
            clause = Clause(number(command, 1), bool(command[3] & 1), bool(command[3] & 2), [])
            goals[-1].clauses.append(clause)
        else:
            clause.literals.append(literal_of(command))
    return goals


def literal_text(one):
    marks = marked(one.outsized, LITERAL_MARKS)
    if not one.positive:
        return "not %d%s" % (one.goal, marks)
    if (one.low, one.high) == (0, 65535):
        return "%d%s" % (one.goal, marks)
    return ("%d/%d%s" % (one.goal, one.low, marks)) if one.low == one.high > 0 else ranged(one.goal, one.low, one.high) + marks


def text_of(goals):
    """The notation, but that a range which a want can express is shown as that want."""
    out = []
    for g, goal in enumerate(goals):
        out.append("goal %d%s" % (g, marked(goal.coinductive + 2 * goal.floundered, GOAL_MARKS)))
        for c in goal.clauses:
            head = numbered(g, c.variant) + marked(c.cannot_prove + 2 * c.outsized, CLAUSE_MARKS)
            out.append(head + (" :- " + ", ".join(map(literal_text, c.literals)) if c.literals else ""))
    return "\n".join(out)
