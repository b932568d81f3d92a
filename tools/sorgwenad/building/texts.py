"""Cases of text for a Prolog with tabling: a title, the text, and what is expected: the clauses of its book as a tuple, in the notation, or
the number by which it is refused."""
from sorgwenad.shared.plain import tabled


def taken(goals, lines, clauses):
    """A text that has a book with so many goals and these clauses."""
    return "; ".join(lines)[:80] or "no rule", tabled(goals, *lines), (goals, clauses)


def below(number, *lines, goals=2):
    """So many table lines and these rules: refused."""
    return "; ".join(lines)[:80], tabled(goals, *lines), number


def whole(number, *texts):
    return [(repr(one)[:80], one, number) for one in texts]


def body(literals, word="g0"):
    return "g0 :- " + ", ".join([word] * literals) + "."


def named(number, goals=1):
    """A number that has no table line, as a literal of each kind, first and last."""
    word = "g%d" % number
    rules = ["g0 :- %s.", "g0 :- tnot(%s).", "g0 :- g0, %s, g0.", "g0 :- g0, tnot(%s)."]
    return [below(6, rule % word, goals=goals) for rule in rules]


def different(count, head="g0", words=("g0", "tnot(g0)"), bits=8):
    """So many rules of a goal, no two of them alike: each literal is one of two words, by the digits of a number."""
    return ["%s :- %s." % (head, ", ".join(words[n >> bit & 1] for bit in range(bits))) for n in range(count)]


def in_notation(rules):
    """Rules whose goals are one digit, as clauses."""
    return tuple(rule.rstrip(".").replace("tnot(", "not ").replace(")", "").replace("g", "") for rule in rules)


def largest():
    """The longest text that is accepted: 64 goals, 256 rules of 8 "not"s, all of two digits, no two rules of a head alike."""
    rules, clauses = [], []
    for n in range(256):
        head, named = 10 + n * 54 // 256, [10 + (5 * n + at) % 54 for at in range(8)]
        rules.append("g%d :- %s." % (head, ", ".join("tnot(g%d)" % one for one in named)))
        clauses.append("%d :- %s" % (head, ", ".join("not %d" % one for one in named)))
    return "the longest text", tabled(64, *rules), (64, tuple(clauses))


LARGEST = largest()[1]


# Texts of more than is kept. What is not of the form comes last, so that all of it must be read.
def long_texts(bytes_of_it, small):
    """Of about so many bytes."""
    digits = "1" + "0" * bytes_of_it
    rules, literals = bytes_of_it // 9, bytes_of_it // 4
    return [
        ("many digits of a literal", tabled(1, "g0 :- g%s." % digits), 6),
        ("many digits of a not", tabled(1, "g0 :- tnot(g%s)." % digits), 6),
        ("many digits of a literal, then a stray byte", tabled(1, "g0 :- g%s." % digits) + "x", 39),
        ("many zeros", tabled(1, "g0 :- g%s." % ("0" * bytes_of_it)), 39), ("many digits and no end", tabled(1)[:-1] + digits, 39),
        ("many digits of a head", tabled(1, "g%s." % digits), 39),
        ("many digits of a table line", tabled(1) + ":- table g%s/0.\n" % digits, 39),
        ("many rules", tabled(1, *["g0 :- g0."] * rules), 5),
        ("many rules, then a stray byte", tabled(1, *["g0 :- g0."] * rules) + "g", 39),
        ("many rules, then a head below", tabled(2, "g1.", *["g1 :- g0."] * rules, "g0."), 39),
        ("many table lines", tabled(bytes_of_it // 20), 5), ("many table lines, then a head too high", tabled(20000, "g20000."), 39),
        ("many literals", tabled(1, body(literals)), 5),
        ("many literals, the last of no goal", tabled(1, body(literals)[:-1] + ", g1."), 5),
        ("many literals, then a blank", tabled(1, body(literals)[:-1] + ", ."), 39),
        ("many blanks", " " * bytes_of_it, 39), ("many newlines", "\n" * bytes_of_it, 39),
        ("many letters", tabled(1) + "g" * bytes_of_it, 39),
        ("many texts", small * (bytes_of_it // len(small)), 39),
        ("the longest text, and its last rule many times", LARGEST + LARGEST.splitlines(True)[-1] * (bytes_of_it // 95), 5),
    ]
