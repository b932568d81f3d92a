"""Random damage: to scripts of calls, and to texts for a Prolog with tabling (order 13)."""
import re

from sorgwenad.shared.script import is_book


# Scripts.

ODD = [b"\0", b"\r", b"\t", b" ", b"  ", b"\n", b"\n\n", b"#", b"-", b"+", b"x", b"clock", b"book", b"desk"]
ODD += [b"\xff", b"\xc3", b"\xc3\xa9", b"\xed\xa0\x80"]


def damage_line(chance, line):
    """One line damaged. No number gets longer, so that no search gets much longer either."""
    if not line:
        return chance.choice(ODD)
    at = chance.randrange(len(line))
    here = line[at:at + 1]
    kind = chance.randrange(8)
    if kind == 0:
        return line[:at]
    if kind == 1:
        return line[:at] + line[at + 1:]
    if kind == 2:
        return line[:at] + chance.choice(ODD) + line[at:]
    if kind in (3, 4) and here.isalnum():
        other = chance.choice(b"0123456789" if here.isdigit() and not is_book(line) else b"0123456789ABCDEFabcdef")
        return line[:at] + bytes([other]) + line[at + 1:]
    if kind == 5:
        return line + chance.choice([b" 0", b" 1", b" ", b"\t", b"\r", b" #"])
    if kind == 6 and chance.randrange(40) == 0:
        return line[:at] + chance.choice([b"4700", b"a", b" ", b"\x80"]) * chance.randrange(1, 12000) + line[at:]
    return line[:at] + bytes([chance.randrange(128, 256)]) + line[at + 1:]


def other_entry(line):
    """A book by the other entry."""
    other = {b"book": b"desk", b"desk": b"book"}.get(line[:4])
    return other + line[4:] if other else line


def damaged_script(chance, script):
    """A script damaged in one to three places: a line, the entry of a book, or the order of lines."""
    lines = script.split(b"\n")
    for _ in range(chance.randrange(1, 4)):
        at = chance.randrange(len(lines))
        kind = chance.randrange(11)
        if kind == 0:
            del lines[at]
            lines = lines or [b""]
        elif kind == 1:
            lines.insert(at, lines[chance.randrange(len(lines))])
        elif kind == 2:
            other = chance.randrange(len(lines))
            lines[at], lines[other] = lines[other], lines[at]
        elif kind == 3:
            at = chance.randrange(min(2, len(lines)))
            lines[at] = other_entry(lines[at])
        else:
            # the book, which has two lines, is hit as often as all else
            at = chance.randrange(min(2, len(lines))) if kind < 7 else at
            lines[at] = damage_line(chance, lines[at])
    return b"\n".join(lines)


# Texts: bytes, lines, numbers, and what brings a text of the form to a limit or past it.

SIGNS = b"\0\t\n\r !%()+,-./0123456789:;GTaeglnot~\x80\xff"
NAME = re.compile(rb"g(\d+)")
LITERAL = re.compile(rb"(?:tnot\(g\d+\)|g\d+)(?=[,.])")


def a_byte(chance, text):
    """Changed, dropped, doubled or put in."""
    at = chance.randrange(len(text) + 1)
    sign = bytes([chance.choice(SIGNS) if chance.randrange(4) else chance.randrange(256)])
    return text[:at] + chance.choice((sign, b"", text[at:at + 1] * 2, sign + text[at:at + 1])) + text[at + 1:]


def a_blank(chance, text):
    """Doubled, dropped, or another."""
    blanks = [at for at, sign in enumerate(text) if sign in b" \n"]
    if not blanks:
        return text
    at = chance.choice(blanks)
    here = text[at:at + 1]
    return text[:at] + chance.choice((here * 2, b"", b"\t", b"\r\n" if here == b"\n" else b"\xa0", b" \n")) + text[at + 1:]


def an_end(chance, text):
    """The last newline, or more."""
    return text[:chance.choice((-1, -1, -1, -2, -3, chance.randrange(len(text) + 1), 0))]


def lines(chance, text):
    """Swapped, dropped, doubled, moved, or all of a kind dropped."""
    some = text.split(b"\n")[:-1]
    if not some:
        return text + b"\n"
    at, other = chance.randrange(len(some)), chance.randrange(len(some))
    kind = chance.randrange(7)
    if kind == 0:
        some[at], some[other] = some[other], some[at]
    elif kind == 1:
        del some[at]
    elif kind in (2, 3):
        some.insert(at if kind == 2 else at + 1, some[at])
    elif kind == 4:
        some.insert(other, some.pop(at))
    else:
        some = [line for line in some if line.startswith(b":") == (kind == 5)]
    return b"".join(line + b"\n" for line in some)


def a_number(chance, text):
    """Larger, by one, by a digit, or by what a machine's number can't hold; or with a 0 before it."""
    found = list(NAME.finditer(text))
    if not found:
        return text
    one = chance.choice(found)
    number = int(one.group(1))
    large = number + 2 ** chance.choice((6, 8, 16, 31, 32, 63, 64, 128))
    near = (number + 1, max(0, number - 1), 10 * number + 7, chance.randrange(66))
    other = chance.choice((*near, large, large, 10 ** chance.randrange(18, 400)))
    digits = b"0%d" % number if chance.randrange(8) == 0 else b"%d" % other
    return text[:one.start(1)] + digits + text[one.end(1):]


def a_literal(chance, text):
    """Again, up to nine times, with the other sign, or not at all."""
    found = [one for one in LITERAL.finditer(text) if text[one.start() - 1:one.start()] == b" "]
    if not found:
        return text
    one = chance.choice(found)
    word = one.group()
    other = word[5:-1] if word.startswith(b"tnot") else b"tnot(" + word + b")"
    instead = chance.choice((other, b", ".join([word] * chance.randrange(2, 10)), other + b", " + word))
    if chance.randrange(4) == 0 and text[one.end():one.end() + 2] == b", ":
        return text[:one.start()] + text[one.end() + 2:]
    return text[:one.start()] + instead + text[one.end():]


def more_tables(chance, text):
    """Table lines behind those that are there, for one goal more or up to the 66th, or far past it."""
    count = text.count(b":- table")
    more = range(count, chance.choice((count + 1, 64, 65, 66, 300)))
    rules = text.find(b"\ng") + 1 or len(text)
    return text[:rules] + b"".join(b":- table g%d/0.\n" % goal for goal in more) + text[rules:] if count else text


def more_rules(chance, text):
    """The rules again and again, each behind itself, past the 256th or not so far."""
    times = chance.choice((2, 3, 20, 260))
    return b"".join(line + b"\n" if line.startswith(b":") else (line + b"\n") * times for line in text.split(b"\n")[:-1])


# Each with how often it comes.
KINDS = {a_byte: 6, a_blank: 2, an_end: 2, lines: 6, a_number: 6, a_literal: 5, more_tables: 1, more_rules: 1}


def damaged_text(chance, text, other):
    """A text damaged in one to three places; now and then another one behind it, or nothing done to it."""
    kind = chance.randrange(30)
    if kind == 0:
        return text
    if kind == 1:
        return text + other if chance.randrange(3) else chance.choice((b"", other + text[chance.randrange(len(text)):]))
    for damage in chance.choices(list(KINDS), list(KINDS.values()), k=chance.choice((1, 1, 1, 2, 3))):
        text = damage(chance, text)
    return text
