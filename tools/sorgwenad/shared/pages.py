"""The pages on which `listing` prints, both ways: fields, one space apart, as pages, and pages as fields. And the fields from the text of
document 01, which is the Rust's and has `none` where the listing has `unsettled` (change request 5).

A page has 60 lines of 26 characters and a newline, 1,620 bytes. A line has the goal, the index, the word, and the variant or the number of
a stop, in columns of 3, 5, 10 and 5 with a space between them; the word is at the left of its column, the numbers at the right. Blank lines
fill up the last page alone, which has at least one other line. A paper that is refused has no page: `refused N`, as in document 01.
"""
import re

from sorgwenad.shared.words import LISTED

LINES, WIDTH = 60, 26
PAGE = LINES * (WIDTH + 1)
BLANK = b" " * WIDTH
FILLING = BLANK + b"\n"
# The words of a line: those with a number behind them, and those without.
NUMBERED = (b"yes", b"maybe", b"stop")
BARE = tuple(word.encode() for word in LISTED if word.encode() not in NUMBERED)

ANSWERS = (b"yes", b"maybe")
NUMBER = rb" *(0|[1-9][0-9]*)"
# A column: what it has, where it begins and ends, and how that stands in it.
COLUMNS = (("goal", 0, 3, NUMBER), ("index", 4, 9, NUMBER), ("word", 10, 20, rb"([a-z]+) *"), ("number", 21, 26, NUMBER + rb"| *"))


class NotPages(Exception):
    """What is not as pages must be, and where."""


def settled(text):
    """The text of document 01 as the fields of the listing: a none is unsettled behind an answer of its goal that was skipped. A peek's
    index rises by the answers that it skips, and by nothing else; so one was skipped where the index is above the number of answers listed.
    `oracle skips` counts them (`tools/run rust skips`)."""
    if text.startswith(b"refused"):
        return text
    out, goal, answers = [], None, 0
    for words in (line.split(b" ") for line in text.splitlines()):
        if words[0] != goal:
            goal, answers = words[0], 0
        if words[2] == b"none" and int(words[1]) > answers:
            words[2] = b"unsettled"
        answers += words[2] in ANSWERS
        out.append(b" ".join(words) + b"\n")
    return b"".join(out)


def paged(text):
    """Fields as pages. A field that is wider than its column makes a line that is too long."""
    if text.startswith(b"refused"):
        return text
    lines = [b"%3s %5s %-10s %5s" % (*line.split(b" "), b"")[:4] for line in text.splitlines()]
    return b"".join(line + b"\n" for line in lines + [BLANK] * (-len(lines) % LINES))


def fields(data):
    """Pages as fields; NotPages where they are not just as they must be."""
    if re.fullmatch(rb"refused [1-9][0-9]*\n", data):
        return data
    lines = lines_of(data)
    last = max((n for n, line in enumerate(lines, 1) if line != BLANK), default=0)
    if len(lines) - last >= LINES:
        raise NotPages("page %d has blank lines alone" % (len(lines) // LINES))
    return b"".join(line_fields(line, place(n)) + b"\n" for n, line in enumerate(lines[:last]))


def place(n):
    return "page %d, line %d" % (n // LINES + 1, n % LINES + 1)


def lines_of(data):
    """The lines of whole pages, each as wide as it must be."""
    if not data:
        raise NotPages("there is no page")
    *lines, rest = data.split(b"\n")
    for n, line in enumerate(lines):
        if len(line) != WIDTH:
            raise NotPages("%s: %d characters: %s" % (place(n), len(line), line.decode(errors="replace")))
    if rest:
        raise NotPages("%s: no newline behind: %s" % (place(len(lines)), rest.decode(errors="replace")))
    if len(lines) % LINES:
        raise NotPages("page %d: %d lines" % (len(lines) // LINES + 1, len(lines) % LINES))
    return lines


def line_fields(line, where):
    """The fields of a line, one space apart."""
    def wrong(what):
        raise NotPages("%s: %s: %s" % (where, what, line.decode(errors="replace")))
    if line == BLANK:
        wrong("blank, with lines behind it")
    found = []
    for name, begins, ends, form in COLUMNS:
        printed = re.fullmatch(form, line[begins:ends])
        if not printed:
            wrong("no %s in columns %d to %d" % (name, begins + 1, ends))
        if line[ends:ends + 1] not in (b" ", b""):
            wrong("no space in column %d" % (ends + 1))
        found.append(printed.group(1) or b"")
    if found[2] not in NUMBERED + BARE:
        wrong("no such word")
    if bool(found[3]) != (found[2] in NUMBERED):
        wrong("a number behind a word that has none" if found[3] else "no number behind the word")
    return b" ".join(found).rstrip()


def in_lines(fields):
    return (fields.replace("; ", "\n") + "\n").encode()
