"""Compares how our programs read books with how the oracle does, on random books, most of them damaged.

The oracle generates N books and prints of each how it reads it, by the old entry and at the desk. The same books go, in one list, through
the program `reading_tests`, which ends its line with `desk 36` where the desk alone refuses, and, each as the input of a process of its
own, through `inspect`, whose first line is `refused N` or the line of goal 0, and whose last two lines have the place where a clause is
there twice. Of a book that is refused with 6 all that `inspect` prints is compared with what is worked out here of its bytes, by a reader
that knows no refusal (`behind_6`): the book, and the literals that name no goal of it; and so is what it prints of the book with most
words. Last, `inspect` is run where it can't read or can't write, and has to report it on standard error. Status 0 if all agree, and each
number came up with one book in 300.
"""
import collections
import os
import re

from sorgwenad.shared import tree
from sorgwenad.shared.book import CLAUSE, CLAUSE_MARKS, GOAL, GOAL_MARKS, LITERAL_MARKS, NOT, commands, marked, number, numbered
from sorgwenad.shared.command import parser, with_oracle, with_random
from sorgwenad.shared.oracle import find_oracle, random_books, read
from sorgwenad.shared.processes import output_of
from sorgwenad.shared.streams import failures
from sorgwenad.shared.words import OF_BOOKS, SENTENCES

# What the desk returns, behind the words of a book, in the last two lines of inspect.
TWICE = re.compile(r"desk refused 36\ngoal (\d+), clause (\d+): the same as clause (\d+)\n?$")


def want_of(command):
    """What a positive literal or a range wants, behind a slash."""
    ends = [command[i] + 256 * command[i + 1] for i in range(3, len(command) - 1, 2)]
    return "/%d-%d" % tuple(ends) if len(ends) == 2 else "/%d" % ends[0] if ends[0] else ""


def parts_of(data):
    """The goals of a book, each its line and its clauses. A clause is its head, its literals in words, and the goals that they name."""
    goals, clauses = [], []
    for command in commands(data):
        if command[0] == GOAL:
            goals.append(("goal %d" % len(goals) + marked(command[1], GOAL_MARKS), []))
            continue
        # a clause's variant, or the goal that a literal names
        named = number(command, 1)
        if command[0] == CLAUSE:
            clauses.append((numbered(len(goals) - 1, named) + marked(command[3], CLAUSE_MARKS), [], []))
            goals[-1][1].append(clauses[-1])
        else:
            word = "not %d" % named if command[0] == NOT else "%d%s" % (named, want_of(command))
            clauses[-1][1].append(word + marked(command[-1], LITERAL_MARKS))
            clauses[-1][2].append(named)
    return goals


def behind_6(data):
    """What inspect is expected to print of a book that is refused with 6."""
    goals, out = parts_of(data), ["refused 6", SENTENCES[6], "neither entry takes it"]
    for line, own in goals:
        out += [line] + [head + (" :- " + ", ".join(body) if body else "") for head, body, _ in own]
    for g, (_, own) in enumerate(goals):
        for k, (_, _, named) in enumerate(own):
            out += ["goal %d, clause %d, literal %d: no goal %d" % (g, k, j, n) for j, n in enumerate(named) if n >= len(goals)]
    return "".join(line + "\n" for line in out)


def most_words():
    """A book of which inspect prints most: 64 goals, 256 clauses of the last of them, 8 ranges of no goal in each, and every mark."""
    clause = b"\x43\xff\xff\x03" + b"\x52\xff\xff\xff\xff\xff\xff\x01" * 8
    return b"\x47\x03" * 64 + clause * 256 + b"\x45"


def without_place(printed):
    """What the oracle returns for a book, the place left out, which reading_tests does not print."""
    return printed.split(" goal ")[0]


def listed(books):
    """What reading_tests prints of each, as the oracle would print it."""
    given = "".join(":%s\n" % book.hex() for book in books)
    lines = output_of([tree.built("reading_tests")], given.encode()).decode().splitlines()
    return [re.sub(r",.*?(, desk (\d+))?$", lambda m: ", desk refused " + m[2] if m[2] else "", line[2:]) for line in lines]


def inspected(inspect, book):
    """What inspect prints of one: the input is put into a pipe before it starts, for it fits."""
    given, out = os.pipe(), os.pipe()
    os.write(given[1], book)
    os.close(given[1])
    child = os.posix_spawn(inspect, ["inspect"], {}, file_actions=[
        (os.POSIX_SPAWN_DUP2, given[0], 0), (os.POSIX_SPAWN_DUP2, out[1], 1), (os.POSIX_SPAWN_CLOSE, out[0])])
    os.close(given[0])
    os.close(out[1])
    printed = b""
    while some := os.read(out[0], 65536):
        printed += some
    os.close(out[0])
    os.waitpid(child, 0)
    text = printed.decode()
    if text.startswith("refused 6\n") and text != behind_6(book):
        return "refused 6, and wrongly: " + text
    if not text.startswith("goal 0"):
        return text.split("\n")[0]
    twice = TWICE.search(text)
    return "accepted" + (", desk refused 36 goal %s clause %s as %s" % twice.groups() if twice else "")


def report(name, books, wanted, found):
    wrong = [i for i, w in enumerate(wanted) if i >= len(found) or found[i] != w]
    print("%s: %d books, %d agree" % (name, len(wanted), len(wanted) - len(wrong)))
    for i in wrong[:5]:
        print("  %s: the oracle %s, %s %s" % (books[i].hex()[:200], wanted[i], name, found[i] if i < len(found) else "nothing"))
    return not wrong and len(found) == len(wanted)


def main(words):
    a = with_oracle(with_random(parser(__doc__), 300000, "random books")).parse_args(words)
    oracle, inspect = find_oracle(a.oracle), tree.built("inspect")
    books = random_books(oracle, a.seed, a.count)
    if not books:
        tree.stop("no books to compare")
    wanted = read(oracle, books)
    counts = collections.Counter(map(without_place, wanted))
    for answer, many in sorted(counts.items()):
        print("%8d %s" % (many, answer))
    word = lambda n: "accepted, desk refused 36" if n == 36 else "refused %d" % n
    rare = [n for n in OF_BOOKS if 300 * counts[word(n)] < len(books)]
    if rare:
        print("too few books are refused by: %s" % ", ".join(map(str, rare)))
    right = report("reading_tests", books, list(map(without_place, wanted)), listed(books))
    right = report("inspect", books, wanted, [inspected(inspect, book) for book in books]) and right
    most = most_words()
    print("inspect: %d bytes of a book with most words" % len(behind_6(most)))
    right = inspected(inspect, most) == "refused 6" and right
    return failures(inspect) and right and not rare
