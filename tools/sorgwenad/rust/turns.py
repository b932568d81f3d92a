"""Compares searches that are made a turn at a time, by the functions that are lent a search by &mut, with the Rust's.

Random books of each profile, N of each, go to `in_place_run`, a process each. It searches for the first answer of goal 0: a search is put
back after three turns, and those after it after 1,000 or where they end in QuantumExceeded, until one ends otherwise, the table has
floundered, or 10,000 steps are done. After each put-back it asks for a turn, which must stop with 0 and change nothing. The Rust makes
these searches with the same limits, one call each. Each of them must come to the same, after as many turns, and leave the clock at the same
number. A book is left out if the old entry refuses it or its goal 0 is floundered: no search begins there. Status 0 only if all agree.
"""
import collections
import re

from sorgwenad.shared import tree
from sorgwenad.shared.book import ranges_in
from sorgwenad.shared.command import parser, with_oracle, with_random
from sorgwenad.shared.oracle import books_of_scripts, find_oracle, read
from sorgwenad.shared.processes import output_of
from sorgwenad.shared.script import makes
from sorgwenad.shared.words import PROFILES

FIRST, NEXT = 3, 1000
# How a turn ends, in the words of a search.
WORDS = {"ok": ("yes", "maybe", "invalid"), "none": ("none",), "again": ("again",), "negcycle": ("negcycle",)}


def books(oracle, seed, count):
    found = [data for profile in PROFILES for data in books_of_scripts(oracle, seed, count, profile) if data]
    return [data for data, one in zip(found, read(oracle, found)) if one.startswith("accepted") and not data[1] & 2]


def searches(text):
    """Of each search that came to its end: its result, as the Rust may print it, its turns and the clock."""
    found, turns, before = [], 0, ""
    for line in text.splitlines():
        flow, clock = re.fullmatch(r"(.+) depth \d+ clock (\d+)", line).groups()
        was, before = before, line
        if was.startswith("cut "):
            # with nothing on the stack there is no turn, and nothing changes; else no search of the Rust is like it
            if line != "stop 0" + was[3:]:
                found.append((("a turn after a cut",), 0, clock))
        elif flow == "continue":
            turns += 1
        elif flow == "cut":
            # the cut of a search that ended by itself is the put-back alone
            if turns:
                found.append((("cut",), turns, clock))
            turns = 0
        else:
            stopped = flow.startswith("stop")
            found.append(((flow,) if stopped else WORDS[flow], turns + (not stopped), clock))
            turns = 0
    return found


def asked(data, ended):
    """The script of the same searches."""
    limits = [FIRST] + [NEXT] * (len(ended) - 1)
    return [makes(data), "open 0"] + ["search 0 0 %d" % n for n in limits[:len(ended)]]


def replied(oracle, scripts):
    """What the Rust returns for the searches of each script: the result without a variant, the turns and the clock."""
    lines = output_of([oracle, "run"], ("\n".join(line for s in scripts for line in s) + "\n").encode()).decode().split("\n")
    at, found = 0, []
    for script in scripts:
        pairs = [(lines[at + 2 * i], lines[at + 2 * i + 1]) for i in range(len(script))]
        at += 2 * len(script)
        rows = []
        for result, state in pairs[2:]:
            word, turns = re.fullmatch(r"(stop \d+|refused \d+|\w+)(?: \d+)?(?: turns (\d+))?", result).groups()
            rows.append((word, int(turns or -1), re.match(r"state clock (\d+)", state).group(1)))
        found.append(rows)
    return found


def main(words):
    p = with_oracle(with_random(parser(__doc__), 200, "books of each profile"))
    p.add_argument("--program", metavar="PATH", help="a program in place of the proved in_place_run")
    a = p.parse_args(words)
    oracle, program = find_oracle(a.oracle), tree.built("in_place_run", a.program)
    some = books(oracle, a.seed, a.count)
    ours = [searches(output_of([program], data, 60).decode()) for data in some]
    theirs = replied(oracle, [asked(data, ended) for data, ended in zip(some, ours)])
    counts, turns, wrong = collections.Counter(), 0, 0
    for data, one, other in zip(some, ours, theirs):
        same = len(one) == len(other) and all(w in words and t == n and c == k for (words, t, c), (w, n, k) in zip(one, other))
        counts.update(w for w, _, _ in other)
        turns += sum(max(n, 0) for _, n, _ in other)
        if not same or not one:
            wrong += 1
            print("DIFFERS: book %s\nthe Rust:     %s\nin_place_run: %s" % (data.hex(), other, one))
    print("   ".join("%s %d" % pair for pair in sorted(counts.items())))
    ranges = sum(ranges_in(data) > 0 for data in some)
    print("%d books, %d of them with ranges, %d searches, %d turns by &mut: %s" % (
        len(some), ranges, sum(counts.values()), turns, "%d books differ" % wrong if wrong else "no difference"))
    return not wrong and ranges > 0
