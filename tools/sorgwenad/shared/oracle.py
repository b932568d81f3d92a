"""The oracle: the Rust as it was published, with a command line around it (oracle/README.md). Found, built where it is missing, and run."""
import os
import re
import shutil
import subprocess
import sys

from sorgwenad.shared import tree
from sorgwenad.shared.processes import Broken, output_of
from sorgwenad.shared.words import Number


def find_oracle(path=None):
    """The oracle's program, or the one at a path. It is built where there is none."""
    if path:
        return tree.program(path, "(cd oracle && cargo build --release --offline)")
    target = os.environ.get("CARGO_TARGET_DIR", os.path.join(tree.ROOT, "oracle", "target"))
    there = os.path.join(target, "release", "oracle")
    if not os.access(there, os.X_OK) and shutil.which("cargo"):
        print("the oracle is built: (cd oracle && cargo build --release --offline)", file=sys.stderr, flush=True)
        subprocess.run(["cargo", "build", "--release", "--offline", "--quiet"], cwd=os.path.join(tree.ROOT, "oracle"))
    return tree.program(there, "(cd oracle && cargo build --release --offline)")


# Input that it generates.

def random_books(oracle, seed, count, kind="damaged"):
    """Random books of a kind. A book may have no bytes, so that its line is empty."""
    return [bytes.fromhex(line) for line in output_of([oracle, "books", str(seed), str(count), kind], b"").decode().split("\n")[:-1]]


def random_script(oracle, seed, count, profile):
    """The random scripts of a profile, as one text."""
    return output_of([oracle, "gen", str(seed), str(count), profile], b"")


def books_of_scripts(oracle, seed, count, profile, entries=("book ",)):
    """The books of a profile's random scripts, in their order."""
    lines = random_script(oracle, seed, count, profile).decode().splitlines()
    return [bytes.fromhex(line[5:].partition("clock")[0]) for line in lines if line.startswith(entries)]


def of_profiles(oracle, seed, count, profiles):
    """So many books of the scripts of all these profiles, each with its profile's name."""
    share, found = -(-count // len(profiles)), []
    for profile in profiles:
        found += [("of " + profile, data) for data in books_of_scripts(oracle, seed, share, profile)[:share]]
    return found[:count]


def plain_books(oracle, seed, count):
    """So many plain levelled books that the desk accepts; it refuses about every second random one."""
    made = random_books(oracle, seed, 3 * count, "levelled")
    return [data for data, answer in zip(made, read(oracle, made)) if answer == "accepted"][:count]


# What it returns for given books and texts.

def asked(some):
    """Books or texts as the oracle reads many of them: a line of hex digits each."""
    return "".join(data.hex() + "\n" for data in some).encode()


def read(oracle, books):
    """What the Rust's reader and its desk return for each book."""
    return output_of([oracle, "read"], asked(books)).decode().splitlines()


def accepted(oracle, books):
    """Those that the desk accepts, each once."""
    once = list(dict.fromkeys(books))
    return [data for data, answer in zip(once, read(oracle, once)) if answer == "accepted"]


def accepted_of_profile(oracle, seed, profile, count):
    """So many books of a profile's scripts that the desk accepts."""
    found, tried = [], 0
    while len(found) < count and tried < 100:
        found = accepted(oracle, found + books_of_scripts(oracle, seed + 1000003 * tried, 2 * count, profile, ("book ", "desk ")))
        tried += 1
    return found[:count]


def in_lines(oracle, command, books):
    """What a command prints of each book, where it takes the word `lines`."""
    return output_of([oracle, command, "lines"], asked(books)).decode().split(".\n")[:-1]


def of_each(oracle, command, books):
    """What a command prints of each book."""
    texts = output_of([oracle, command], asked(books)).split(b".\n")[:-1]
    if len(texts) != len(books):
        raise Broken("%s %s: %d books, %d texts" % (oracle, command, len(books), len(texts)))
    return texts


def models(oracle, books):
    """Of each plain book the goals of its layered least model as text, or `refused N`."""
    return output_of([oracle, "levels", "model"], asked(books)).decode().split("\n.\n")[:-1]


def in_xsb(oracle, command, some):
    """What `to-xsb` returns for books, or `from-xsb` for texts: bytes, or the number of the refusal, with 37 and its place."""
    found = output_of([oracle, command, "lines"], asked(some)).decode().split("\n.\n")[:-1]
    accepted_one = bytes.fromhex if command == "from-xsb" else lambda text: text.encode() + b"\n"
    refused = lambda number, _, place: Number(int(number[8:]), place)
    return [refused(*one.partition("\n")) if one.startswith("refused") else accepted_one(one) for one in found]


def mended(oracle, papers):
    """Of each paper what is expected on standard output and on standard error, and the status."""
    found = []
    for one in output_of([oracle, "mend", "lines"], asked(papers)).decode().split("\n.\n")[:-1]:
        removed, _, left = one.rpartition("\n")
        refused = one.startswith("refused")
        found.append((b"", one.encode() + b"\n", 0) if refused else (bytes.fromhex(left), (removed + "\n").encode() if removed else b"", 0))
    return found


LINES = re.compile(rb"(?:(?:0|[1-9]\d*) (?:0|[1-9]\d*) (?:6|36)\n)+")


def mended_wrong(paper, found, before, after):
    """What is wrong with how a paper was mended, or nothing. `before` and `after`: what the reader and the desk return for the paper, and
    for what is on standard output. It does not know which clauses are removed, but for the first one that is removed for 36."""
    out, err, status = found
    number = int(re.match(r"(?:accepted, desk )?refused (\d+)|", before).group(1) or 0)
    if status != 0:
        return "the status is not 0"
    if number not in (0, 6, 36):
        return "" if (out, err) == (b"", b"refused %d\n" % number) else "refused differently"
    if number == 0:
        return "" if (out, err) == (paper, b"") else "accepted, and not left as it is"
    if after != "accepted":
        return "what is left is not accepted"
    if not LINES.fullmatch(err):
        return "other lines"
    lines = err.decode().splitlines()
    reasons = {line.split()[2] for line in lines}
    if number == 6:
        return "" if "6" in reasons else "refused by 6, and nothing is removed for it"
    place = re.search(r"goal (\d+) clause (\d+)", before).groups()
    return "" if reasons == {"36"} and lines[0].split()[:2] == list(place) else "refused by 36, and something else is removed"
