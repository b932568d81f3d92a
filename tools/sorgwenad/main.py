"""The command `tools/run`: its groups and subcommands, and which module each of them is."""
import importlib
import sys

from sorgwenad.shared import tree

# A group: what it is for, and its subcommands with a line each. `tools/run GROUP NAME` is the function `main` of sorgwenad/GROUP/NAME.py.
GROUPS = {
    "rust": ("compares the programs, and the Rust, with each other and with cases written by hand", {
        "calls": "`replay` and the Rust, call by call, on random scripts",
        "turns": "searches made a turn at a time by &mut, and the Rust's",
        "limits": "every limit of document 01, by the Rust and by `replay`",
        "ranges": "books with ranges at their edges, by the Rust and by `listing`",
        "desk": "books with a clause twice, or nearly so, and every paper at the exam desk",
        "pages": "books with their pages, byte by byte, and pages that can't be written",
        "skips": "books with skipped answers, and the rule for `unsettled`",
        "listings": "`listing` and the Rust on papers and random books",
        "levels": "levels, or why there are none, by the Rust and by `levels`",
        "xsb": "text for a Prolog with tabling, out and back, by the Rust and by `to_xsb` and `from_xsb`",
        "mend": "papers mended, by the Rust and by `mend`",
        "certify": "which goals are clean, by the Rust and by `certify`",
        "reading": "books read by `inspect` and `reading_tests`, and by the Rust",
    }),
    "definitions": ("compares the definitions, computed by the checker, with the Rust and with cases written by hand", {
        "scripts": "calls, listings, places and levels",
        "xsb": "text for a Prolog with tabling",
        "mend": "mending",
        "certify": "which goals are clean",
    }),
    "peers": ("compares the programs with other solvers, clingo and swipl", {
        "plain": "plain levelled books and books with ranges; --time",
        "xsb": "exported texts",
        "mend": "plain papers before and after mending",
        "derived": "whether every yes of a clean goal can be derived",
    }),
    "faults": ("plants faults, each of which has to be found", {
        "definitions": "in the definitions: a promise must be refused",
        "code": "in the code, built with no proof: `rust calls` must find them",
        "programs": "in the code of the other programs, built with no proof: their cases by hand must find them",
        "rust": "in the Rust: `peers derived` must find them",
    }),
    "bench": ("prints times", {
        "calls": "a turn, a call and a whole listing, beside the Rust",
        "stores": "an operation of the stores, reading a book and checking it",
    }),
}
# Commands without a group, with a line each: `tools/run NAME` is the function `main` of sorgwenad/commands/NAME.py.
SINGLE = {
    "fuzz": "damaged scripts, books, texts and papers, and deep books",
    "edits": "wrong edits of the crates, each of which the check must refuse",
    "papers": "writes the sample papers, the vectors of `reading_tests` and the scripts of the cases; --check compares them",
    "fields": "pages of `listing` from standard input as fields",
    "quick": "builds a program with no proof, in half a minute, and runs it",
    "self-test": "wrong stand-ins for the programs, each of which the commands above must find",
}


def shown(group=None):
    """The groups with their subcommands, or one group."""
    out = ["tools/run GROUP NAME [words]     tools/run COMMAND [words]     --help behind any of them", ""]
    for name, (what, names) in GROUPS.items():
        if group in (None, name):
            out += ["%s: %s" % (name, what)] + ["  %-12s %s" % pair for pair in names.items()] + [""]
    if group is None:
        out += ["commands without a group:"] + ["  %-12s %s" % pair for pair in SINGLE.items()]
    return "\n".join(out).rstrip("\n")


def unknown(text):
    print("tools/run: %s; `tools/run --help` lists them" % text, file=sys.stderr)
    return 2


def called(module, name, words):
    """Runs a subcommand: its status is 0 where its `main` returns true, or the number that it returns."""
    tree.NAME[0] = "tools/run " + name
    done = importlib.import_module("sorgwenad." + module).main(words)
    return done if isinstance(done, int) and not isinstance(done, bool) else 0 if done else 1


def main(words):
    if not words or words[0] in ("--help", "-h", "help"):
        print(shown())
        return 0
    first, rest = words[0], words[1:]
    if first in SINGLE:
        return called("commands." + first.replace("-", "_"), first, rest)
    if first not in GROUPS:
        return unknown("no group or command %s" % first)
    if not rest or rest[0] in ("--help", "-h"):
        print(shown(first))
        return 0
    if rest[0] not in GROUPS[first][1]:
        return unknown("no subcommand %s of %s" % (rest[0], first))
    return called("%s.%s" % (first, rest[0]), "%s %s" % (first, rest[0]), rest[1:])
