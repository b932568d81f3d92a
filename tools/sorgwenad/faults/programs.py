"""Plants faults in the code that the programs are built from, and expects their cases by hand to find them.

The proof refuses each of these faults (`tools/run edits` shows that); this shows that they are wrong programs, and that the cases by hand
find them. A fault is an edit of a crate, from its folder refused/, that changes the code. For each the programs that are built on its crate
are built with no proof, one after the other, until the cases by hand of one of them show a difference: `rust mend` of `mend`, `rust
levels` of `levels`, `rust certify` of `certify`, `rust xsb` of `to_xsb` and `from_xsb`, and `rust pages`, `skips`, `ranges` and `desk` of
`listing`.

Without a crate: all crates that one of these programs is built on and `replay` is not. What no case can find, and why, is in
cases/faults_code.py. Prints a line a fault; status 0 only if all others are found.
"""
import contextlib
import io
import os
import time

from sorgwenad.rust import certify, desk, levels, mend, pages, ranges, skips, xsb, xsb_cases
from sorgwenad.shared import edits, tree, unproved
from sorgwenad.shared.command import parser
from sorgwenad.shared.crates import below, listed
from sorgwenad.shared.listed import by_the_program
from sorgwenad.shared.oracle import find_oracle
from sorgwenad.shared.processes import each, run
from sorgwenad.shared.sources import copy_of_the_sources
from sorgwenad.shared.tables import rows

# So many seconds a wrong program may take on one input.
SECONDS = "10"


def in_time(path):
    return ["timeout", SECONDS, path]


def printed(path):
    """What a program prints of each book, on both streams."""
    def one(data):
        out, err, status = run(in_time(path), data)
        return (out + err).decode(errors="replace") + (" (status %d)" % status if status else "")
    return lambda books: each(one, books, 2)


def on_both_streams(path):
    """Both streams and the status of each paper."""
    return lambda papers: each(lambda data: run(in_time(path), data), papers, 2)


def texts(path, program):
    """The books or the texts that a program is for, and the Rust for the others."""
    oracle = find_oracle()
    rust = {"to_xsb": [oracle, "to-xsb"], "from_xsb": [oracle, "from-xsb"]}
    words = dict(rust, **{program: in_time(path)})
    return xsb.Side(program, words["to_xsb"], words["from_xsb"]).answers(2)


# The comparisons of each program: the subcommand, its check, and from a path to the answers.
CHECKS = {
    "mend": [("rust mend", mend.by_hand, on_both_streams)],
    "certify": [("rust certify", certify.by_hand, printed)],
    "levels": [("rust levels", levels.by_hand, printed)],
    "to_xsb": [("rust xsb", xsb_cases.by_hand, lambda path: texts(path, "to_xsb"))],
    "from_xsb": [("rust xsb", xsb_cases.by_hand, lambda path: texts(path, "from_xsb")),
                 ("rust xsb", lambda _, side: xsb.without_an_end(side), lambda path: xsb.Side("from_xsb", None, [path]))],
    "listing": [("rust pages", pages.by_hand, pages.by_the_program), ("rust skips", skips.by_hand, by_the_program),
                ("rust ranges", ranges.by_hand, by_the_program), ("rust desk", desk.by_hand, by_the_program)],
}


def own_crates():
    """The crates that one of the programs is built on, and `replay` is not."""
    shared = set(below(["replay"])) | {"replay"}
    return [crate for crate in listed() if crate not in shared and any(crate in [p] + below([p]) for p in CHECKS)]


def difference(program, path):
    """The subcommand whose cases find a difference, and its last line; None where all pass."""
    for command, check, answers in CHECKS[program]:
        text = io.StringIO()
        with contextlib.redirect_stdout(text):
            good = check(program, answers(path))
        if not good:
            return "`%s`: %s" % (command, text.getvalue().splitlines()[-1][:100])
    return None


def tried(crate, path, folder):
    """How a fault is found, or an empty text; and the programs that were built."""
    copy_of_the_sources(folder)
    edits.apply_to_sources(path, crate, os.path.join(folder, "crates"))
    programs = [name for name in CHECKS if crate in [name] + below([name])]
    for name in programs:
        program, text = unproved.build(name, folder, folder)
        if not program:
            tree.stop("%s can't be built with %s:\n%s" % (name, path, text[-2000:]))
        found = difference(name, program)
        if found:
            return found, programs
    return "", programs


def main(words):
    p = parser(__doc__)
    p.add_argument("crates", nargs="*", metavar="CRATE", help="these crates alone")
    p.add_argument("--only", nargs="+", metavar="CRATE/NAME", help="these faults alone")
    p.add_argument("--list", action="store_true", help="print the faults that there are")
    a = p.parse_args(words)
    known = edits.changing_code(a.crates or own_crates())
    chosen = {name: known[name] for name in a.only or known if name in known}
    if not chosen or len(chosen) < len(a.only or []):
        tree.stop("no such fault; --list has the names")
    if a.list:
        print("\n".join(chosen))
        return True
    unseen, missed = dict(rows("CODE_UNSEEN")), 0
    for name, path in chosen.items():
        began = time.time()
        try:
            with tree.folder() as folder:
                found, programs = tried(name.split("/")[0], path, folder)
        except edits.Bad as bad:
            tree.stop("%s: BAD EDIT: %s" % (name, bad))
        missed += not found and name not in unseen
        excused = "no case can find it: %s" % unseen[name] if name in unseen else "NOT FOUND by " + ", ".join(programs)
        print("%s: %s (%d s)" % (name, "found by " + found if found else excused, time.time() - began), flush=True)
    print("faults programs: %d faults, %d not found" % (len(chosen), missed))
    return not missed
