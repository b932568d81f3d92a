"""Other solvers, clingo and swipl, and the listing that they are compared with."""
import os
import shutil
import subprocess
import sys

from sorgwenad.shared import tree
from sorgwenad.shared.command import with_oracle
from sorgwenad.shared.listed import listed, listed_by_the_rust
from sorgwenad.shared.oracle import find_oracle
from sorgwenad.shared.processes import Broken, each

PACKAGES = {"clingo": "gringo", "swipl": "swi-prolog-core"}


def with_listing(p, program="listing"):
    """The words that the commands with other solvers have in common."""
    p.add_argument("--installed", action="store_true", help="leave out a solver that is not installed")
    p.add_argument("--rust", action="store_true", help="the oracle in place of %s" % program)
    p.add_argument("--program", metavar="PATH", help="a program in place of the proved %s" % program)
    return with_oracle(p)


def installed(a, names=tuple(PACKAGES)):
    """The solvers that are installed. One that is not ends the run, or with --installed it is left out."""
    missing = [name for name in names if not shutil.which(name)]
    for name in missing:
        print("peers: %s is not installed (Debian's package %s)%s" % (name, PACKAGES[name], ": left out" if a.installed else ""))
    if missing and not a.installed:
        sys.exit(2)
    return [name for name in names if name not in missing]


class Listing:
    """`listing`, a process for each book, or the oracle in its place, which lists the same without pages."""

    def __init__(self, a):
        self.oracle = find_oracle(a.oracle)
        self.program = None if a.rust else tree.built("listing", a.program)
        self.name = "listing" if self.program else "the oracle"

    def words(self):
        return [self.program] if self.program else [self.oracle, "list"]

    def lines(self, books, jobs=1):
        """Of each book the lines that are listed, as words."""
        try:
            if self.program:
                texts = each(lambda data: listed(self.program, data), books, jobs)
            else:
                texts = listed_by_the_rust(self.oracle, books)
        except Broken as broken:
            tree.stop(str(broken))
        return [[line.split() for line in text.splitlines()] for text in texts]

    def holds(self, books):
        """Of each book the goals that hold, and the lines that settle nothing."""
        held, left_open = [], []
        for data, lines in zip(books, self.lines(books)):
            if lines[0][0] == "refused":
                tree.stop("%s refuses by %s the book %s" % (self.name, lines[0][1], data.hex()))
            held.append({int(line[0]) for line in lines if line[2] == "yes"})
            left_open.append([line for line in lines if line[2] not in ("yes", "none")])
        return held, left_open


def clingo(rules, models=1):
    """The stable models of rules, a line of atoms each: the first one, or with 0 all of them."""
    done = subprocess.run(["clingo", "--verbose=0", "--warn=none", "-", str(models)], input=rules, capture_output=True, text=True)
    # the bits of its status: whether there is a model (10), and whether there are no others (20)
    if done.returncode not in (10, 20, 30) or "rror" in done.stderr:
        tree.stop("clingo ended with %d: %s" % (done.returncode, (done.stdout + done.stderr)[-2000:]))
    return [line for line in done.stdout.split("\n")[:-1] if line not in ("SATISFIABLE", "UNSATISFIABLE")]


def swipl(folder, program):
    """What swipl prints for the goal `main` of a program, which is written into the folder."""
    tree.write(os.path.join(folder, "program.pl"), program)
    done = subprocess.run(["swipl", "-q", "-g", "main", "-t", "halt", "program.pl"], cwd=folder, capture_output=True, text=True)
    if done.returncode != 0 or done.stderr:
        tree.stop("swipl ended with %d: %s" % (done.returncode, (done.stdout + done.stderr)[-2000:]))
    return done.stdout
