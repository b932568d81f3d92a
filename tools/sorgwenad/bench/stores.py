"""ns an operation of the stores, the reading of a book and its check, by the program `stores_bench` (after `rt run` in its folder)."""
import os
import subprocess
import time

from sorgwenad.shared import tree
from sorgwenad.shared.command import parser

# What is run, and how often. The program picks it by the number of its arguments, from one upward.
OPERATIONS = [
    ("place taken, another given back, 16 live", 100000000), ("place taken, another given back, 254 live", 100000000),
    ("first eligible taken and enqueued, 16 live", 100000000), ("first eligible taken and enqueued, 256 live", 100000000),
    ("none eligible among 16", 10000000), ("none eligible among 256", 1000000),
    ("taken, strand read and written, enqueued, 16 live", 100000000), ("taken, strand read and written, enqueued, 256 live", 100000000),
    ("answer looked up at index 15 of 16", 10000000), ("answer looked up at index 255 of 256", 1000000),
    ("answer pushed again, the last of 16", 1000000), ("answer pushed again, the last of 256", 1000000),
]
# On a book: what is run, by how many arguments, how often, and the papers.
ON_BOOKS = [
    ("read", 13, 20000, ("clauses-256-alike", "clauses-256-twice", "largest", "p1")),
    ("read at the desk", 14, 20000, ("clauses-256-alike", "clauses-256-twice", "largest", "p1")),
    ("checked", 15, 2000, ("levels-chain", "levels-cycle", "largest", "levels-p1")),
]


def timed(program, label, arguments, times, book=os.devnull):
    """Prints what each of so many runs takes, by the clock around the whole process."""
    with open(book, "rb") as given:
        began = time.perf_counter_ns()
        subprocess.run([program] + ["x"] * arguments, stdin=given, stdout=subprocess.DEVNULL, check=True)
        took = time.perf_counter_ns() - began
    print("%-52s %8.1f ns" % (label, took / times), flush=True)


def main(words):
    parser(__doc__).parse_args(words)
    program = tree.built("stores_bench")
    for number, (label, times) in enumerate(OPERATIONS, 1):
        timed(program, label, number, times)
    for what, arguments, times, papers in ON_BOOKS:
        for paper in papers:
            timed(program, "%s %s" % (paper, what), arguments, times, os.path.join(tree.PAPERS, paper + ".book"))
    return True
