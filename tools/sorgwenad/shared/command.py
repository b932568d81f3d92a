"""What the command lines of the subcommands have in common."""
import argparse
import os

from sorgwenad.shared import tree


def parser(doc):
    """A parser with the text of a module as its help."""
    return argparse.ArgumentParser(prog=tree.NAME[0], description=doc, formatter_class=argparse.RawDescriptionHelpFormatter)


def with_sides(p, program, many=False):
    """`--rust` and `--program`: who is compared with what is expected. `many`: more than one program can be named."""
    how = dict(nargs="*") if many else dict(nargs="?", const="")
    p.add_argument("--rust", action="store_true", help="check the Rust; without this word and --program: both")
    p.add_argument("--program", metavar="PATH", help="check %s: the proved one, or that at PATH" % program, **how)
    return p


def sides_of(a):
    """Whether the Rust and whether the program is checked: both, where neither is named."""
    neither = not a.rust and a.program is None
    return a.rust or neither, a.program is not None or neither


def with_oracle(p):
    p.add_argument("--oracle", metavar="PATH", help="another oracle than that of oracle/target")
    return p


def with_random(p, count, what, seed=1):
    """`--count` and `--seed` of random input."""
    p.add_argument("--count", type=int, default=count, help="how many %s (%d)" % (what, count))
    p.add_argument("--seed", type=int, default=seed, help="of the random ones (%d)" % seed)
    return p


def with_jobs(p, jobs=2):
    p.add_argument("--jobs", type=int, default=jobs, help="how many processes run at once (%d)" % jobs)
    return p


def processors():
    return os.cpu_count() or 1


def with_times(p, runs=41):
    """`--time` and `--runs`."""
    p.add_argument("--time", action="store_true", help="print times and do nothing else")
    p.add_argument("--runs", type=int, default=runs, help="of each process that is timed (%d)" % runs)
    return p
