"""Compares the program `replay` with the Rust, call by call.

For each seed from SEED on, until N calls were compared, the oracle generates scripts of each profile (`oracle gen SEED COUNT P`). Both
sides run them, the Rust (`oracle run`) and `replay`, and what they print after each call must be the same, byte for byte: the result, and
the hash of the forest's dump (--full: the dump itself). Then each peek is written out as the searches that it makes (`oracle searches`,
which checks that in the Rust they come to what the peek does), and both sides run that too (--peeks K: with every K-th seed alone).
With --batch the calls of a forest are handed over together, up to 256 of them, and both sides print the forest's dump after these alone;
and both run all of a part on its first book too, so that full batches come up.
Each book goes through both entries, at the desk (`desk`) and by the old one (`book`), and the calls to the forest of the last of the two.
With --lent `replay` opens, searches and peeks through the functions that are lent a forest by `&mut`.

A line on standard error has the seed it is at; --from continues from there. Where something differs, the seed, the profile, the line of
the script and both sides' lines are shown, with the calls since the book. Last comes a table of what the Rust returned, how many ranges
the books had, how many calls were on forests of each entry, how many books went through both, and how many calls were on forests of
refused books, by the number of the refusal. With --least every number, 1 to 13, 20 to 29, 32 and 36, must have come up as often, and so
must each of these.

With --time the loads of `oracle bench` are timed on both sides: processor time, the least of several runs, less an empty script's.
Status 0 only if all is the same and there was a call.
"""
import collections
import concurrent.futures
import resource
import subprocess
import sys
import time

from sorgwenad.shared import tree
from sorgwenad.shared.command import parser, processors, with_oracle
from sorgwenad.shared.oracle import find_oracle
from sorgwenad.shared.processes import Broken, output_of
from sorgwenad.shared.script import Counts, difference, is_book

# Scripts of a seed, by profile: some 27,000 calls in three seconds of a processor. Those whose peeks make many searches are few.
SCRIPTS = dict(mix=300, plain=250, tiny=300, bytes=1000, answers=60, small=300, limits=15, large=200, lines=250)


class Part:
    """Scripts that are run at once, their name, and what came of them."""

    def __init__(self, name, seed, script=None):
        self.name, self.seed, self.script = name, seed, script
        self.counts, self.written_out, self.on_one_book, self.wrong = Counts(), Counts(), Counts(), ""

    def compare(self, pair, a):
        """The script as it is, with its peeks written out, and in batches all of it on its first book, so that many are full."""
        try:
            if self.script is None:
                self.script = output_of([pair[0]] + self.name.split()[1:], b"")
            self.run(pair, self.script, a, self.counts)
            if not self.wrong and self.seed % a.peeks == 0:
                self.run(pair, output_of([pair[0], "searches"], self.script), a, self.written_out)
            if not self.wrong and a.batch:
                self.run(pair, of_one_book(self.script), a, self.on_one_book)
        except Broken as broken:
            self.wrong = str(broken)
        self.script = None
        return self

    def run(self, pair, script, a, counts):
        both = commands(pair, a)
        quiet = [] if a.full else ["quiet"]
        rust, ours = output_of(both[0] + quiet, script), output_of(both[1] + quiet, script, a.seconds)
        counts.see(rust, script)
        if rust != ours:
            # once more with the dumps, so that they can be shown
            self.wrong = difference(script, output_of(both[0], script), output_of(both[1], script, a.seconds))


def of_one_book(script):
    """The script without its other books: the first one has two lines."""
    lines = script.split(b"\n")
    others = set([number for number, line in enumerate(lines) if is_book(line)][2:])
    return b"\n".join(line for number, line in enumerate(lines) if number not in others)


def commands(pair, a):
    """How a script is run on either side."""
    batch = ["batch"] if a.batch else []
    return [pair[0], "run"] + batch, [pair[1]] + batch + (["lent"] if a.lent else [])


def parts(a):
    """What is to be compared: files, or of each seed every profile."""
    if a.script:
        for path in a.script:
            yield Part(path, 0, tree.read_bytes(path))
        return
    profiles = list(SCRIPTS) if a.profile == "all" else a.profile.split(",")
    seed = a.start
    while True:
        for profile in profiles:
            yield Part("oracle gen %d %d %s" % (seed, SCRIPTS[profile], profile), seed)
        seed += 1


class Run:
    """The totals so far."""

    def __init__(self, a):
        self.a, self.began, self.shown_at = a, time.time(), 0
        self.counts, self.written_out, self.on_one_book = Counts(), Counts(), Counts()
        self.wrong, self.seed = 0, a.start

    def settle(self, part):
        self.counts.add(part.counts)
        self.written_out.add(part.written_out)
        self.on_one_book.add(part.on_one_book)
        self.seed = part.seed
        if part.wrong:
            self.wrong += 1
            print("DIFFERS: %s: %s" % (part.name, part.wrong), flush=True)
        if not self.a.quiet and time.time() - self.shown_at >= 1:
            self.shown_at = time.time()
            self.progress()

    def progress(self):
        rate = self.counts.calls / max(1e-9, time.time() - self.began)
        left = max(0, self.a.calls - self.counts.calls) / max(1, rate)
        line = "seed %d: %s calls, %d parts differ, %s calls a second, %d s to go (to go on from here: --from %d)"
        text = line % (self.seed, format(self.counts.calls, ","), self.wrong, format(int(rate), ","), left, self.seed)
        ending = "\r" if sys.stderr.isatty() else "\n"
        print(text, end=ending, file=sys.stderr, flush=True)
        if ending == "\n":
            # in a log, a line a quarter of a minute is enough
            self.shown_at += 14

    def over(self):
        return self.wrong > 0 or not self.a.script and self.counts.calls >= self.a.calls

    def report(self):
        print("seeds %d to %d: %s calls, %s turns; with the peeks as searches %s calls, %s turns; %d s" % (
            self.a.start, self.seed, *(format(n, ",") for c in (self.counts, self.written_out) for n in (c.calls, c.turns)),
            time.time() - self.began))
        if self.a.batch:
            print("on the first book alone: {0.calls:,} calls, {0.turns:,} turns".format(self.on_one_book))
        print(self.counts.table())
        rare = self.counts.rare(self.a.least)
        if rare:
            print("less often than %d times: %s" % (self.a.least, ", ".join(rare)))
        print("no difference" if not self.wrong else "%d parts differ" % self.wrong)
        return not self.wrong and not rare and self.counts.calls > 0


def compare(a, pair):
    run, waiting = Run(a), collections.deque()
    with concurrent.futures.ThreadPoolExecutor(a.jobs) as pool:
        for part in parts(a):
            if run.over():
                break
            waiting.append(pool.submit(part.compare, pair, a))
            if len(waiting) > a.jobs + 1:
                run.settle(waiting.popleft().result())
        while waiting:
            run.settle(waiting.popleft().result())
    return run.report()


def least(words, script, runs=5):
    """Seconds of processor time, so that what else the machine does counts little."""
    best = None
    for _ in range(runs):
        before = resource.getrusage(resource.RUSAGE_CHILDREN)
        subprocess.run(words, input=script, stdout=subprocess.DEVNULL, check=True)
        after = resource.getrusage(resource.RUSAGE_CHILDREN)
        took = after.ru_utime + after.ru_stime - before.ru_utime - before.ru_stime
        best = took if best is None else min(best, took)
    return best


def timed(pair, a):
    """A load's time on both sides, an empty script's taken off, by what is counted of it."""
    print("%-8s %12s %14s %14s" % ("load", "", "the Rust, ns", "replay, ns"))
    both = [words + ["quiet"] for words in commands(pair, a)]
    for load in ("ladder", "ring", "random", "plain"):
        script = output_of([pair[0], "load", load], b"")
        counts = Counts()
        if load in ("ladder", "ring"):
            # a peek has the turns of its last search alone
            counts.see(output_of(both[0], output_of([pair[0], "searches"], script)))
            unit, count = "turns", counts.turns
        else:
            counts.see(output_of(both[0], script))
            unit, count = "calls", counts.calls
        each = [(least(side, script) - least(side, b"")) / count * 1e9 for side in both]
        print("%-8s %9d %s %11.1f %14.1f" % (load, count, unit, each[0], each[1]))


def parsed(words):
    p = parser(__doc__)
    p.add_argument("--calls", type=int, default=100000, help="how many calls are compared at least (100000)")
    p.add_argument("--from", dest="start", type=int, default=1, metavar="SEED", help="the first seed (1)")
    p.add_argument("--profile", default="all", help="one, or more with commas between, or all: " + ", ".join(SCRIPTS))
    p.add_argument("--jobs", type=int, default=processors(), help="parts that run at once (%d)" % processors())
    p.add_argument("--full", action="store_true", help="compare whole dumps and not their hashes")
    p.add_argument("--peeks", type=int, default=1, metavar="K", help="write peeks out with every K-th seed (1)")
    p.add_argument("--least", type=int, default=0, help="how often every number must come up (0)")
    p.add_argument("--seconds", type=int, default=600, help="how long replay may take on one part (600)")
    p.add_argument("--quiet", action="store_true", help="no line on how far it is")
    p.add_argument("--batch", action="store_true", help="hand calls over together")
    p.add_argument("--lent", action="store_true", help="call the functions that are lent a forest")
    p.add_argument("--script", nargs="+", metavar="FILE", help="compare these files instead")
    p.add_argument("--time", action="store_true", help="time both sides too")
    p.add_argument("--program", metavar="PATH", help="a program in place of the proved replay")
    a = with_oracle(p).parse_args(words)
    unknown = [w for w in a.profile.split(",") if w not in SCRIPTS and w != "all"]
    if unknown:
        p.error("no profile %s" % ", ".join(unknown))
    return a


def main(words):
    a = parsed(words)
    pair = find_oracle(a.oracle), tree.built("replay", a.program)
    same = compare(a, pair)
    if a.time:
        timed(pair, a)
    return same
