"""Times the programs beside the Rust, in one run: a turn, a call, a whole listing, and how the cost of a turn grows.

Both sides get the same scripts: `oracle run batch bare` and `replay batch bare`, which hands calls over together; each writes a result a
call, and nothing of what the forest holds. Each process stays on one processor, the same for both sides, which makes the least times
steadier. Times are of processor time, so that what else the machine does counts little, less those of the same script without what is
timed: the least and the median of N runs (7), in turn for both sides. A row's ratio is that of the least ones.

turns    the ladder of 20 goals, where a search has 2,621,437 turns, a ring of 64 goals, and random books, whose searches have one or two
         turns each, so that most of what is counted there is the calls around them
calls    on random books: all of them as they come, some eleven on each book, and the same with the hash of what the forest holds after
         each batch (`quiet`); then each kind by itself, 2,000 on each of 40 books: an open
         of a table that is there, a search and a peek for an answer that is stored, a search that is cut after one turn, a search that is
         refused, and any_future_answer; and making a forest
listing  a whole process beside `oracle list`, and clingo and swipl where they are installed: that is `tools/run peers plain --time`
growth   (--growth) ns a turn, turns and memory on ladders of 4 to 20 goals and rings of 4 to 64, as a chart

--short: turns and calls alone, with 3 runs each. Status 1 where a program is missing, or a ratio is above 2, those with the making of
forests aside, which is done once for a paper.
"""
import os
import re
import resource
import subprocess
import tempfile
import time

from sorgwenad.shared import tree
from sorgwenad.shared.command import parser, with_oracle
from sorgwenad.shared.oracle import find_oracle
from sorgwenad.shared.processes import median, output_of

MOST = 2.0
# The processor that a timed process stays on.
PROCESSOR = max(os.sched_getaffinity(0))
# A call of each kind, and what it returns however often it is made.
KINDS = {
    "open": ("open 0", r"table \d+$"),
    "search, stored": ("search {table} 0 100", r"(yes|maybe) \d+ turns 0$"),
    "peek, stored": ("peek {table} 0 2 100", r"(yes|maybe) \d+ at \d+ turns 0$"),
    "search, one turn": ("search {table} {index} 1", r"cut turns 1$"),
    "search, refused": ("search 99 0 5", r"refused 10$"),
    "any_future_answer": ("future {table} 0 1", r"(true|false)$"),
}
# Books that have such a call, and how often it is made on each.
BOOKS, TIMES = 40, 2000


class Sides:
    """The two programs, and how a script is run by each."""

    def __init__(self, a):
        self.oracle = find_oracle(a.oracle)
        replay = tree.built("replay", a.program)
        self.bare = [self.oracle, "run", "batch", "bare"], [replay, "batch", "bare"]
        self.quiet = [self.oracle, "run", "batch", "quiet"], [replay, "batch", "quiet"]
        self.runs = 3 if a.short else a.runs
        self.worst = 0.0

    def seconds(self, words, script):
        """Processor time of one run."""
        before = resource.getrusage(resource.RUSAGE_CHILDREN)
        stay = lambda: os.sched_setaffinity(0, {PROCESSOR})
        subprocess.run(words, input=script.encode(), stdout=subprocess.DEVNULL, check=True, preexec_fn=stay)
        after = resource.getrusage(resource.RUSAGE_CHILDREN)
        return after.ru_utime + after.ru_stime - before.ru_utime - before.ru_stime

    def times(self, words, count, script, without):
        """ns of each of so many things in a script: sorted, for both sides."""
        took = ([], [])
        for _ in range(self.runs):
            for side in (0, 1):
                took[side].append((self.seconds(words[side], script), self.seconds(words[side], without)))
        return [sorted((a - min(b for _, b in one)) / count * 1e9 for a, _ in one) for one in took]

    def row(self, what, unit, count, script, without="", counts=True, words=None):
        """Times a script on both sides, and prints what each of so many things in it takes. What is out of the way is timed again."""
        for _ in range(3):
            each = self.times(words or self.bare, count, script, without)
            ratio = max(each[1][0], 0.1) / max(each[0][0], 0.1)
            if not counts or ratio <= MOST:
                break
        self.worst = max(self.worst, ratio if counts else 0)
        cells = ["%10.1f (%8.1f)" % (one[0], median(one)) for one in each]
        print("%-28s %10s %-6s %s %s %8.2f" % (what, format(count, ","), unit, cells[0], cells[1], ratio), flush=True)

    def results(self, script):
        """What the Rust returns for each line of a script, dumps left out."""
        return output_of([self.oracle, "run", "quiet"], script.encode()).decode().split("\n")[:-1:2]

    def load(self, name):
        return output_of([self.oracle, "load", name], b"").decode()


def turns_of(both, script):
    """The turns that the searches of a script have, the peeks written out as searches."""
    written = output_of([both.oracle, "searches"], script.encode()).decode()
    return sum(int(n) for n in re.findall(r" turns (\d+)$", "\n".join(both.results(written)), re.M))


def forests(script):
    """The calls on each forest of a script, its book first."""
    found = []
    for line in script.split("\n"):
        if line.startswith("book"):
            found.append([line])
        elif line and found:
            found[-1].append(line)
    return found


def probes(both, kind):
    """Some forests with their calls, and behind each a call of that kind that returns the same however often it is made."""
    text, expected = KINDS[kind]
    tried = [text.format(table=table, index=index) for table in (0, 1) for index in (0, 1)]
    found = []
    for calls in forests(both.load("random")):
        if len(found) == BOOKS:
            break
        script = "\n".join(calls + [call for call in tried for _ in range(3)]) + "\n"
        results = both.results(script)[len(calls):]
        for at, call in enumerate(tried):
            if all(re.match(expected, r) for r in results[3 * at:3 * at + 3]):
                found.append((calls, call))
                break
    return found


def time_turns(both):
    for name, what in (("ladder", "ladder of 20 goals"), ("ring", "ring of 64 goals"), ("random", "random books")):
        script = both.load(name)
        books = "\n".join(calls[0] for calls in forests(script)) + "\n"
        both.row(what, "turns", turns_of(both, script), script, books)


def time_calls(both):
    script = both.load("random")
    parts = forests(script)
    books = "\n".join(calls[0] for calls in parts) + "\n"
    calls = sum(len(p) - 1 for p in parts)
    both.row("random books, all calls", "calls", calls, script, books)
    both.row("the same, with hashes", "calls", calls, script, books, words=both.quiet)
    both.row("making a forest", "books", len(parts), books, counts=False)
    both.row("random books, books too", "calls", calls + len(parts), script, counts=False)
    for kind in KINDS:
        found = probes(both, kind)
        if not found:
            tree.stop("no random book has a call of the kind: " + kind)
        script = "\n".join("\n".join(calls + [call] * TIMES) for calls, call in found) + "\n"
        without = "\n".join("\n".join(calls) for calls, _ in found) + "\n"
        both.row(kind, "calls", len(found) * TIMES, script, without)


def memory(words, script):
    """The largest size of a process in KB, as the system reports it while the process runs."""
    most = 0
    with tempfile.TemporaryFile() as text:
        text.write(script.encode())
        text.seek(0)
        process = subprocess.Popen(words, stdin=text, stdout=subprocess.DEVNULL)
        while process.poll() is None:
            with open("/proc/%d/status" % process.pid) as status:
                shown_size = re.search(r"VmHWM:\s+(\d+)", status.read())
            most = max(most, int(shown_size.group(1)) if shown_size else 0)
            time.sleep(0.002)
    return most


def bodies(kind, goals):
    """The book of a ladder or a ring, in hex."""
    out = []
    for goal in range(goals):
        last = goal == goals - 1
        literal = "50%02X%02X000000" % ((0, 0) if last else (goal + 1, 0))
        out.append("4700" + ("43000000" + literal) * (2 if kind == "ladder" and not last else 1))
    return "".join(out) + "45"


def growth(both):
    print("\nns a turn, turns and memory (KB) by the number of goals; a star is 2 ns")
    for kind, sizes in (("ladder", range(4, 21, 2)), ("ring", (4, 8, 16, 32, 48, 64))):
        for goals in sizes:
            once = "book %s clock 1000000000\nopen 0\npeek 0 0 1000 10000000\n" % bodies(kind, goals)
            turns = turns_of(both, once)
            times = max(1, 2000000 // turns)
            script, books = once * times, once.split("\n")[0] + "\n"
            each = []
            for words in both.bare:
                took = min(both.seconds(words, script) for _ in range(3)) - min(both.seconds(words, books * times) for _ in range(3))
                each.append(took / (turns * times) * 1e9)
            kilobytes = [memory(words, script) for words in both.bare]
            stars = "*" * max(1, round(each[1] / 2))
            print("%-6s %2d goals %9s turns  the Rust %6.1f ns %6d KB  replay %6.1f ns %6d KB  %s" % (
                kind, goals, format(turns, ","), each[0], kilobytes[0], each[1], kilobytes[1], stars), flush=True)


def main(words):
    p = with_oracle(parser(__doc__))
    p.add_argument("--runs", type=int, default=7, help="of each script on each side (7)")
    p.add_argument("--short", action="store_true", help="turns and calls alone, three runs each")
    p.add_argument("--growth", action="store_true", help="how the cost of a turn grows, too")
    p.add_argument("--program", metavar="PATH", help="a program in place of the proved replay")
    a = p.parse_args(words)
    both = Sides(a)
    print("least (median) of %d runs, ns" % both.runs)
    print("%-28s %17s %21s %21s %8s" % ("", "", "the Rust", "replay", "ratio"))
    time_turns(both)
    time_calls(both)
    if not a.short:
        print(flush=True)
        subprocess.run([tree.RUN, "peers", "plain", "--time", "--installed", "--books", "250"], check=True)
    if a.growth:
        growth(both)
    print("the largest ratio, making a forest aside, is %.2f" % both.worst)
    return both.worst <= MOST
