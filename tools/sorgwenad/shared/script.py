"""Scripts of calls: how they are written and read, and what both sides, the Rust (`oracle run`) and `replay`, print for them."""
import collections
import re

from sorgwenad.shared import compared
from sorgwenad.shared.book import ranges_in
from sorgwenad.shared.words import OF_BOOKS, REFUSALS, RESULTS, STOPS

CLOCK = 1000000

# A line that is no dump and no hash of one.
RESULT = re.compile(rb"^(?!state |[0-9a-f]{16}$).+$", re.M)
# A book, by the old entry or at the desk.
BOOK = re.compile(rb" *(book|desk) ([0-9A-Fa-f ]*)clock +(\d+) *$")


def makes(data, clock=CLOCK, way="book"):
    """The line that makes a forest from a book: by the old entry (`book`), or at the exam desk (`desk`)."""
    return "%s %s clock %d" % (way, data.hex().upper(), clock)


def peeks(listing, least=0):
    """Calls that list goal 0 until it has no more answers, by the fields of its listing."""
    answers = [line for line in (listing or "").splitlines() if line.startswith("0 ")]
    return ["open 0"] + ["peek 0 %d 1000 10000" % index for index in range(max(least, len(answers)))]


def is_skipped(line):
    """A line of spaces, or a comment; one that is no text is malformed, however it begins."""
    if not line.startswith(b"#"):
        return not line.strip(b" ")
    try:
        return bool(line.decode())
    except UnicodeDecodeError:
        return False


def is_book(line):
    """A line that makes a forest, at the desk or by the old entry, or would if it were not malformed."""
    return line.strip(b" ").startswith((b"book", b"desk"))


def calls_of(script, output):
    """Of each line that is no skipped one: its number, itself, and what was written of it: the result, and the dump where one follows. A
    malformed line has none; of calls that were handed over together the last one alone has it."""
    out = output.splitlines()[::-1]
    found = []
    for number, line in enumerate(script.split(b"\n"), 1):
        if is_skipped(line):
            continue
        written = [out.pop() if out else b"(nothing)"]
        if out and out[-1].startswith(b"state "):
            written.append(out.pop())
        found.append((number, line, written))
    return found


def results_of(output):
    """The results alone, counted."""
    return collections.Counter(RESULT.findall(output))


# What is counted besides the results, and how a table names it.
BESIDES = {
    "ranges": "literals that are ranges", "on_ranges": "calls on books with ranges",
    "at_desk": "calls on forests made at the desk", "by_old": "calls on forests made by the old entry",
    "on_equal": "calls on books with equal clauses", "both": "books through both entries",
    **{"refused %d" % n: "calls on forests of books that were refused with %d" % n for n in sorted({*OF_BOOKS, 13})},
}


class Counts:
    """What the Rust returned, over all scripts. Of the books that were made: how many of their literals are ranges, and the calls on these
    books; the calls on forests of either entry, and on books that the desk refuses; how many books went through both entries; and the
    calls on forests of refused books, by the number of the refusal."""

    def __init__(self):
        self.calls, self.turns, self.results = 0, 0, collections.Counter()
        self.besides = collections.Counter()

    def see(self, output, script=None):
        if script is not None:
            self.see_books(output, script)
        for line, times in results_of(output).items():
            result = line.decode()
            turns = re.search(r" turns (\d+)$", result)
            self.calls += times
            self.turns += int(turns.group(1)) * times if turns else 0
            numbered = re.match(r"(refused|stop) \d+|no forest|bad line", result)
            self.results[numbered.group(0) if numbered else result.split()[0]] += times

    def see_books(self, output, script):
        """A book has gone through both entries where its two lines have nothing between them but what is malformed."""
        here, before, lines = [], None, [line for line in script.split(b"\n") if not is_skipped(line)]
        for line, result in zip(lines, RESULT.findall(output)):
            if result.startswith(b"bad line"):
                continue
            if not is_book(line):
                self.besides.update(here)
                before = None
                continue
            way, digits, clock = BOOK.match(line).groups()
            book = bytes.fromhex(digits.decode()), int(clock)
            pair = before is not None and before[:2] == book and before[2] != way
            self.besides["both"] += pair
            here = [result.decode()]
            if result == b"made":
                ranges = ranges_in(book[0])
                # once, where both entries take it
                self.besides["ranges"] += 0 if pair and before[3] == b"made" else ranges
                here = ["at_desk" if way == b"desk" else "by_old"] + ["on_ranges"] * (ranges > 0)
                here += ["on_equal"] * (pair and before[3] == b"refused 36")
            before = None if pair else (*book, way, result)

    def add(self, other):
        self.calls, self.turns = self.calls + other.calls, self.turns + other.turns
        self.besides += other.besides
        self.results += other.results

    def rare(self, least):
        """The numbers, and what is counted besides, that came up less often."""
        return [w for w in REFUSALS + STOPS if self.results[w] < least] + [w for b, w in BESIDES.items() if self.besides[b] < least]

    def table(self):
        order = RESULTS + ["no forest", "bad line"] + REFUSALS + STOPS
        cells = ["%-12s %10s" % (w, format(self.results[w], ",")) for w in order + sorted(set(self.results) - set(order))]
        shown = ("ranges: {ranges:,} literals of the books that were made, {on_ranges:,} calls on these books\n"
                "entries: {at_desk:,} calls on forests made at the desk, {by_old:,} on forests made by the old entry, of these "
                "{on_equal:,} on books with equal clauses; {both:,} books through both\n"
                "forests of refused books: {on_refused:,} calls; by the number of the refusal {by_number}")
        besides = {b: self.besides[b] for b in BESIDES}
        refused = {b.split()[1]: times for b, times in besides.items() if b.startswith("refused")}
        by_number = ", ".join("%s: %s" % (n, format(times, ",")) for n, times in refused.items())
        shown = shown.format(on_refused=sum(refused.values()), by_number=by_number, **besides)
        return "%s\n%s" % (compared.table(cells, 4), shown)


def difference(script, rust, ours):
    """The first line that differs, with what both sides printed, and the calls since the book."""
    since = []
    for (number, line, one), (_, _, other) in zip(calls_of(script, rust), calls_of(script, ours)):
        if is_book(line) and not one[0].startswith(b"bad line"):
            since = []
        since.append(line)
        if one != other:
            shown = ["line %d of the script" % number]
            for a, b in zip(one + [b""] * (len(other) - len(one)), other + [b""] * (len(one) - len(other))):
                if a != b:
                    shown.append("the Rust: %s\nreplay:   %s" % (a.decode(errors="replace"), b.decode(errors="replace")))
            return "\n".join(shown + ["the calls since the book:", b"\n".join(since).decode(errors="replace")])
    return "one side wrote more than the other"
