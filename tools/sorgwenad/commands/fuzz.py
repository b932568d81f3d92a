"""Damaged scripts, books, texts and papers, and deep books: no crash, no hang, and what the Rust prints.

scripts  N scripts of the oracle's generator, each damaged in one to three places (bytes, digits, lines, lengths), through `replay` and
         `oracle run`, some hundreds in a process. What they print must be the same, and `replay` must end by itself.
books    N books of the oracle's generator, most of them damaged (`oracle books`), through `listing`, a process for each, and
         `oracle lists`, whose text, as the listing's fields, must be the one on the pages.
texts    N texts of plain books of the oracle's generator, nearly all of them damaged (bytes, blanks, lines, numbers, literals, limits: see
         shared/damage.py), through `from_xsb`, a process for each, and `oracle from-xsb`. Each of the numbers 5, 6, 8, 36 and 39 must come,
         and texts that are accepted.
mend     N papers of the oracle's generator, torn ones and damaged ones in turn (`oracle books`), through `mend`, a process for each, and
         `oracle mend`; both streams are compared. What is left must be accepted by the Rust's desk, an accepted paper must be unchanged,
         a refusal must have the reader's number. Each of the numbers 1 to 5, 7, 8 and 32 must come, papers that are unchanged and papers
         that are mended. Nothing is kept of them but counts; a million take some twenty minutes on two processors.
stack    Books that bring about the deepest stack that there can be (cases/deep.py): a search with 64 entries and clearing through 64
         tables, with up to 256 strands. `replay` and `listing` run them with a process stack of K KB, and print what the Rust prints. The
         least stack that is enough is sought too.

Without a word: all of them. A line on standard error has the seed it is at; --from continues from there. Status 0 only if there was no
crash, no hang and no difference.
"""
import collections
import concurrent.futures
import random
import re
import resource
import subprocess
import sys
import time

from sorgwenad.shared import pages, tree
from sorgwenad.shared.book import encode
from sorgwenad.shared.command import parser, processors, with_oracle
from sorgwenad.shared.damage import damaged_script, damaged_text
from sorgwenad.shared.listed import listed_by_the_rust
from sorgwenad.shared.oracle import find_oracle, in_xsb, mended, mended_wrong, random_books, random_script, read
from sorgwenad.shared.processes import Broken, output_of
from sorgwenad.shared.script import Counts, difference, is_book, makes
from sorgwenad.shared.tables import rows

PROFILES = "mix tiny bytes small lines plain large".split()
# Scripts, or books, of one seed.
TOGETHER = 500
SECONDS = 300


def scripts_of(oracle, seed):
    """The damaged scripts of a seed; the last one may end without a newline."""
    chance = random.Random(seed)
    text = random_script(oracle, seed, TOGETHER, PROFILES[seed % len(PROFILES)]).rstrip(b"\n")
    starts = []
    for line, before in zip(text.split(b"\n"), [b""] + text.split(b"\n")):
        if is_book(line) and not is_book(before) or not starts:
            starts.append([])
        starts[-1].append(line)
    return b"\n".join(damaged_script(chance, b"\n".join(lines)) for lines in starts) + chance.choice([b"", b"\n"]), len(starts)


def some_scripts(a, seed):
    """How many there were, what the Rust returned, and what is wrong."""
    counts = Counts()
    try:
        script, many = scripts_of(a.oracle, seed)
        rust, ours = output_of([a.oracle, "run", "quiet"], script, SECONDS), output_of([a.replay, "quiet"], script, SECONDS)
        counts.see(rust, script)
        wrong = ""
        if rust != ours:
            wrong = difference(script, output_of([a.oracle, "run"], script), output_of([a.replay], script))
        return many, counts, wrong
    except Broken as broken:
        return TOGETHER, counts, str(broken)


def some_books(a, seed):
    """The same for books, whose pages are compared byte by byte with the Rust's text as pages."""
    counts = collections.Counter()
    books = random_books(a.oracle, seed, TOGETHER)
    for book, rust in zip(books, listed_by_the_rust(a.oracle, books)):
        try:
            ours = output_of([a.listing], book, 60)
        except Broken as broken:
            return TOGETHER, counts, "%s\non the book %s" % (broken, book.hex())
        if ours != pages.paged(rust.encode()):
            return TOGETHER, counts, "the book %s\nthe Rust:\n%slisting:\n%s" % (book.hex(), rust, ours.decode(errors="replace"))
        counts[rust.strip() if rust.startswith("refused") else "listed"] += 1
    return TOGETHER, counts, ""


# What must come among damaged texts.
OF_TEXTS = ["accepted"] + ["refused %d" % number for number in (5, 6, 8, 36, 39)]


def texts_of(oracle, seed):
    """The damaged texts of a seed."""
    chance = random.Random(seed)
    books = random_books(oracle, seed, TOGETHER, "plain" if seed % 2 else "few")
    texts = [text for text in in_xsb(oracle, "to-xsb", books) if not isinstance(text, int)]
    return [damaged_text(chance, chance.choice(texts), chance.choice(texts)) for _ in range(TOGETHER)]


def run_in_time(program, data):
    """A run that ends within a minute; None where it does not."""
    try:
        return subprocess.run([program], input=data, capture_output=True, timeout=60)
    except subprocess.TimeoutExpired:
        return None


def some_texts(a, seed):
    """The same for texts: what is read, or the number on standard error, with a sentence on the next line."""
    counts, texts = collections.Counter(), texts_of(a.oracle, seed)
    for text, rust in zip(texts, in_xsb(a.oracle, "from-xsb", texts)):
        run = run_in_time(a.from_xsb, text)
        if not run:
            return TOGETHER, counts, "from_xsb did not end in 60 s on the text %r" % text
        number = re.fullmatch(rb"refused (\d+)\n.+\n", run.stderr)
        found = int(number.group(1)) if number else run.stdout
        if found != rust or run.returncode or run.stderr and not number or number and run.stdout:
            ours = run.stdout + run.stderr
            return TOGETHER, counts, "the text %r\nthe Rust: %s\nfrom_xsb (status %d): %s" % (text, rust, run.returncode, ours)
        counts["refused %d" % rust if isinstance(rust, int) else "accepted"] += 1
    return TOGETHER, counts, ""


# What must come among damaged papers.
OF_PAPERS = ["unchanged", "mended for 6", "mended for 36", "mended for 6 and 36"] + ["refused %d" % n for n in (1, 2, 3, 4, 5, 7, 8, 32)]


def kind_of(found):
    """How a paper was mended, in short."""
    out, err, _ = found
    if not out:
        return err.decode().strip()
    reasons = {line.split()[2] for line in err.decode().splitlines()}
    return "mended for " + " and ".join(sorted(reasons, key=int)) if reasons else "unchanged"


def some_papers(a, seed):
    """The same for papers that are mended: both streams compared with the Rust's, and what must be so of any mender."""
    counts, some, found = collections.Counter(), random_books(a.oracle, seed, TOGETHER, "torn" if seed % 2 else "damaged"), []
    for data, rust in zip(some, mended(a.oracle, some)):
        run = run_in_time(a.mend, data)
        if not run:
            return TOGETHER, counts, "mend did not end in 60 s on the paper " + data.hex()
        found.append((run.stdout, run.stderr, run.returncode))
        if found[-1] != rust:
            return TOGETHER, counts, "the paper %s\nthe Rust: %s %s\nmend (status %d): %s %s" % (
                data.hex(), rust[0].hex(), rust[1], run.returncode, run.stdout.hex(), run.stderr)
        counts[kind_of(rust)] += 1
    both = zip(some, found, read(a.oracle, some), read(a.oracle, [out for out, _, _ in found]))
    wrong = ["%s: the paper %s" % (mended_wrong(*one), one[0].hex()) for one in both if mended_wrong(*one)]
    return TOGETHER, counts, "" if len(found) == TOGETHER and not wrong else "\n".join(wrong[:3]) or "not as many papers as were asked for"


def all_came(what, words):
    """Whether each came."""
    def seen(counts):
        never = [word for word in words if not counts[word]]
        if never:
            print("%s: never came: %s" % (what, ", ".join(never)))
        return not never
    return seen


def run_many(what, a, some, seen):
    """Seeds until as many were tried as are asked for."""
    done, wrongs, shown_at, began, total = 0, 0, 0, time.time(), None
    waiting, seed = collections.deque(), a.start
    with concurrent.futures.ThreadPoolExecutor(a.jobs) as pool:
        while waiting or done < a.count and not wrongs:
            while len(waiting) <= a.jobs and done + TOGETHER * len(waiting) < a.count and not wrongs:
                waiting.append((seed, pool.submit(some, a, seed)))
                seed += 1
            at, running = waiting.popleft()
            many, counts, wrong = running.result()
            done += many
            total = counts if total is None else (total.add(counts) or total) if isinstance(counts, Counts) else total + counts
            if wrong:
                wrongs += 1
                print("FAILED: %s, seed %d: %s" % (what, at, wrong), flush=True)
            if time.time() - shown_at > 15:
                shown_at = time.time()
                line = "%s: seed %d, %d done in %d s (to go on: --from %d)" % (what, at, done, shown_at - began, at)
                print(line, file=sys.stderr, flush=True)
    print("%d damaged %s, seeds %d to %d, %d s" % (done, what, a.start, seed - 1, time.time() - began))
    print(total.table() if isinstance(total, Counts) else "   ".join("%s: %d" % item for item in sorted(total.items())))
    print("%s: %s" % (what, "%d seeds failed" % wrongs if wrongs else "no crash, no hang, no difference"))
    return not wrongs and seen(total)


# Deep books.

def limited(words, data, kilobytes):
    """What a program writes with so small a stack, and its status."""
    def limit():
        resource.setrlimit(resource.RLIMIT_STACK, (kilobytes * 1024, kilobytes * 1024))
    run = subprocess.run(words, input=data, capture_output=True, preexec_fn=limit, timeout=SECONDS)
    return run.returncode, run.stdout


def least_stack(words, data, right):
    """The least stack, in KB, with which the program writes what is right, to 16 KB; none where 8 MB are not enough."""
    low, high = 0, 64
    while limited(words, data, high * 16) != (0, right):
        low, high = high, high * 2
        if high > 512:
            return None
    while high - low > 1:
        middle = (low + high) // 2
        low, high = (low, middle) if limited(words, data, middle * 16) == (0, right) else (middle, high)
    return high * 16


def stack(a):
    """Every deep book through both programs with a small stack, compared with the Rust."""
    wrong = 0
    for name, text in rows("DEEP"):
        book = encode(text)
        script = (makes(book) + "\nopen 0\n" + "peek 0 0 1000 100000\nsearch 0 0 100000\n" * 3).encode()
        listed = pages.paged(listed_by_the_rust(a.oracle, [book])[0].encode())
        tried = [("replay", [a.replay], script, output_of([a.oracle, "run"], script)), ("listing", [a.listing], book, listed)]
        for program, words, data, right in tried:
            status, ours = limited(words, data, a.kilobytes)
            same = status == 0 and ours == right
            wrong += not same
            result = "the same" if same else "FAILED with status %d" % status
            least = least_stack(words, data, right)
            print("stack of %d KB: %s, %s: %s (least: %s)" % (a.kilobytes, name, program, result, least and "%d KB" % least), flush=True)
    return not wrong


# What is tried, by its word: what it is called in the report, the programs it takes, what a seed does, and what must come.
KINDS = {
    "scripts": ("scripts", ("replay",), some_scripts, []),
    "books": ("books", ("listing",), some_books, []),
    "texts": ("texts", ("from_xsb",), some_texts, OF_TEXTS),
    "mend": ("papers", ("mend",), some_papers, OF_PAPERS),
    "stack": ("deep books", ("replay", "listing"), None, []),
}


def parsed(words):
    p = with_oracle(parser(__doc__))
    p.add_argument("what", nargs="*", choices=[*KINDS, []], metavar="WHAT", help="what is tried: " + ", ".join(KINDS))
    p.add_argument("--count", type=int, default=20000, help="how many scripts, books, texts and papers each (20000)")
    p.add_argument("--from", dest="start", type=int, default=1, metavar="SEED", help="the first seed (1)")
    p.add_argument("--jobs", type=int, default=processors(), help="seeds at once (%d)" % processors())
    p.add_argument("--kilobytes", type=int, default=1024, help="the process stack that deep books are run with (1024)")
    for name in ("replay", "listing", "from_xsb", "mend"):
        p.add_argument("--" + name.replace("_", "-"), metavar="PATH", help="a program in place of the proved " + name)
    return p.parse_args(words)


def main(words):
    a = parsed(words)
    what = a.what or list(KINDS)
    a.oracle = find_oracle(a.oracle)
    for name in {name for word in what for name in KINDS[word][1]}:
        setattr(a, name, tree.built(name, getattr(a, name)))
    good = True
    for word in what:
        called, _, some, must_come = KINDS[word]
        good = (run_many(called, a, some, all_came(called, must_come)) if some else stack(a)) and good
    return good
