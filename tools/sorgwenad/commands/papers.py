"""Writes the files that are made from case files: papers/ (cases/papers.py), the input, the expected output and the papers of the test
program `reading_tests` (cases/vectors.py), and the scripts tools/cases/scripts/NAME.script (cases/ranges.py, cases/desk.py).

--check: writes nothing, and compares the files with these; status 1 where one is missing or different, or papers/ has another one.
"""
import os

from cases.papers import RELEASE
from sorgwenad.rust import desk, ranges
from sorgwenad.shared import tree
from sorgwenad.shared.book import encode
from sorgwenad.shared.command import parser
from sorgwenad.shared.tables import rows

READING_TESTS = os.path.join(tree.ROOT, "crates", "reading_tests")
# The program's buffer: its output is longer, so that the run shows that a full buffer is written out.
BUFFER = 4096

HEADER = """# Sample papers

Each file `NAME.book` holds the bytes of a book. p1 to p9 are the cases of document 01, `release` is a paper as a workshop has it; the
others are the sizes at the limits and one past them, ranges, the same clause twice, levels, which yes can be printed, papers to be
mended, and the largest book. A paper that is refused here is refused by both entries, but where the desk is named. `inspect` prints what
a book says, `listing` what follows from it, `levels` its levels, where it is plain and has some, `certify` which goals' yes can be
printed; `mend` leaves out the clauses for which the desk refuses it with 6 or 36. A file `NAME.xsb` is a text for a Prolog with tabling:
`to_xsb` writes such a text of a plain book, `from_xsb` the book of such a text. `tools/run papers` writes the files and this page from
tools/cases/papers.py; `tools/run papers --check` compares them. Short books are in hex below the table.

| file | bytes | what it is |
|---|---|---|
"""
# A book of at most so many bytes is on the page in hex, so many bytes to a line.
SHORT, LINE = 64, 32


def in_hex(name, data):
    """A book in hex: its name before the first line."""
    lines = [data[i:i + LINE].hex(" ").upper() for i in range(0, len(data), LINE)]
    return "".join("    %-20s%s\n" % ("" if i else name, line) for i, line in enumerate(lines))


def papers():
    """Every file of papers/ with its bytes."""
    out, table, shown = {}, "", ""
    for name, says, text in rows("PAPERS"):
        data = text if isinstance(text, bytes) else encode(text)
        out[name + ".book"] = data
        table += "| %s.book | %d | %s |\n" % (name, len(data), says)
        shown += in_hex(name, data) if len(data) <= SHORT else ""
    for name, says, text, _ in rows("PAPER_TEXTS"):
        out[name + ".xsb"] = text.encode()
        table += "| %s.xsb | %d | %s |\n" % (name, len(text), says)
    names = "".join("%d %s\n" % (goal, says) for goal, (says, *_) in enumerate(RELEASE))
    page = HEADER + table + "\n## In hex\n" + shown
    return dict(out, **{"README.md": page.encode(), "release.names": names.encode()})


def read_as(expected):
    """How reading_tests prints it."""
    if isinstance(expected, int):
        return "refused %d" % expected
    return "accepted, %d goals, %d clauses" % expected[:2] + "".join(", desk %d" % number for number in expected[2:])


def of_reading_tests():
    """The program's files with their bytes. It is run in a copy of data/, and a link there is not followed: so the papers are copied."""
    books = papers()
    lines = [(name + ".book", name + ".book", expected) for name, expected in rows("READ_PAPERS")]
    lines += [(label, "%s: %s" % (label, text), expected) for label, text, expected in rows("VECTORS")]
    assert not any(":" in label for label, _, _ in lines), "a label ends at its colon"
    given = "".join(line + "\n" for _, line, _ in lines)
    wanted = "".join("%s: %s\n" % (label, read_as(expected)) for label, _, expected in lines)
    assert len(wanted) > BUFFER, "the output fits the buffer: more lines are needed"
    data = {"data/%s.book" % name: books[name + ".book"] for name, _ in rows("READ_PAPERS")}
    return dict(data, stdin=given.encode(), stdout=wanted.encode())


def all_files():
    """What is written: its name, the folder, its files, and the folder below in which there may be no other."""
    return [("papers", tree.PAPERS, papers(), ""), ("vectors", READING_TESTS, of_reading_tests(), "data"),
            ("scripts", tree.SCRIPTS, {**ranges.scripts(), **desk.scripts()}, None)]


def write_files(folder, wanted):
    for name, data in wanted.items():
        path = os.path.join(folder, name)
        os.makedirs(os.path.dirname(path), exist_ok=True)
        with open(path, "wb") as f:
            f.write(data)


def different(folder, wanted, alone):
    """The files that are missing, different, or not to be there."""
    same = lambda name, data: os.path.exists(os.path.join(folder, name)) and tree.read_bytes(folder, name) == data
    there = [os.path.join(alone, f) for f in os.listdir(os.path.join(folder, alone))] if alone is not None else []
    return sorted(set(there) - set(wanted)) + [name for name, data in wanted.items() if not same(name, data)]


def main(words):
    p = parser(__doc__)
    p.add_argument("--check", action="store_true", help="write nothing, and compare the files")
    a = p.parse_args(words)
    good = True
    for name, folder, wanted, alone in all_files():
        if not a.check:
            write_files(folder, wanted)
            continue
        wrong = different(folder, wanted, alone)
        good = good and not wrong
        print("%s: %s" % (name, "not as written from the case files: " + " ".join(wrong) if wrong else "%d files as written" % len(wanted)))
    return good
