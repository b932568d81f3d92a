"""The tables of the case files, by their names. A command takes the tables of its name from all files of tools/cases, so that a new order
adds one file with the tables that it has cases for."""
import importlib
import os
import re

from sorgwenad.shared import tree

CASES = os.path.join(tree.ROOT, "tools", "cases")
# The names, and what a row of each table is. A dict has its rows by a title.
KINDS = {
    "PAPERS": "a sample paper: its name, what it is, the book",
    "PAPER_TEXTS": "a sample text: its name, what it is, the text, the number by which it is refused",
    "READ_PAPERS": "a sample paper as `reading_tests` reads it: goals, clauses and the desk's number, or the number of the refusal",
    "VECTORS": "a book as `reading_tests` reads it: its label, bytes in hex, the same",
    "LIMITS": "a book with calls: its title, the book, the clock, what making returns and the calls with their replies",
    "LISTED": "a script and its books: what it is about, and of each its title, the book, what is listed",
    "LISTED_PAPERS": "a sample paper: its name, what is listed; None where any listing is right",
    "DESK": "a script and its books at the exam desk (sorgwenad/building/desk.py)",
    "DESK_TWICE": "a sample paper with a clause twice: goal, clause and earlier clause",
    "DESK_REFUSED": "a sample paper that the old entry refuses: the number",
    "PAGES": "a book with its pages: its title, the book, the lines, how many pages",
    "SKIPPED": "a book with skipped answers: its title, the book, the fields of its listing",
    "WRONG_PAGES": "pages made wrong: what is wrong, the pages, what is reported",
    "SETTLED": "a text of document 01: its title, the text, the fields of the listing",
    "LEVELS": "books with their levels: of each its title, its bytes, the levels, a number or the goals on a cycle",
    "LEVELS_OF_PAPERS": "a sample paper: the same",
    "XSB": "texts for a Prolog with tabling: of each its title, the text, goals and clauses of its book or a number",
    "MENDED": "papers to be mended: of each its title, its bytes, what is removed and what is left, or a number",
    "MENDED_PAPERS": "a sample paper that the desk refuses with 6 or 36: what is removed, what is left",
    "CERTIFIED": "books with what spoils their goals: of each its title, its bytes, a word for each goal or a number",
    "CERTIFIED_PAPERS": "a sample paper: the same",
    "DERIVED": "a book, what can be derived from it, its clean goals, its listing",
    "PEERS_TEXTS": "a smallest text for swipl: its title, what stands in front, the text, what swipl returns",
    "PEERS_MENDED": "a smallest paper for clingo: its title, the book, the reason, what holds before and after mending",
    "DEEP": "a book with a deep stack: its title, the book",
    "DEMAND3_FAULTS": "a fault of the definitions that breaks demand 3",
    "ORDER2_FAULTS": "a fault of the definitions that breaks order 2",
    "SPOILT_FAULTS": "a fault of the check of order 2",
    "CODE_FAULTS": "a fault of the code: an edit of crates/*/refused",
    "CODE_UNSEEN": "an edit of crates/*/refused that no case can find: why",
    "RUST_FAULTS": "a fault of the Rust: what is wrong, and the changes",
}


def files():
    """The case files."""
    return sorted(f for f in os.listdir(CASES) if f.endswith(".py") and not f.startswith("_"))


def names_in(file):
    """The tables of a case file that a command takes."""
    return [name for name in re.findall(r"^([A-Z0-9_]+) = ", tree.read(os.path.join(CASES, file)), re.M) if name in KINDS]


def rows(name):
    """The rows of all tables of that name; of a dict pairs of a title and what it has."""
    assert name in KINDS, name
    found = []
    for file in files():
        if name in names_in(file):
            table = getattr(importlib.import_module("cases." + file[:-3]), name)
            found += table.items() if isinstance(table, dict) else table
    return found
