"""Wrong stand-ins for `listing`: pages of another form (order 3), another word behind a skipped answer (order 5), ranges that take more or
less (order 7), a clause twice that is accepted (order 10), and pages that are lost without a word."""
from sorgwenad.rust import desk, pages, ranges, skips
from sorgwenad.shared import tree
from sorgwenad.shared.book import RANGE, WANT, commands, number, u16
from sorgwenad.shared.listed import listed_by_the_rust, without_raising
from sorgwenad.shared.oracle import find_oracle, mended, of_each
from sorgwenad.shared.pages import FILLING, LINES, PAGE, fields, paged
from sorgwenad.stand_ins.programs import program


def each_page(data, change):
    """Pages, each of them changed; what is refused stays."""
    return data if data.startswith(b"refused") else b"".join(change(data[at:at + PAGE]) for at in range(0, len(data), PAGE))


def lines_of(data, change):
    """Pages, each of their lines changed."""
    return data if data.startswith(b"refused") else b"".join(change(line) + b"\n" for line in data.split(b"\n")[:-1])


# From the right pages to wrong ones.
PAGES = {
    "no filling": lambda data: data.replace(FILLING, b""),
    "the filling as newlines alone": lambda data: data.replace(FILLING, b"\n"),
    "an empty page behind the last": lambda data: data if data.startswith(b"refused") else data + FILLING * LINES,
    "a form feed behind each page": lambda data: each_page(data, lambda page: page + b"\f"),
    "a number cut": lambda data: lines_of(data, lambda line: line[:-1] + b" " if line[-1:].isdigit() and line[-2:-1].isdigit() else line),
    "the last page lost": lambda data: data if data.startswith(b"refused") or len(data) == PAGE else data[:-PAGE],
    "pages of 59 lines": lambda data: each_page(data, lambda page: page[:-27] if page.endswith(FILLING) else page),
    "the goal at the left": lambda data: lines_of(data, lambda line: line[:3].strip().ljust(3) + line[3:]),
    "the word at the right": lambda data: lines_of(data, lambda line: line[:10] + line[10:20].strip().rjust(10) + line[20:]),
    "a refusal on a page": lambda data: b"%-26s\n" % data[:-1] + FILLING * (LINES - 1) if data.startswith(b"refused") else data,
    "no newline at the end": lambda data: data[:-1],
}
# From a line of `oracle skips` to whether it is unsettled.
SKIPS = {
    "every none behind an answer is unsettled": skips.WRONG["every none behind an answer"],
    "a skip of an earlier peek is forgotten": skips.WRONG["an earlier skip is forgotten"],
    "a skip of this peek is forgotten": skips.WRONG["a skip of the last peek does not count"],
    "a skip of another goal counts": skips.WRONG["a skip of an earlier goal counts"],
    "a cut behind a skip is unsettled": skips.WRONG["cut is unsettled too"],
}


def with_ends(change):
    """A book with the ends of each of its ranges changed."""
    def changed(command):
        if command[0] != RANGE:
            return command
        low, high = change(number(command, 3), number(command, 5))
        return command[:3] + u16(low) + u16(max(low, high)) + command[-1:]
    return lambda data: b"".join(map(changed, commands(data))) + b"\x45"


# From a book that is accepted to the one whose listing is printed in its place.
RANGES = {
    "a high end is left out": with_ends(lambda low, high: (low, high - (high > low))),
    "a low end is left out": with_ends(lambda low, high: (low + (high > low), high)),
    "ends of one byte": with_ends(lambda low, high: (low % 256, high % 256)),
    "a want takes any variant": lambda data: b"".join(
        command[:3] + b"\0\0" + command[-1:] if command[0] == WANT else command for command in commands(data)) + b"\x45",
}


# What a program without a word is found by.
STREAMS = {"a full device is not reported": pages.failures, "a lost page is not reported": pages.a_page_lost,
           "no goals at a terminal": pages.at_a_terminal}


class Subject:
    """The Rust's listings, which the stand-ins change; and `listing` itself, where it is built."""

    def __init__(self, folder):
        self.folder, self.oracle, self.listing = folder, find_oracle(), tree.built_or_none("listing")

    def fields(self, books):
        return listed_by_the_rust(self.oracle, books)

    def pages(self, books):
        return [paged(text.encode()) for text in self.fields(books)]

    def settled_by(self, rule):
        """The fields by another rule for `unsettled`."""
        def answers(books):
            texts = of_each(self.oracle, "skips", books)
            return [text if text.startswith(b"refused") else skips.written(skips.lines_of(text), rule) for text in texts]
        return answers

    def changed(self, change):
        """The listing of another book, where the book is accepted."""
        def answers(books):
            right = self.fields(books)
            others = [data if text.startswith("refused") else change(data) for data, text in zip(books, right)]
            return self.fields(others)
        return answers

    def twice_accepted(self, books):
        """A clause that is there twice is left out, and not refused."""
        rows = zip(books, self.fields(books), mended(self.oracle, books))
        return self.fields([out if text == "refused 36\n" else data for data, text, (out, _, _) in rows])


def as_text(answers):
    return lambda books: [text.decode() for text in answers(books)]


def as_fields(change):
    """From the right pages by way of wrong ones to fields, as `listed` reads them."""
    return lambda data: without_raising(lambda: fields(change(data)).decode())


def right(who):
    """The checks, each with the right answers."""
    by_program = pages.by_the_program(who.listing) if who.listing else who.pages
    yield from (("rust pages", pages.by_hand, by_program), ("rust pages", pages.by_hand, who.pages),
                ("rust skips", skips.by_hand, who.fields), ("rust ranges", ranges.by_hand, who.fields),
                ("rust desk", desk.by_hand, who.fields))
    path = program(who.folder, "listing as it must be")
    for check in STREAMS.values():
        yield "rust pages", lambda _, given, check=check: check(given), path


def wrong(who):
    """The stand-ins: what is wrong, the subcommand that must find it, its check, and the wrong answers."""
    for name, change in PAGES.items():
        yield name, "rust pages", pages.by_hand, lambda books, change=change: [change(data) for data in who.pages(books)]
        # what reads pages reports it too, but for what no field shows
        if name != "the last page lost":
            yield name, "rust ranges", ranges.by_hand, lambda books, change=change: list(map(as_fields(change), who.pages(books)))
    for name, rule in SKIPS.items():
        answers = who.settled_by(rule)
        yield name, "rust pages", pages.by_hand, lambda books, answers=answers: [paged(text) for text in answers(books)]
        yield name, "rust skips", skips.by_hand, as_text(answers)
    for name, change in RANGES.items():
        yield name, "rust ranges", ranges.by_hand, who.changed(change)
    yield "a clause twice is left out and not refused", "rust desk", desk.by_hand, who.twice_accepted
    silent = program(who.folder, "listing without a word")
    for name, check in STREAMS.items():
        yield name, "rust pages", lambda _, path, check=check: check(path), silent
