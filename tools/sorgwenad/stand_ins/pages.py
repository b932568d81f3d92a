"""Pages made wrong (cases/pages_wrong.py), each of which `tools/run fields` must report with its place; and texts of document 01 that must
be settled so."""
import random

from sorgwenad.shared.pages import BARE, NUMBERED, NotPages, fields, in_lines, paged, settled
from sorgwenad.shared.tables import rows


def random_text(chance, lines):
    """So many lines of a listing, as wide as they can be and narrower."""
    def number(digits):
        return chance.randrange(10 ** chance.randrange(1, digits + 1))

    def line():
        word = chance.choice(NUMBERED + BARE).decode()
        return " ".join(map(str, (number(3), number(5), word, *[number(5)] * (word.encode() in NUMBERED))))
    return "".join(line() + "\n" for _ in range(lines)).encode()


def reported(data):
    """What is reported of pages."""
    try:
        fields(data)
    except NotPages as wrong_page:
        return str(wrong_page)
    return "nothing"


def as_fields(texts):
    """Whether texts become pages and come back."""
    return all(reported(paged(text)) == "nothing" and fields(paged(text)) == text for text in texts)


class Subject:
    """Random texts, from one line up to six pages."""

    def __init__(self, folder):
        chance = random.Random(1)
        self.texts = [b"refused 1\n", b"refused 36\n"]
        self.texts += [random_text(chance, lines) for lines in (*range(1, 182), 240, 257, 320) for _ in range(5)]


def right(who):
    return [("fields", lambda _, texts: as_fields(texts), who.texts),
            ("fields --settled", lambda _, cases: all(settled(in_lines(text)) == in_lines(must) for _, text, must in cases),
             rows("SETTLED"))]


def wrong(who):
    """Pages made wrong: each is found where what is expected is reported, with its place."""
    for name, data, must in rows("WRONG_PAGES"):
        yield name, "fields", lambda _, one, must=must: not reported(one).startswith(must), data
