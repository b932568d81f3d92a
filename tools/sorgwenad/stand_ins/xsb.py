"""Wrong stand-ins for `to_xsb` and `from_xsb` (order 13): numbers that are cut, zeros that are accepted, refusals in another order, places
that are not the first, and a short read taken for the end."""
import re

from sorgwenad.rust import xsb
from sorgwenad.rust.xsb_cases import by_hand, expected
from sorgwenad.shared import tree
from sorgwenad.shared.oracle import find_oracle, in_xsb
from sorgwenad.stand_ins.programs import program

NAME = re.compile(rb"g(\d+)")


def cut(bits):
    """A text with its numbers cut to so many bits."""
    zero = lambda digits: b"0" * (digits[:1] == b"0" and len(digits) > 1)
    return lambda text: NAME.sub(lambda name: b"g%s%d" % (zero(name[1]), int(name[1]) % 2 ** bits), text)


# From a text to the one that is read in its place.
TEXTS = {
    "numbers cut to 16 bits": cut(16), "numbers cut to 32 bits": cut(32), "numbers cut to 64 bits": cut(64),
    "leading zeros accepted": lambda text: re.sub(rb"g0+(\d)", rb"g\1", text),
    "blanks at the end of a line accepted": lambda text: text.replace(b" \n", b"\n"),
    "carriage returns accepted": lambda text: text.replace(b"\r\n", b"\n"),
    "empty lines accepted": lambda text: re.sub(rb"\n+", b"\n", text),
    "a last line without its newline accepted": lambda text: text + b"\n" if text[-1:] == b"." else text,
}


def no_goal(text):
    """Whether a literal names no goal."""
    goals = text.count(b":- table")
    return any(int(one) >= goals for line in text.split(b"\n") if b" :- " in line for one in NAME.findall(line.split(b" :- ", 1)[1]))


# From what is asked and its right result to a wrong one: bytes, or a number with its place.
RESULTS = {
    "6 before 5": lambda one, result: 6 if one.program == "from_xsb" and result == 5 and no_goal(one.data) else result,
    "8 for 39": lambda one, result: 8 if result == 39 else result,
    "a place that is not the first": lambda one, result: type(result)(37, "goal 63: a flag") if result == 37 else result,
    "no sentence": lambda one, result: result,
}


def without_sentence(found):
    """Streams with the sentence of the number left out."""
    out, err, status = found
    return out, err.split(b"\n")[0] + b"\n" if err else err, status


class Subject:
    """The Rust's results, which the stand-ins change; and the programs themselves, where they are built."""

    def __init__(self, folder):
        self.folder, self.oracle = folder, find_oracle()
        self.programs = [tree.built_or_none(name) for name in ("to_xsb", "from_xsb")]

    def results(self, asked, change=lambda text: text):
        """What the Rust returns for each, with each text changed before."""
        texts = iter(in_xsb(self.oracle, "from-xsb", [change(one.data) for one in asked if one.program == "from_xsb"]))
        books = iter(in_xsb(self.oracle, "to-xsb", [one.data for one in asked if one.program == "to_xsb"]))
        return [next(books if one.program == "to_xsb" else texts) for one in asked]

    def streams(self, asked, change=lambda text: text, result=lambda one, found: found):
        return [expected(result(one, found)) for one, found in zip(asked, self.results(asked, change))]


def right(who):
    """The checks, each with the right answers."""
    side = xsb.Side("the programs", *([path] for path in who.programs)) if all(who.programs) else None
    whole = xsb.Side("a stand-in", [who.oracle, "to-xsb"], [program(who.folder, "from_xsb as it must be")])
    return [("rust xsb", by_hand, side.answers(2) if side else who.streams), ("rust xsb", by_hand, who.streams),
            ("rust xsb", lambda _, given: xsb.pieces(given, 2, (1,)), whole)]


def wrong(who):
    """The stand-ins: what is wrong, the subcommand that must find it, its check, and the wrong answers."""
    for name, change in TEXTS.items():
        yield name, "rust xsb", by_hand, lambda asked, change=change: who.streams(asked, change)
    for name, result in RESULTS.items():
        spoil = without_sentence if name == "no sentence" else lambda found: found
        yield name, "rust xsb", by_hand, lambda asked, result=result, spoil=spoil: list(map(spoil, who.streams(asked, result=result)))
    short = "from_xsb with a short read as the end"
    side = xsb.Side("a stand-in", [who.oracle, "to-xsb"], [program(who.folder, short)])
    yield short, "rust xsb", lambda _, answers: xsb.pieces(answers, 2, (1,)), side
