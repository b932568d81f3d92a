"""What is compared with the definitions: calls on a book, its listing, the place of its first repeat, its levels; as equations."""
import collections
import re

from sorgwenad.definitions.terms import called, goal_flags, reply, state
from sorgwenad.shared import computed, pages
from sorgwenad.shared.computed import HOMES, cons
from sorgwenad.shared.script import BOOK, calls_of

HEADER = """use Rattle.std.specs.Prelude.{ℕ, ◌≡◌, refl, true, false, List, [], ◌∷◌}
use Rattle.std.proofs.Math.Option.{none, some}
use %(d)s.{Complete, Ambiguous}
use %(d)s.Refusal.{refused, accepted}
use %(d)s.Stop.{stop, go}
use %(d)s.Book.{any, exactly, between, Positive, Negative}
use %(d)s.Logic.{NoMoreSolutions, Floundered, QuantumExceeded, NegativeCycle, InvalidAnswer}
use %(d)s.Turn.{found, fail, cut, stopped}
use %(d)s.Calls.{opens, searches, peeks, asks_future, refusal, table, searched, peeked, future}
use %(p)s.Listing.{fields, listing}
use %(p)s.Levels.{check_levels}
use %(p)s.NotPlain.{in_goal, in_clause, in_literal, a_flag, a_variant, a_want, a_range, not_plain_place}
use %(p)s.Shown.{Line, Sat, shown, shown_at_desk, placed, blank_ones}
""" % HOMES
SHOWN = """-- what the comparison looks at
use Rattle.std.specs.Prelude.{ℕ, zero, suc, List, [], ◌∷◌, map}
use Rattle.std.proofs.Math.Option.{Option}
use %(d)s.Refusal.{Refusable, refused, accepted}
use %(d)s.Tables.{Forest, Tables}
use %(d)s.Book.{read}
use %(d)s.Forest.{make}
use %(d)s.Desk.{Repeat, first_repeat, make_at_desk}
use %(d)s.Calls.{Call, Reply, sitting, Called, calls}

pub record Line : Type 0 where
  pub reply : Reply
  pub mark : ℕ
  pub clock : ℕ
  pub tables : Tables

abbrev pub line : Called → Line
line c = record { reply = c.reply; mark = c.after.forest.mark; clock = c.after.forest.clock; tables = c.after.forest.tables }

-- what making returned, 0 or the number of a refusal, and the calls
pub record Sat : Type 0 where
  pub number : ℕ
  pub lines : List Line

abbrev pub sat : ℕ → Forest → List Call → Sat
sat n f cs = record { number = n; lines = map line (calls (sitting f) cs) }

-- what a refused book leaves
abbrev pub left_by : ℕ → Forest
left_by n = record { book = []; clock_limit = 0; mark = n; tables = []; clock = 0 }

abbrev pub on : Refusable Forest → List Call → Sat
on made cs = elim made [ refused n ↦ sat n (left_by n) cs | accepted f ↦ sat 0 f cs ]

abbrev pub shown : List ℕ → ℕ → List Call → Sat
shown bytes limit cs = on (make bytes limit) cs

abbrev pub shown_at_desk : List ℕ → ℕ → List Call → Sat
shown_at_desk bytes limit cs = on (make_at_desk bytes limit) cs

abbrev pub placed : List ℕ → Refusable (Option Repeat)
placed bytes = elim (read bytes) [ refused n ↦ refused n | accepted book ↦ accepted (first_repeat book) ]

-- the blank lines of a page
abbrev pub blank_ones : ℕ → List ℕ
blank_ones zero = []
blank_ones (suc n) = %(blank)s blank_ones n
""" % dict(HOMES, blank="32 ∷ " * pages.WIDTH + "10 ∷")


def shown_by_the_checker(folder, equation):
    """What the checker prints for one equation."""
    return computed.check(folder, HEADER, [equation])[2][:6000]


class Script:
    """A book, its entry, the calls on it, and what the Rust returned for each."""

    def __init__(self, way, book, limit):
        self.way, self.data, self.limit = way, bytes.fromhex(book), limit
        self.calls, self.made, self.turns, self.numbers = [], None, 0, collections.Counter()

    def add(self, call, result, dump):
        """A call with what was printed for it."""
        self.calls.append((call, result, dump))
        self.turns += reply(call.split()[0], result)[1]
        number = re.match(r"(stop|refused) \d+", result)
        self.numbers[number.group(0) if number else result.split()[0]] += 1

    def equation(self, name, upto=None):
        calls = self.calls[:upto]
        left = "%s (%s) %s (%s)" % ("shown_at_desk" if self.way == "desk" else "shown", cons(str(b) for b in self.data), self.limit,
                                    cons("(%s)" % called(c) for c, _, _ in calls))
        goals, number = (goal_flags(self.data), "0") if self.made == "made" else ([], self.made.split()[1])
        lines = ("(record { reply = %s; %s })" % (reply(c.split()[0], r)[0], state(d, goals)) for c, r, d in calls)
        return "%s : %s ≡ record { number = %s; lines = %s }\n%s = refl\n" % (name, left, number, cons(lines), name)

    def first_wrong(self, folder):
        """How many calls it takes until the definitions differ, and what the checker prints then."""
        for upto in range(1, len(self.calls)):
            wrong, _, text = computed.check(folder, HEADER, [self.equation("s0", upto)])
            if wrong:
                return upto, text
        return len(self.calls), computed.check(folder, HEADER, [self.equation("s0")])[2]

    def show(self, folder):
        upto, text = self.first_wrong(folder)
        print("the first that did not agree, at call %d:\n%s %s clock %s\n  the Rust: %s" % (
            upto, self.way, self.data.hex(), self.limit, self.made))
        for c, r, d in self.calls[:upto]:
            print("%s\n  the Rust: %s\n  the Rust: %s" % (c, r, d))
        print(text[:6000])


class Listing:
    """A book and its listing by the Rust: its fields, and the same as pages."""

    def __init__(self, data, text):
        self.data, self.text = data, text

    def pages(self):
        """Byte by byte, but the blank lines by their number."""
        parts = re.fullmatch(rb"(.*?\n)(( {26}\n)*)", pages.paged(self.text), re.S)
        return "".join("%d ∷ " % byte for byte in parts.group(1)) + "blank_ones %d" % (len(parts.group(2)) // 27)

    def equation(self, name):
        book = cons(map(str, self.data))
        return "%s : (fields (%s) ≡ %s) × (listing (%s) ≡ %s)\n%s = (refl, refl)\n" % (
            name, book, cons(map(str, self.text)), book, self.pages(), name)

    def show(self, folder):
        print("the first that did not agree: the listing of the book %s\nthe Rust: %s" % (self.data.hex(), self.text.decode()))
        print(shown_by_the_checker(folder, self.equation("l0")))


class Place:
    """A book, and the place of the first clause that stands twice in it, as the Rust prints it."""

    def __init__(self, data, text):
        self.data, self.text = data, text

    def equation(self, name):
        place = re.search(r"goal (\d+) clause (\d+) as (\d+)$", self.text)
        right = "accepted none"
        if place:
            right = "accepted (some (record { goal = %s; clause = %s; earlier = %s }))" % place.groups()
        elif self.text != "accepted":
            right = self.text
        return "%s : placed (%s) ≡ %s\n%s = refl\n" % (name, cons(map(str, self.data)), right, name)

    def show(self, folder):
        print("the first that did not agree: the place in the book %s\nthe Rust: %s" % (self.data.hex(), self.text))
        print(shown_by_the_checker(folder, self.equation("p0")))


class Profile:
    """A book, and the levels of its goals or the number that it is refused by, with 37 and its place, as the Rust prints them."""

    def __init__(self, data, lines):
        self.data, self.lines = data, lines

    def place(self):
        """The first place that is not plain: `goal 0, clause 1, literal 2: a want`."""
        if "refused 37" not in self.lines:
            return "none"
        words, _, fault = self.lines[-1].partition(": a ")
        numbers = re.findall(r"\d+", words)
        return "some (%s %s a_%s)" % (("in_goal", "in_clause", "in_literal")[len(numbers) - 1], " ".join(numbers), fault)

    def equation(self, name):
        inside = self.lines[0] == "within demand 3"
        lines = self.lines[0 if self.lines[0].startswith("refused") else 1:]
        right = "accepted (%s)" % cons(line.split()[1] for line in lines) if inside else lines[0]
        return "%s : (check_levels (%s) ≡ %s) × (not_plain_place (%s) ≡ %s)\n%s = (refl, refl)\n" % (
            name, cons(map(str, self.data)), right, cons(map(str, self.data)), self.place(), name)

    def show(self, folder):
        print("the first that did not agree: the levels of the book %s\nthe Rust: %s" % (self.data.hex(), self.lines))
        print(shown_by_the_checker(folder, self.equation("v0")))


def scripts_of(script, output):
    """The scripts of a text, each with its calls and what the Rust printed for them."""
    scripts = []
    for _, line, written in calls_of(script.encode(), output.encode()):
        result, *dump = [text.decode() for text in written]
        if result.startswith("bad line"):
            continue
        made = BOOK.match(line)
        if made:
            way, digits, limit = (part.decode() for part in made.groups())
            scripts.append(Script(way, digits, limit))
            scripts[-1].made = result
            if result != "made":
                scripts[-1].numbers[result] += 1
        elif scripts:
            scripts[-1].add(line.decode().strip(), result, dump[0])
    return scripts
