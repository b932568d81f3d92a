"""What document 01 has at each limit and beside it: the cases p1 to p9, the sizes, every refusal and every stop, and the forest that each
refusal of a book leaves. Of each its title, its book in the notation or as bytes, its clock, what making returns and the calls, each with
its reply behind ` = `; and behind these the entry, where it is the desk."""
from sorgwenad.building.books import LARGEST, P1, P3, P7, P8, facts
from sorgwenad.building.limits import delayed_goals, held_answers, left_by, live_strands
from sorgwenad.shared.book import encode, lines
from sorgwenad.shared.script import CLOCK

MOST = 2 ** 64 - 1
LOOP = lines("goal 0", "0 :- 0")
ONE = "47 00 45"
TWICE = lines("goal 0", "0", "0")
# Before the first book.
EARLY = ["open 0 = no forest", "search 0 0 1 = no forest", "peek 0 0 1 1 = no forest", "future 0 0 0 = no forest"]

READING = [
    ("p9, 1: no bytes", "", CLOCK, ["refused 1"]),
    ("p9, 8: the end alone", "45", CLOCK, ["refused 8"]),
    ("p9: one goal", ONE, CLOCK, ["made"]),
    ("1: a goal without its flags", "47", CLOCK, ["refused 1"]),
    ("1: no end", "47 00", CLOCK, ["refused 1"]),
    ("1: a literal that lacks a byte", "47 00 43 00 00 00 50 00 00 00 00", CLOCK, ["refused 1"]),
    ("2: 46 for 47", "46 00 45", CLOCK, ["refused 2"]),
    ("3: a clause before a goal", "43 00 00 00 45", CLOCK, ["refused 3"]),
    ("3: a literal before a clause", "47 00 4E 00 00 00 45", CLOCK, ["refused 3"]),
    ("4: a goal with both flags", "47 03 45", CLOCK, ["made"]),
    ("4: a goal with bit 2", "47 04 45", CLOCK, ["refused 4"]),
    ("4: a clause with both flags", "47 00 43 00 00 03 45", CLOCK, ["made"]),
    ("4: a clause with bit 2", "47 00 43 00 00 04 45", CLOCK, ["refused 4"]),
    ("4: a literal with its flag", "47 00 43 00 00 00 4E 00 00 01 45", CLOCK, ["made"]),
    ("4: a literal with bit 1", "47 00 43 00 00 00 4E 00 00 02 45", CLOCK, ["refused 4"]),
    ("32: a range from 3 to 3", "47 00 43 00 00 00 52 00 00 03 00 03 00 00 45", CLOCK, ["made"]),
    ("32: a range from 4 to 3", "47 00 43 00 00 00 52 00 00 04 00 03 00 00 45", CLOCK, ["refused 32"]),
    ("4 comes before 32", "47 00 43 00 00 00 52 00 00 04 00 03 00 02 45", CLOCK, ["refused 4"]),
    ("32 comes before 5", lines("goal 0", "0 :- " + "0, " * 8 + "0/4-3"), CLOCK, ["refused 32"]),
    ("32 comes before 6", lines("goal 0", "0 :- 1/4-3"), CLOCK, ["refused 32"]),
    ("7: a byte after the largest book", encode(LARGEST) + b"\0", CLOCK, ["refused 7"]),
    ("7: the largest book", LARGEST, CLOCK, ["made", "open 63 = table 0"]),
    ("6: a literal that names the last goal", "47 00 43 00 00 00 4E 00 00 00 45", CLOCK, ["made"]),
    ("6: a literal that names the goal after it", "47 00 43 00 00 00 4E 01 00 00 45", CLOCK, ["refused 6"]),
    ("7: a byte after the end", ONE + " 45", CLOCK, ["refused 7"]),
    ("13: the least clock limit", ONE, 1, ["made"]),
    ("13: clock limit 0", ONE, 0, ["refused 13"]),
    ("13: the largest clock limit", ONE, MOST - 1, ["made"]),
    ("13: one more", ONE, MOST, ["refused 13"]),
    ("13 comes after the book's numbers", "45", 0, ["refused 8"]),
]
SIZES = [
    ("5: 64 goals", "47 00 " * 64 + "45", CLOCK, ["made", "open 63 = table 0", "open 64 = refused 9"]),
    ("5: 65 goals", "47 00 " * 65 + "45", CLOCK, ["refused 5"]),
    ("5: 256 clauses", lines(facts(0, 256)), CLOCK, ["made", "open 0 = table 0", "search 0 0 1 = yes 1 turns 1"]),
    ("5: 257 clauses", lines(facts(0, 257)), CLOCK, ["refused 5"]),
    ("5: 8 literals", lines("goal 0", "0 :- " + ", ".join(["0"] * 8)), CLOCK, ["made", "open 0 = table 0", "search 0 0 1 = cut turns 1"]),
    ("5: 9 literals", lines("goal 0", "0 :- " + ", ".join(["0"] * 9)), CLOCK, ["refused 5"]),
]
REFUSALS = [
    ("9 to 12, and in this order", P8, CLOCK, [
        "made", "open 1 = table 0", "open 2 = refused 9", "open %d = refused 9" % MOST,
        "search 0 0 1 = yes 0 turns 1", "search 0 1 1 = none turns 1", "search 0 2 1 = refused 11", "search 0 %d 1 = refused 11" % MOST,
        "search 0 1 0 = refused 12", "search 0 2 0 = refused 11", "search 1 2 0 = refused 10", "search %d 0 1 = refused 10" % MOST,
        "peek 0 1 1 1 = none at 1 turns 1", "peek 0 1 0 1 = refused 12", "peek 0 1 1 0 = refused 12", "peek 0 2 0 0 = refused 11",
        "peek 1 2 0 0 = refused 10", "future 0 %d 0 = false" % MOST, "future 0 0 0 = true", "future 1 0 0 = refused 10",
    ]),
    ("11: a floundered table has no index above it", "47 02 45", CLOCK, [
        "made", "open 0 = table 0", "search 0 0 1 = floundered turns 0", "search 0 %d 1 = floundered turns 0" % MOST,
        "search 0 0 0 = refused 12",
    ]),
    ("20 comes before 9, 10, 11 and 12, and never for any_future_answer", lines("goal 0 [coinductive]", "0 :- not 0"), CLOCK, [
        "made", "open 0 = table 0", "open 1 = refused 9", "search 1 0 1 = refused 10", "search 0 0 100 = stop 28 turns 0",
        "open 0 = refused 20", "open 1 = refused 20", "search 0 0 100 = refused 20", "search 1 2 0 = refused 20",
        "peek 0 0 1 1 = refused 20",
        "peek 1 2 0 0 = refused 20", "future 0 0 0 = true", "future 1 0 0 = refused 10",
    ]),
]
# 20 before 9 to 12 for every open, search and peek, 10 for any_future_answer.
LEFT = ["open 0 = refused 20", "open %d = refused 20" % MOST, "search 0 0 1 = refused 20", "search 1 2 0 = refused 20",
        "peek 0 0 1 1 = refused 20", "peek 1 2 0 0 = refused 20", "future 0 0 0 = refused 10", "future 0 %d 65536 = refused 10" % MOST]
REFUSED_BOOKS = left_by([
    (1, "47 00", CLOCK), (2, "47 00 46", CLOCK), (3, "43 00 00 00 45", CLOCK), (4, "47 04 45", CLOCK), (5, "47 00 " * 65 + "45", CLOCK),
    (6, "47 00 43 00 00 00 4E 01 00 00 45", CLOCK), (7, ONE + " 45", CLOCK), (8, "45", CLOCK), (13, P1, 0), (13, P1, MOST),
    (32, "47 00 43 00 00 00 52 00 00 04 00 03 00 00 45", CLOCK), (36, TWICE, CLOCK)], LEFT) + [
    ("36: the old entry, after it", TWICE, CLOCK, ["made", "open 0 = table 0", "search 0 0 1 = yes 0 turns 1"]),
    ("8: after a forest with a table", "45", CLOCK, ["refused 8"] + LEFT),
    ("a book that is accepted, after it", P8, CLOCK, ["made", "open 0 = table 0", "search 0 0 4 = yes 0 turns 4"]),
]
P1_TO_P9 = [
    ("p1", P1, CLOCK, [
        "made", "open 0 = table 0", "peek 0 0 1000 10000 = yes 0 at 0 turns 6", "peek 0 1 1000 10000 = none at 1 turns 1",
        "open 1 = table 2", "peek 2 0 1000 10000 = yes 1 at 0 turns 0", "peek 2 1 1000 10000 = yes 2 at 1 turns 1",
        "peek 2 2 1000 10000 = none at 2 turns 1", "open 2 = table 1", "peek 1 0 1000 10000 = none at 0 turns 1",
    ]),
    ("p2", lines("goal 0", "0 :- not 0"), CLOCK, ["made", "open 0 = table 0", "peek 0 0 1000 10000 = negcycle at 0 turns 2"]),
    ("p2, 28: coinductive", lines("goal 0 [coinductive]", "0 :- not 0"), CLOCK, [
        "made", "open 0 = table 0", "peek 0 0 1000 10000 = stop 28 at 0 turns 0", "open 0 = refused 20",
    ]),
    ("p3", lines(P3), CLOCK, [
        "made", "open 0 = table 0", "peek 0 0 1000 10000 = yes 0 at 0 turns 5", "open 1 = table 1",
        "peek 1 0 1000 10000 = none at 1 turns 1",
    ]),
    ("p3: goal 1 first", lines(P3), CLOCK, [
        "made", "open 1 = table 0", "peek 0 0 1000 10000 = yes 0 at 0 turns 5", "open 0 = table 1",
        "peek 1 0 1000 10000 = none at 1 turns 1",
    ]),
    ("p4 without the not", lines(P3, "goal 2", "2 :- 1"), CLOCK, [
        "made", "open 0 = table 0", "peek 0 0 1000 10000 = yes 0 at 0 turns 5", "open 2 = table 2",
        "peek 2 0 1000 10000 = yes 0 at 1 turns 2",
    ]),
    ("p4, 27", lines(P3, "goal 2", "2 :- not 1"), CLOCK, [
        "made", "open 0 = table 0", "peek 0 0 1000 10000 = yes 0 at 0 turns 5", "open 2 = table 2",
        "peek 2 0 1000 10000 = stop 27 at 0 turns 0",
        "open 2 = refused 20",
    ]),
    ("p5", lines("goal 0", "0 :- 1", "goal 1 [floundered]"), CLOCK, [
        "made", "open 0 = table 0", "peek 0 0 1000 10000 = maybe 0 at 0 turns 1", "peek 0 1 1000 10000 = none at 1 turns 1",
        "open 1 = table 1", "peek 1 0 1000 10000 = floundered at 0 turns 0",
    ]),
    ("p5, 25: with not", lines("goal 0", "0 :- not 1", "goal 1 [floundered]"), CLOCK, [
        "made", "open 0 = table 0", "peek 0 0 1000 10000 = stop 25 at 0 turns 0", "open 0 = refused 20",
    ]),
    ("p6 with one fact", lines("goal 0", "0 :- 0, 1", facts(1, 1)), CLOCK, ["made", "open 0 = table 0",
     "peek 0 0 1000 10000 = none at 0 turns 1"]),
    ("p6, 29", lines("goal 0", "0 :- 0, 1", facts(1, 3)), CLOCK, [
        "made", "open 0 = table 0", "peek 0 0 1000 10000 = stop 29 at 0 turns 5", "open 0 = refused 20",
    ]),
    ("p7 without its last clause", lines(P7), CLOCK, [
        "made", "open 0 = table 0", "peek 0 0 1000 10000 = yes 2 at 0 turns 1", "peek 0 1 1000 10000 = maybe 0 at 1 turns 1",
        "peek 0 2 1000 10000 = none at 2 turns 1", "open 1 = table 1", "peek 1 0 1000 10000 = maybe 1 at 0 turns 0",
        "peek 1 1 1000 10000 = none at 1 turns 1",
    ]),
    ("p7, 26", lines(P7, "1/1 :- 0"), CLOCK, [
        "made", "open 0 = table 0", "peek 0 0 1000 10000 = yes 2 at 0 turns 1", "peek 0 1 1000 10000 = maybe 0 at 1 turns 1",
        "peek 0 2 1000 10000 = none at 2 turns 1", "open 1 = table 1", "peek 1 0 1000 10000 = maybe 1 at 0 turns 0",
        "peek 1 1 1000 10000 = stop 26 at 1 turns 1", "open 1 = refused 20",
    ]),
    ("p8: four turns, and a result on the last turn wins", P8, CLOCK, ["made", "open 0 = table 0", "search 0 0 4 = yes 0 turns 4"]),
    ("p8: three are cut, and the next search takes one", P8, CLOCK, [
        "made", "open 0 = table 0", "search 0 0 3 = cut turns 3", "search 0 0 1 = yes 0 turns 1",
    ]),
]
AT_LIMITS = [
    ("again: at two rounds they are used up", LOOP, CLOCK, [
        "made", "open 0 = table 0", "peek 0 0 2 100 = again at 0 turns 2", "peek 0 0 1 100 = none at 0 turns 1",
    ]),
    ("again: at three they are not", LOOP, CLOCK, ["made", "open 0 = table 0", "peek 0 0 3 100 = none at 0 turns 1"]),
    ("21: p8 with clock limit 2", P8, 2, ["made", "open 0 = table 0", "search 0 0 100 = yes 0 turns 4", "open 1 = table 1"]),
    ("p8, 21: p8 with clock limit 1", P8, 1, [
        "made", "open 0 = table 0", "search 0 0 100 = stop 21 turns 0", "open 1 = refused 20", "search 0 0 100 = refused 20",
        "future 0 0 0 = true",
    ]),
    ("22: 256 live strands", live_strands(253), CLOCK, ["made", "open 0 = table 0", "open 2 = table 1", "search 0 0 100 = yes 1 turns 5"]),
    ("22: 257 live strands", live_strands(254), CLOCK, [
        "made", "open 0 = table 0", "open 2 = table 1", "search 0 0 100 = stop 22 turns 3", "open 1 = refused 20",
    ]),
    ("23: 256 answers", held_answers(249), CLOCK, [
        "made", "open 4 = table 0", "peek 0 0 1000 5000 = none at 0 turns 1", "open 0 = table 2", "peek 2 0 1000 5000 = yes 6 at 0 turns 8",
        "peek 2 1 1000 5000 = none at 1 turns 1",
    ]),
    ("23: 257 answers", held_answers(250), CLOCK, [
        "made", "open 4 = table 0", "peek 0 0 1000 5000 = none at 0 turns 1", "open 0 = table 2", "peek 2 0 1000 5000 = yes 6 at 0 turns 8",
        "peek 2 1 1000 5000 = stop 23 at 1 turns 2", "open 0 = refused 20",
    ]),
    ("24: 8 delayed goals", delayed_goals(0), CLOCK, ["made", "open 0 = table 0", "search 0 0 100 = yes 0 turns 9"]),
    ("24: 9 delayed goals", delayed_goals(1), CLOCK, ["made", "open 0 = table 0", "search 0 0 100 = stop 24 turns 8",
     "open 0 = refused 20"]),
]
LIMITS = READING + SIZES + REFUSALS + REFUSED_BOOKS + P1_TO_P9 + AT_LIMITS
