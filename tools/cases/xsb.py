"""Text for a Prolog with tabling: texts, and what is expected of each: how many goals its book has and the clauses, in the notation, or the
number by which it is refused."""
from sorgwenad.building.texts import below, body, different, in_notation, largest, named, taken, whole
from sorgwenad.shared.plain import tabled

# The text of p1 without its variants.
P1 = tabled(3) + "g0 :- g1, tnot(g2).\ng1.\ng2 :- g2.\n"
# A number for each size of a machine's: the last one of it, and the first beyond.
EDGES = [n for bits in (8, 16, 31, 32, 63, 64, 128) for n in (2 ** bits - 1, 2 ** bits)]
TAKEN = [
    largest(),
    taken(3, ["g0 :- g1, tnot(g2).", "g1.", "g2 :- g2."], ("0 :- 1, not 2", "1", "2 :- 2")),
    taken(1, [], ()), taken(2, [], ()), taken(64, [], ()),
    taken(1, ["g0."], ("0",)), taken(1, ["g0 :- g0."], ("0 :- 0",)), taken(1, ["g0 :- tnot(g0)."], ("0 :- not 0",)),
    taken(2, ["g1."], ("1",)), taken(2, ["g1 :- tnot(g0), g1."], ("1 :- not 0, 1",)),
    taken(2, ["g0 :- g1.", "g0 :- tnot(g1)."], ("0 :- 1", "0 :- not 1")),
    taken(2, ["g0 :- g1, g0.", "g0 :- g0, g1."], ("0 :- 1, 0", "0 :- 0, 1")),
    taken(2, ["g0.", "g0 :- g1.", "g0 :- g1, g1.", "g1.", "g1 :- g1."], ("0", "0 :- 1", "0 :- 1, 1", "1", "1 :- 1")),
    taken(4, ["g1.", "g1 :- g3.", "g3."], ("1", "1 :- 3", "3")),
    taken(3, ["g0.", "g1.", "g2."], ("0", "1", "2")),
    taken(12, ["g1 :- g10, g11, g1, g0.", "g10 :- tnot(g11).", "g11."], ("1 :- 10, 11, 1, 0", "10 :- not 11", "11")),
    taken(64, ["g0 :- g63, tnot(g62).", "g9 :- g10.", "g10 :- g9.", "g63 :- g63."],
          ("0 :- 63, not 62", "9 :- 10", "10 :- 9", "63 :- 63")),
    taken(1, [body(8)], ("0 :- " + ", ".join("0" * 8),)),
    taken(1, [body(8, "tnot(g0)")], ("0 :- " + ", ".join(["not 0"] * 8),)),
    taken(2, ["g0.", *different(64, words=("g0", "g1"), bits=6)], in_notation(["g0.", *different(64, words=("g0", "g1"), bits=6)])),
    taken(1, different(256), in_notation(different(256))),
    taken(2, different(200) + different(56, "g1"), in_notation(different(200) + different(56, "g1"))),
]
# Another layout.
LAYOUT = [
    *[below(39, line) for line in (
        "g0 ", " g0.", "g0 .", "g0. ", "g0.\t", "\tg0.", "g0..", "g0", "g0,", ".", "", "g.", "g", "0.", "g0:-g1.", "g0 :-g1.", "g0:- g1.",
        "g0 :-  g1.", "g0  :- g1.", "g0\t:- g1.", "g0 :-\tg1.", "g0 :- .", "g0 :-.", "g0 :- ", "g0 :-", "g0 : - g1.", "g0 -: g1.",
        "g0 <- g1.",
        "g0 :- g1 .", "g0 :- g1", "g0 :- g1,g1.", "g0 :- g1 , g1.", "g0 :- g1 ,g1.", "g0 :- g1,  g1.", "g0 :- g1,\tg1.", "g0 :- g1;g1.",
        "g0 :- g1; g1.", "g0 :- g1, .", "g0 :- g1,.", "g0 :- , g1.", "g0 :- g1,, g1.", "g0 :- g1. g1.", "g0 :- g1 g1.", "g0 :- g.",
        "g0 :- g1 :- g1.", "g0 :- g1, g.", "g0 :- 1.", "g0 :- (g1).", "g0 :- g1().", "g0().", "g0 :- g1/0.", "g0/0.", "g0 :- true.",
        "g0 :- not g1.", "g0 :- not(g1).", "g0 :- \\+ g1.", "g0 :- \\+g1.", "g0 :- tnot g1.", "g0 :- tnotg1.", "g0 :- tnot (g1).",
        "g0 :- tnot( g1).", "g0 :- tnot(g1 ).", "g0 :- tnot(g1) .", "g0 :- tnot(g1.", "g0 :- tnot(g1, g1).", "g0 :- tnot(g1)).",
        "g0 :- tnot((g1)).", "g0 :- tnot(tnot(g1)).", "g0 :- tnot().", "g0 :- tnot(g).", "g0 :- tnot(1).", "g0 :- tnot(", "g0 :- tnot",
        "g0 :- tno(g1).", "g0 :- tnott(g1).", "g0 :- t(g1).", "g0 :- tnot(g1)g1.", "g0 :- tnot(g1),g1.", "g0 :- tnot[g1].", "tnot(g0).",
        "G0.", "g0 :- G1.", "g0 :- TNOT(g1).", "g0 :- Tnot(g1).", "h0.", "g0 :- h1.", "gg0.", "g 0.", "g0 :- g 1.", "g1_.", "g0a.",
        "g0x0.",
        "% g0.", "g0. % so", "/* */", "g0 :- g1, % so", "?- g0.", ":- g0.", ":- dynamic g1/0.", "g0 --> g1.", "g0.g1.", "g0. g1.",
        "g+0.", "g-0.", "g0 :- g+1.", "g0 :- g-1.", "g0 :- g1.0.", "g0 :- g1e0.", "g0 :- g0x1.", "g0 :- g1_000.", "g0 :- g'1.",
        "g0 :- g1;.",
        "g0\0.", "\0g0.", "g0.\0", "g0\r.", "g0 :- g1.\r", "g0\x0b.", "g0\xa0:- g1.", "g\u0660.", "g0 :- g\u0661.", "\ufeffg0.")],
    *whole(39, "\n", "\n" + P1, P1 + "\n", P1 + " ", P1 + "\0", P1 + "g", P1 + ":", P1 + "g2 :- g0.",
    P1[:-1], P1[:-2], P1[:-3], " " + P1, "\0",
           "\t", "g", ":", ".", "0", P1.replace("\n", "\r\n"), P1.replace("\n", "\r"), P1.replace("\n", "\n\n"), P1.replace("\n", ""),
           P1.replace("\n", " \n"), P1.replace(" ", "  "), P1.replace(" ", "\t"), P1.replace(" ", ""), P1.upper(), P1 + P1, "\ufeff" + P1,
           P1 + "end_of_file.\n", P1 + "%\n", "".join(reversed(P1))),
]
TABLE_LINES = [
    *whole(39, *(tabled(1) + line + "\n" for line in (
        ":- table g1/0", ":- table g1/0. ", ":- table g1/0..", ":- table g1/1.", ":- table g1/00.", ":- table g1/.", ":- table g1.",
        ":- table g1/0,",
        ":- table g/0.", ":- table 1/0.", ":- table g1 /0.", ":- table g1/ 0.", ":- table  g1/0.", ":-  table g1/0.", ":-table g1/0.",
        ":- tableg1/0.",
        " :- table g1/0.", ":- table g1/0.:- table g2/0.", ":- table g1/0, g2/0.", ":- table(g1/0).", ":- Table g1/0.", ":- tabled g1/0.",
        ":- table G1/0.", ":- table g1\\0.", "- table g1/0.", ": table g1/0.", ":- tnot g1/0.", ":- table tnot(g1)/0.", ":-", ":",
        "table g1/0.",
        ":- table g01/0.", ":- table g001/0.", ":- table g2/0.", ":- table g0/0.", ":- table g10/0.", ":- table g11/0.",
        ":- table g-1/0.",
        ":- table g%d/0." % 2 ** 64, ":- table g%d/0." % (2 ** 64 + 1), ":- table g65536/0.", ":- table g65537/0.", ":- table g256/0.",
        ":- table g257/0.", ":- table g1/0.\r", ":- table\tg1/0."))),
    *whole(39, ":- table g1/0.\n", ":- table g00/0.\n", ":- table g1/0.\n:- table g0/0.\n",
    tabled(1)[:-1], tabled(64)[:-1], ":- table g0",
           ":- table g0/0", tabled(11).replace("g10", "g010"), tabled(12).replace("g11", "g10"), tabled(3) + tabled(3),
           tabled(65).replace("g64", "g064"), tabled(66).replace("g64/", "g65/")),
    # behind a rule
    below(39, "g0.", ":- table g2/0."), below(39, "g0.", ":- table g2/0.", "g2."), below(39, "g1.", ":- table g1/0."),
    below(39, ":- table g2/0.", "g3."), ("all of them behind the rules", "g0.\n" + tabled(1), 39),
]
HEADS = [
    *whole(39, "g0.\n", "g1.\n", "g0 :- g0.\n", "g0 :- tnot(g1).\n"),
    below(39, "g1.", "g0."), below(39, "g0.", "g1.", "g0."), below(39, "g1 :- g0.", "g1.", "g0 :- g1."), below(39, "g2."),
    below(39, "g0.", "g1.", "g2."), below(39, "g2.", "g2."), below(39, "g63.", goals=63), below(39, "g64.", goals=64),
    below(39, "g64.", goals=2),
    below(39, "g10.", "g9.", goals=11), below(39, "g2.", "g10.", "g9.", goals=11),
    *[below(39, "g%d." % n) for n in EDGES], *[below(39, "g%d :- g1." % (n + 1)) for n in EDGES],
    *[below(39, line) for line in ("g00.", "g01.", "g000.", "g0 :- g00.", "g0 :- g01.", "g0 :- g007.", "g0 :- g1, tnot(g00).",
    "g0 :- tnot(g01).",
                                   "g0 :- g0%d." % 2 ** 64, "g0%d." % 2 ** 64, "g0 :- g00000000000000000000000000000001.")],
    below(39, "g01.", goals=12), below(39, "g010.", goals=12), below(39, "g1 :- g010.", goals=12),
]
# Of the form, but for the desk.
FOR_THE_DESK = [
    ("no text", "", 8),
    *[case for number in (1, 2, 7, 9, 10, 64, 100, *EDGES, *(n + 1 for n in EDGES), 10 ** 20 - 1, 10 ** 100) for case in named(number)],
    *named(63, 63), *named(64, 64), *named(65536 + 5, 64), *named(2 ** 64 + 5, 64),
    below(6, "g0.", "g1 :- g2.", "g1."), below(6, "g1 :- g0, tnot(g3)."),
    below(36, "g0.", "g0."), below(36, "g0 :- g1.", "g0 :- g1."), below(36, "g0 :- g1, tnot(g0).", "g0.", "g0 :- g1, tnot(g0)."),
    below(36, "g0.", "g1.", "g1."), below(36, "g0 :- tnot(g0).", "g0 :- tnot(g0).", goals=1),
    below(36, *different(255), different(1)[0], goals=1), below(36, *different(1), *different(255), goals=1),
    below(5, body(9)), below(5, body(10)), below(5, body(9, "tnot(g1)")), below(5, body(300)), below(5, "g0.", "g1 :- " + body(9)[6:]),
    below(5, *different(256), "g0.", goals=1), below(5, *different(256), "g1."), below(5, *["g0."] * 257),
    below(5, *["g0 :- g1."] * 1000),
    ("65 table lines", tabled(65), 5), ("66 table lines", tabled(66), 5), ("300 table lines", tabled(300), 5),
    ("65,537 table lines", tabled(65537), 5), ("a rule of the 65th", tabled(65, "g64."), 5),
    ("a literal of the 65th", tabled(65, "g0 :- g64."), 5),
]
# Two faults, of which the first in the order 39, 5, 8, 6, 36 counts.
ORDER = [
    ("65 table lines and a byte", tabled(65) + "x", 39), ("65 table lines, the last without its end", tabled(65)[:-1], 39),
    ("65 table lines and a head without one", tabled(65, "g65."), 39), ("66 table lines, one out of turn", tabled(66) + tabled(1), 39),
    below(39, body(9), "g2."), below(39, body(9), "g0"), below(39, body(9), "g1.", "g0."), below(39, "g0 :- g7.", "g2."),
    below(39, "g2 :- g7."),
    below(39, "g0 :- g7.", "g0 :- g01."), below(39, "g0 :- g7.", "g1.", "g0."), below(39, "g0.", "g0.", "g1", "g0."),
    below(39, "g1.", "g1.", "g0."),
    below(39, "g0 :- g%d." % 2 ** 64, "g0 :- g1"), below(39, *["g0."] * 257, "g0 ."), below(39, *["g0."] * 257, "g2."),
    ("rules without a table line", "g0.\n" * 300, 39), ("a rule, then its table line", "g0.\n" + tabled(65), 39),
    below(39, body(9)[:-1]), below(39, body(9)[:-1] + ", ."), ("a 9th literal, and no newline", tabled(1, body(9))[:-1], 39),
    below(5, body(9), "g0 :- g7."), below(5, "g0 :- g7.", body(9)), below(5, body(9, "g7")),
    below(5, "g0.", "g0.", body(9)), below(5, *["g0 :- g7."] * 257), below(5, *["g0."] * 257),
    ("65 table lines, no goal 65", tabled(65, "g0 :- g65."), 5),
    ("65 table lines, a clause twice", tabled(65, "g0.", "g0."), 5),
    below(6, "g0.", "g0.", "g1 :- g2."), below(6, "g0 :- g2.", "g0 :- g2."), below(6, "g0 :- g2.", "g1.", "g1."),
    below(6, "g0 :- g2.", "g0 :- g%d." % 2 ** 64), below(6, "g0 :- g%d." % 2 ** 64, "g0 :- g%d." % (2 ** 64 + 1)),
    below(6, "g0 :- g%d." % 2 ** 64, "g0 :- g%d." % 2 ** 64), below(6, body(8, "g7")), below(6, *["g0 :- g7."] * 256),
]
XSB = {"taken": TAKEN, "layout": LAYOUT, "table lines": TABLE_LINES, "heads": HEADS, "the desk's": FOR_THE_DESK, "order": ORDER}
