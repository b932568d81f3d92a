"""Which goals' yes can be printed (order 2): books, and what is expected of each (sorgwenad/building/spoilt.py has the words)."""
from sorgwenad.building.spoilt import book, case, chained, of, wide

ROUND = ["%d :- %d" % (g, (g + 1) % 64) for g in range(64)]
BACK = ["%d :- %d" % (g, g - 1) for g in range(1, 64)]
FACTS = ["0/%d" % v for v in range(1, 256)]
CERTIFIED = {
    "clean": [
        case("-", "."), case("- - -", "..."), case("-", ".", "0"), case("-", ".", "0 :- 0"), case("- -", "..", "0 :- 1", "1 :- 0"),
        case("-", "f"), case("- -", "f.", "0 :- 1", "1 :- 0"), case("- -", ".f", "0 :- 1/3", "0/2"),
        case("- -", "..", "0/2 [cannot prove] :- 1/3, 1/3-7", "1/65535"), case("- -", "..", "0 [outsized] :- 1 [outsized]", "1/0"),
        case("- - -", "...", "0 :- 0, 1", "1/1", "1/2", "1/3"), case("- - - -", "....", "0 :- 1, 2", "1 :- 3", "2 :- 3", "3 :- 0"),
        book("the smallest book", "47 00 45", "-"),
        book("a literal behind a later goal", "47 00 43 00 00 00 47 00 50 01 00 00 00 00 45", "- -"),
    ],
    "itself": [
        case("0c", "c"), case("0c", "c", "0"), case("0c", "b"), case("0c", "c", "0 :- 0"), case("0c", "c", "0 :- not 0"),
        case("0n0.0", ".", "0 :- not 0"), case("0n0.0", "f", "0 :- not 0"), case("0n0.0 -", "..", "0 :- not 1"),
        case("0n0.1 -", "..", "0 :- 1, not 1"), case("0n0.0 -", "..", "0 :- not 1, 1"), case("0n0.0 -", "..", "0 :- not 1, not 1"),
        case("0n1.0 -", "..", "0 :- 1", "0 :- not 1"), case("0n0.0 -", "..", "0 :- not 1", "0 :- 1"),
        case("0n1.0 -", "..", "0", "0 :- not 1"),
        case("0n1.1 -", "..", "0 :- 1", "0 :- 1, not 1", "0 :- not 1"), case("0n2.1 -", "..", "0", "0 :- 1", "0 :- 1/2, not 1 [outsized]"),
        case("0n0.2 - -", "...", "0 :- 1/3-7, 2 [outsized], not 2", "0 :- not 1"),
        case("0n0.0 -", "..", "0 [cannot prove] :- not 1"), case("0n0.0 -", "..", "0/7 [outsized] :- not 1"),
        case("0n0.7 -", "..", "0 :- 1, 1, 1, 1, 1, 1, 1, not 1"), case("- 1n0.0", "..", "1 :- not 0"), case("- 1c", ".c"),
        case("- 1c", ".c", "1 :- 0"),
        case("- 1n0.0 - 3c", "...c", "1 :- not 0", "3 :- 2", "2 :- 0"), case("0n0.0 1c", ".c", "0 :- not 1"),
        case("0n0.1 1c", ".c", "0 :- 1, not 0"), case("0c 1c", "cc", "0 :- not 1", "1 :- not 0"),
        case("0n0.0 1n0.0", "..", "0 :- not 1", "1 :- not 0"),
        book("a not behind a later goal", "47 00 43 00 00 00 47 00 4E 01 00 00 45", "0n0.0 -"),
        book("a not behind a later goal, as second literal", "47 00 43 00 00 00 50 01 00 00 00 00 47 00 4E 01 00 00 45", "0n0.1 -"),
        book("the later goal is coinductive", "47 00 43 00 00 00 47 01 50 01 00 00 00 00 45", "1c 1c"),
    ],
    "leads to it": [
        case("1c 1c", ".c", "0 :- 1"), case("1n0.0 1n0.0", "..", "0 :- 1", "1 :- not 1"), case("1c 1c", "fc", "0 :- 1"),
        case("1c 1c", ".b", "0 :- 1"), case("1c 1c", ".c", "0 :- 1/3"), case("1c 1c", ".c", "0 :- 1/3-7"),
        case("1c 1c", ".c", "0 :- 1 [outsized]"),
        case("1c 1c", ".c", "0 [cannot prove] :- 1"), case("1c 1c", ".c", "0 [outsized] :- 1"), case("1c 1c", ".c", "0", "0 :- 0, 0, 1"),
        case("1c 1c", ".c", "0 :- 0, 0, 0, 0, 0, 0, 0, 1"), case("1c 1c", ".c", *FACTS, "0 :- 0, 1"),
        case("1n1.2 1n1.2", "..", "0 :- 1", "1", "1 :- 0, 0, not 0"), case("2c 2c 2c", "..c", "0 :- 1", "1 :- 2"),
        case("0c 0c 0c", "c..", "2 :- 1", "1 :- 0"), case("2c 2c 2c -", "..c.", "0 :- 1", "1 :- 2", "2 :- 3"),
        case("- 2c 2c", "..c", "1 :- 2", "2 :- 0"), case("2n0.0 2n0.0 2n0.0 -", "....", "0 :- 1", "1 :- 2", "2 :- not 3", "3"),
        # a positive cycle that leads to it, and one that it leads to
        case("2c 2c 2c", "..c", "0 :- 1", "1 :- 0, 2"), case("0c - -", "c..", "0 :- 1", "1 :- 2", "2 :- 1"),
        case("2c 2c 2c", "..c", "0 :- 1", "1 :- 2", "2 :- 0"), case("1n0.1 1n0.1", "..", "0 :- 1", "1 :- 0, not 0"),
        # the goal that a "not" names is not spoilt by it
        case("0n0.0 - 0n0.0", "...", "0 :- not 1", "2 :- 1, 0"), case("- 1n0.0 1n0.0 -", "....", "1 :- not 0", "2 :- 1", "0 :- 3"),
    ],
    "which one": [
        case("1c 1c 2c", ".cc", "0 :- 1, 2"), case("2c 1c 2c", ".cc", "0 :- 2, 1"), case("2c 1c 2c", ".cc", "0 :- 2", "0 :- 1"),
        case("1c 1c 2n0.0", ".c.", "0 :- 1", "0 :- 2", "2 :- not 0"), case("2n0.0 1c 2n0.0", ".c.", "0 :- 2", "0 :- 1", "2 :- not 0"),
        # the nearer one, though its literal is a later one
        case("1c 1c 2c 2c", ".cc.", "0 :- 3, 1", "3 :- 2"), case("1c 1c 2c 2c", ".cc.", "0 :- 3", "0 :- 1", "3 :- 2"),
        case("4c 2c 2c 2c 4c", "..c.c", "0 :- 1, 4", "1 :- 3", "3 :- 2"),
        # two that are as near: by the first literal
        case("3c 3c 4c 3c 4c", "...cc", "0 :- 1, 2", "1 :- 3", "2 :- 4"), case("4c 3c 4c 3c 4c", "...cc", "0 :- 2, 1", "1 :- 3", "2 :- 4"),
        case("3c 4c 3c 3c 4c", "...cc", "0 :- 2", "0 :- 1", "1 :- 4", "2 :- 3"),
        # what is found in a pass is not used in it: by goals before and behind
        case("3c 2c 2c 3c", "..cc", "0 :- 3", "1 :- 0, 2"), case("2c 3c 2c 3c", "..cc", "0 :- 1, 2", "1 :- 3"),
        case("0c 0c 3c 3c", "c..c", "1 :- 2, 0", "2 :- 3"), case("0c 3c 0c 3c", "c..c", "2 :- 1, 0", "1 :- 3"),
        case("2c 3c 2c 3c 3c", "..cc.", "0 :- 4, 1, 2", "1 :- 3", "4 :- 1"),
        # on a cycle: the way to the nearer side
        case("3c 3c 4c 3c 4c", "...cc", "0 :- 2, 3", "1 :- 0", "2 :- 1, 4"), case("3c 3c 3c 3c", "...c", "0 :- 1", "1 :- 2", "2 :- 0, 3"),
        case("5c 5c 2n0.1 2n0.1 5c 5c", ".....c", "0 :- 1", "1 :- 0, 4", "2 :- 3, not 3", "3 :- 2", "4 :- 5"),
        # one that spoils by itself is reported for itself, whatever it names
        case("0n0.1 1c", ".c", "0 :- 1, not 1"), case("0c 1c 2c", "ccc", "0 :- 1", "1 :- 2", "2 :- 0"),
        case("1n0.1 1n0.1 2c", "..c", "0 :- 1, 2 [outsized]", "1 :- 2, not 0"),
        case("2c 1n0.0 2c", "..c", "0 :- 2, 1", "1 :- not 0"),
    ],
    "sizes": [
        ("64 goals in a chain, the last coinductive", of("." * 63 + "c", *chained([])), "63c " * 64),
        ("64 goals in a chain, the last with a not", of("." * 64, *chained(["63 :- not 0"])), "63n0.0 " * 64),
        ("64 goals in a chain, the last clean", of("." * 64, *chained([])), "- " * 64),
        ("64 goals in a chain the other way, the first coinductive", of("c" + "." * 63, *BACK), "0c " * 64),
        ("64 goals in a ring", of("." * 64, *ROUND), "- " * 64),
        ("64 goals in a ring, one coinductive", of("." * 31 + "c" + "." * 32, *ROUND), "31c " * 64),
        ("64 goals in a ring, two coinductive", of("." * 20 + "c" + "." * 29 + "c" + "." * 13, *ROUND),
         "20c " * 21 + "50c " * 30 + "20c " * 13),
        ("64 goals, all coinductive", of("c" * 64), " ".join("%dc" % g for g in range(64))),
        ("64 goals, each with a not", of("." * 64, *("%d :- not %d" % (g, 63 - g) for g in range(64))),
         " ".join("%dn0.0" % g for g in range(64))),
        ("63 goals on the last, which is coinductive", of("." * 63 + "c", *("%d :- 63" % g for g in range(63))), "63c " * 64),
        ("256 clauses of one goal, the last with a not", of(".", *FACTS, "0 :- 0, 0, 0, 0, 0, 0, 0, not 0"), "0n255.7"),
        ("256 clauses of one goal", of(".", *FACTS, "0"), "-"),
        ("253 clauses of 8 literals, of goals before", of("c" + "." * 63, *wide(64, lambda g: str(max(g - 1, 0)))[3:]), "0c " * 64),
        ("256 clauses of 8 literals, the last goal's eighth a not", of("." * 64, *wide(64, lambda g: str((g + 1) % 64))[:255],
                                                                     "63 :- 63, 63, 63, 63, 63, 63, 63, not 0"), "63n3.7 " * 64),
        ("a not in clause 99, literal 0", of("." * 2, *("0/%d" % v for v in range(1, 100)), "0 :- not 1", "1 :- 0"), "0n99.0 0n99.0"),
        ("a not in clause 10, literal 3", of("." * 11, *("10/%d" % v for v in range(1, 11)), "10 :- 9, 9, 9, not 9", "0 :- 10"),
         "10n10.3" + " -" * 9 + " 10n10.3"),
    ],
    "refused": [
        book("no bytes", "", 1), book("the end alone", "45", 8), book("no end", "47 01", 1), book("unknown command", "47 01 46 45", 2),
        book("a clause before a goal", "43 00 00 00 45", 3), book("a literal before a clause", "47 01 4E 00 00 00 45", 3),
        book("unknown flag", "47 04 45", 4), book("a literal's unknown flag", "47 00 43 00 00 00 4E 00 00 02 45", 4),
        ("65 goals", b"\x47\x01" * 65 + b"\x45", 5), book("a ninth literal", "goal 0\n0 :- " + ", ".join(["not 0"] * 9), 5),
        ("257 clauses", of(".", *FACTS, "0", "0/256"), 5), book("no such goal", "goal 0 [coinductive]\n0 :- not 1", 6),
        book("a byte after the end", "47 01 45 00", 7), book("a crossed range", "goal 0\n0 :- 0/4-3", 32),
        book("two equal facts", "goal 0\n0\n0", 36), book("not 0 twice", "goal 0 [coinductive]\n0 :- not 0\n0 :- not 0", 36),
        case("0n1.0", ".", "0 :- 0", "0 :- not 0"), case("-", ".", "0 :- 0", "0 :- 0/0-65535"),
    ],
}
EVERY_FOURTH = " ".join("%dc" % (g if g % 2 else (4 * g + 1) % 64) for g in range(64))
# Of each paper.
CERTIFIED_PAPERS = {
    "p1": "0n0.1 - -", "p2": "0n0.0", "p2-coinductive": "0c", "p3": "0c 1c", "p4": "0c 1c 2n0.0", "p5": "- -", "p5-not": "0n0.0 -",
    "p6": "- -", "p6-one-fact": "- -", "p7": "- -", "p8": "- -", "p9-empty": 1, "p9-end": 8, "p9-one-goal": "-",
    "release": "0n0.3 1n0.4 2n0.3 3n0.1 - - - - - 9n0.1 - - 12n0.1 - - 15n1.0 16n0.0 - - - 0n0.3 21n0.0",
    "goals-64": "- " * 64, "goals-65": 5, "clauses-256": "-", "clauses-257": 5, "literals-8": "- " * 9, "literals-9": 5,
    "range-3-7": "- " * 10, "range-crossed": 32, "equal-clauses": 36, "levels-p1": "0n0.1 - -", "levels-not": "1n0.0 1n0.0 2n0.1 -",
    "levels-chain": " ".join("%dn0.0" % g for g in range(63)) + " -", "levels-cycle": " ".join("%dn0.0" % g for g in range(64)),
    "clauses-256-alike": "-", "clauses-256-twice": 36, "largest": EVERY_FOURTH, "largest-and-a-byte": 7, "largest-wants": EVERY_FOURTH,
    "largest-undefined": 6, "mend-behind": "- -", "mend-both": 6, "mend-261": 6, "mend-256": 36,
    "certify-corner": "- - - - 4n1.0 4n1.0 6c 6c", "certify-chain": "63c " * 64, "certify-wrong-yes": "- - 2n0.0 -",
    "certify-ranges": "- -",
}
