"""The same clause twice: books, and what the old entry, the exam desk and the listing are expected to return. Each key names a script that
calls its books. Two clauses of a goal are equal by variant, flags and literals in order, each by its command and operands. The desk refuses
the later one with 36, after all that the old entry refuses."""
from sorgwenad.building.desk import Book, pair, refused, same, taken, twice
from sorgwenad.building.listed import FAILS, HOLDS
from sorgwenad.shared.book import CLAUSE_MARKS, in_bytes, lines, marked

# What each script is about, and its books.
DESK = {
    "desk-any-distance": ("A clause is compared with every earlier one of its goal, not with its neighbour alone.", [
        twice("a, a", lines("goal 0", "0", "0"), 0, 1, 0),
        twice("a, b, a", lines("goal 0", "0/1", "0/2", "0/1"), 0, 2, 0),
        twice("a, b, b, a", lines("goal 0", "0/1", "0/2", "0/2", "0/1"), 0, 2, 1),
        twice("a, b, a, b", lines("goal 0", "0/1", "0/2", "0/1", "0/2"), 0, 2, 0),
        twice("a, b, c, b, b", lines("goal 0", "0/1", "0/2", "0/3", "0/2", "0/2"), 0, 3, 1),
        twice("a, b, c, d, e, a", lines("goal 0", ["0/%d :- 1" % v for v in (1, 2, 3, 4, 5, 1)], "goal 1", "1"), 0, 5, 0),
        taken("a, b, c", lines("goal 0", "0/1", "0/2", "0/3"), "0 0 yes 1\n0 1 yes 2\n0 2 yes 3\n0 3 none\n"),
    ]),
    "desk-literals": ("Literals are the same in their order, each by its command and operands.", [
        same("0 :- 1"), same("0 :- 1/3"), same("0 :- 1/3-3"), same("0 :- not 1"), same("0 :- 1/3 [outsized], not 0, 1/2-4"),
        taken("0 :- 0, 1 and 0 :- 1, 0", lines("goal 0", "0 :- 0, 1", "0 :- 1, 0", "goal 1"), FAILS + "1 0 none\n"),
        pair("0 :- 1, 1/3", "0 :- 1/3, 1", HOLDS),
        taken("0 :- 0 and 0 :- not 0", lines("goal 0", "0 :- 0", "0 :- not 0"), "0 0 negcycle\n"),
        pair("0 :- 1", "0 :- 0", HOLDS), pair("0 :- 1", "0 :- not 1", HOLDS),
        pair("0 :- not 1", "0 :- not 1 [outsized]", "0 0 maybe 0\n0 1 none\n"),
        pair("0 :- 1/3", "0 :- 1/3-3", HOLDS), pair("0 :- 1", "0 :- 1/0-65535", HOLDS), pair("0 :- 1", "0 :- 1/0-0", HOLDS),
        pair("0 :- 1/3", "0 :- 1/259", HOLDS), pair("0 :- 1/3-7", "0 :- 1/2-7", HOLDS), pair("0 :- 1/3-7", "0 :- 1/3-8", HOLDS),
        taken("0 :- 0 and 0 :- 0 [outsized]", lines("goal 0", "0 :- 0", "0 :- 0 [outsized]"), "0 0 maybe 0\n0 1 none\n"),
        pair("0 :- 1", "0 :- 1, 1", HOLDS), pair("0 :- 1, 1", "0 :- 1", HOLDS), pair("0", "0 :- 1", HOLDS),
    ]),
    "desk-flags": ("The same variant, and the same flags.", [
        taken("two variants", lines("goal 0", "0", "0/1"), HOLDS),
        taken("variants that differ in the high byte", lines("goal 0", "0/1", "0/257"), "0 0 yes 1\n0 1 yes 257\n0 2 none\n"),
        taken("one cannot prove", lines("goal 0", "0", "0 [cannot prove]"), HOLDS),
        taken("one is outsized", lines("goal 0", "0", "0 [outsized]"), HOLDS),
        taken("one cannot prove, one is outsized", lines("goal 0", "0/1 [cannot prove]", "0/1 [outsized]"), "0 0 floundered\n"),
        twice("both cannot prove", lines("goal 0", "0 [cannot prove]", "0 [cannot prove]"), 0, 1, 0),
        twice("both are outsized, with one between", lines("goal 0", "0/1 [outsized]", "0/1", "0/1 [outsized]"), 0, 2, 0),
        twice("all four, and the last again", lines("goal 0", ["0/1" + marked(n, CLAUSE_MARKS) for n in (0, 1, 2, 3, 3)]), 0, 4, 3),
    ]),
    "desk-goals": ("Clauses of two goals are never compared with each other.", [
        taken("equal facts of two goals", lines("goal 0", "0", "goal 1", "1"), HOLDS + "1 0 yes 0\n1 1 none\n"),
        taken("equal clauses of two goals", lines("goal 0", "0 :- 2", "goal 1", "1 :- 2", "goal 2"), FAILS + "1 0 none\n2 0 none\n"),
        twice("equal facts of goal 3", lines("goal 0", "0", "goal 1", "goal 2", "2", "2/1", "goal 3", "3", "3"), 3, 1, 0),
        twice("of goals 0 and 1", lines("goal 0", "0/1", "0/2", "0/2", "goal 1", "1", "1"), 0, 2, 1),
        twice("of goal 1, the numbers begin at 0", lines("goal 0", "0/1", "0/2", "goal 1", "1", "1/1", "1/1"), 1, 2, 1),
        taken("a literal behind a later goal makes two differ", "47 00 43 00 00 00 43 00 00 00 47 00 50 00 00 00 00 00 45",
              HOLDS + "1 0 none\n"),
        twice("a literal behind a later goal makes two equal",
              "47 00 43 00 00 00 50 00 00 00 00 00 43 00 00 00 47 00 50 00 00 00 00 00 45", 0, 1, 0),
    ]),
    "desk-order": ("36 comes after all that the old entry refuses in a book, and before 13.", [
        refused("0 :- 5 twice, and no goal 5", lines("goal 0", "0 :- 5", "0 :- 5"), 6),
        refused("two equal facts, and a literal of no goal", lines("goal 0", "0", "0", "0 :- 5"), 6),
        refused("two equal facts, and a byte after the end", "47 00 43 00 00 00 43 00 00 00 45 00", 7),
        refused("two equal facts, and no end", "47 00 43 00 00 00 43 00 00 00", 1),
        refused("two equal facts, and no command", "47 00 43 00 00 00 43 00 00 00 46 45", 2),
        refused("two equal facts, and a flag that means nothing", "47 00 43 00 00 00 43 00 00 00 43 00 00 04 45", 4),
        refused("two equal facts, and a crossed range", lines("goal 0", "0", "0", "0 :- 0/4-3"), 32),
        refused("a crossed range twice", lines("goal 0", "0 :- 0/4-3", "0 :- 0/4-3"), 32),
        refused("two equal clauses, and a ninth literal", lines("goal 0", "0", "0", "0 :- " + ", ".join(["0"] * 9)), 5),
        twice("two equal facts", lines("goal 0", "0", "0"), 0, 1, 0),
        twice("two equal facts, and clock limit 0", lines("goal 0", "0", "0"), 0, 1, 0, clock=0),
        Book("clock limit 0", in_bytes("47 00 45"), listing=FAILS, clock=0),
    ]),
}
# Papers with a clause twice, and the place; of all others the desk returns what the old entry returns.
DESK_TWICE = {"equal-clauses": (1, 2, 0), "clauses-256-twice": (0, 255, 0), "mend-256": (0, 1, 0)}
# Papers that the old entry refuses.
DESK_REFUSED = {"p9-empty": 1, "p9-end": 8, "goals-65": 5, "clauses-257": 5, "literals-9": 5, "range-crossed": 32, "largest-and-a-byte": 7,
           "mend-both": 6, "mend-261": 6, "largest-undefined": 6}
