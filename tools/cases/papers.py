"""The sample papers: a name, what it is, and the book in the notation or as bytes; and texts, with the number by which each is refused."""
from sorgwenad.building.books import (LARGEST, alike, chain, eight_ranges, facts, largest, largest_undefined, not_the_next, release,
                                      three_to_seven, to_be_mended, wide)
from sorgwenad.shared.book import encode, lines, numbered
from sorgwenad.shared.plain import tabled

# Goals 0 to 3 are clean, 4 and 6 spoil, 5 and 7 lead to them.
CORNER = """goal 0
0/1 :- 1/3-7, 2
goal 1
1/5
1/9 :- 3
goal 2
2 :- 2
2/4
goal 3 [floundered]
goal 4
4 :- 0
4 :- not 1, 0
goal 5
5 :- 0, 4
goal 6 [coinductive]
6 :- 6
goal 7
7 :- 1, 6"""
# A release paper, goal by goal: what it stands for, and its clauses.
# Variants: blanks 1 zirconia, 2 wax, 3 acrylic; holders 1 clamp, 2 vacuum plate.
RELEASE = [
    ("the crown job may run unattended, from this blank", "0/1 :- 3/1, 6/1, 9, not 15", "0/2 :- 3/2, 6/2, 10, not 15"),
    ("the bridge job may run unattended, from this blank", "1/1 :- 3/1, 6/1, 9, 12, not 15", "1/3 :- 3/3, 6/2, 11, 12, not 15"),
    ("the splint job may run unattended, from this blank", "2/3 :- 3/3, 6/2, 11, not 16, not 15"),
    ("this blank is sound", "3/1 :- 4/1, not 5", "3/2 :- 4/2", "3/3 :- 4/3"),
    ("this blank is on the shelf", "4/1", "4/3"),
    ("a zirconia blank has a crack",),
    ("this holder is locked", "6/1 :- 7/1, 8", "6/2 :- 7/2, 8"),
    ("this holder fits the machine", "7/1", "7/2"),
    ("the holder's bolts were checked", "8"),
    ("the diamond burr is sharp", "9 :- 13, not 14"),
    ("the wax burr is sharp", "10 :- 13"),
    ("the acrylic burr is sharp: nobody has measured it", "11 [cannot prove] :- 13"),
    ("the dust hood draws", "12 :- 17, not 18"),
    ("the burrs are in the rack", "13"),
    ("the diamond burr is past its hours",),
    ("somebody has to stay", "15 :- 16", "15 :- not 8"),
    ("the coolant is low", "16 :- not 19"),
    ("the dust hood is on", "17"),
    ("the filter is full",),
    ("the coolant was filled", "19"),
    ("the machine may be left for the night", "20 :- 0, 1, 2"),
    ("nothing may run", "21 :- not 0, not 1, not 2"),
]
PAPERS = [
    ("p1", "a positive literal, a \"not\", two variants, and a goal that rests on itself",
     "goal 0\n0 :- 1, not 2\ngoal 1\n1/1\n1/2\ngoal 2\n2 :- 2"),
    ("p2", "a goal that rests on its own \"not\"", "goal 0\n0 :- not 0"),
    ("p2-coinductive", "the same, coinductive", "goal 0 [coinductive]\n0 :- not 0"),
    ("p3", "two coinductive goals that rest on each other", "goal 0 [coinductive]\n0 :- 1\ngoal 1 [coinductive]\n1 :- 0"),
    ("p4", "p3, and a goal that rests on the \"not\" of one of the two",
     "goal 0 [coinductive]\n0 :- 1\ngoal 1 [coinductive]\n1 :- 0\ngoal 2\n2 :- not 1"),
    ("p5", "a goal that rests on a floundered one", "goal 0\n0 :- 1\ngoal 1 [floundered]"),
    ("p5-not", "a goal that rests on the \"not\" of a floundered one", "goal 0\n0 :- not 1\ngoal 1 [floundered]"),
    ("p6", "a goal that rests on itself and on three facts", "goal 0\n0 :- 0, 1\ngoal 1\n1/1\n1/2\n1/3"),
    ("p6-one-fact", "the same with one fact", "goal 0\n0 :- 0, 1\ngoal 1\n1/1"),
    ("p7", "a fact, a clause that cannot prove, and two goals that rest on each other",
     "goal 0\n0 :- 1\n0/2\ngoal 1\n1/1 [cannot prove]\n1/1 :- 0"),
    ("p8", "a goal that rests on a fact: four turns", "goal 0\n0 :- 1\ngoal 1\n1"),
    ("p9-empty", "no bytes: refused 1", b""),
    ("p9-end", "the end alone: refused 8", ""),
    ("p9-one-goal", "one goal and no clause: the smallest book", "goal 0"),
    ("release", "a release paper of 22 goals; `release.names` says what each stands for", release(RELEASE)),
    ("goals-64", "64 goals, each of which rests on the next; the last is a fact", chain(64)),
    ("goals-65", "the same with 65 goals: refused 5", chain(65)),
    ("clauses-256", "256 facts of one goal, each of its own variant", lines(facts(0, 256))),
    ("clauses-257", "the same with 257 facts: refused 5", lines(facts(0, 257))),
    ("literals-8", "a clause with 8 literals, on 8 facts", wide(8)),
    ("literals-9", "the same with 9: refused 5", wide(9)),
    ("range-3-7", "goals 0 to 4 want 3 to 7 of the goals 5 to 9, whose variants are 2, 3, 7, 8 and 0: 1, 2 and 4 hold", three_to_seven()),
    ("range-crossed", "a range from 4 to 3: refused 32", "goal 0\n0 :- 1/4-3\ngoal 1\n1/3"),
    ("equal-clauses", "goal 1 has the same clause twice, with one between: the desk refuses it with 36",
     "goal 0\n0 :- 1/1\ngoal 1\n1/1 :- 2, not 3\n1/2 :- 2\n1/1 :- 2, not 3\ngoal 2\n2\ngoal 3"),
    ("levels-p1", "p1 without its variants, a plain book: the levels are 1, 0, 0",
     "goal 0\n0 :- 1, not 2\ngoal 1\n1\ngoal 2\n2 :- 2"),
    ("levels-not", "a plain book that is not levelled: 1 and 2 are on a cycle through \"not\", 0 leads to it, it leads to 3",
     "goal 0\n0 :- 1\ngoal 1\n1 :- not 2\ngoal 2\n2 :- 1, not 3\ngoal 3\n3"),
    ("levels-chain", "the longest chain of \"not\"s, in the largest plain book that has one: the levels are 63 to 0", not_the_next("63")),
    ("levels-cycle", "the same, and the last goal rests on \"not\" the first: all 64 goals are on a cycle through \"not\"",
     not_the_next("not 0")),
    ("certify-corner", "goals 0 to 3 are clean; 4 has a \"not\", which spoils 5 too, 6 is coinductive, which spoils 7 too", CORNER),
    ("certify-chain", "64 goals, each of which rests on the next; the last is coinductive, which spoils them all",
     chain(64).replace("goal 63", "goal 63 [coinductive]")),
    ("certify-wrong-yes", "goal 3 follows, by way of 1/1, and is not found: the yes of goal 2, which has a \"not\", is wrong",
     "goal 0\n0 :- 0, 1\ngoal 1\n1/1 :- 1\n1/2\n1/3\ngoal 2\n2 :- not 3\ngoal 3\n3 :- 1/1"),
    ("certify-ranges", "eight ranges over 255 facts: goal 0 can be derived as variant 9, and the listing gives it up before",
     eight_ranges(255)),
    ("clauses-256-alike", "256 clauses of one goal, different in the last of 8 ranges alone: the desk takes it", alike(range(256))),
    ("clauses-256-twice", "the same, the last clause equal to the first: the desk refuses it with 36", alike([*range(255), 0])),
    ("mend-behind", "a literal behind a later goal is the clause's before it: accepted, and so unchanged by mending",
     bytes.fromhex("47 00 43 00 00 00 47 00 50 00 00 00 00 00 45")),
    ("mend-both", "clauses that must go, for 6, for 36 and for both, and literals behind later goals, which go or stay: refused 6",
     to_be_mended()),
    ("mend-261", "six goals, and clauses on goals 261 and 517, which are no goal 5: refused 6",
     "goal 0\n0 :- 261\n0 :- 5\n0 :- 517\n" + "\n".join("goal %d" % g for g in range(1, 6))),
    ("mend-256", "the same fact 256 times: the desk refuses it with 36", "goal 0\n" + "\n".join(["0"] * 256)),
    ("largest", "the largest book there can be: 64 goals, 256 clauses of 8 ranges each, with every mark", LARGEST),
    ("largest-and-a-byte", "the same and a byte after it: refused 7", encode(LARGEST) + b"\0"),
    ("largest-undefined", "the largest book, each of its clauses with a literal of no goal: refused 6", largest_undefined()),
    ("largest-wants", "the largest book without a range: the same with a want in place of each", largest(numbered)),
]
# Texts, and the number by which each is refused; without one it is that of the paper of its name.
PAPER_TEXTS = [
    ("levels-p1", "the text of `levels-p1.book`", tabled(3, "g0 :- g1, tnot(g2).", "g1.", "g2 :- g2."), None),
    ("levels-not", "the text of `levels-not.book`: a book that is not levelled has one too",
     tabled(4, "g0 :- g1.", "g1 :- tnot(g2).", "g2 :- g1, tnot(g3).", "g3."), None),
    ("p9-one-goal", "the text of `p9-one-goal.book`: a goal without a clause has a table line alone", tabled(1), None),
    ("text-65536", "a literal's number that has no table line: refused 6, and no goal 0 by any wrapping", tabled(1, "g0 :- g65536."), 6),
    ("text-heads", "heads out of order: refused 39, though the last rule has a literal of no goal", tabled(2, "g1.", "g0 :- g2."), 39),
]
