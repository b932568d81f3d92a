"""Answers that the listing skips since they are invalid: books, and the fields of their listing (change request 5)."""
from sorgwenad.building.books import P3, SKIPS, facts, ladder
from sorgwenad.shared.book import lines

EIGHT = "1/9 :- " + ", ".join("2/%d-%d" % (6 * n + 1, 6 * n + 6) for n in range(8))
YES = "0 0 yes 0; 0 1 none; "
# A title, the book, and the fields of its listing.
SKIPPED = [
    ("p3", lines(P3), YES + "1 1 unsettled"),
    ("p4", lines(P3, "goal 2", "2 :- not 1"), YES + "1 1 unsettled; 2 0 stop 27"),
    ("p3, and what was skipped comes back refined", lines(P3, "goal 2 [coinductive]", "2 :- 1"),
     YES + "1 1 unsettled; 2 1 yes 0; 2 2 unsettled"),
    ("p3, and a goal without a clause", lines(P3, "goal 2"), YES + "1 1 unsettled; 2 0 none"),
    ("p3, and a goal with a fact", lines(P3, "goal 2", "2"), YES + "1 1 unsettled; 2 0 yes 0; 2 1 none"),
    ("p3 twice", lines(P3, "goal 2 [coinductive]", "2 :- 3", "goal 3 [coinductive]", "3 :- 2"),
     YES + "1 1 unsettled; 2 0 yes 0; 2 1 none; 3 1 unsettled"),
    ("three on a cycle", lines("goal 0 [coinductive]", "0 :- 1", "goal 1 [coinductive]", "1 :- 2", "goal 2 [coinductive]", "2 :- 0"),
     YES + "1 1 unsettled; 2 1 unsettled"),
    ("nothing is skipped: a goal on itself", lines("goal 0 [coinductive]", "0 :- 0"), "0 0 yes 0; 0 1 none"),
    ("nothing is skipped: no goal is coinductive", lines("goal 0", "0 :- 1", "goal 1", "1 :- 0"), "0 0 none; 1 0 none"),
    # the skip is of an earlier peek
    ("earlier, behind a yes", lines(SKIPS, "1"), YES + "1 1 yes 0; 1 2 unsettled"),
    ("earlier, and then two goals of their own", lines(SKIPS, "1", "goal 2", "goal 3", "3/5"),
     YES + "1 1 yes 0; 1 2 unsettled; 2 0 none; 3 0 yes 5; 3 1 none"),
    ("earlier, behind two", lines(SKIPS, "1/3", "1"), YES + "1 1 yes 3; 1 2 yes 0; 1 3 unsettled"),
    ("earlier, behind a maybe", lines("goal 0 [coinductive]", "0 :- 1", "0", "goal 1 [coinductive]", "1 :- 1 [outsized], 0"),
     YES + "1 1 maybe 0; 1 2 unsettled"),
    ("earlier, behind a yes and a maybe", lines(SKIPS, "1 :- 1 [outsized]", "1/3"), YES + "1 1 yes 3; 1 2 maybe 0; 1 3 unsettled"),
    # of two peeks
    ("in this peek and in an earlier one", lines("goal 0 [coinductive]", "0/1 :- 1", "goal 1 [coinductive]", "1/2 :- 0", "1/3 :- 0"),
     "0 0 yes 1; 0 1 none; 1 1 yes 3; 1 3 unsettled"),
    ("earlier, in two peeks", lines("goal 0 [coinductive]", "0/1 :- 1", "goal 1 [coinductive]", "1/2 :- 0", "1/3 :- 0", "1/2 :- 1"),
     "0 0 yes 1; 0 1 none; 1 1 yes 3; 1 3 yes 2; 1 4 unsettled"),
    # other words behind a skip stay as they are
    ("floundered", lines(SKIPS, "1 [outsized]"), YES + "1 1 floundered"),
    ("floundered, the skip earlier", lines(SKIPS, "1/3", "1 [outsized]"), YES + "1 1 yes 3; 1 2 floundered"),
    ("again", lines(SKIPS, EIGHT, facts(2, 48)),
     YES + "1 1 again; " + "; ".join("2 %d yes %d" % (n, n + 1) for n in range(48)) + "; 2 48 none"),
    ("again, the skips earlier and in this peek too",
     lines("goal 0", "0/3 [cannot prove] :- 0, 2", "0/1 :- 3", "goal 1 [coinductive]", "1/1 :- 2", "goal 2 [coinductive]", "2/2 :- 3, 1",
           "goal 3 [coinductive]", "3/3", "3/1 :- 1"),
     "0 0 yes 1; 0 4 maybe 3; 0 35 again; 1 0 yes 1; 1 2 unsettled; 2 2 unsettled; 3 0 yes 3; 3 1 yes 1; 3 2 none"),
    ("cut", lines(SKIPS, "1/2 :- 2", ladder(2, 20)), YES + "1 1 cut; " + "; ".join("%d 0 cut" % n for n in range(2, 22))),
    ("cut, the skip earlier", lines(SKIPS, "1/3", "1/2 :- 2", ladder(2, 20)),
     YES + "1 1 yes 3; 1 2 cut; " + "; ".join("%d 0 cut" % n for n in range(2, 22))),
    ("negcycle", lines("goal 0 [coinductive]", "0 :- 2", "goal 1", "1 :- not 1", "goal 2 [coinductive]", "2/2 :- 0", "2 :- 1"),
     YES + "1 0 negcycle; 2 1 negcycle"),
    ("stop 24", lines("goal 0", "0/1", "0/1 :- 0, 2, 1", "goal 1 [coinductive]", "1 :- 2", "goal 2 [coinductive]", "2 :- 1"),
     "0 0 yes 1; 0 9 stop 24"),
    ("stop 24, the skips earlier and in this peek", lines(SKIPS, "1/3 :- 1, 1"), YES + "1 3 yes 3; 1 10 stop 24"),
    ("stop 25", lines("goal 0 [coinductive]", "0 :- 2", "goal 1 [floundered]", "goal 2 [coinductive]", "2/1 :- 0", "2 :- not 1"),
     YES + "1 0 floundered; 2 1 stop 25"),
    ("stop 27", lines(SKIPS, "1 :- not 1"), YES + "1 1 stop 27"),
    ("stop 28", lines("goal 0 [coinductive]", "0 :- 1", "goal 1 [coinductive]", "1/2 :- 3", "1 :- 2", "goal 2 [coinductive]", "2 :- not 2",
                      "goal 3 [coinductive]", "3 :- 0"), YES + "1 1 stop 28"),
]
