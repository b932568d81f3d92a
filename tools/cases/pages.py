"""Books whose pages are written here by hand: a title, the book, the lines as they are printed, and how many pages they take, which blank
lines fill up; or what is printed of a book that is refused. Books are in the notation, or bytes in hex."""
from sorgwenad.building.books import P1, P3, SKIPS, facts, ladder
from sorgwenad.building.pages import answers, coinductive_pair, empty, holds, paper, stops, with_fact, without
from sorgwenad.shared.book import lines

SLOW = lines(with_fact(*range(30)), ladder(30, 34))
# A title, the book, the lines, and how many pages they take; or what is printed of a book that is refused.
PAGES = [
    ("p1", P1, ["  0     0 yes            0",
                "  0     1 none            ",
                "  1     0 yes            1",
                "  1     1 yes            2",
                "  1     2 none            ",
                "  2     0 none            "], 1),
    ("p5, maybe and floundered", lines("goal 0", "0 :- 1", "goal 1 [floundered]"), [
        "  0     0 maybe          0",
        "  0     1 none            ",
        "  1     0 floundered      "], 1),
    ("p6, stop 29", lines("goal 0", "0 :- 0, 1", facts(1, 3)), ["  0     0 stop          29"], 1),
    ("stop 25", lines(stops(0)), ["  0     0 stop          25"], 1),
    ("floundered alone", "goal 0 [floundered]", ["  0     0 floundered      "], 1),
    ("negcycle", lines("goal 0", "0 :- not 0"), ["  0     0 negcycle        "], 1),
    ("cut", lines(ladder(0, 20)), ["%3d     0 cut             " % goal for goal in range(20)], 1),
    ("again, and 255 facts", paper("certify-ranges"), ["  0     0 again           "] + answers(1, 255), 5),
    # behind an answer that was skipped as invalid none is unsettled (change request 5); skips.py has more of these
    ("p3, unsettled", lines(P3), [
        "  0     0 yes            0",
        "  0     1 none            ",
        "  1     1 unsettled       "], 1),
    ("p4, unsettled before a stop", lines(P3, "goal 2", "2 :- not 1"), [
        "  0     0 yes            0",
        "  0     1 none            ",
        "  1     1 unsettled       ",
        "  2     0 stop          27"], 1),
    ("p3, and a goal whose answer was skipped and came back refined", lines(P3, "goal 2 [coinductive]", "2 :- 1"), [
        "  0     0 yes            0",
        "  0     1 none            ",
        "  1     1 unsettled       ",
        "  2     1 yes            0",
        "  2     2 unsettled       "], 1),
    ("a coinductive goal on itself: nothing is skipped", lines("goal 0 [coinductive]", "0 :- 0"), [
        "  0     0 yes            0",
        "  0     1 none            "], 1),
    ("p3, and a goal of its own behind it", lines(P3, "goal 2", "goal 3", "3/5"), [
        "  0     0 yes            0",
        "  0     1 none            ",
        "  1     1 unsettled       ",
        "  2     0 none            ",
        "  3     0 yes            5",
        "  3     1 none            "], 1),
    ("a skip of an earlier peek, and a goal of its own behind it", lines(SKIPS, "1/3", "1", "goal 2", "goal 3", "3/5"), [
        "  0     0 yes            0",
        "  0     1 none            ",
        "  1     1 yes            3",
        "  1     2 yes            0",
        "  1     3 unsettled       ",
        "  2     0 none            ",
        "  3     0 yes            5",
        "  3     1 none            "], 1),
    ("a skip, and then floundered", lines(SKIPS, "1 [outsized]"), [
        "  0     0 yes            0",
        "  0     1 none            ",
        "  1     1 floundered      "], 1),
    ("a skip, and then a stop", lines(SKIPS, "1 :- not 1"), [
        "  0     0 yes            0",
        "  0     1 none            ",
        "  1     1 stop          27"], 1),
    ("a skip, and then cut", lines(SKIPS, "1/2 :- 2", ladder(2, 20)), [
        "  0     0 yes            0",
        "  0     1 none            ",
        "  1     1 cut             "] + ["%3d     0 cut             " % goal for goal in range(2, 22)], 1),
    ("unsettled in the last line of a page", lines(without(*range(57)), coinductive_pair(57), without(59)), empty(*range(57)) + [
        " 57     0 yes            0",
        " 57     1 none            ",
        " 58     1 unsettled       ",
        " 59     0 none            "], 2),
    ("the widest variant", lines("goal 0", "0/65535"), ["  0     0 yes        65535", "  0     1 none            "], 1),
    ("the widest variant, maybe", lines("goal 0", "0/65535 [cannot prove]"), [
        "  0     0 maybe      65535",
        "  0     1 none            "], 1),
    ("an answer, and then floundered", lines("goal 0", "0/1", "0/2", "0/3 [outsized]"), [
        "  0     0 yes            1",
        "  0     1 yes            2",
        "  0     2 floundered      "], 1),
    ("one goal without a clause", "47 00 45", ["  0     0 none            "], 1),
    ("30 facts: 60 lines", lines(with_fact(*range(30))), holds(*range(30)), 1),
    ("30 facts and a goal: 61 lines", lines(with_fact(*range(30)), without(30)), holds(*range(30)) + empty(30), 2),
    ("29 facts and a goal: 59 lines", lines(with_fact(*range(29)), without(29)), holds(*range(29)) + empty(29), 1),
    ("60 goals without a clause", lines(without(*range(60))), empty(*range(60)), 1),
    ("61 goals without a clause", lines(without(*range(61))), empty(*range(61)), 2),
    ("a stop in the last line of a page", lines(without(*range(59)), stops(59)), empty(*range(59)) + [" 59     0 stop          25"], 1),
    ("a stop in the first line of a page", lines(without(*range(60)), stops(60)), empty(*range(60)) + [" 60     0 stop          25"], 2),
    ("60 facts: 120 lines", lines(with_fact(*range(60))), holds(*range(60)), 2),
    ("60 facts and a goal: 121 lines", lines(with_fact(*range(60)), without(60)), holds(*range(60)) + empty(60), 3),
    ("64 goals with a fact: 128 lines", lines(with_fact(*range(64))), holds(*range(64)), 3),
    ("30 facts and a ladder", SLOW, holds(*range(30)) + ["%3d     0 cut             " % goal for goal in range(30, 64)], 2),
    ("59 facts of a goal: 60 lines", lines(facts(0, 59)), answers(0, 59), 1),
    ("60 facts of a goal: 61 lines", lines(facts(0, 60)), answers(0, 60), 2),
    ("256 facts of a goal: 257 lines", lines(facts(0, 256)), answers(0, 256), 5),
    # as many clauses and goals as a book can have: an answer of each clause, and each goal's end
    ("64 goals with four facts each: 320 lines", lines(*(facts(g, 4) for g in range(64))), sum((answers(g, 4) for g in range(64)), []), 6),
    ("no bytes", "", "refused 1\n", 0),
    ("no goal", "45", "refused 8\n", 0),
    ("a clause twice", lines("goal 0", "0", "0"), "refused 36\n", 0),
]
