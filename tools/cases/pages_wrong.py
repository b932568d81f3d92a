"""Pages made wrong, each with what is expected to be reported; and texts of document 01 with the fields of the listing."""
from sorgwenad.building.pages import instead
from sorgwenad.shared.pages import BLANK, FILLING, PAGE, paged

P1 = paged(b"0 0 yes 0\n0 1 none\n1 0 yes 1\n1 1 yes 2\n1 2 none\n2 0 none\n")
TWO = paged(b"".join(b"%d 0 none\n" % goal for goal in range(61)))
WIDEST = paged(b"0 0 yes 65535\n0 1 none\n")
P3 = paged(b"0 0 yes 0\n0 1 none\n1 1 unsettled\n")
# Pages made wrong: what is wrong, the pages, and what is expected to be reported.
WRONG_PAGES = [
    ("nothing", b"", "there is no page"),
    ("a page without its last line", P1[:-27], "page 1: 59 lines"),
    ("a second page without its last line", TWO[:-27], "page 2: 59 lines"),
    ("a line more", P1 + FILLING, "page 2: 1 lines"),
    ("no newline in the end", P1[:-1], "page 1, line 60: no newline behind"),
    ("the blank lines as newlines alone", P1.replace(FILLING, b"\n"), "page 1, line 7: 0 characters"),
    ("no blank lines", P1.replace(FILLING, b""), "page 1: 6 lines"),
    ("a line one wider", instead(P1, b"1     2 none", b"1     2 none "), "page 1, line 5: 27 characters"),
    ("a line one narrower", instead(P1, b"1     2 none ", b"1     2 none"), "page 1, line 5: 25 characters"),
    ("a goal one wider", instead(P1, b"  2     0 none", b"   2     0 none"), "page 1, line 6: 27 characters"),
    ("a carriage return", instead(TWO, b"60     0 none            ", b"60     0 none            \r"), "page 2, line 1: 27 characters"),
    ("a form feed between pages", TWO[:PAGE] + b"\f" + TWO[PAGE:], "page 2, line 1: 27 characters"),
    ("an empty page", P1 + FILLING * 60, "page 2 has blank lines alone"),
    ("an empty page alone", FILLING * 60, "page 1 has blank lines alone"),
    ("an empty page behind a full one", TWO[:PAGE] + FILLING * 60, "page 2 has blank lines alone"),
    ("a blank line in the middle", instead(P1, b"  1     0 yes            1", BLANK), "page 1, line 3: blank, with lines behind it"),
    ("a blank line first", TWO[-27:] + TWO[:-27], "page 1, line 1: blank, with lines behind it"),
    ("the first page filled up early", TWO[:1593] + FILLING + TWO[1593:-27], "page 1, line 60: blank, with lines behind it"),
    ("a number cut in the end", instead(WIDEST, b"65535", b"6553 "), "page 1, line 1: no number in columns 22 to 26"),
    ("a number cut in the middle", instead(WIDEST, b"65535", b"65 35"), "page 1, line 1: no number in columns 22 to 26"),
    ("a number cut off", instead(WIDEST, b"65535", b"     "), "page 1, line 1: no number behind the word"),
    ("a number too wide", instead(WIDEST, b" 65535", b"165535"), "page 1, line 1: no space in column 21"),
    ("a number with a zero in front", instead(WIDEST, b"65535", b"06553"), "page 1, line 1: no number in columns 22 to 26"),
    ("a number behind none", instead(P1, b" 2 none            ", b" 2 none           1"), "page 1, line 5: a number behind a word"),
    ("a number behind unsettled", instead(P3, b"unsettled       ", b"unsettled      0"), "page 1, line 3: a number behind a word"),
    ("unsettled cut short", instead(P3, b"unsettled ", b"unsettle  "), "page 1, line 3: no such word"),
    ("unsettled one further right", instead(P3, b" unsettled ", b"  unsettled"), "page 1, line 3: no word in columns 11 to 20"),
    ("the goal left in its column", instead(P1, b"  2     0 none", b"2       0 none"), "page 1, line 6: no goal in columns 1 to 3"),
    ("the index left in its column", instead(P1, b"  1     1 yes", b"  1 1     yes"), "page 1, line 4: no index in columns 5 to 9"),
    ("the word right in its column", instead(P1, b" 2 none      ", b" 2       none"), "page 1, line 5: no word in columns 11 to 20"),
    ("the word one further left", instead(WIDEST, b"    0 yes ", b"   0 yes  "), "page 1, line 1: no index in columns 5 to 9"),
    ("a word of none", instead(WIDEST, b"none", b"nope"), "page 1, line 2: no such word"),
    ("a word that is never listed", instead(WIDEST, b"none   ", b"invalid"), "page 1, line 2: no such word"),
    ("fields and no page", b"0 0 none\n", "page 1, line 1: 8 characters"),
    ("a refusal on a page", b"%-26s\n" % b"refused 8" + FILLING * 59, "page 1, line 1: no goal in columns 1 to 3"),
    ("a refusal without a newline", b"refused 8", "page 1, line 1: no newline behind"),
    ("a page behind a refusal", b"refused 8\n" + P1, "page 1, line 1: 9 characters"),
]
# Texts of document 01, and the fields of the listing.
SETTLED = [
    ("a refusal", "refused 36", "refused 36"),
    ("nothing listed", "0 0 none", "0 0 none"),
    ("an answer listed", "0 0 yes 0; 0 1 none", "0 0 yes 0; 0 1 none"),
    ("an answer that may hold", "0 0 maybe 7; 0 1 none", "0 0 maybe 7; 0 1 none"),
    ("three answers listed", "0 0 yes 1; 0 1 maybe 2; 0 2 yes 3; 0 3 none", "0 0 yes 1; 0 1 maybe 2; 0 2 yes 3; 0 3 none"),
    ("one skipped", "0 1 none", "0 1 unsettled"),
    ("ten skipped", "0 10 none", "0 10 unsettled"),
    ("one skipped before an answer", "0 1 yes 0; 0 2 none", "0 1 yes 0; 0 2 unsettled"),
    ("one skipped before an answer that may hold", "0 1 maybe 0; 0 2 none", "0 1 maybe 0; 0 2 unsettled"),
    ("one skipped behind an answer", "0 0 yes 3; 0 2 none", "0 0 yes 3; 0 2 unsettled"),
    ("one skipped between answers", "0 0 yes 3; 0 2 yes 4; 0 3 none", "0 0 yes 3; 0 2 yes 4; 0 3 unsettled"),
    ("one skipped of another goal", "0 1 none; 1 0 none; 2 0 yes 0; 2 1 none", "0 1 unsettled; 1 0 none; 2 0 yes 0; 2 1 none"),
    ("answers of another goal", "0 0 yes 1; 0 1 yes 2; 0 2 none; 1 1 none", "0 0 yes 1; 0 1 yes 2; 0 2 none; 1 1 unsettled"),
    ("a goal whose number has the other's digits", "1 0 yes 1; 1 1 none; 11 1 none", "1 0 yes 1; 1 1 none; 11 1 unsettled"),
    ("other words behind one that was skipped", "0 1 floundered; 1 1 again; 2 1 negcycle; 3 1 cut; 4 1 stop 27",
     "0 1 floundered; 1 1 again; 2 1 negcycle; 3 1 cut; 4 1 stop 27"),
    ("what is settled already", "0 0 yes 0; 0 1 none; 1 1 unsettled", "0 0 yes 0; 0 1 none; 1 1 unsettled"),
]
