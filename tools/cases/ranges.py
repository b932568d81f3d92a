"""Wants that are ranges, at their edges: books, and what is expected to be listed of each. Each key names a script that calls its books."""
from sorgwenad.building.listed import HOLDS, case, refused, rests_on

G = "47 00 "
C = "43 00 00 00 "
P = "50 00 00 00 00 00 "
# What each script is about, and its books: a title, the book, and what is expected to be listed.
LISTED = {
    "range-ends": ("A range takes its two ends, and what is between them.", [
        case("1/3-7", 2, False), case("1/3-7", 3, True), case("1/3-7", 5, True), case("1/3-7", 7, True), case("1/3-7", 8, False),
        case("1/3-3", 2, False), case("1/3-3", 3, True), case("1/3-3", 4, False),
        case("1/0-2", 2, True), case("1/0-2", 3, False), case("1/0-65535", 65535, True),
        case("1/65535-65535", 65535, True), case("1/65535-65535", 65534, False),
        case("1/255-256", 255, True), case("1/255-256", 256, True), case("1/255-256", 1, False), case("1/255-256", 257, False),
        ("1/3-7, and the answers 8, 2 and 7", rests_on("1/3-7", 8, 2, 7),
         HOLDS + "1 0 yes 8\n1 1 yes 2\n1 2 yes 7\n1 3 none\n"),
        ("1/3-7 and 1/5-9, and the answers 4 and 6", rests_on("1/3-7, 1/5-9", 4, 6), HOLDS + "1 0 yes 4\n1 1 yes 6\n1 2 none\n"),
        ("1/3-7 that is outsized, and the answer 8", rests_on("1/3-7 [outsized]", 8), "0 0 maybe 0\n0 1 none\n1 0 yes 8\n1 1 none\n"),
    ]),
    "range-and-the-whole": ("An answer of variant 0, the goal as a whole, fits every range; 0 to 0 takes no other.", [
        case("1/3-7", 0, True), case("1/65535-65535", 0, True), case("1/0-0", 0, True), case("1/0-0", 1, False), case("1/0-0", 2, False),
        case("1/0-0", 65535, False),
    ]),
    "want-of-one": ("A want of one variant takes that one alone, as the range from it to itself does; want 0 takes any.", [
        case("1/3", 2, False), case("1/3", 3, True), case("1/3", 4, False), case("1/3", 65535, False), case("1/3", 0, True),
        case("1/65535", 65535, True), case("1/65535", 65534, False), case("1", 65535, True), case("1", 1, True),
        case("1/3-3", 3, True), case("1/3-3", 4, False),
    ]),
    "range-crossed": ("A range whose low end is above its high end is refused by 32: after 1, 3 and 4, before 5 and what the end tests.", [
        refused("4 to 3", G + C + "52 00 00 04 00 03 00 00 45", 32),
        refused("4 to 3, outsized", G + C + "52 00 00 04 00 03 00 01 45", 32),
        refused("1 to 0", G + C + "52 00 00 01 00 00 00 00 45", 32),
        refused("256 to 255", G + C + "52 00 00 00 01 FF 00 00 45", 32),
        refused("65535 to 65534", G + C + "52 00 00 FF FF FE FF 00 45", 32),
        refused("4 to 3, with a flag that means nothing", G + C + "52 00 00 04 00 03 00 02 45", 4),
        refused("3 to 7, with a flag that means nothing", G + C + "52 00 00 03 00 07 00 02 45", 4),
        refused("4 to 3 as ninth literal", G + C + P * 8 + "52 00 00 04 00 03 00 00 45", 32),
        refused("3 to 7 as ninth literal", G + C + P * 8 + "52 00 00 03 00 07 00 00 45", 5),
        refused("4 to 3 as ninth literal, with a flag that means nothing", G + C + P * 8 + "52 00 00 04 00 03 00 02 45", 4),
        *(refused("4 to 3, %d of its 8 bytes" % n, G + C + "52 00 00 04 00 03 00 00"[:3 * n - 1], 1) for n in range(1, 8)),
        refused("4 to 3, and no end", G + C + "52 00 00 04 00 03 00 00", 32),
        refused("4 to 3 before a goal", "52 00 00 04 00 03 00 00 45", 3),
        refused("4 to 3 before a clause", G + "52 00 00 04 00 03 00 00 45", 3),
        refused("3 to 7 before a clause", G + "52 00 00 03 00 07 00 00 45", 3),
        refused("3 to 7 of a goal that is not there", G + C + "52 01 00 03 00 07 00 00 45", 6),
        refused("4 to 3 of a goal that is not there", G + C + "52 01 00 04 00 03 00 00 45", 32),
        refused("4 to 3, and a byte after the end", G + C + "52 00 00 04 00 03 00 00 45 00", 32),
        case("1/4-4", 4, True),
    ]),
}
# Papers; no listing stands here of one that is read.
LISTED_PAPERS = [("range-3-7", "".join([
    "0 0 none\n", "1 0 yes 0\n1 1 none\n", "2 0 yes 0\n2 1 none\n", "3 0 none\n", "4 0 yes 0\n4 1 none\n",
    *("%d 0 yes %d\n%d 1 none\n" % (goal, variant, goal) for goal, variant in enumerate((2, 3, 7, 8, 0), 5)),
])), ("range-crossed", "refused 32\n"), ("largest", None), ("largest-and-a-byte", "refused 7\n"), ("largest-wants", None)]
