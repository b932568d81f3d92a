//! The cases of document 01, scripts of calls and books at the desk, with what is said of each.

use crate::book::Repeat;

/// Name, book, listing.
pub const LISTINGS: &[(&str, &str, &str)] = &[
    (
        "p1",
        "47 00 43 00 00 00 50 01 00 00 00 00 4E 02 00 00 47 00 43 01 00 00 43 02 00 00 \
         47 00 43 00 00 00 50 02 00 00 00 00 45",
        "0 0 yes 0\n0 1 none\n1 0 yes 1\n1 1 yes 2\n1 2 none\n2 0 none\n",
    ),
    ("p2", "47 00 43 00 00 00 4E 00 00 00 45", "0 0 negcycle\n"),
    ("p2, coinductive", "47 01 43 00 00 00 4E 00 00 00 45", "0 0 stop 28\n"),
    (
        "p3",
        "47 01 43 00 00 00 50 01 00 00 00 00 47 01 43 00 00 00 50 00 00 00 00 00 45",
        "0 0 yes 0\n0 1 none\n1 1 none\n",
    ),
    (
        "p4",
        "47 01 43 00 00 00 50 01 00 00 00 00 47 01 43 00 00 00 50 00 00 00 00 00 \
         47 00 43 00 00 00 4E 01 00 00 45",
        "0 0 yes 0\n0 1 none\n1 1 none\n2 0 stop 27\n",
    ),
    ("p5", "47 00 43 00 00 00 50 01 00 00 00 00 47 02 45", "0 0 maybe 0\n0 1 none\n1 0 floundered\n"),
    ("p5, not", "47 00 43 00 00 00 4E 01 00 00 47 02 45", "0 0 stop 25\n"),
    (
        "p6",
        "47 00 43 00 00 00 50 00 00 00 00 00 50 01 00 00 00 00 \
         47 00 43 01 00 00 43 02 00 00 43 03 00 00 45",
        "0 0 stop 29\n",
    ),
    (
        "p6, one fact",
        "47 00 43 00 00 00 50 00 00 00 00 00 50 01 00 00 00 00 47 00 43 01 00 00 45",
        "0 0 none\n1 0 yes 1\n1 1 none\n",
    ),
    (
        "p7",
        "47 00 43 00 00 00 50 01 00 00 00 00 43 02 00 00 47 00 43 01 00 01 43 01 00 00 \
         50 00 00 00 00 00 45",
        "0 0 yes 2\n0 1 maybe 0\n0 2 none\n1 0 maybe 1\n1 1 stop 26\n",
    ),
    (
        "3 to 7 takes 3, 7 and 0, and neither 2 nor 8",
        "47 00 43 00 00 00 52 05 00 03 00 07 00 00 47 00 43 00 00 00 52 06 00 03 00 07 00 00 \
         47 00 43 00 00 00 52 07 00 03 00 07 00 00 47 00 43 00 00 00 52 08 00 03 00 07 00 00 \
         47 00 43 00 00 00 52 09 00 03 00 07 00 00 47 00 43 02 00 00 47 00 43 03 00 00 \
         47 00 43 07 00 00 47 00 43 08 00 00 47 00 43 00 00 00 45",
        "0 0 none\n1 0 yes 0\n1 1 none\n2 0 yes 0\n2 1 none\n3 0 none\n4 0 yes 0\n4 1 none\n5 0 yes 2\n5 1 none\n\
         6 0 yes 3\n6 1 none\n7 0 yes 7\n7 1 none\n8 0 yes 8\n8 1 none\n9 0 yes 0\n9 1 none\n",
    ),
    ("4 to 3", "47 00 43 00 00 00 52 00 00 04 00 03 00 00 45", "refused 32\n"),
    ("p9, no bytes", "", "refused 1\n"),
    ("p9, 45", "45", "refused 8\n"),
    ("p9, 47 00 45", "47 00 45", "0 0 none\n"),
];

/// Name, script, the result lines.
pub const SCRIPTS: &[(&str, &str, &str)] = &[
    (
        "p3, goal 1 searched first",
        "book 470143000000500100000000470143000000500000000000 45 clock 1000000\n\
         open 1\npeek 0 0 1000 10000\npeek 0 1 1000 10000\nopen 0\npeek 1 0 1000 10000\n",
        "made\ntable 0\nyes 0 at 0 turns 5\nnone at 1 turns 1\ntable 1\nnone at 1 turns 1\n",
    ),
    (
        "p8, whole",
        "book 47 00 43 00 00 00 50 01 00 00 00 00 47 00 43 00 00 00 45 clock 100\n\
         open 0\nsearch 0 0 4\n",
        "made\ntable 0\nyes 0 turns 4\n",
    ),
    (
        "p8, limit 3",
        "book 47 00 43 00 00 00 50 01 00 00 00 00 47 00 43 00 00 00 45 clock 100\n\
         open 0\nsearch 0 0 3\nsearch 0 0 3\n",
        "made\ntable 0\ncut turns 3\nyes 0 turns 1\n",
    ),
    (
        "p8, clock limit 1",
        "book 47 00 43 00 00 00 50 01 00 00 00 00 47 00 43 00 00 00 45 clock 1\n\
         open 0\nsearch 0 0 9\nopen 1\nsearch 0 0 9\npeek 0 0 9 9\nfuture 0 0 0\n",
        "made\ntable 0\nstop 21 turns 0\nrefused 20\nrefused 20\nrefused 20\ntrue\n",
    ),
    (
        "p6 without its stop: clearing loses an answer of goal 1, so goal 3 is none",
        "book 4700 43000000 500000000000 500100000000 4700 43030000 500200000000 43010000 43020000 \
         4700 43000000 4700 43000000 500100030000 45 clock 1000\n\
         open 0\nsearch 0 0 3\npeek 0 0 1000 10000\nopen 3\npeek 3 0 1000 10000\nopen 1\n\
         peek 1 0 9 99\npeek 1 1 9 99\npeek 1 2 9 99\n",
        "made\ntable 0\ncut turns 3\nnone at 0 turns 1\ntable 3\nnone at 0 turns 1\ntable 1\n\
         yes 1 at 0 turns 0\nyes 2 at 1 turns 0\nnone at 2 turns 1\n",
    ),
    (
        "refusals of calls, in their order",
        "open 0\nbook 47 00 45 clock 0\nbook 47 00 45 clock 18446744073709551615\n\
         book 45 clock 0\nbook 47 00 45 clock 18446744073709551614\nopen 1\nsearch 0 0 1\nopen 0\n\
         search 1 1 0\nsearch 0 1 0\nsearch 0 0 0\npeek 0 0 0 1\npeek 0 0 1 0\npeek 0 1 0 0\n\
         future 1 0 0\nfuture 0 18446744073709551615 65536\n",
        "no forest\nrefused 13\nrefused 13\nrefused 8\nmade\nrefused 9\nrefused 10\ntable 0\n\
         refused 10\nrefused 11\nrefused 12\nrefused 12\nrefused 12\nrefused 11\nrefused 10\nfalse\n",
    ),
    (
        "the desk: 36 before 13, and the forest that it leaves",
        "desk 47 00 45 clock 0\nbook 4700 43000000 43000000 45 clock 0\ndesk 4700 43000000 43000000 45 clock 0\n\
         book 4700 43000000 43000000 45 clock 9\nopen 0\ndesk 4700 43000000 43000000 45 clock 9\nopen 0\n\
         desk 4700 43000000 45 clock 9\nopen 0\nsearch 0 0 9\n",
        "refused 13\nrefused 13\nrefused 36\nmade\ntable 0\nrefused 36\nrefused 20\nmade\ntable 0\nyes 0 turns 1\n",
    ),
    (
        "what a refused book leaves: 20 before 9 to 12, and 10 for any_future_answer",
        "future 0 0 0\nbook 4700 43000000 45 clock 9\nopen 0\nsearch 0 0 9\nbook 4700 43000000 clock 9\nopen 0\nopen 64\n\
         search 0 0 9\nsearch 1 1 0\npeek 0 0 9 9\npeek 1 1 0 0\nfuture 0 0 0\nfuture 0 18446744073709551615 65536\n\
         book 4700 43000000 45 clock 0\nopen 0\nsearch 0 0 9\npeek 0 0 9 9\nfuture 0 0 0\n\
         book 4700 43000000 45 clock 9\nopen 0\nsearch 0 0 9\n",
        "no forest\nmade\ntable 0\nyes 0 turns 1\nrefused 1\nrefused 20\nrefused 20\n\
         refused 20\nrefused 20\nrefused 20\nrefused 20\nrefused 10\nrefused 10\n\
         refused 13\nrefused 20\nrefused 20\nrefused 20\nrefused 10\nmade\ntable 0\nyes 0 turns 1\n",
    ),
];

/// What the desk says to what the old entry takes.
pub type Desk = Option<Repeat>;

pub const fn repeat(goal: usize, clause: usize, earlier: usize) -> Desk {
    Some(Repeat { goal, clause, earlier })
}

/// Name, book, and what is said of it: a number by both entries, or what the desk says where the old one accepts.
pub const DESK: &[(&str, &str, Result<Desk, u8>)] = &[
    ("0. 0.", "4700 43000000 43000000 45", Ok(repeat(0, 1, 0))),
    ("0. 0/1.", "4700 43000000 43010000 45", Ok(None)),
    ("0. and one that cannot prove", "4700 43000000 43000001 45", Ok(None)),
    ("0. and an outsized one", "4700 43000000 43000002 45", Ok(None)),
    ("equal facts of two goals", "4700 43000000 4700 43000000 45", Ok(None)),
    ("equal facts of goal 3", "4700 43000000 4700 4700 43000000 4700 43000000 43000000 45", Ok(repeat(3, 1, 0))),
    (
        "0 :- 0, 1 and 0 :- 1, 0",
        "4700 43000000 500000000000 500100000000 43000000 500100000000 500000000000 4700 45",
        Ok(None),
    ),
    ("0 :- 0 and 0 :- not 0", "4700 43000000 500000000000 43000000 4E000000 45", Ok(None)),
    ("want 3 and 3 to 3", "4700 43000000 500000030000 43000000 5200000300030000 45", Ok(None)),
    ("want 0 and 0 to 65535", "4700 43000000 500000000000 43000000 52000000 00FFFF00 45", Ok(None)),
    ("3 to 3 twice", "4700 43000000 5200000300030000 43000000 5200000300030000 45", Ok(repeat(0, 1, 0))),
    ("0 :- 0 and an outsized 0", "4700 43000000 500000000000 43000000 500000000001 45", Ok(None)),
    ("0 :- 0 and 0 :- 0, 0", "4700 43000000 500000000000 43000000 500000000000 500000000000 45", Ok(None)),
    ("a, b, a", "4700 43000000 43010000 43000000 45", Ok(repeat(0, 2, 0))),
    ("a, b, b, a", "4700 43000000 43010000 43010000 43000000 45", Ok(repeat(0, 2, 1))),
    ("a, a, a", "4700 43000000 43000000 43000000 45", Ok(repeat(0, 1, 0))),
    ("a literal behind the next goal", "4700 43000000 43000000 4700 500000000000 45", Ok(None)),
    (
        "a literal behind the next goal makes them equal",
        "4700 43000000 500000000000 43000000 4700 500000000000 45",
        Ok(repeat(0, 1, 0)),
    ),
    ("0 :- 5 twice", "4700 43000000 500500000000 43000000 500500000000 45", Err(6)),
    ("equal facts and a byte after the end", "4700 43000000 43000000 45 00", Err(7)),
    ("equal facts and no end", "4700 43000000 43000000", Err(1)),
    ("equal facts and a crossed range", "4700 43000000 43000000 43000000 5200000400030000 45", Err(32)),
];
