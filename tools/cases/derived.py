"""What can be derived (order 2): a book, what can be derived from it, its clean goals, and its listing."""

# By hand: a book, what can be derived from it, its clean goals, and its listing.
DERIVED = [
    ("goal 0; 0 :- 1; 0/2; goal 1; 1/1 [cannot prove]; 1/1 :- 0", "0/0 0/2 1/1", "0 1",
     "0 0 yes 2; 0 1 maybe 0; 0 2 none; 1 0 maybe 1; 1 1 stop 26"),
    ("goal 0; 0 :- 1; goal 1 [floundered]", "", "0 1", "0 0 maybe 0; 0 1 none; 1 0 floundered"),
    ("goal 0; 0 :- 0, 1; goal 1; 1/1; 1/2; 1/3", "1/1 1/2 1/3", "0 1", "0 0 stop 29"),
    ("goal 0; 0 :- 1/2; goal 1; 1/1; 1/2", "0/0 1/1 1/2", "0 1", "0 0 yes 0; 0 1 none; 1 0 yes 1; 1 1 yes 2; 1 2 none"),
    ("goal 0; 0 :- 1/3; goal 1; 1/1", "1/1", "0 1", "0 0 none; 1 0 yes 1; 1 1 none"),
    ("goal 0; 0/5 :- 1/3; goal 1; 1", "0/5 1/0", "0 1", "0 0 yes 5; 0 1 none; 1 0 yes 0; 1 1 none"),
    ("goal 0; 0/5 :- 1/3-7; goal 1; 1/7", "0/5 1/7", "0 1", "0 0 yes 5; 0 1 none; 1 0 yes 7; 1 1 none"),
    ("goal 0; 0/5 :- 1/3-7; goal 1; 1/8", "1/8", "0 1", "0 0 none; 1 0 yes 8; 1 1 none"),
    ("goal 0; 0/5 :- 1/0-0; goal 1; 1/1", "1/1", "0 1", "0 0 none; 1 0 yes 1; 1 1 none"),
    ("goal 0; 0 :- 1 [outsized]; goal 1; 1", "1/0", "0 1", "0 0 maybe 0; 0 1 none; 1 0 yes 0; 1 1 none"),
    ("goal 0; 0; 0 [outsized]", "0/0", "0", "0 0 yes 0; 0 1 none"), ("goal 0; 0 [outsized]; 0", "0/0", "0", "0 0 floundered"),
    ("goal 0 [floundered]; 0; goal 1; 1 :- 0; 1/1", "1/1", "0 1", "0 0 floundered; 1 0 yes 1; 1 1 maybe 0; 1 2 none"),
    ("goal 0; 0 :- 0", "", "0", "0 0 none"), ("goal 0 [coinductive]; 0 :- 0", "", "", "0 0 yes 0; 0 1 none"),
    ("goal 0; 0 :- not 1; goal 1", "", "1", "0 0 yes 0; 0 1 none; 1 0 none"),
    ("goal 0; 0/1 :- 1; goal 1; 1/1 [cannot prove]; 1/2", "0/1 1/2", "0 1", "0 0 yes 1; 0 1 none; 1 0 yes 2; 1 1 maybe 1; 1 2 none"),
    # 1/1 is lost, so that goal 3 is not found, and the yes of goal 2, which is not clean, is wrong
    ("goal 0; 0 :- 0, 1; goal 1; 1/1 :- 1; 1/2; 1/3; goal 2; 2 :- not 3; goal 3; 3 :- 1/1", "1/1 1/2 1/3 3/0", "0 1 3",
     "0 0 none; 1 0 yes 2; 1 1 yes 3; 1 2 none; 2 0 yes 0; 2 1 none; 3 0 none"),
]
