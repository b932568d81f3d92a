//! Scripts from a seed: books of every kind, each through both entries, and calls with every kind of argument.
//!
//! While it writes a script the generator runs it too, so that most calls name tables and indexes that are
//! there, and a marked forest is soon left.

mod books;
mod calls;
mod plain;
mod rare;
mod refused;
mod torn;

pub use books::{damaged_book, plain_book};
pub use plain::{few_goals, named_so, nearly_plain};
pub use refused::early_calls;
pub use torn::torn_paper;

use crate::book::Entry;
use crate::rng::Rng;
use books::{copies, random_book, share_of_ranges, taste};
use calls::{clock, Forest, Haste};
use rare::{chain_forest, delayed_forest, facts_forest, near_forest, strands_forest};
use refused::refused_forest;
use std::fmt::Write;

#[derive(Clone, Copy, Debug, PartialEq, Eq)]
pub enum Profile {
    /// A bit of everything: the standard run.
    Mix,
    /// Plain levelled books.
    Plain,
    /// Books of one to three goals.
    Tiny,
    /// Damaged bytes.
    Bytes,
    /// What is rare: 22, 23, 24, 26, 27 and many answers.
    Answers,
    /// Small books and short searches, for a slow checker.
    Small,
    /// 22, 23 and 24 in few turns.
    Limits,
    /// Books of many goals, some at the limits.
    Large,
    /// Small books in scripts with malformed lines, comments and odd spacing.
    Lines,
    /// Tiny books without ranges, by the old entry alone: what bench times, and so not to be changed.
    Timed,
    /// Plain levelled books as bench times them, by the old entry alone.
    TimedPlain,
}

impl Profile {
    pub fn named(name: &str) -> Option<Profile> {
        Some(match name {
            "mix" => Profile::Mix,
            "plain" => Profile::Plain,
            "tiny" => Profile::Tiny,
            "bytes" => Profile::Bytes,
            "answers" => Profile::Answers,
            "small" => Profile::Small,
            "limits" => Profile::Limits,
            "large" => Profile::Large,
            "lines" => Profile::Lines,
            _ => return None,
        })
    }
}

fn bytes_forest(rng: &mut Rng, out: &mut String) -> u64 {
    let bytes = damaged_book(rng);
    let clock = clock(rng);
    let mut forest = Forest::begin(rng, &bytes, clock, out);
    let count = if forest.goals() > 0 { 4 } else { forest.rng.below(2) };
    forest.random_calls(count);
    forest.calls
}

fn general_forest(rng: &mut Rng, out: &mut String, profile: Profile) -> u64 {
    let mut taste = taste(rng);
    let mut count = rng.range(12, 28);
    let mut limit = clock(rng);
    let mut haste = None;
    match profile {
        Profile::Tiny | Profile::Timed => taste.goals = (1, 3),
        Profile::Small => {
            taste.goals = (1, 4);
            taste.most_clauses = 6;
            count = 26;
            limit = match rng.below(100) {
                0..=29 => rng.range(1, 10),
                30..=49 => rng.range(10, 30),
                50..=52 => rng.pick(&[0, u64::MAX]),
                _ => rng.pick(&[100, 1_000_000, u64::MAX - 1]),
            };
            haste = Some(rng.pick(&[Haste::Cuts, Haste::Short, Haste::Short, Haste::Short]));
            // Most of what stops a search takes these.
            if rng.chance(60) {
                taste.coinductive = rng.pick(&[50, 80, 100]);
            }
            taste.cannot_prove = rng.pick(&[0, 20, 50]);
            taste.floundered = rng.pick(&[0, 0, 25]);
            taste.outsized_literal = rng.pick(&[0, 0, 20]);
        }
        Profile::Large => {
            taste.goals = rng.pick(&[(6, 12), (10, 30), (40, 64)]);
            taste.clauses = (0, 4);
            taste.literals = rng.pick(&[(0, 2), (0, 4), (0, 8)]);
        }
        _ => {
            if rng.chance(20) {
                taste.literals = (0, 8);
            }
        }
    }
    let timed = profile == Profile::Timed;
    if !timed {
        taste.range = share_of_ranges(rng);
    }
    let mut book = random_book(rng, &taste);
    if !timed {
        copies(rng, &mut book, 20);
    }
    let bytes = book.bytes();
    let mut forest = if timed {
        Forest::by(Entry::Old, rng, &bytes, limit, out)
    } else {
        Forest::begin(rng, &bytes, limit, out)
    };
    match haste {
        Some(haste) => forest.calls_in(count, haste),
        None => forest.random_calls(count),
    }
    forest.calls
}

fn plain_forest(rng: &mut Rng, out: &mut String, timed: bool) -> u64 {
    let (book, _) = plain_book(rng);
    let limit = clock(rng);
    let mut forest = if timed {
        Forest::by(Entry::Old, rng, &book.bytes(), limit, out)
    } else {
        Forest::begin(rng, &book.bytes(), limit, out)
    };
    let count = forest.rng.range(10, 30);
    forest.random_calls(count);
    forest.calls
}

/// Lines that are no calls, and lines that look odd and are calls.
fn lines_forest(rng: &mut Rng, out: &mut String) -> u64 {
    let mut plain = String::new();
    let calls = if one_in_eight(rng) {
        refused_forest(rng, &mut plain)
    } else {
        general_forest(rng, &mut plain, Profile::Small)
    };
    for line in plain.lines() {
        if rng.chance(15) {
            let odd = rng.pick(&[
                "",
                "   ",
                "# a comment",
                "#",
                "opn 0",
                "Open 0",
                "open",
                "open x",
                "open -1",
                "open +1",
                "open 0 0",
                "open 0x1",
                "open\t0",
                "open 18446744073709551616",
                "open 18446744073709551615",
                "open 00000000000000000000000000",
                "search 0 0",
                "search 0 0 1 1",
                "search 0 00 1",
                "peek 0 0 1",
                "peek 0 0 1 1 1",
                "future 0 0",
                "future 0 0 0 0",
                "book",
                "book 47 00 45",
                "book 470045 clock",
                "book 470045 clock x",
                "book 470045 clock 18446744073709551616",
                "book 4 7 00 45 clock 9",
                "book 47004 clock 9",
                "book zz clock 9",
                "book 470045 clock 9 9",
                "book 470045 clock clock 9",
                "desk",
                "desk 47 00 45",
                "desk 470045 clock",
                "desk 470045 clock x",
                "desk 470045 clock 18446744073709551616",
                "desk 47004 clock 9",
                "desk zz clock 9",
                "desk 470045 clock 9 9",
                "desk 470045 desk 470045 clock 9",
                "desk book 470045 clock 9",
                "Desk 470045 clock 9",
                "desks 470045 clock 9",
                "clock 9",
                "state",
            ]);
            let _ = writeln!(out, "{odd}");
        }
        let book = ["book", "desk"].into_iter().find(|word| line.starts_with(*word));
        match book.and_then(|word| Some((word, line[word.len() + 1..].split_once(' ')?))) {
            Some((word, (bytes, rest))) if rng.chance(50) => {
                let spaced: Vec<String> = bytes
                    .as_bytes()
                    .chunks(if rng.chance(50) { 2 } else { 4 })
                    .map(|pair| String::from_utf8_lossy(pair).to_lowercase())
                    .collect();
                let _ = writeln!(out, "{word}  {} {rest}", spaced.join(" "));
            }
            _ if rng.chance(10) => {
                let _ = writeln!(out, " {} ", line.replace(' ', "  "));
            }
            _ => {
                let _ = writeln!(out, "{line}");
            }
        }
    }
    calls
}

fn one_in_eight(rng: &mut Rng) -> bool {
    rng.below(8) == 0
}

/// One forest of a profile, or in one of eight cases that of a refused book, added to `out`; how many calls it
/// has, its book's lines included.
pub fn forest(rng: &mut Rng, profile: Profile, out: &mut String) -> u64 {
    // what is timed has none, and `lines` has them among its odd lines
    if matches!(profile, Profile::Timed | Profile::TimedPlain | Profile::Lines) {
        return forest_of(rng, profile, out);
    }
    // so that the profiles of a seed do not all have the same ones
    for _ in 0..profile as u64 {
        rng.next();
    }
    if one_in_eight(rng) {
        return refused_forest(rng, out);
    }
    forest_of(rng, profile, out)
}

fn forest_of(rng: &mut Rng, profile: Profile, out: &mut String) -> u64 {
    match profile {
        Profile::Mix => match rng.below(100) {
            0..=19 => bytes_forest(rng, out),
            20..=49 => general_forest(rng, out, Profile::Mix),
            50..=59 => general_forest(rng, out, Profile::Tiny),
            60..=63 => general_forest(rng, out, Profile::Large),
            64..=71 => plain_forest(rng, out, false),
            72..=85 => near_forest(rng, out, false),
            _ => forest_of(rng, Profile::Answers, out),
        },
        Profile::Plain => plain_forest(rng, out, false),
        Profile::TimedPlain => plain_forest(rng, out, true),
        Profile::Bytes => bytes_forest(rng, out),
        Profile::Answers => match rng.below(100) {
            0..=29 => delayed_forest(rng, out, false),
            30..=54 => strands_forest(rng, out, false),
            55..=74 => chain_forest(rng, out),
            75..=76 => facts_forest(rng, out, false),
            _ => near_forest(rng, out, false),
        },
        Profile::Limits => match rng.below(10) {
            0..=3 => delayed_forest(rng, out, true),
            4..=6 => strands_forest(rng, out, true),
            7..=8 => chain_forest(rng, out),
            _ => facts_forest(rng, out, true),
        },
        Profile::Small => match rng.below(100) {
            0..=39 => near_forest(rng, out, true),
            40..=44 => delayed_forest(rng, out, true),
            _ => general_forest(rng, out, profile),
        },
        Profile::Lines => lines_forest(rng, out),
        Profile::Tiny | Profile::Large | Profile::Timed => general_forest(rng, out, profile),
    }
}

/// The chance for forest `number` of a seed: each forest has its own, so that any of them can be made alone.
pub fn rng_of(seed: u64, number: u64) -> Rng {
    let mut rng = Rng::new(seed);
    let start = rng.next();
    Rng::new(start ^ number.wrapping_mul(0xd134_2543_de82_ef95))
}
