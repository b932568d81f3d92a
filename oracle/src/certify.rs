//! `oracle certify`: which goals' yes can be printed (order 2), and of each other goal one that spoils it.
//!
//! The definitions spread what spoils pass by pass. Here each goal is looked at by itself: how many steps it is to the
//! nearest goal that spoils, and then the way there, by the first literal each time that leads nearer.

use crate::book::Book;
use crate::levels::{named, sentence, Named};
use std::fmt::Write;

/// What a goal spoils by: that it is coinductive, or else its first "not".
fn spoil(book: &Book, goal: usize) -> Option<String> {
    if book.goals[goal].coinductive {
        return Some("coinductive".into());
    }
    let own = book.clauses.iter().filter(|clause| clause.goal == goal);
    let first_not = |(number, literals): (usize, Vec<bool>)| {
        let literal = literals.iter().position(|positive| !positive)?;
        Some(format!("a \"not\" in clause {number}, literal {literal}"))
    };
    own.map(|clause| clause.literals.iter().map(|l| l.positive).collect()).enumerate().find_map(first_not)
}

/// The steps from a goal to the nearest one that spoils; none where it leads to no such goal.
fn steps(from: usize, named: &Named, spoils: &[bool]) -> Option<usize> {
    let (mut reached, mut steps) = (vec![false; named.len()], 0);
    reached[from] = true;
    loop {
        if (0..named.len()).any(|goal| reached[goal] && spoils[goal]) {
            return Some(steps);
        }
        let mut further = reached.clone();
        for goal in (0..named.len()).filter(|&goal| reached[goal]) {
            named[goal].iter().for_each(|&(to, _)| further[to] = true);
        }
        if further == reached {
            return None;
        }
        (reached, steps) = (further, steps + 1);
    }
}

/// By which goal each goal is spoilt.
fn spoilers(named: &Named, spoils: &[bool]) -> Vec<Option<usize>> {
    let all: Vec<Option<usize>> = (0..named.len()).map(|goal| steps(goal, named, spoils)).collect();
    let nearer = |goal: usize, left: usize| named[goal].iter().find(|(to, _)| all[*to] == Some(left)).unwrap().0;
    let walked = |goal: usize| all[goal].map(|far| (0..far).rev().fold(goal, nearer));
    (0..named.len()).map(walked).collect()
}

/// What the program `certify` writes of a book.
pub fn text(bytes: &[u8]) -> String {
    let mut out = String::new();
    let book = match Book::desk(bytes) {
        Ok(book) => book,
        Err(number) => return format!("refused {number}\n{}\n", sentence(number)),
    };
    let spoil: Vec<Option<String>> = (0..book.goals.len()).map(|goal| spoil(&book, goal)).collect();
    let spoils: Vec<bool> = spoil.iter().map(Option::is_some).collect();
    for (goal, spoiler) in spoilers(&named(&book), &spoils).into_iter().enumerate() {
        let _ = match spoiler.map(|by| (by, spoil[by].as_deref().unwrap_or(""))) {
            None => writeln!(out, "{goal} clean"),
            Some((by, what)) => writeln!(out, "{goal} spoilt by goal {by}: {what}"),
        };
    }
    out
}
