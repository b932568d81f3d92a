//! `oracle mend damaged`: damaged papers mended, and what the order says of the result held against the reader and the
//! desk. What goes is worked out a second time from the book that was read, clause against clause.

use super::{commands, is_literal, mend, Dropped, Mended};
use crate::book::{Book, Clause, CLAUSE};
use crate::gen::{damaged_book, rng_of, torn_paper};
use crate::script::to_hex;
use std::collections::BTreeMap;
use std::fmt::Write;

/// What was seen.
#[derive(Default)]
pub struct Seen {
    papers: u64,
    unchanged: u64,
    /// Papers by the number by which they are refused.
    refused: BTreeMap<u8, u64>,
    /// Papers by what was dropped from them: for 6, for 36.
    mended: BTreeMap<(bool, bool), u64>,
    /// Clauses by the reason for which they were dropped.
    dropped: BTreeMap<u8, u64>,
    /// Clauses that had both reasons.
    both: u64,
    /// Papers that are not refused in which a literal stands behind a later goal; and those with one that goes.
    behind: u64,
    gone_behind: u64,
}

impl Seen {
    pub fn told(&self) -> String {
        let mut out = format!("{} papers: {} are accepted and unchanged\n", self.papers, self.unchanged);
        for (what, words) in
            [((true, false), "for 6 alone"), ((false, true), "for 36 alone"), ((true, true), "for both")]
        {
            let _ = writeln!(out, "mended {words}: {}", self.mended.get(&what).unwrap_or(&0));
        }
        for (number, count) in &self.refused {
            let _ = writeln!(out, "refused {number}: {count}");
        }
        for (reason, count) in &self.dropped {
            let _ = writeln!(out, "clauses dropped for {reason}: {count}");
        }
        let _ = writeln!(out, "clauses with both reasons: {}", self.both);
        let _ = writeln!(
            out,
            "papers with a literal behind a later goal: {}; one that goes: {}",
            self.behind, self.gone_behind
        );
        out + "each result is accepted by the desk, and mended again it stays\n"
    }
}

/// Of each clause of a paper that can be mended where its literals stand: behind how many goals that came after it.
fn places(paper: &[u8]) -> Vec<Vec<usize>> {
    let mut found: Vec<Vec<usize>> = Vec::new();
    let mut goals = 0;
    for command in commands(paper) {
        match found.last_mut() {
            Some(last) if is_literal(command) => last.push(goals),
            _ if command[0] == CLAUSE => {
                found.push(Vec::new());
                goals = 0;
            }
            _ => goals += 1,
        }
    }
    found
}

fn undefined(book: &Book, clause: &Clause) -> bool {
    clause.literals.iter().any(|literal| usize::from(literal.goal) >= book.goals.len())
}

/// Of each clause of a book the reason for which it goes.
fn reasons(book: &Book) -> Vec<Option<u8>> {
    let reason = |at: usize| {
        let clause = &book.clauses[at];
        match (undefined(book, clause), book.clauses[..at].contains(clause)) {
            (true, _) => Some(6),
            (false, repeated) => repeated.then_some(36),
        }
    };
    (0..book.clauses.len()).map(reason).collect()
}

/// The same of a book as lines: the clauses are numbered within their goals.
fn dropped(book: &Book, reasons: &[Option<u8>]) -> Vec<Dropped> {
    let mut found = Vec::new();
    for (at, reason) in reasons.iter().enumerate() {
        let goal = book.clauses[at].goal;
        let clause = book.clauses[..at].iter().filter(|other| other.goal == goal).count();
        found.extend(reason.map(|reason| Dropped { goal, clause, reason }));
    }
    found
}

/// Those that have no reason to go.
fn left<'a, T>(all: &'a [T], reasons: &[Option<u8>]) -> Vec<&'a T> {
    all.iter().zip(reasons).filter(|(_, reason)| reason.is_none()).map(|(one, _)| one).collect()
}

/// What is wrong with the mending of a paper of which this book was read, if anything is.
fn wrong(paper: &[u8], book: &Book, mended: &Mended) -> Option<&'static str> {
    let reasons = reasons(book);
    if mended.dropped != dropped(book, &reasons) {
        return Some("other clauses go");
    }
    let Ok(rest) = Book::desk(&mended.bytes) else {
        return Some("the desk refuses the result");
    };
    if rest.goals != book.goals || rest.clauses.iter().collect::<Vec<_>>() != left(&book.clauses, &reasons) {
        return Some("the result has other goals or clauses");
    }
    if places(&mended.bytes).iter().collect::<Vec<_>>() != left(&places(paper), &reasons) {
        return Some("literals stand elsewhere");
    }
    let again = Mended { bytes: mended.bytes.clone(), dropped: Vec::new() };
    if mend(&mended.bytes) != Ok(again) {
        return Some("mended again it does not stay");
    }
    // of what the desk says of the old paper
    match Book::desk(paper) {
        Ok(_) if mended.bytes != paper || !mended.dropped.is_empty() => Some("an accepted paper is changed"),
        Err(6) if !mended.dropped.iter().any(|one| one.reason == 6) => Some("nothing goes for 6"),
        Err(36) if !at_repeat(book, mended) => Some("the first to go is not the desk's"),
        _ => None,
    }
}

/// Of a book that is refused with 36: the first clause to go is the one that the desk found.
fn at_repeat(book: &Book, mended: &Mended) -> bool {
    let found = book.repeat().map(|repeat| (repeat.goal, repeat.clause, 36));
    mended.dropped.first().map(|one| (one.goal, one.clause, one.reason)) == found
}

impl Seen {
    fn see(&mut self, paper: &[u8], book: &Book, mended: &Mended) {
        let reasons = reasons(book);
        let has = |reason| mended.dropped.iter().any(|one| one.reason == reason);
        match (has(6), has(36)) {
            (false, false) => self.unchanged += 1,
            which => *self.mended.entry(which).or_default() += 1,
        }
        for one in &mended.dropped {
            *self.dropped.entry(one.reason).or_default() += 1;
        }
        let repeated =
            |at: &usize| undefined(book, &book.clauses[*at]) && book.clauses[..*at].contains(&book.clauses[*at]);
        self.both += (0..book.clauses.len()).filter(repeated).count() as u64;
        let places = places(paper);
        let behind = |goals: &Vec<usize>| goals.iter().any(|many| *many > 0);
        self.behind += u64::from(places.iter().any(behind));
        self.gone_behind +=
            u64::from(places.iter().zip(&reasons).any(|(goals, why)| behind(goals) && why.is_some()));
    }

    /// A paper, whatever is wrong with it.
    fn take(&mut self, paper: &[u8]) -> Result<(), String> {
        let complaint = |what: &str| format!("COMPLAINT: {what}: {}", to_hex(paper));
        self.papers += 1;
        match (Book::loosely(paper), mend(paper)) {
            (Err(number), Err(said)) if number == said => *self.refused.entry(number).or_default() += 1,
            (Ok(book), Ok(mended)) => match wrong(paper, &book, &mended) {
                None => self.see(paper, &book, &mended),
                Some(what) => return Err(complaint(what)),
            },
            (read, said) => return Err(complaint(&format!("read {:?}, mended {:?}", read.err(), said.err()))),
        }
        Ok(())
    }
}

/// COUNT papers, every second one torn, the others damaged.
pub fn damaged(seed: u64, count: u64) -> Result<Seen, String> {
    let mut seen = Seen::default();
    for number in 0..count {
        let rng = &mut rng_of(seed, number);
        let paper = if number % 2 == 0 { torn_paper(rng) } else { damaged_book(rng) };
        seen.take(&paper)?;
    }
    Ok(seen)
}
