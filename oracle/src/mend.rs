//! `oracle mend`: a paper that the exam desk turns down with 6 or 36, without the clauses for which it does (order 11).
//!
//! Written from the words of the order, where the definitions go through the bytes with the reasons at hand: a paper is
//! parted into its commands, and those of a clause are gathered, wherever they stand. Two clauses are equal where
//! their commands are the same bytes. In the end the commands of the clauses that go are left out.

pub mod damaged;
#[cfg(test)]
mod tests;

use crate::book::{Book, CLAUSE, GOAL, NOT, POSITIVE, RANGE};
use crate::script::to_hex;
use std::collections::HashSet;
use std::fmt::Write;

/// A clause that goes: its number is that within the goal in the old paper.
#[derive(Clone, Copy, Debug, PartialEq, Eq)]
pub struct Dropped {
    pub goal: usize,
    pub clause: usize,
    pub reason: u8,
}

#[derive(Clone, Debug, PartialEq, Eq)]
pub struct Mended {
    pub bytes: Vec<u8>,
    /// In the order of the book.
    pub dropped: Vec<Dropped>,
}

impl Mended {
    /// A line for each clause that goes.
    pub fn lines(&self) -> String {
        let mut out = String::new();
        for Dropped { goal, clause, reason } in &self.dropped {
            let _ = writeln!(out, "{goal} {clause} {reason}");
        }
        out
    }
}

/// What a paper is refused with: no sentence is below the number.
pub fn refusal(number: u8) -> String {
    format!("refused {number}\n")
}

/// The bytes of a command with its operands.
fn length(command: u8) -> usize {
    match command {
        GOAL => 2,
        CLAUSE | NOT => 4,
        POSITIVE => 6,
        RANGE => 8,
        _ => 1,
    }
}

/// The commands of a paper in which each one is whole.
pub fn commands(paper: &[u8]) -> Vec<&[u8]> {
    let mut found = Vec::new();
    let mut rest = paper;
    while let Some(&first) = rest.first() {
        let (command, behind) = rest.split_at(length(first));
        found.push(command);
        rest = behind;
    }
    found
}

pub fn is_literal(command: &[u8]) -> bool {
    [POSITIVE, RANGE, NOT].contains(&command[0])
}

/// Of each command where the clause begins that it belongs to: a literal's is the last one before it, whatever came
/// between. A goal's command and the end belong to none.
fn clauses(commands: &[&[u8]]) -> Vec<Option<usize>> {
    let mut last = None;
    let mut found = Vec::new();
    for (at, command) in commands.iter().enumerate() {
        if command[0] == CLAUSE {
            last = Some(at);
        }
        found.push(last.filter(|_| command[0] == CLAUSE || is_literal(command)));
    }
    found
}

/// The goal that a literal's command names is not among so many.
fn undefined(literal: &[u8], goals: usize) -> bool {
    usize::from(u16::from_le_bytes([literal[1], literal[2]])) >= goals
}

/// The mended paper, or the number by which the desk refuses it, where that is neither 6 nor 36. Since 6 is tested last
/// but for 36, all else is right in a paper that is refused with it.
pub fn mend(paper: &[u8]) -> Result<Mended, u8> {
    if let Some(number) = Book::desk(paper).err().filter(|number| ![6, 36].contains(number)) {
        return Err(number);
    }
    let commands = commands(paper);
    let clauses = clauses(&commands);
    let goals = commands.iter().filter(|command| command[0] == GOAL).count();
    let (mut begun, mut clause) = (0, 0);
    let (mut seen, mut gone) = (HashSet::new(), HashSet::new());
    let mut dropped = Vec::new();
    for (at, command) in commands.iter().enumerate() {
        if command[0] == GOAL {
            (begun, clause) = (begun + 1, 0);
        }
        if command[0] == CLAUSE {
            let own = || commands.iter().zip(&clauses).filter(|(_, its)| **its == Some(at)).map(|(own, _)| *own);
            let first = seen.insert((begun, own().collect::<Vec<_>>()));
            let names_none = own().skip(1).any(|literal| undefined(literal, goals));
            if names_none || !first {
                gone.insert(at);
                dropped.push(Dropped { goal: begun - 1, clause, reason: if names_none { 6 } else { 36 } });
            }
            clause += 1;
        }
    }
    let stays = |its: &Option<usize>| its.is_none_or(|clause| !gone.contains(&clause));
    let left: Vec<&[u8]> =
        commands.iter().zip(&clauses).filter(|(_, its)| stays(its)).map(|(own, _)| *own).collect();
    Ok(Mended { bytes: left.concat(), dropped })
}

/// What `mend lines` says of a paper: the lines, and then the book's bytes as hex digits.
pub fn said(paper: &[u8]) -> String {
    match mend(paper) {
        Ok(mended) => format!("{}{}\n", mended.lines(), to_hex(&mended.bytes)),
        Err(number) => refusal(number),
    }
}
