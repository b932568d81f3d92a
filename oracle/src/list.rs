//! The listing program of document 01. It reads as the exam desk does.

use crate::book::Entry;
use crate::bounded::{Bounded, Call, Reply};
use crate::peeks::by_searches;
use crate::script::{unexpected, word};
use chalk_engine::solve::{Ended, Outcome};
use std::fmt::Write;

pub const CLOCK: u64 = 1_000_000;
pub const ROUNDS: u64 = 1_000;
pub const TURNS: u64 = 10_000;

/// A peek of a table from an index on: how it ended, and what is written behind its line.
type Peek = fn(&mut Bounded, u64, u64) -> Result<(Ended, String), String>;

/// The listing of a book, as one text; the error is a report of an unexpected panic.
pub fn list(bytes: &[u8]) -> Result<String, String> {
    list_by(peeked, bytes)
}

/// The same by searches alone, with no peek among them; behind each line how many answers were skipped, since they were invalid.
pub fn skips(bytes: &[u8]) -> Result<String, String> {
    list_by(searched, bytes)
}

fn peeked(bounded: &mut Bounded, table: u64, index: u64) -> Result<(Ended, String), String> {
    let reply = bounded.call(Call::Peek { table, index, rounds: ROUNDS, turns: TURNS });
    if let Some(message) = unexpected(&reply) {
        return Err(format!("UNEXPECTED PANIC: {message}"));
    }
    match reply {
        Reply::Peek(ended) => Ok((ended, String::new())),
        _ => Err(format!("peek of table {table} at {index}: {reply:?}")),
    }
}

fn searched(bounded: &mut Bounded, table: u64, index: u64) -> Result<(Ended, String), String> {
    let (ended, skipped) = by_searches(bounded, table, index, ROUNDS, TURNS, |_| ())?;
    Ok((ended, format!(" skipped {skipped}")))
}

fn list_by(peek: Peek, bytes: &[u8]) -> Result<String, String> {
    let mut out = String::new();
    let mut bounded = match Bounded::by(Entry::Desk, bytes, CLOCK) {
        Ok(bounded) => bounded,
        Err(number) => return Ok(format!("refused {number}\n")),
    };
    'goals: for goal in 0..bounded.book.goals.len() as u64 {
        let table = match bounded.call(Call::Open { goal }) {
            Reply::Table(table) => table as u64,
            Reply::OpenStop(number) => {
                let _ = writeln!(out, "{goal} 0 stop {number}");
                break;
            }
            other => return Err(format!("open {goal}: {other:?}")),
        };
        let mut index = 0;
        loop {
            let (ended, behind) = peek(&mut bounded, table, index)?;
            let _ = writeln!(out, "{goal} {} {}{behind}", ended.index, word(&ended.outcome));
            match ended.outcome {
                Outcome::Yes(_) | Outcome::Maybe(_) => index = ended.index as u64 + 1,
                Outcome::Stop(_) => break 'goals,
                _ => break,
            }
        }
    }
    Ok(out)
}
