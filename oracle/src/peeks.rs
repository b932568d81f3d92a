//! A script with each peek written out as the searches that it makes.
//!
//! Two forests go through the script: one with the peek, one with its searches. After each peek both must be the same, and the last
//! search must have said what the peek says.

use crate::book::Entry;
use crate::bounded::{Bounded, Call, Reply};
use crate::script::{parse, unexpected, Line};
use chalk_engine::solve::{Ended, Outcome};
use std::io::{BufRead, Write};

/// The forest with its peeks, and the one with their searches.
struct Both {
    peeking: Bounded,
    searching: Bounded,
}

impl Both {
    fn new(entry: Entry, bytes: &[u8], clock: u64) -> Both {
        let after = || Bounded::after(entry, bytes, clock);
        Both { peeking: after(), searching: after() }
    }

    /// A call that is no peek, or a peek that is refused, stays as it is.
    fn call(&mut self, call: Call, line: &[u8], out: &mut Vec<u8>) -> Result<(), String> {
        let reply = self.peeking.call(call);
        match (call, reply) {
            (Call::Peek { table, index, rounds, turns }, Reply::Peek(ended)) => {
                let last = self.searches(table, index, rounds, turns, out)?;
                self.same(&ended, &last)
            }
            _ => {
                self.searching.call(call);
                out.extend_from_slice(line);
                out.push(b'\n');
                Ok(())
            }
        }
    }

    fn searches(&mut self, table: u64, at: u64, rounds: u64, turns: u64, out: &mut Vec<u8>) -> Result<Ended, String> {
        let (ended, _) = by_searches(&mut self.searching, table, at, rounds, turns, |index| {
            let _ = writeln!(out, "search {table} {index} {turns}");
        })?;
        Ok(ended)
    }

    fn same(&self, peek: &Ended, last: &Ended) -> Result<(), String> {
        let (mut one, mut other) = (String::new(), String::new());
        self.peeking.dump(&mut one);
        self.searching.dump(&mut other);
        if one != other || peek.outcome != last.outcome || peek.turns != last.turns {
            return Err(format!("a peek is not its searches:\n{peek:?}\n{one}\n{last:?}\n{other}"));
        }
        Ok(())
    }
}

/// A peek by the searches that it makes: the next index after an invalid answer, the same again after QuantumExceeded. Its last
/// search, and how many answers were invalid, so that they were skipped; `before` is told the index of each search.
pub fn by_searches(
    bounded: &mut Bounded,
    table: u64,
    at: u64,
    rounds: u64,
    turns: u64,
    mut before: impl FnMut(u64),
) -> Result<(Ended, u64), String> {
    let (mut index, mut exceeded, mut skipped) = (at, 0, 0);
    loop {
        before(index);
        let reply = bounded.call(Call::Search { table, index, turns });
        if let Some(message) = unexpected(&reply) {
            return Err(format!("UNEXPECTED PANIC: {message}"));
        }
        let Reply::Search(ended) = reply else {
            return Err(format!("a search of a peek was refused: {reply:?}"));
        };
        match ended.outcome {
            Outcome::InvalidAnswer => (index, skipped) = (index + 1, skipped + 1),
            Outcome::QuantumExceeded if exceeded + 1 < rounds => exceeded += 1,
            _ => return Ok((ended, skipped)),
        }
    }
}

/// One line: a call on both forests, a new book for both, or what is neither, which stays.
fn step(both: &mut Option<Both>, line: &[u8], out: &mut Vec<u8>) -> Result<(), String> {
    // A line that is no text is a malformed one.
    let read = std::str::from_utf8(line).map_or(Line::Bad, parse);
    if let (Line::Call(call), Some(both)) = (&read, both.as_mut()) {
        return both.call(*call, line, out);
    }
    if let Line::Book { entry, bytes, clock } = read {
        *both = Some(Both::new(entry, &bytes, clock));
    }
    out.extend_from_slice(line);
    out.push(b'\n');
    Ok(())
}

/// `oracle searches`
pub fn searches(input: impl BufRead, mut output: impl Write) -> Result<(), String> {
    let mut both = None;
    let mut out = Vec::new();
    for (number, line) in input.split(b'\n').enumerate() {
        let line = line.map_err(|e| e.to_string())?;
        step(&mut both, &line, &mut out).map_err(|why| format!("line {} of the script: {why}", number + 1))?;
        output.write_all(&out).map_err(|e| e.to_string())?;
        out.clear();
    }
    output.flush().map_err(|e| e.to_string())
}
