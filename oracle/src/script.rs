//! The script of the differential run: one call a line in, two lines a call out. In batches the forest's line
//! comes after some calls, not after each.

use crate::book::{Book, Entry};
use crate::bounded::{Bounded, Call, Reply};
use chalk_engine::solve::{Ended, Outcome};
use std::fmt::Write as _;
use std::io::{BufRead, Write};

pub enum Line {
    Skip,
    Bad,
    Book { entry: Entry, bytes: Vec<u8>, clock: u64 },
    Call(Call),
}

/// A decimal u64: digits alone.
fn number(word: &str) -> Option<u64> {
    if word.is_empty() || !word.bytes().all(|b| b.is_ascii_digit()) {
        return None;
    }
    word.parse().ok()
}

/// Hex digits, two a byte; no spaces.
pub fn hex(word: &str) -> Option<Vec<u8>> {
    let digits = word.as_bytes();
    if digits.len() % 2 != 0 {
        return None;
    }
    digits
        .chunks(2)
        .map(|pair| {
            let high = (pair[0] as char).to_digit(16)?;
            let low = (pair[1] as char).to_digit(16)?;
            Some((high * 16 + low) as u8)
        })
        .collect()
}

pub fn to_hex(bytes: &[u8]) -> String {
    let mut out = String::with_capacity(bytes.len() * 2);
    for byte in bytes {
        let _ = write!(out, "{byte:02X}");
    }
    out
}

pub fn parse(line: &str) -> Line {
    if line.starts_with('#') {
        return Line::Skip;
    }
    let words: Vec<&str> = line.split(' ').filter(|word| !word.is_empty()).collect();
    if words.is_empty() {
        return Line::Skip;
    }
    parse_words(&words).unwrap_or(Line::Bad)
}

fn parse_words(words: &[&str]) -> Option<Line> {
    if let [way @ ("book" | "desk"), bytes @ .., "clock", clock] = words {
        let entry = if *way == "desk" { Entry::Desk } else { Entry::Old };
        let mut book = Vec::new();
        for word in bytes {
            book.extend(hex(word)?);
        }
        return Some(Line::Book { entry, bytes: book, clock: number(clock)? });
    }
    let numbers: Option<Vec<u64>> = words[1..].iter().map(|word| number(word)).collect();
    let call = match (words[0], &numbers?[..]) {
        ("open", &[goal]) => Call::Open { goal },
        ("search", &[table, index, turns]) => Call::Search { table, index, turns },
        ("peek", &[table, index, rounds, turns]) => Call::Peek { table, index, rounds, turns },
        ("future", &[table, index, variant]) => Call::Future { table, index, variant },
        _ => return None,
    };
    Some(Line::Call(call))
}

/// A call as a line of a script.
pub fn line_of(call: Call) -> String {
    match call {
        Call::Open { goal } => format!("open {goal}\n"),
        Call::Search { table, index, turns } => format!("search {table} {index} {turns}\n"),
        Call::Peek { table, index, rounds, turns } => format!("peek {table} {index} {rounds} {turns}\n"),
        Call::Future { table, index, variant } => format!("future {table} {index} {variant}\n"),
    }
}

pub fn word(outcome: &Outcome) -> String {
    match outcome {
        Outcome::Yes(variant) => format!("yes {variant}"),
        Outcome::Maybe(variant) => format!("maybe {variant}"),
        Outcome::NoMoreSolutions => "none".into(),
        Outcome::Floundered => "floundered".into(),
        Outcome::QuantumExceeded => "again".into(),
        Outcome::NegativeCycle => "negcycle".into(),
        Outcome::InvalidAnswer => "invalid".into(),
        Outcome::Cut => "cut".into(),
        Outcome::Stop(number) => format!("stop {number}"),
        Outcome::Unexpected(message) => format!("ERROR unexpected panic: {message}"),
    }
}

/// What `run` prints of a call: its result and the dump of the forest, or the hash of that dump; or, behind
/// the result of a peek, also how many of its searches ended in QuantumExceeded.
#[derive(Clone, Copy, PartialEq, Eq)]
pub enum Form {
    Plain,
    Quiet,
    Bare,
    Counted,
}

pub fn result_line(reply: &Reply, form: Form, out: &mut String) {
    let _ = match reply {
        Reply::Refused(number) => write!(out, "refused {number}"),
        Reply::Table(table) => write!(out, "table {table}"),
        Reply::OpenStop(number) => write!(out, "stop {number}"),
        Reply::Search(ended) => write!(out, "{} turns {}", word(&ended.outcome), ended.turns),
        Reply::Peek(ended) => {
            let _ = write!(out, "{} at {} turns {}", word(&ended.outcome), ended.index, ended.turns);
            match form {
                Form::Counted => write!(out, " exceeded {}", ended.quanta),
                Form::Plain | Form::Quiet | Form::Bare => Ok(()),
            }
        }
        Reply::Future(found) => write!(out, "{found}"),
    };
}

pub fn fnv1a(bytes: &[u8]) -> u64 {
    bytes.iter().fold(0xcbf2_9ce4_8422_2325, |hash, byte| {
        (hash ^ u64::from(*byte)).wrapping_mul(0x0000_0100_0000_01b3)
    })
}

/// The message of an unexpected panic, if the reply has one.
pub fn unexpected(reply: &Reply) -> Option<&str> {
    match reply {
        Reply::Search(Ended { outcome: Outcome::Unexpected(message), .. })
        | Reply::Peek(Ended { outcome: Outcome::Unexpected(message), .. }) => Some(message),
        _ => None,
    }
}

/// The most calls of a batch.
const MOST_CALLS: u64 = 256;

/// What a script does, line by line: the forest at hand, and what was printed.
pub struct Runner {
    bounded: Option<Bounded>,
    form: Form,
    batch: bool,
    /// The calls of the batch so far.
    calls: u64,
    line: u64,
    /// The lines since the last book, for the report of an unexpected panic.
    since_book: Vec<String>,
    dump: String,
}

impl Runner {
    pub fn new(form: Form) -> Runner {
        Runner { bounded: None, form, batch: false, calls: 0, line: 0, since_book: Vec::new(), dump: String::new() }
    }

    /// What the forest holds is told once after the calls of a batch.
    pub fn in_batches(form: Form) -> Runner {
        Runner { batch: true, ..Runner::new(form) }
    }

    /// The book of the forest at hand; that of a refused one is empty.
    pub fn book(&self) -> Option<&Book> {
        self.bounded.as_ref().map(|bounded| &*bounded.book)
    }

    /// The number, where the forest at hand is of a refused book.
    pub fn refused(&self) -> Option<u8> {
        self.bounded.as_ref().filter(|bounded| bounded.book.goals.is_empty()).map(Bounded::mark)
    }

    /// What the forest holds; a bare run says nothing of it.
    fn state(&mut self, out: &mut String) {
        if self.form == Form::Bare {
            return;
        }
        self.dump.clear();
        match &self.bounded {
            None => self.dump.push_str("state none"),
            Some(bounded) => bounded.dump(&mut self.dump),
        }
        if self.form == Form::Quiet {
            let _ = writeln!(out, "{:016x}", fnv1a(self.dump.as_bytes()));
        } else {
            out.push_str(&self.dump);
            out.push('\n');
        }
    }

    /// The end of a batch, if it has calls.
    pub fn end_batch(&mut self, out: &mut String) {
        if self.calls > 0 {
            self.calls = 0;
            self.state(out);
        }
    }

    /// Runs one line, adds its output to `out`; the error is a report of an unexpected panic.
    pub fn step(&mut self, line: &str, out: &mut String) -> Result<(), String> {
        self.line += 1;
        match parse(line) {
            Line::Skip => return Ok(()),
            Line::Bad => {
                self.end_batch(out);
                let _ = writeln!(out, "bad line {}", self.line);
                return Ok(());
            }
            Line::Book { entry, bytes, clock } => {
                self.end_batch(out);
                self.since_book.clear();
                self.since_book.push(line.to_string());
                let bounded = Bounded::after(entry, &bytes, clock);
                let _ = match bounded.mark() {
                    0 => writeln!(out, "made"),
                    number => writeln!(out, "refused {number}"),
                };
                self.bounded = Some(bounded);
            }
            Line::Call(call) => {
                self.calls += u64::from(self.batch);
                self.since_book.push(line.to_string());
                match &mut self.bounded {
                    None => out.push_str("no forest\n"),
                    Some(bounded) => {
                        let reply = bounded.call(call);
                        if let Some(message) = unexpected(&reply) {
                            return Err(format!(
                                "UNEXPECTED PANIC: {message}\nin line {} of the script; its forest:\n{}",
                                self.line,
                                self.since_book.join("\n")
                            ));
                        }
                        result_line(&reply, self.form, out);
                        out.push('\n');
                    }
                }
            }
        }
        if !self.batch {
            self.state(out);
        } else if self.calls == MOST_CALLS {
            self.end_batch(out);
        }
        Ok(())
    }
}

/// `oracle run [batch] [quiet|bare|counted]`
pub fn run(mut runner: Runner, input: impl BufRead, mut output: impl Write) -> Result<(), String> {
    let mut out = String::new();
    for line in input.split(b'\n') {
        let line = line.map_err(|e| e.to_string())?;
        // A line that is no text is a malformed one.
        let line = String::from_utf8(line).unwrap_or_else(|_| "?".into());
        let result = runner.step(&line, &mut out);
        if out.len() > 1 << 16 || result.is_err() {
            output.write_all(out.as_bytes()).map_err(|e| e.to_string())?;
            out.clear();
        }
        result?;
    }
    runner.end_batch(&mut out);
    output.write_all(out.as_bytes()).map_err(|e| e.to_string())?;
    output.flush().map_err(|e| e.to_string())
}
