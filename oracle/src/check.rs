//! `oracle check`: the cases and sizes of document 01, then the standard run with its counts.

mod cases;

use crate::book::{Book, CLAUSE, END, GOAL, MOST_CLAUSES, MOST_GOALS, MOST_LITERALS, POSITIVE, RANGE};
use crate::gen::{self, Profile};
use crate::list::list;
use crate::script::{fnv1a, hex, to_hex, Form, Runner};
use cases::{repeat, Desk, DESK, LISTINGS, SCRIPTS};
use chalk_engine::solve::ranges;
use std::collections::BTreeMap;

/// The standard run goes on until it has as many calls.
pub const STANDARD_CALLS: u64 = 1_000_000;
pub const STANDARD_SEED: u64 = 1;
/// Each number that a call can return comes up at least as often.
const AT_LEAST: u64 = 1_000;

fn goals(count: usize) -> Vec<u8> {
    let mut bytes = [GOAL, 0].repeat(count);
    bytes.push(END);
    bytes
}

fn clauses(count: usize) -> Vec<u8> {
    let mut bytes = vec![GOAL, 0];
    bytes.extend([CLAUSE, 0, 0, 0].repeat(count));
    bytes.push(END);
    bytes
}

fn literals(count: usize) -> Vec<u8> {
    let mut bytes = vec![GOAL, 0, CLAUSE, 0, 0, 0];
    bytes.extend([POSITIVE, 0, 0, 0, 0, 0].repeat(count));
    bytes.push(END);
    bytes
}

/// The largest book: each command as often as there may be, the literals ranges.
fn largest() -> Vec<u8> {
    let mut bytes = Vec::new();
    for goal in 0..MOST_GOALS {
        bytes.extend([GOAL, 0]);
        for clause in 0..MOST_CLAUSES / MOST_GOALS {
            bytes.extend([CLAUSE, goal as u8, clause as u8, 0]);
            bytes.extend([RANGE, goal as u8, 0, clause as u8, 0, 0, 1, 1].repeat(MOST_LITERALS));
        }
    }
    bytes.push(END);
    bytes
}

/// As many clauses in one goal as there may be, all of them different in the last literal alone.
fn all_alike() -> Vec<u8> {
    let mut bytes = vec![GOAL, 0];
    for clause in 0..MOST_CLAUSES {
        bytes.extend([CLAUSE, 0, 0, 0]);
        bytes.extend([RANGE, 0, 0, 1, 0, 0, 2, 0].repeat(MOST_LITERALS - 1));
        bytes.extend([RANGE, 0, 0, clause as u8, 0, 0, 1, 0]);
    }
    bytes.push(END);
    bytes
}

/// A book through both entries: by the reader, by the script, and by the listing.
fn through_both(name: &str, bytes: &[u8], expected: Result<Desk, u8>) -> Result<(), String> {
    let read = Book::read(bytes).map(|book| book.repeat());
    let desk = match expected {
        Ok(None) => "made".into(),
        Ok(Some(_)) => "refused 36".into(),
        Err(number) => format!("refused {number}"),
    };
    let old = if expected.is_ok() { "made".into() } else { desk.clone() };
    let digits = to_hex(bytes);
    let said = results(&format!("book {digits} clock 9\ndesk {digits} clock 9\n"))?;
    hold(
        name,
        &format!("{expected:?}\n{old}\n{desk}\n{}\n", desk.starts_with("refused")),
        &format!("{read:?}\n{said}{}\n", list(bytes)? == format!("{desk}\n")),
    )
}

/// The result lines of a script, without the dumps.
fn results(script: &str) -> Result<String, String> {
    let mut runner = Runner::new(Form::Quiet);
    let mut all = String::new();
    for line in script.lines() {
        let mut out = String::new();
        runner.step(line, &mut out)?;
        all.push_str(out.lines().next().unwrap_or(""));
        all.push('\n');
    }
    Ok(all)
}

fn hold(name: &str, expected: &str, actual: &str) -> Result<(), String> {
    if expected == actual {
        println!("ok {name}");
        return Ok(());
    }
    Err(format!("{name}: expected\n{expected}actual\n{actual}"))
}

fn cases() -> Result<(), String> {
    for (name, book, expected) in LISTINGS {
        let digits: String = book.split(' ').collect();
        hold(name, expected, &list(&hex(&digits).unwrap())?)?;
    }
    for (name, script, expected) in SCRIPTS {
        hold(name, expected, &results(script)?)?;
    }
    for (name, bytes, expected) in [
        ("64 goals", goals(64), Ok(())),
        ("65 goals", goals(65), Err(5)),
        ("256 clauses", clauses(256), Ok(())),
        ("257 clauses", clauses(257), Err(5)),
        ("8 literals", literals(8), Ok(())),
        ("9 literals", literals(9), Err(5)),
    ] {
        let actual = Book::read(&bytes).map(|_| ());
        hold(name, &format!("{expected:?}\n"), &format!("{actual:?}\n"))?;
        if expected.is_ok() {
            list(&bytes)?;
        }
    }
    for (name, book, expected) in DESK {
        let digits: String = book.split(' ').collect();
        through_both(name, &hex(&digits).unwrap(), *expected)?;
    }
    let mut bytes = all_alike();
    let said = format!("{} bytes\n", bytes.len());
    hold("the longest equal clauses but for the last literal", "17411 bytes\n", &said)?;
    through_both("256 clauses, different in the last literal", &bytes, Ok(None))?;
    let last = bytes.len() - 6;
    bytes[last] = 0;
    through_both("the same, the last equal to the first", &bytes, Ok(repeat(0, 255, 0)))?;
    let mut bytes = largest();
    let written = Book::read(&bytes).map(|book| book.bytes());
    let said = format!("{} bytes, written as they were read: {}\n", bytes.len(), written.as_ref() == Ok(&bytes));
    hold("the largest book", "17537 bytes, written as they were read: true\n", &said)?;
    bytes.push(0);
    let refused = Book::read(&bytes).map(|_| ());
    hold("a byte after the largest book", "Err(7)\n", &format!("{refused:?}\n"))
}

/// Counts of every result of a run.
#[derive(Default)]
pub struct Counts {
    pub words: BTreeMap<String, u64>,
    pub calls: u64,
    pub forests: u64,
    pub digest: u64,
    /// Literals that are ranges, of the books whose forests the calls go to.
    pub ranges: u64,
    /// Calls on books with a range.
    pub on_ranges: u64,
    /// Answers that fit a range, and answers that did not.
    pub fit: u64,
    pub misfit: u64,
    /// Calls on forests made at the desk, and on those made by the old entry.
    pub at_desk: u64,
    pub by_old: u64,
    /// Calls on forests whose book has equal clauses.
    pub on_equal: u64,
    /// Calls on forests of refused books, by the number.
    pub on_refused: BTreeMap<u8, u64>,
}

/// Runs forests of a profile until there are `calls` calls.
pub fn counted_run(seed: u64, calls: u64, profile: Profile) -> Result<Counts, String> {
    let mut counts = Counts::default();
    let mut script = String::new();
    let mut out = String::new();
    while counts.calls < calls {
        script.clear();
        gen::forest(&mut gen::rng_of(seed, counts.forests), profile, &mut script);
        counts.forests += 1;
        let mut runner = Runner::new(Form::Quiet);
        let before = ranges();
        let (mut here, mut equal, mut desk) = (0, false, false);
        for line in script.lines() {
            out.clear();
            runner.step(line, &mut out)?;
            counts.calls += 1;
            if line.starts_with("book") || line.starts_with("desk") {
                here = runner.book().map_or(0, Book::ranges);
                equal = runner.book().is_some_and(|book| book.repeat().is_some());
                desk = line.starts_with("desk");
            } else if let Some(number) = runner.refused() {
                *counts.on_refused.entry(number).or_default() += 1;
            } else {
                counts.on_ranges += u64::from(here > 0);
                counts.on_equal += u64::from(equal);
                counts.at_desk += u64::from(desk);
                counts.by_old += u64::from(!desk);
            }
            let result = out.lines().next().unwrap_or("");
            let mut words = result.split(' ');
            let mut word = words.next().unwrap_or("").to_string();
            if word == "refused" || word == "stop" {
                word = format!("{word} {}", words.next().unwrap_or(""));
            } else if word == "no" {
                word = "no forest".into();
            }
            *counts.words.entry(word).or_default() += 1;
            counts.digest = fnv1a(format!("{:016x}{out}", counts.digest).as_bytes());
        }
        counts.ranges += here;
        counts.fit += ranges().fit - before.fit;
        counts.misfit += ranges().misfit - before.misfit;
    }
    Ok(counts)
}

fn count(counts: &Counts, word: &str) -> u64 {
    counts.words.get(word).copied().unwrap_or(0)
}

pub fn check(calls: u64, seed: u64) -> Result<(), String> {
    cases()?;
    let counts = counted_run(seed, calls, Profile::Mix)?;
    println!(
        "\nstandard run: seed {seed}, {} forests, {} calls, no unexpected panic, digest {:016x}\n",
        counts.forests, counts.calls, counts.digest
    );
    println!("| result | count |\n|---|---|");
    let mut words: Vec<&String> = counts.words.keys().collect();
    words.sort_by_key(|word| {
        let mut parts = word.split(' ');
        let first = parts.next().unwrap_or("").to_string();
        let number = parts.next().and_then(|n| n.parse::<u64>().ok()).unwrap_or(0);
        (number, first)
    });
    for word in words {
        println!("| {word} | {} |", count(&counts, word));
    }
    println!();
    println!(
        "ranges: {} literals of the forests' books, {} calls on these books, {} answers fit one, {} did not\n",
        counts.ranges, counts.on_ranges, counts.fit, counts.misfit
    );
    println!(
        "entries: {} calls on forests made at the desk, {} on forests made by the old entry, {} of these on books with equal clauses\n",
        counts.at_desk, counts.by_old, counts.on_equal
    );
    let numbers: Vec<String> = counts.on_refused.iter().map(|(number, times)| format!("{number}: {times}")).collect();
    println!(
        "forests of refused books: {} calls, by the number of the refusal {}\n",
        counts.on_refused.values().sum::<u64>(),
        numbers.join(", ")
    );
    // A shorter run than the standard one needs its share only.
    let least = AT_LEAST * calls / STANDARD_CALLS;
    for number in (1..=13).chain(20..=29).chain([32, 36]) {
        let word = if matches!(number, 21..=29) { "stop" } else { "refused" };
        let times = count(&counts, &format!("{word} {number}"));
        if times < least {
            return Err(format!("{word} {number} came up {times} times only, not {least}"));
        }
    }
    if counts.fit.min(counts.misfit) < least {
        return Err(format!("a range took or left an answer less than {least} times"));
    }
    if counts.at_desk.min(counts.on_equal) < least {
        return Err(format!("an entry had less than {least} calls, or books with equal clauses had"));
    }
    for number in (1..=8).chain([13, 32, 36]) {
        if counts.on_refused.get(&number).copied().unwrap_or(0) < least {
            return Err(format!("a forest of a book that was refused with {number} had less than {least} calls"));
        }
    }
    println!("each of the numbers 1 to 13, 20 to 29, 32 and 36 came up at least {least} times");
    Ok(())
}
