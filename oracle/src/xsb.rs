//! `oracle to-xsb`, `oracle from-xsb`: a plain book as XSB text, and the book of such a text.
//!
//! Written from the words of the order, line by line, where the definitions go byte by byte: a text is parted at its
//! newlines, a line at its signs. What a text of the form says is written as the bytes of a book and put to the
//! exam desk, which knows its own numbers.

use crate::book::{Book, CLAUSE, END, GOAL, NOT, POSITIVE};
use crate::levels::{is_plain, place_line, sentence};
use crate::script::to_hex;
use std::fmt::Write;

#[cfg(test)]
mod tests;

/// The number of a text that is of another form.
const OTHER_FORM: u8 = 39;

/// What a text is refused with, on two lines.
pub fn refusal(number: u8) -> String {
    format!("refused {number}\n{}\n", sentence(number))
}

/// The text of a book, or what it is refused with, and with 37 the place that is not plain first.
pub fn export_or_lines(bytes: &[u8]) -> Result<Vec<u8>, String> {
    export(bytes).map(String::into_bytes).map_err(|number| refusal(number) + &place_line(bytes))
}

/// A literal, or a head.
fn named(positive: bool, goal: usize) -> String {
    if positive {
        format!("g{goal}")
    } else {
        format!("tnot(g{goal})")
    }
}

/// The text of a plain book: the desk's numbers, then 37. Levels are not asked for.
pub fn export(bytes: &[u8]) -> Result<String, u8> {
    let book = Book::desk(bytes)?;
    if !is_plain(&book) {
        return Err(37);
    }
    let mut out = String::new();
    for goal in 0..book.goals.len() {
        let _ = writeln!(out, ":- table g{goal}/0.");
    }
    for clause in &book.clauses {
        let body: Vec<String> = clause.literals.iter().map(|l| named(l.positive, usize::from(l.goal))).collect();
        let joined = if body.is_empty() { String::new() } else { format!(" :- {}", body.join(", ")) };
        let _ = writeln!(out, "{}{joined}.", named(true, clause.goal));
    }
    Ok(out)
}

/// Of a literal or a head `gN` the digits of N: there is one at least, and no 0 before others.
fn digits(word: &str) -> Option<&str> {
    let digits = word.strip_prefix('g')?;
    let zero_first = digits.len() > 1 && digits.starts_with('0');
    let all = !digits.is_empty() && digits.bytes().all(|b| b.is_ascii_digit());
    (all && !zero_first).then_some(digits)
}

/// The goal of these digits, if there are so many. A number too large for the machine is one of no goal.
fn goal(digits: &str, goals: usize) -> Option<usize> {
    digits.parse().ok().filter(|goal| *goal < goals)
}

/// What a rule says: its head, and its literals, each by its sign and its digits.
struct Rule<'a> {
    head: &'a str,
    body: Vec<(bool, &'a str)>,
}

fn literal(word: &str) -> Option<(bool, &str)> {
    match word.strip_prefix("tnot(") {
        None => Some((true, digits(word)?)),
        Some(rest) => Some((false, digits(rest.strip_suffix(')')?)?)),
    }
}

fn rule(line: &str) -> Option<Rule<'_>> {
    let whole = line.strip_suffix('.')?;
    let Some((head, body)) = whole.split_once(" :- ") else {
        return Some(Rule { head: digits(whole)?, body: Vec::new() });
    };
    let body: Option<Vec<(bool, &str)>> = body.split(", ").map(literal).collect();
    Some(Rule { head: digits(head)?, body: body? })
}

/// A table line of this goal.
fn is_table(line: &str, goal: usize) -> bool {
    line == format!(":- table g{goal}/0.")
}

/// The lines of a text in which each has its newline. What is no text has none.
fn lines(text: &[u8]) -> Option<Vec<&str>> {
    let mut lines: Vec<&str> = std::str::from_utf8(text).ok()?.split('\n').collect();
    // behind the last newline there is nothing
    (lines.pop() == Some("")).then_some(lines)
}

/// Of a text of the form the number of its table lines, and its rules: heads in order, each with a table line.
fn form(text: &[u8]) -> Option<(usize, Vec<Rule<'_>>)> {
    let lines = lines(text)?;
    let tables = lines.iter().enumerate().take_while(|(at, line)| is_table(line, *at)).count();
    let rules: Option<Vec<Rule>> = lines[tables..].iter().map(|line| rule(line)).collect();
    let rules = rules?;
    let heads: Option<Vec<usize>> = rules.iter().map(|rule| goal(rule.head, tables)).collect();
    heads?.is_sorted().then_some((tables, rules))
}

/// A literal's number in a book. One without a table line stays without a goal: no book has 65,536.
fn in_book(digits: &str, goals: usize) -> [u8; 2] {
    goal(digits, goals).and_then(|goal| u16::try_from(goal).ok()).unwrap_or(u16::MAX).to_le_bytes()
}

/// The bytes of the book that a text of the form says, whatever the desk may have against it.
fn written(goals: usize, rules: &[Rule]) -> Vec<u8> {
    let mut out = Vec::new();
    let mut ahead = rules.iter().peekable();
    for number in 0..goals {
        out.extend([GOAL, 0]);
        while let Some(rule) = ahead.next_if(|rule| goal(rule.head, goals) == Some(number)) {
            out.extend([CLAUSE, 0, 0, 0]);
            for &(positive, digits) in &rule.body {
                let [low, high] = in_book(digits, goals);
                let (command, rest): (u8, &[u8]) = if positive { (POSITIVE, &[0, 0, 0]) } else { (NOT, &[0]) };
                out.extend([command, low, high]);
                out.extend(rest);
            }
        }
    }
    out.push(END);
    out
}

/// The book of a text: 39 where it is of another form, and else what the desk says.
pub fn import(text: &[u8]) -> Result<Book, u8> {
    let (tables, rules) = form(text).ok_or(OTHER_FORM)?;
    Book::desk(&written(tables, &rules))
}

/// What `to-xsb lines` says of a book; behind `refused 37` the place that is not plain first.
pub fn text_line(bytes: &[u8]) -> String {
    export(bytes).unwrap_or_else(|number| format!("refused {number}\n{}", place_line(bytes)))
}

/// What `from-xsb lines` says of a text: the book's bytes as hex digits.
pub fn book_line(text: &[u8]) -> String {
    match import(text) {
        Ok(book) => format!("{}\n", to_hex(&book.bytes())),
        Err(number) => format!("refused {number}\n"),
    }
}
