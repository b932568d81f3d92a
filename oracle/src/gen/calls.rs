//! Calls of chance on one forest, which is run while its lines are written.

use crate::book::Entry;
use crate::bounded::{Bounded, Call, Reply};
use crate::rng::Rng;
use crate::script::{line_of, to_hex};
use chalk_engine::solve::Outcome;
use std::fmt::Write;

/// The lines of one forest, and the forest as it is after them.
pub struct Forest<'a> {
    pub rng: &'a mut Rng,
    pub bounded: Bounded,
    pub clock: u64,
    pub out: &'a mut String,
    /// Calls with a book before, the book's lines included.
    pub calls: u64,
    /// The tables of which no more is to be expected.
    pub done: Vec<u64>,
}

impl Forest<'_> {
    /// The book through both entries, in an order of chance; the forest is that of the last one. Where the
    /// desk alone refuses, that is mostly the old entry's.
    pub fn begin<'a>(rng: &'a mut Rng, bytes: &[u8], clock: u64, out: &'a mut String) -> Forest<'a> {
        let refused = |entry| Bounded::by(entry, bytes, clock).is_err();
        let desk_alone = refused(Entry::Desk) && !refused(Entry::Old);
        let desk_last = rng.chance(if desk_alone { 25 } else { 60 });
        Forest::through_both(if desk_last { Entry::Desk } else { Entry::Old }, rng, bytes, clock, out)
    }

    /// The book through both entries, this one last.
    pub fn through_both<'a>(
        last: Entry,
        rng: &'a mut Rng,
        bytes: &[u8],
        clock: u64,
        out: &'a mut String,
    ) -> Forest<'a> {
        let first = if last == Entry::Desk { Entry::Old } else { Entry::Desk };
        let _ = writeln!(out, "{} {} clock {clock}", first.word(), to_hex(bytes));
        let forest = Forest::by(last, rng, bytes, clock, out);
        Forest { calls: 2, ..forest }
    }

    /// The book through one entry alone.
    pub fn by<'a>(entry: Entry, rng: &'a mut Rng, bytes: &[u8], clock: u64, out: &'a mut String) -> Forest<'a> {
        let _ = writeln!(out, "{} {} clock {clock}", entry.word(), to_hex(bytes));
        Forest { rng, bounded: Bounded::after(entry, bytes, clock), clock, out, calls: 1, done: Vec::new() }
    }

    pub fn call(&mut self, call: Call) {
        *self.out += &line_of(call);
        self.calls += 1;
        let reply = self.bounded.call(call);
        if let (
            Call::Search { table, .. } | Call::Peek { table, .. },
            Reply::Search(ended) | Reply::Peek(ended),
        ) = (call, reply)
        {
            let over = matches!(ended.outcome, Outcome::NoMoreSolutions | Outcome::Floundered);
            if over && !self.done.contains(&table) {
                self.done.push(table);
            }
        }
    }

    /// All goals are open and nothing more is to be expected of them.
    pub fn over(&self) -> bool {
        self.done.len() as u64 == self.goals()
    }

    /// After a stop; and from the start where the book was refused.
    pub fn marked(&self) -> bool {
        self.bounded.mark() != 0
    }

    pub fn tables(&self) -> u64 {
        self.bounded.trees().tables() as u64
    }

    /// None where the book was refused.
    pub fn goals(&self) -> u64 {
        self.bounded.book.goals.len() as u64
    }

    pub fn answers(&self, table: u64) -> u64 {
        if table < self.tables() {
            return self.bounded.trees().answers(table as usize) as u64;
        }
        0
    }

    pub fn table(&mut self) -> u64 {
        let tables = self.tables();
        if tables == 0 || self.rng.chance(5) {
            let far = [tables, tables + 1, 64, 1 << 32, u64::MAX];
            return self.rng.pick(&far);
        }
        let table = self.rng.below(tables);
        // Rather one of which something may come.
        if self.done.contains(&table) {
            return self.rng.below(tables);
        }
        table
    }

    pub fn index(&mut self, table: u64) -> u64 {
        let answers = self.answers(table);
        match self.rng.below(100) {
            0..=74 => answers,
            75..=89 => self.rng.below(answers + 1),
            90..=96 => answers + self.rng.range(1, 2),
            _ => self.rng.pick(&[255, 65535, 1 << 32, u64::MAX]),
        }
    }

    /// A limit that may be large only where the clock ends the search soon.
    pub fn limit(&mut self, haste: Haste) -> u64 {
        if self.rng.chance(3) {
            return 0;
        }
        let large = if self.clock <= 2000 { u64::MAX } else { 5000 };
        match haste {
            Haste::Cuts => self.rng.pick(&[1, 1, 1, 2, 2, 3, 4, 5, 7]),
            Haste::Short => self.rng.pick(&[1, 2, 3, 4, 5, 6, 8, 10, 12, 20, 30]),
            Haste::Any => self.rng.pick(&[1, 2, 3, 5, 8, 15, 50, 200, 1000, large]),
            Haste::Whole => self.rng.pick(&[200, 1000, 3000, large]),
        }
    }

    pub fn random_call(&mut self, haste: Haste) {
        let tables = self.tables();
        let what = self.rng.below(100);
        let stale = self.done.len() as u64 == tables;
        let call = if what < 14 || stale && self.rng.chance(if tables == 0 { 90 } else { 50 }) {
            let goals = self.goals();
            let goal = if goals == 0 || self.rng.chance(8) {
                self.rng.pick(&[goals, goals + 1, 64, 255, 65535, 65536, u64::MAX])
            } else {
                self.rng.below(goals)
            };
            Call::Open { goal }
        } else if what < 66 {
            let table = self.table();
            let index = self.index(table);
            Call::Search { table, index, turns: self.limit(haste) }
        } else if what < 88 {
            let table = self.table();
            let index = self.index(table);
            let rounds = self.limit(haste);
            let rounds = if haste == Haste::Short { rounds.min(5) } else { rounds };
            Call::Peek { table, index, rounds, turns: self.limit(haste) }
        } else {
            let table = self.table();
            let answers = self.answers(table);
            let index = if self.rng.chance(90) {
                self.rng.below(answers + 2)
            } else {
                self.rng.pick(&[255, u64::MAX])
            };
            let variant = self.rng.pick(&[0, 0, 1, 1, 2, 3, 4, 256, 65535, 65536, 131_072, u64::MAX]);
            Call::Future { table, index, variant }
        };
        self.call(call);
    }

    /// About `count` calls; a few more after a stop, then no more.
    pub fn random_calls(&mut self, count: u64) {
        let haste = self.rng.pick(&[Haste::Cuts, Haste::Any, Haste::Any, Haste::Whole]);
        self.calls_in(count, haste);
    }

    pub fn calls_in(&mut self, count: u64, haste: Haste) {
        let mut after = self.rng.range(1, 3);
        for _ in 0..count {
            if self.marked() {
                if after == 0 {
                    break;
                }
                after -= 1;
            } else if self.over() && self.rng.chance(50) {
                break;
            }
            self.random_call(haste);
        }
    }

    /// Opens a goal and peeks through its answers.
    pub fn peek_all(&mut self, goal: u64, rounds: u64, turns: u64, most: u64) {
        self.call(Call::Open { goal });
        let tables = self.tables();
        let table = (0..tables)
            .find(|table| u64::from(self.bounded.trees().goal_of(*table as usize)) == goal)
            .unwrap_or(0);
        for _ in 0..most {
            if self.marked() {
                break;
            }
            let before = self.answers(table);
            self.call(Call::Peek { table, index: before, rounds, turns });
            if self.answers(table) == before {
                break;
            }
        }
    }
}

#[derive(Clone, Copy, PartialEq, Eq)]
pub enum Haste {
    Cuts,
    Short,
    Any,
    Whole,
}

pub fn clock(rng: &mut Rng) -> u64 {
    match rng.below(100) {
        0..=1 => 0,
        2..=3 => u64::MAX,
        4 => u64::MAX - 1,
        5..=24 => rng.range(1, 12),
        25..=34 => rng.range(10, 60),
        35..=49 => 1000,
        _ => 1_000_000,
    }
}
