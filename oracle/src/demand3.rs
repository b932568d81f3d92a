//! `oracle demand3`: plain levelled books with calls of chance, held against the layered least model.
//!
//! An answer says that the goal is in the model, "no more solutions" at index 0 that it is not. No other
//! result but QuantumExceeded and Cut may come, no stop but 21, and at most goals + clauses searches end in
//! QuantumExceeded. In the end each goal is searched until it is settled, so that a solver that only ever
//! says "again" or is cut would be found out.

use crate::book::Book;
use crate::bounded::{Bounded, Call, Reply};
use crate::gen;
use crate::rng::Rng;
use chalk_engine::solve::{Ended, Outcome};

/// The layered least model: level by level, the least set closed under the clauses, "not" read from below.
pub fn model(book: &Book, levels: &[u64]) -> Vec<bool> {
    let mut truth = vec![false; book.goals.len()];
    let highest = levels.iter().copied().max().unwrap_or(0);
    for level in 0..=highest {
        loop {
            let mut grown = false;
            for clause in &book.clauses {
                let body = clause
                    .literals
                    .iter()
                    .all(|literal| truth[usize::from(literal.goal)] == literal.positive);
                if levels[clause.goal] == level && body && !truth[clause.goal] {
                    truth[clause.goal] = true;
                    grown = true;
                }
            }
            if !grown {
                break;
            }
        }
    }
    truth
}

struct Trial {
    bounded: Bounded,
    truth: Vec<bool>,
    bound: u64,
    clock_limit: u64,
    quanta: u64,
    stopped: bool,
    calls: Vec<Call>,
}

#[derive(Default)]
pub struct Totals {
    pub calls: u64,
    pub answers: u64,
    pub none: u64,
    pub again: u64,
    pub cut: u64,
    pub stopped: u64,
    /// Books in which the bound was reached exactly.
    pub tight: u64,
}

impl Trial {
    fn call(&mut self, call: Call, totals: &mut Totals) -> Result<Option<Outcome>, String> {
        self.calls.push(call);
        totals.calls += 1;
        let reply = self.bounded.call(call);
        match (call, reply) {
            (_, Reply::Refused(20)) => self.expect(self.stopped, "20 without a stop before")?,
            (Call::Open { .. } | Call::Search { .. } | Call::Peek { .. }, Reply::Refused(number)) => {
                self.expect(!self.stopped, &format!("{number} after a stop, not 20"))?;
            }
            (Call::Open { .. }, Reply::Table(_)) => self.expect(!self.stopped, "an open after a stop")?,
            (Call::Search { table, turns, .. }, Reply::Search(ended)) => {
                self.quanta += u64::from(ended.outcome == Outcome::QuantumExceeded);
                self.ended(table, turns, &ended, totals)?;
                return Ok(Some(ended.outcome));
            }
            (Call::Peek { table, rounds, turns, .. }, Reply::Peek(ended)) => {
                self.quanta += ended.quanta;
                let full = ended.outcome != Outcome::QuantumExceeded || ended.quanta == rounds;
                self.expect(full, "a peek says again before its rounds were up")?;
                self.ended(table, turns, &ended, totals)?;
                return Ok(Some(ended.outcome));
            }
            (Call::Future { .. }, _) => {}
            (_, reply) => return Err(format!("{reply:?}")),
        }
        Ok(None)
    }

    fn expect(&self, holds: bool, complaint: &str) -> Result<(), String> {
        if holds {
            Ok(())
        } else {
            Err(complaint.to_string())
        }
    }

    /// What may be said of a search or a peek that wasn't refused.
    fn ended(&mut self, table: u64, limit: u64, ended: &Ended, totals: &mut Totals) -> Result<(), String> {
        self.expect(!self.stopped, "a search after a stop")?;
        self.expect(
            self.quanta <= self.bound,
            &format!(
                "{} searches ended in QuantumExceeded, with {} goals and clauses",
                self.quanta, self.bound
            ),
        )?;
        self.expect(ended.turns <= limit, "more turns than the limit")?;
        match &ended.outcome {
            Outcome::Yes(variant) => {
                totals.answers += 1;
                let goal = self.goal_of(table)?;
                self.expect(self.truth[goal], &format!("yes for goal {goal}, which is not in the model"))?;
                self.expect(*variant == 0, "a variant that no clause has")?;
                self.expect(ended.index == 0, "a second answer")
            }
            Outcome::NoMoreSolutions => {
                totals.none += 1;
                let goal = self.goal_of(table)?;
                self.expect(
                    ended.index != 0 || !self.truth[goal],
                    &format!("none for goal {goal}, which is in the model"),
                )
            }
            Outcome::QuantumExceeded => {
                totals.again += 1;
                Ok(())
            }
            Outcome::Cut => {
                totals.cut += 1;
                self.expect(ended.turns == limit, "cut before the limit")
            }
            Outcome::Stop(21) => {
                totals.stopped += 1;
                self.stopped = true;
                self.expect(self.bounded.mark() == 21, "no mark after a stop")
            }
            other => Err(format!("{other:?} on a plain levelled book")),
        }
    }

    /// The goal whose open, right now, gives this table.
    fn goal_of(&mut self, table: u64) -> Result<usize, String> {
        for goal in 0..self.truth.len() {
            if u64::from(self.bounded.trees().goal_of(table as usize)) == goal as u64 {
                return match self.bounded.call(Call::Open { goal: goal as u64 }) {
                    Reply::Table(opened) if opened as u64 == table => Ok(goal),
                    other => Err(format!("open {goal} gives {other:?}, not table {table}")),
                };
            }
        }
        Err(format!("table {table} is of no goal"))
    }

    fn chance_call(&mut self, rng: &mut Rng) -> Call {
        let goals = self.truth.len() as u64;
        let tables = self.bounded.trees().tables() as u64;
        let table = if tables == 0 || rng.chance(3) { tables + rng.below(2) } else { rng.below(tables) };
        let index = rng.pick(&[0, 0, 0, 0, 0, 0, 0, 1, 1, 1, 2, u64::MAX]);
        let mut limit = || match rng.below(20) {
            0 => 0,
            1..=9 => rng.range(1, 6),
            10..=15 => rng.range(7, 40),
            _ => 5000,
        };
        let (rounds, turns) = (limit(), limit());
        match rng.below(100) {
            0..=24 => Call::Open { goal: if rng.chance(3) { goals } else { rng.below(goals) } },
            25..=74 => Call::Search { table, index, turns },
            75..=92 => Call::Peek { table, index, rounds, turns },
            _ => Call::Future { table, index, variant: rng.below(2) },
        }
    }

    fn run(&mut self, rng: &mut Rng, totals: &mut Totals) -> Result<(), String> {
        for _ in 0..rng.range(1, 50) {
            let call = self.chance_call(rng);
            self.call(call, totals)?;
            if self.stopped && rng.chance(70) {
                break;
            }
        }
        if self.clock_limit < 1_000_000 || self.stopped {
            return Ok(());
        }
        // Now settle every goal.
        for goal in 0..self.truth.len() as u64 {
            self.call(Call::Open { goal }, totals)?;
            let tables = self.bounded.trees().tables();
            let table = (0..tables).find(|t| u64::from(self.bounded.trees().goal_of(*t)) == goal);
            let table = table.ok_or("an open made no table")? as u64;
            loop {
                let search = Call::Search { table, index: 0, turns: 200_000 };
                match self.call(search, totals)? {
                    Some(Outcome::QuantumExceeded) => {}
                    Some(Outcome::Cut) => return Err("a search of 200,000 turns over a small book".into()),
                    Some(Outcome::Stop(_)) => return Err("the clock at a million on a small book".into()),
                    _ => break,
                }
            }
        }
        Ok(())
    }
}

pub fn demand3(seed: u64, count: u64) -> Result<Totals, String> {
    let mut totals = Totals::default();
    for number in 0..count {
        let mut rng = gen::rng_of(seed, number);
        let (book, levels) = gen::plain_book(&mut rng);
        let bytes = book.bytes();
        let clock_limit = rng.pick(&[1, 2, 5, 20, 50, 1_000_000, 1_000_000, 1_000_000, 1_000_000]);
        let mut trial = Trial {
            bounded: Bounded::new(&bytes, clock_limit).map_err(|n| format!("a plain book refused: {n}"))?,
            truth: model(&book, &levels),
            bound: (book.goals.len() + book.clauses.len()) as u64,
            clock_limit,
            quanta: 0,
            stopped: false,
            calls: Vec::new(),
        };
        if let Err(complaint) = trial.run(&mut rng, &mut totals) {
            return Err(format!(
                "COMPLAINT: {complaint}\nbook {number} of seed {seed}: {}\nclock limit {clock_limit}\ncalls {:?}",
                crate::script::to_hex(&bytes),
                trial.calls
            ));
        }
        totals.tight += u64::from(trial.quanta == trial.bound);
    }
    Ok(totals)
}
