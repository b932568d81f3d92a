//! The book reader: bytes to goals and clauses, or the number of the refusal. Beside it the exam desk, which
//! refuses more.

use chalk_ir::interner::BookInterner;
use chalk_ir::{Goal, ProgramClause, UnificationDatabase, Want};
use chalk_solve::RustIrDatabase;

pub const GOAL: u8 = 0x47;
pub const CLAUSE: u8 = 0x43;
pub const POSITIVE: u8 = 0x50;
pub const RANGE: u8 = 0x52;
pub const NOT: u8 = 0x4E;
pub const END: u8 = 0x45;

pub const MOST_GOALS: usize = 64;
pub const MOST_CLAUSES: usize = 256;
pub const MOST_LITERALS: usize = 8;

#[derive(Clone, Debug, PartialEq, Eq)]
pub struct Literal {
    pub positive: bool,
    pub goal: u16,
    /// Of a "not": any.
    pub want: Want,
    pub outsized: bool,
}

impl Literal {
    /// Its command and operands. A range is written as one, though it may be as wide as a want.
    pub fn write(&self, out: &mut Vec<u8>) {
        let goal = self.goal.to_le_bytes();
        match self.want {
            _ if !self.positive => {
                out.push(NOT);
                out.extend(goal);
            }
            Want::Between(low, high) => {
                out.push(RANGE);
                out.extend(goal);
                out.extend(low.to_le_bytes());
                out.extend(high.to_le_bytes());
            }
            // any is 0
            want => {
                out.push(POSITIVE);
                out.extend(goal);
                out.extend(want.low().to_le_bytes());
            }
        }
        out.push(u8::from(self.outsized));
    }
}

#[derive(Clone, Debug, PartialEq, Eq)]
pub struct Clause {
    /// The goal whose clause it is.
    pub goal: usize,
    pub variant: u16,
    pub cannot_prove: bool,
    pub outsized: bool,
    pub literals: Vec<Literal>,
}

#[derive(Clone, Copy, Debug, PartialEq, Eq)]
pub struct GoalFlags {
    pub coinductive: bool,
    pub floundered: bool,
}

#[derive(Clone, Debug, PartialEq, Eq, Default)]
pub struct Book {
    pub goals: Vec<GoalFlags>,
    pub clauses: Vec<Clause>,
}

/// The way in: at the exam desk, or by the old entry, which takes equal clauses of a goal too.
#[derive(Clone, Copy, Debug, PartialEq, Eq)]
pub enum Entry {
    Desk,
    Old,
}

impl Entry {
    /// Its word in a script.
    pub fn word(self) -> &'static str {
        match self {
            Entry::Desk => "desk",
            Entry::Old => "book",
        }
    }

    /// The book, or the number by which this entry refuses it.
    pub fn read(self, bytes: &[u8]) -> Result<Book, u8> {
        match self {
            Entry::Desk => Book::desk(bytes),
            Entry::Old => Book::read(bytes),
        }
    }
}

/// A clause that is equal to an earlier one of its goal. Clauses are numbered within the goal, from 0.
#[derive(Clone, Copy, Debug, PartialEq, Eq)]
pub struct Repeat {
    pub goal: usize,
    pub clause: usize,
    /// The first clause of the goal that it is equal to.
    pub earlier: usize,
}

struct Reader<'a> {
    bytes: &'a [u8],
    at: usize,
}

impl Reader<'_> {
    fn byte(&mut self) -> Result<u8, u8> {
        let byte = *self.bytes.get(self.at).ok_or(1)?;
        self.at += 1;
        Ok(byte)
    }

    fn operands<const N: usize>(&mut self) -> Result<[u8; N], u8> {
        let operands = self.bytes.get(self.at..self.at + N).ok_or(1)?;
        self.at += N;
        Ok(operands.try_into().unwrap())
    }
}

impl Book {
    /// Each command is tested in the order 1 (its byte), 2, 1 (operands), 3, 4, 32, 5; the end in the order 7, 8, 6.
    pub fn read(bytes: &[u8]) -> Result<Book, u8> {
        let book = Book::loosely(bytes)?;
        let mut literals = book.clauses.iter().flat_map(|clause| &clause.literals);
        if literals.any(|literal| usize::from(literal.goal) >= book.goals.len()) {
            return Err(6);
        }
        Ok(book)
    }

    /// All tests but the last: a literal may name a goal that is not there.
    pub fn loosely(bytes: &[u8]) -> Result<Book, u8> {
        let mut reader = Reader { bytes, at: 0 };
        let mut book = Book::default();
        loop {
            match reader.byte()? {
                GOAL => {
                    let [flags] = reader.operands()?;
                    known(flags, 3)?;
                    if book.goals.len() == MOST_GOALS {
                        return Err(5);
                    }
                    book.goals.push(GoalFlags { coinductive: flags & 1 != 0, floundered: flags & 2 != 0 });
                }
                CLAUSE => {
                    let [v0, v1, flags] = reader.operands()?;
                    let goal = book.goals.len().checked_sub(1).ok_or(3)?;
                    known(flags, 3)?;
                    if book.clauses.len() == MOST_CLAUSES {
                        return Err(5);
                    }
                    book.clauses.push(Clause {
                        goal,
                        variant: u16::from_le_bytes([v0, v1]),
                        cannot_prove: flags & 1 != 0,
                        outsized: flags & 2 != 0,
                        literals: Vec::new(),
                    });
                }
                POSITIVE => {
                    let [g0, g1, w0, w1, flags] = reader.operands()?;
                    let want = match u16::from_le_bytes([w0, w1]) {
                        0 => Want::Any,
                        variant => Want::Exactly(variant),
                    };
                    book.literal(true, [g0, g1], want, flags)?;
                }
                RANGE => {
                    let [g0, g1, l0, l1, h0, h1, flags] = reader.operands()?;
                    let want = Want::Between(u16::from_le_bytes([l0, l1]), u16::from_le_bytes([h0, h1]));
                    book.literal(true, [g0, g1], want, flags)?;
                }
                NOT => {
                    let [g0, g1, flags] = reader.operands()?;
                    book.literal(false, [g0, g1], Want::Any, flags)?;
                }
                END => {
                    if reader.at != bytes.len() {
                        return Err(7);
                    }
                    if book.goals.is_empty() {
                        return Err(8);
                    }
                    return Ok(book);
                }
                _ => return Err(2),
            }
        }
    }

    /// What is read, and 36 where a goal has two equal clauses: the last of all tests.
    pub fn desk(bytes: &[u8]) -> Result<Book, u8> {
        let book = Book::read(bytes)?;
        match book.repeat() {
            None => Ok(book),
            Some(_) => Err(36),
        }
    }

    /// The first clause, in the order of the book, that is equal to an earlier one of its own goal: the same
    /// variant, flags and literals in order, by command and operands.
    pub fn repeat(&self) -> Option<Repeat> {
        for goal in 0..self.goals.len() {
            let clauses: Vec<&Clause> = self.clauses.iter().filter(|clause| clause.goal == goal).collect();
            for clause in 0..clauses.len() {
                for earlier in 0..clause {
                    if clauses[earlier] == clauses[clause] {
                        return Some(Repeat { goal, clause, earlier });
                    }
                }
            }
        }
        None
    }

    /// A literal belongs to the last clause so far, even if a goal came between.
    fn literal(&mut self, positive: bool, goal: [u8; 2], want: Want, flags: u8) -> Result<(), u8> {
        let clause = self.clauses.last_mut().ok_or(3)?;
        known(flags, 1)?;
        if want.low() > want.high() {
            return Err(32);
        }
        if clause.literals.len() == MOST_LITERALS {
            return Err(5);
        }
        clause.literals.push(Literal {
            positive,
            goal: u16::from_le_bytes(goal),
            want,
            outsized: flags & 1 != 0,
        });
        Ok(())
    }

    /// How many of its literals are ranges.
    pub fn ranges(&self) -> u64 {
        let literals = self.clauses.iter().flat_map(|clause| &clause.literals);
        literals.filter(|literal| matches!(literal.want, Want::Between(..))).count() as u64
    }

    /// The bytes of this book: each goal, then its clauses.
    pub fn bytes(&self) -> Vec<u8> {
        let mut out = Vec::new();
        for (number, goal) in self.goals.iter().enumerate() {
            out.push(GOAL);
            out.push(u8::from(goal.coinductive) | u8::from(goal.floundered) << 1);
            for clause in self.clauses.iter().filter(|clause| clause.goal == number) {
                out.push(CLAUSE);
                out.extend(clause.variant.to_le_bytes());
                out.push(u8::from(clause.cannot_prove) | u8::from(clause.outsized) << 1);
                for literal in &clause.literals {
                    literal.write(&mut out);
                }
            }
        }
        out.push(END);
        out
    }
}

fn known(flags: u8, known: u8) -> Result<(), u8> {
    if flags & !known != 0 {
        return Err(4);
    }
    Ok(())
}

#[derive(Debug)]
struct NoUnification;

impl UnificationDatabase<BookInterner> for NoUnification {}

/// The book as the control files' program.
impl RustIrDatabase<BookInterner> for Book {
    fn interner(&self) -> BookInterner {
        BookInterner
    }

    fn unification_database(&self) -> &dyn UnificationDatabase<BookInterner> {
        &NoUnification
    }

    fn is_coinductive(&self, goal: u16) -> bool {
        self.goals[usize::from(goal)].coinductive
    }

    fn is_floundered(&self, goal: u16) -> bool {
        self.goals[usize::from(goal)].floundered
    }

    fn clauses(&self, goal: u16) -> Vec<ProgramClause<BookInterner>> {
        self.clauses
            .iter()
            .filter(|clause| clause.goal == usize::from(goal))
            .map(|clause| ProgramClause {
                variant: clause.variant,
                cannot_prove: clause.cannot_prove,
                outsized: clause.outsized,
                literals: clause
                    .literals
                    .iter()
                    .map(|l| (l.positive, Goal::literal(l.goal, l.want, l.outsized)))
                    .collect(),
            })
            .collect()
    }
}
