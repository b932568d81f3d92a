//! A forest as document 01 has it: refusals, the mark, and the undoing of a stopped turn by replay.

use crate::book::{Book, Entry};
use chalk_engine::solve::{CutAt, Ended, Outcome, Trees};
use std::rc::Rc;

#[derive(Clone, Copy, Debug, PartialEq, Eq)]
pub enum Call {
    Open { goal: u64 },
    Search { table: u64, index: u64, turns: u64 },
    Peek { table: u64, index: u64, rounds: u64, turns: u64 },
    Future { table: u64, index: u64, variant: u64 },
}

#[derive(Clone, Debug)]
pub enum Reply {
    Refused(u8),
    Table(usize),
    /// An open that stopped.
    OpenStop(u8),
    Search(Ended),
    Peek(Ended),
    Future(bool),
}

pub struct Bounded {
    pub book: Rc<Book>,
    clock_limit: u64,
    trees: Trees,
    mark: u8,
    /// The calls that may have changed the forest, for a replay.
    done: Vec<Call>,
}

impl Bounded {
    /// By the old entry.
    pub fn new(bytes: &[u8], clock_limit: u64) -> Result<Bounded, u8> {
        Bounded::by(Entry::Old, bytes, clock_limit)
    }

    pub fn by(entry: Entry, bytes: &[u8], clock_limit: u64) -> Result<Bounded, u8> {
        let book = entry.read(bytes)?;
        if clock_limit == 0 || clock_limit == u64::MAX {
            return Err(13);
        }
        Ok(Bounded::bare(book, clock_limit, 0))
    }

    /// The forest at hand after a book's line: a refused book leaves one without goals, marked with the number.
    pub fn after(entry: Entry, bytes: &[u8], clock_limit: u64) -> Bounded {
        Bounded::by(entry, bytes, clock_limit).unwrap_or_else(|number| Bounded::bare(Book::default(), 0, number))
    }

    /// A forest with this book and no table.
    fn bare(book: Book, clock_limit: u64, mark: u8) -> Bounded {
        let book = Rc::new(book);
        Bounded { trees: Trees::new(book.clone(), clock_limit), book, clock_limit, mark, done: Vec::new() }
    }

    pub fn trees(&self) -> &Trees {
        &self.trees
    }

    pub fn mark(&self) -> u8 {
        self.mark
    }

    pub fn dump(&self, out: &mut String) {
        self.trees.dump(self.mark, out);
    }

    pub fn call(&mut self, call: Call) -> Reply {
        if let Some(number) = self.refusal(call) {
            return Reply::Refused(number);
        }
        let reply = self.perform(call, None);
        match &reply {
            Reply::OpenStop(number) => {
                self.mark = *number;
                self.replay();
            }
            Reply::Search(ended) | Reply::Peek(ended) => {
                if let Outcome::Stop(number) = ended.outcome {
                    self.mark = number;
                    // At the root push nothing has changed yet.
                    if ended.entered {
                        self.replay();
                        let cut_at = CutAt { search: ended.searches, turns: ended.turns };
                        self.again(call, cut_at, ended);
                    }
                }
            }
            _ => {}
        }
        if !matches!(call, Call::Future { .. }) {
            self.done.push(call);
        }
        reply
    }

    fn refusal(&self, call: Call) -> Option<u8> {
        let marked = self.mark != 0;
        let no_table = |table: u64| table >= self.trees.tables() as u64;
        let no_index = |table: u64, index: u64| {
            !self.trees.is_floundered(table as usize) && index > self.trees.answers(table as usize) as u64
        };
        match call {
            Call::Open { .. } if marked => Some(20),
            Call::Open { goal } if goal >= self.book.goals.len() as u64 => Some(9),
            Call::Open { .. } => None,
            Call::Search { .. } | Call::Peek { .. } if marked => Some(20),
            Call::Search { table, .. } | Call::Peek { table, .. } | Call::Future { table, .. }
                if no_table(table) =>
            {
                Some(10)
            }
            Call::Search { table, index, .. } | Call::Peek { table, index, .. } if no_index(table, index) => {
                Some(11)
            }
            Call::Search { turns: 0, .. } => Some(12),
            Call::Peek { rounds: 0, .. } | Call::Peek { turns: 0, .. } => Some(12),
            _ => None,
        }
    }

    fn perform(&mut self, call: Call, cut_at: Option<CutAt>) -> Reply {
        match call {
            Call::Open { goal } => match self.trees.open(goal as u16) {
                Some(table) => Reply::Table(table),
                None => Reply::OpenStop(22),
            },
            Call::Search { table, index, turns } => {
                Reply::Search(self.trees.search(table as usize, index as usize, turns, cut_at))
            }
            Call::Peek { table, index, rounds, turns } => {
                Reply::Peek(self.trees.peek(table as usize, index as usize, rounds, turns, cut_at))
            }
            Call::Future { table, index, variant } => {
                Reply::Future(self.trees.future(table as usize, index as usize, u16::try_from(variant).ok()))
            }
        }
    }

    /// The forest made anew, with the calls so far.
    fn replay(&mut self) {
        self.trees = Trees::new(self.book.clone(), self.clock_limit);
        for call in self.done.clone() {
            self.perform(call, None);
        }
    }

    /// The stopped call once more, cut where its last whole turn ended.
    fn again(&mut self, call: Call, cut_at: CutAt, stopped: &Ended) {
        match self.perform(call, Some(cut_at)) {
            Reply::Search(ended) | Reply::Peek(ended) => {
                assert!(
                    ended.outcome == Outcome::Cut
                        && ended.turns == stopped.turns
                        && ended.searches == stopped.searches
                        && ended.index == stopped.index,
                    "a replay went another way: {ended:?} after {stopped:?}"
                );
            }
            _ => unreachable!(),
        }
    }
}
