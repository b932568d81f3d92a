// Stand-in for solve.rs: the door through which a driver runs the control files on a book.
//
// `Trees` is a forest with its program. The lines added to logic.rs and forest.rs call the functions of
// `watch`. A cut and a stop unwind, so that `Drop` of `SolveState` puts the search back. After a cut the forest is
// as document 01 wants it. After a stop within a turn it is half done, and the driver makes it anew.

mod dump;
mod watch;

pub use watch::{ranges, Ranges};
pub(crate) use watch::{answers, delayed, held, push, search, strands, turn};

use crate::context::AnswerResult;
use crate::forest::{start, Forest};
use crate::logic::RootSearchFail;
use crate::slg::SlgContextOps;
use crate::table::AnswerIndex;
use crate::{CompleteAnswer, TableIndex};
use chalk_ir::interner::{BookInterner, Interner};
use chalk_ir::{Canonical, CanonicalVarKinds, Environment, Goal, InEnvironment, UCanonical};
use chalk_solve::RustIrDatabase;
use std::any::Any;
use std::cell::Cell;
use std::panic::{catch_unwind, AssertUnwindSafe};
use std::rc::Rc;
use watch::{ended, queued, watch_call, Cut, Stop};

pub const MOST_STRANDS: usize = 256;
pub const MOST_ANSWERS: usize = 256;
pub const MOST_DELAYED: usize = 8;

/// How a search or a peek ended.
#[derive(Clone, Debug, PartialEq, Eq)]
pub enum Outcome {
    Yes(u16),
    Maybe(u16),
    NoMoreSolutions,
    Floundered,
    QuantumExceeded,
    NegativeCycle,
    InvalidAnswer,
    Cut,
    Stop(u8),
    /// A panic that is none of the stops: an error.
    Unexpected(String),
}

#[derive(Clone, Debug)]
pub struct Ended {
    pub outcome: Outcome,
    /// The index asked for; a peek's, the one at which it ended.
    pub index: usize,
    /// Turns done in the last search.
    pub turns: u64,
    /// Turns begun in all searches of the call.
    pub all_turns: u64,
    /// Searches made: 1, or those of the peek.
    pub searches: u64,
    /// Searches whose own result was QuantumExceeded.
    pub quanta: u64,
    /// Whether the last search had got past its root push.
    pub entered: bool,
}

/// Of a call that is done again after a stop: cut its search number `search` (from 1) after `turns` turns.
#[derive(Copy, Clone, Debug)]
pub struct CutAt {
    pub search: u64,
    pub turns: u64,
}

pub struct Trees {
    program: Rc<dyn RustIrDatabase<BookInterner>>,
    forest: Forest<BookInterner>,
    clock_limit: u64,
}

impl Trees {
    pub fn new(program: Rc<dyn RustIrDatabase<BookInterner>>, clock_limit: u64) -> Trees {
        Trees {
            program,
            forest: Forest::new(),
            clock_limit,
        }
    }

    pub fn clock(&self) -> u64 {
        self.forest.clock.clock
    }

    pub fn tables(&self) -> usize {
        self.forest.tables.next_index().value
    }

    pub fn is_floundered(&self, table: usize) -> bool {
        self.forest.tables[TableIndex::from(table)].is_floundered()
    }

    pub fn answers(&self, table: usize) -> usize {
        value_of(self.forest.tables[TableIndex::from(table)].next_answer_index())
    }

    pub fn goal_of(&self, table: usize) -> u16 {
        let table = &self.forest.tables[TableIndex::from(table)];
        number_of(&table.table_goal.canonical.value)
    }

    /// The goal's table, made if it isn't there. `None` is stop 22; the table is there then all the same.
    pub fn open(&mut self, goal: u16) -> Option<usize> {
        let context = SlgContextOps::new(&*self.program, 0, None);
        let goal = UCanonical {
            canonical: Canonical {
                value: InEnvironment::new(&Environment::empty(), Goal::bare(goal)),
                binders: CanonicalVarKinds,
            },
            universes: 1,
        };
        let table = self
            .forest
            .get_or_create_table_for_ucanonical_goal(&context, goal);
        if queued(&self.forest.tables) > MOST_STRANDS {
            return None;
        }
        Some(table.value)
    }

    /// One `root_answer`.
    pub fn search(
        &mut self,
        table: usize,
        index: usize,
        turn_limit: u64,
        cut_at: Option<CutAt>,
    ) -> Ended {
        let context = SlgContextOps::new(&*self.program, 0, None);
        watch_call(turn_limit, self.clock_limit, cut_at);
        let forest = &mut self.forest;
        let result = catch_unwind(AssertUnwindSafe(|| {
            forest.root_answer(
                &context,
                TableIndex::from(table),
                AnswerIndex::from(index),
            )
        }));
        let outcome = match result {
            Ok(Ok(answer)) => answered(&answer),
            Ok(Err(RootSearchFail::NoMoreSolutions)) => Outcome::NoMoreSolutions,
            Ok(Err(RootSearchFail::Floundered)) => Outcome::Floundered,
            Ok(Err(RootSearchFail::QuantumExceeded)) => Outcome::QuantumExceeded,
            Ok(Err(RootSearchFail::NegativeCycle)) => Outcome::NegativeCycle,
            Ok(Err(RootSearchFail::InvalidAnswer)) => Outcome::InvalidAnswer,
            Err(payload) => unwound(payload),
        };
        let quanta = u64::from(outcome == Outcome::QuantumExceeded);
        ended(outcome, index, quanta)
    }

    /// The forest's own `peek_answer`, with a count of rounds in place of `should_continue`.
    pub fn peek(
        &mut self,
        table: usize,
        index: usize,
        round_limit: u64,
        turn_limit: u64,
        cut_at: Option<CutAt>,
    ) -> Ended {
        let context = SlgContextOps::new(&*self.program, 0, None);
        watch_call(turn_limit, self.clock_limit, cut_at);
        let quanta = Cell::new(0u64);
        let (result, index) = start::peek(
            &mut self.forest,
            &context,
            TableIndex::from(table),
            index,
            || {
                quanta.set(quanta.get() + 1);
                quanta.get() < round_limit
            },
        );
        let outcome = match result {
            Ok(AnswerResult::Answer(answer)) => answered(&answer),
            Ok(AnswerResult::NoMoreSolutions) => Outcome::NoMoreSolutions,
            Ok(AnswerResult::Floundered) => Outcome::Floundered,
            Ok(AnswerResult::QuantumExceeded) => Outcome::QuantumExceeded,
            Err(payload) => unwound(payload),
        };
        ended(outcome, index, quanta.get())
    }

    /// `any_future_answer` with the test "is this variant". No `u16` stands for a variant that equals none.
    pub fn future(&mut self, table: usize, index: usize, variant: Option<u16>) -> bool {
        let context = SlgContextOps::new(&*self.program, 0, None);
        start::future(
            &mut self.forest,
            &context,
            TableIndex::from(table),
            index,
            |subst| Some(subst.variant) == variant,
        )
    }
}

fn value_of(index: AnswerIndex) -> usize {
    AnswerIndex::iterate_range(AnswerIndex::ZERO..index)
        .size_hint()
        .0
}

fn number_of<I: Interner>(goal: &InEnvironment<Goal<I>>) -> u16 {
    goal.goal.domain_goal().number
}

fn answered<I: Interner>(answer: &CompleteAnswer<I>) -> Outcome {
    let variant = answer.subst.value.subst.variant;
    if answer.ambiguous {
        Outcome::Maybe(variant)
    } else {
        Outcome::Yes(variant)
    }
}

/// What unwound out of a search: a cut or a stop of ours, or a panic of the control files.
fn unwound(payload: Box<dyn Any + Send>) -> Outcome {
    if payload.is::<Cut>() {
        return Outcome::Cut;
    }
    if let Some(Stop(number)) = payload.downcast_ref() {
        return Outcome::Stop(*number);
    }
    let message = match (payload.downcast_ref::<&str>(), payload.downcast_ref::<String>()) {
        (Some(message), _) => *message,
        (_, Some(message)) => message.as_str(),
        _ => "a panic without a message",
    };
    match known_panic(message) {
        Some(outcome) => outcome,
        None => Outcome::Unexpected(message.to_string()),
    }
}

/// The panics of the control files that document 01 gives a number, known by their message; and the
/// negative cycle, which `peek_answer` tells by a panic.
pub fn known_panic(message: &str) -> Option<Outcome> {
    match message {
        "assertion failed: subgoals.is_empty()" => Some(Outcome::Stop(25)),
        "New answer was not ambiguous whereas previous answer was." => Some(Outcome::Stop(26)),
        "Negative subgoal had delayed_subgoals" => Some(Outcome::Stop(27)),
        "Coinductive cycle with negative literal" => Some(Outcome::Stop(28)),
        "negative cycle was detected" => Some(Outcome::NegativeCycle),
        _ if message.starts_with(
            "clear_strands_after_cycle invoked on strand in table without a selected subgoal",
        ) =>
        {
            Some(Outcome::Stop(29))
        }
        _ => None,
    }
}
