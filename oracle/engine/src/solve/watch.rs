// Added: what the lines added to logic.rs and forest.rs call. They count turns, cut a search, and test the
// limits that document 01 adds (21 to 24).

use super::{value_of, CutAt, Ended, Outcome, MOST_ANSWERS, MOST_DELAYED, MOST_STRANDS};
use crate::stack::{Stack, StackIndex};
use crate::tables::Tables;
use crate::{TableIndex, TimeStamp};
use chalk_ir::interner::Interner;
use chalk_ir::Want;
use std::cell::Cell;
use std::panic::resume_unwind;

pub(super) struct Cut;
pub(super) struct Stop(pub(super) u8);

/// What the added lines keep during a call.
struct Watch {
    turns: Cell<u64>,
    /// The turns of the call's searches before this one.
    before: Cell<u64>,
    limit: Cell<u64>,
    call_limit: Cell<u64>,
    searches: Cell<u64>,
    entered: Cell<bool>,
    clock_limit: Cell<u64>,
    cut_at: Cell<Option<CutAt>>,
}

thread_local! {
    static WATCH: Watch = const {
        Watch {
            turns: Cell::new(0),
            before: Cell::new(0),
            limit: Cell::new(0),
            call_limit: Cell::new(0),
            searches: Cell::new(0),
            entered: Cell::new(false),
            clock_limit: Cell::new(0),
            cut_at: Cell::new(None),
        }
    };
}

/// How many answers were held against a range so far.
#[derive(Copy, Clone, Debug, Default, PartialEq, Eq)]
pub struct Ranges {
    pub fit: u64,
    pub misfit: u64,
}

thread_local! {
    static RANGES: Cell<Ranges> = const { Cell::new(Ranges { fit: 0, misfit: 0 }) };
}

/// The answers held against a range by this thread.
pub fn ranges() -> Ranges {
    RANGES.get()
}

/// An answer was held against what a literal wants.
pub(crate) fn held(want: Want, fits: bool) {
    if let Want::Between(..) = want {
        let Ranges { fit, misfit } = RANGES.get();
        RANGES.set(Ranges {
            fit: fit + u64::from(fits),
            misfit: misfit + u64::from(!fits),
        });
    }
}

pub(super) fn watch_call(turn_limit: u64, clock_limit: u64, cut_at: Option<CutAt>) {
    WATCH.with(|watch| {
        watch.turns.set(0);
        watch.before.set(0);
        watch.call_limit.set(turn_limit);
        watch.searches.set(0);
        watch.entered.set(false);
        watch.clock_limit.set(clock_limit);
        watch.cut_at.set(cut_at);
    })
}

pub(super) fn ended(outcome: Outcome, index: usize, quanta: u64) -> Ended {
    WATCH.with(|watch| {
        let begun = watch.turns.get();
        // A turn that a stop undoes isn't counted.
        let undone = watch.entered.get() && matches!(outcome, Outcome::Stop(_));
        Ended {
            outcome,
            index,
            turns: if undone { begun - 1 } else { begun },
            all_turns: watch.before.get() + begun,
            searches: watch.searches.get(),
            quanta,
            entered: watch.entered.get(),
        }
    })
}

/// A root search begins.
pub(crate) fn search() {
    WATCH.with(|watch| {
        watch.searches.set(watch.searches.get() + 1);
        watch.before.set(watch.before.get() + watch.turns.get());
        watch.turns.set(0);
        watch.entered.set(false);
        watch.limit.set(match watch.cut_at.get() {
            Some(cut_at) if cut_at.search == watch.searches.get() => cut_at.turns,
            _ => watch.call_limit.get(),
        });
    })
}

/// A turn begins, unless as many were done as there may be.
pub(crate) fn turn() {
    WATCH.with(|watch| {
        watch.entered.set(true);
        if watch.turns.get() == watch.limit.get() {
            resume_unwind(Box::new(Cut));
        }
        watch.turns.set(watch.turns.get() + 1);
    })
}

fn stop(number: u8) {
    resume_unwind(Box::new(Stop(number)));
}

/// 21: a push with the clock at its limit.
pub(crate) fn push(clock: TimeStamp) {
    if clock.clock >= WATCH.with(|watch| watch.clock_limit.get()) {
        stop(21);
    }
}

pub(super) fn queued<I: Interner>(tables: &Tables<I>) -> usize {
    (0..tables.next_index().value)
        .map(|table| tables[TableIndex::from(table)].strands().count())
        .sum()
}

/// 22: too many live strands. Called with one strand in hand.
pub(crate) fn strands<I: Interner>(tables: &Tables<I>, stack: &Stack<I>) {
    let active = StackIndex::iterate_range(stack.top_of_stack_from(StackIndex::from(0)))
        .filter(|depth| stack[*depth].active_strand.is_some())
        .count();
    if queued(tables) + active + 1 > MOST_STRANDS {
        stop(22);
    }
}

/// 23: too many answers held together.
pub(crate) fn answers<I: Interner>(tables: &Tables<I>) {
    let held: usize = (0..tables.next_index().value)
        .map(|table| value_of(tables[TableIndex::from(table)].next_answer_index()))
        .sum();
    if held > MOST_ANSWERS {
        stop(23);
    }
}

/// 24: a ninth delayed goal.
pub(crate) fn delayed(count: usize) {
    if count > MOST_DELAYED {
        stop(24);
    }
}
