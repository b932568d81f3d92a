// Added: starts the forest's own `ForestSolver` at a given table and index, and tells where it ended.

use super::*;
use std::panic::{catch_unwind, AssertUnwindSafe};

/// `peek_answer` from `index` on: its result, or what unwound out of it, and the index at which it ended.
pub(crate) fn peek<I: Interner>(
    forest: &mut Forest<I>,
    context: &SlgContextOps<'_, I>,
    table: TableIndex,
    index: usize,
    should_continue: impl Fn() -> bool,
) -> (std::thread::Result<AnswerResult<I>>, usize) {
    let mut solver = ForestSolver {
        forest,
        context,
        table,
        answer: AnswerIndex::from(index),
    };
    let result = catch_unwind(AssertUnwindSafe(|| solver.peek_answer(should_continue)));
    let ended = AnswerIndex::iterate_range(AnswerIndex::ZERO..solver.answer)
        .size_hint()
        .0;
    (result, ended)
}

pub(crate) fn future<I: Interner>(
    forest: &mut Forest<I>,
    context: &SlgContextOps<'_, I>,
    table: TableIndex,
    index: usize,
    test: impl Fn(&Substitution<I>) -> bool,
) -> bool {
    let solver = ForestSolver {
        forest,
        context,
        table,
        answer: AnswerIndex::from(index),
    };
    solver.any_future_answer(test)
}
