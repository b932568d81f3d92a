// Stand-in for simplify.rs: every goal of a book is a domain goal, so there is nothing to simplify.

use crate::forest::Forest;
use crate::slg::SlgContextOps;
use crate::ExClause;
use chalk_ir::interner::Interner;
use chalk_ir::{Environment, FallibleOrFloundered, Goal, Substitution};
use chalk_solve::infer::InferenceTable;

impl<I: Interner> Forest<I> {
    pub(super) fn simplify_goal(
        _context: &SlgContextOps<I>,
        _infer: &mut InferenceTable<I>,
        _subst: Substitution<I>,
        _environment: Environment<I>,
        _goal: Goal<I>,
    ) -> FallibleOrFloundered<ExClause<I>> {
        unreachable!("a book has domain goals only")
    }
}
