// Stand-in for slg/resolvent.rs: what a clause and an answer do to a strand, in book terms.

use super::ResolventOps;
use crate::{ExClause, Literal, TimeStamp};
use chalk_ir::interner::Interner;
use chalk_ir::*;
use chalk_solve::infer::InferenceTable;

impl<I: Interner> ResolventOps<I> for InferenceTable<I> {
    /// A clause as a strand: its own variant, its literals in book order.
    fn resolvent_clause(
        &mut self,
        _ops: &dyn UnificationDatabase<I>,
        _interner: I,
        environment: &Environment<I>,
        _goal: &DomainGoal<I>,
        _subst: &Substitution<I>,
        clause: &ProgramClause<I>,
    ) -> Fallible<ExClause<I>> {
        Ok(ExClause {
            subst: Substitution::new(clause.variant, clause.outsized),
            ambiguous: clause.cannot_prove,
            constraints: vec![],
            subgoals: clause
                .literals
                .iter()
                .map(|(positive, goal)| {
                    let goal = InEnvironment::new(environment, *goal);
                    if *positive {
                        Literal::Positive(goal)
                    } else {
                        Literal::Negative(goal)
                    }
                })
                .collect(),
            delayed_subgoals: vec![],
            answer_time: TimeStamp::default(),
            floundered_subgoals: vec![],
        })
    }

    /// An answer fits a literal if it is for the goal as a whole, or its variant lies from the lowest to the
    /// highest that the literal wants. The strand keeps its own variant and takes over the answer's delayed goals.
    fn apply_answer_subst(
        &mut self,
        interner: I,
        _unification_database: &dyn UnificationDatabase<I>,
        ex_clause: &mut ExClause<I>,
        selected_goal: &InEnvironment<Goal<I>>,
        _answer_table_goal: &Canonical<InEnvironment<Goal<I>>>,
        canonical_answer_subst: Canonical<AnswerSubst<I>>,
    ) -> Fallible<()> {
        let AnswerSubst {
            subst: answer_subst,
            constraints: _,
            delayed_subgoals,
        } = self.instantiate_canonical(interner, canonical_answer_subst);

        let want = selected_goal.goal.domain_goal().want;
        let fits = want.takes(answer_subst.variant);
        crate::solve::held(want, fits);
        if !fits {
            return Err(NoSolution);
        }
        ex_clause.delayed_subgoals.extend(delayed_subgoals);
        crate::solve::delayed(ex_clause.delayed_subgoals.len());
        Ok(())
    }
}
