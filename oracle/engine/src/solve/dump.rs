// Added: the dump of a forest as one line, for the comparison.

use super::{number_of, value_of, Trees};
use crate::table::AnswerIndex;
use crate::{AnswerMode, Literal, TableIndex};
use chalk_ir::interner::Interner;
use chalk_ir::{Goal, InEnvironment, Want};
use std::fmt::Write;

impl Trees {
    /// The dump line, without its newline.
    pub fn dump(&self, mark: u8, out: &mut String) {
        let tables = &self.forest.tables;
        let count = self.tables();
        let _ = write!(out, "state clock {} mark {} tables {}", self.clock(), mark, count);
        for number in 0..count {
            let table = &tables[TableIndex::from(number)];
            let _ = write!(
                out,
                " | t{} g{} f{} m{} A{}",
                number,
                number_of(&table.table_goal.canonical.value),
                u8::from(table.is_floundered()),
                match table.answer_mode {
                    AnswerMode::Complete => 'c',
                    AnswerMode::Ambiguous => 'a',
                },
                self.answers(number),
            );
            for index in 0..self.answers(number) {
                let answer = table.answer(AnswerIndex::from(index)).unwrap();
                let _ = write!(out, " (v{} D[", answer.subst.value.subst.variant);
                goals(&answer.subst.value.delayed_subgoals, out);
                let _ = write!(out, "] a{})", u8::from(answer.ambiguous));
            }
            let _ = write!(out, " Q{}", table.strands().count());
            for strand in table.strands() {
                let ex_clause = &strand.value.ex_clause;
                let _ = write!(
                    out,
                    " (v{} o{} a{} S[",
                    ex_clause.subst.variant,
                    u8::from(ex_clause.subst.outsized),
                    u8::from(ex_clause.ambiguous),
                );
                for (i, subgoal) in ex_clause.subgoals.iter().enumerate() {
                    comma(i, out);
                    literal(subgoal, out);
                }
                out.push_str("] D[");
                goals(&ex_clause.delayed_subgoals, out);
                let _ = write!(out, "] t{} F[", ex_clause.answer_time.clock);
                for (i, floundered) in ex_clause.floundered_subgoals.iter().enumerate() {
                    comma(i, out);
                    literal(&floundered.floundered_literal, out);
                    let _ = write!(out, "@{}", floundered.floundered_time.clock);
                }
                out.push_str("] ");
                match &strand.value.selected_subgoal {
                    None => out.push_str("s-"),
                    Some(selected) => {
                        let _ = write!(
                            out,
                            "s{}:{}:{}",
                            selected.subgoal_index,
                            selected.subgoal_table.value,
                            value_of(selected.answer_index),
                        );
                    }
                }
                let _ = write!(out, " p{})", strand.value.last_pursued_time.clock);
            }
        }
    }
}

fn comma(i: usize, out: &mut String) {
    if i > 0 {
        out.push(',');
    }
}

fn goals<I: Interner>(goals: &[InEnvironment<Goal<I>>], out: &mut String) {
    for (i, goal) in goals.iter().enumerate() {
        comma(i, out);
        let _ = write!(out, "{}", number_of(goal));
    }
}

fn literal<I: Interner>(literal: &Literal<I>, out: &mut String) {
    let goal = match literal {
        Literal::Positive(goal) => {
            let goal = goal.goal.domain_goal();
            let _ = match goal.want {
                Want::Between(low, high) => write!(out, "+{}/{low}-{high}", goal.number),
                // any is 0
                want => write!(out, "+{}/{}", goal.number, want.low()),
            };
            goal
        }
        Literal::Negative(goal) => {
            let goal = goal.goal.domain_goal();
            let _ = write!(out, "-{}", goal.number);
            goal
        }
    };
    if goal.outsized {
        out.push('!');
    }
}
