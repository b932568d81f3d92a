"""Faults in the Rust that make a wrong yes: what is wrong, and the changes: a file of oracle/, a text, and what takes its place."""

RESOLVENT, LOGIC = "engine/src/slg/resolvent.rs", "engine/src/logic.rs"
IR, SOLVE = "standins/chalk_ir/src/lib.rs", "standins/chalk_solve/src/lib.rs"
# What the Rust asserts of a coinductive cycle.
ASSERTED = """                assert!(
                    self.forest.tables[table].coinductive_goal
                        && self.forest.tables[selected_subgoal.subgoal_table].coinductive_goal
                );
"""
# What is wrong, and the changes: a file, a line, and what takes its place.
RUST_FAULTS = {
    "merged-without-the-fit": ("an answer that the literal does not want is taken", (RESOLVENT, "if !fits {", "if false {")),
    "low-end-not-tested": ("a range takes what is below it",
                           (IR, "self.low() <= variant && variant <= self.high()", "variant <= self.high()")),
    "want-of-any-other": ("a want takes every other variant too", (IR, "variant == 0 ||", "self.low() == self.high() ||")),
    "ambiguous-flag-dropped": ("what an ambiguous answer goes into is not marked",
                               (LOGIC, "                            ex_clause.ambiguous = true;\n", "")),
    "all-floundered-is-proved": ("a strand whose literals all floundered is not marked",
                                 (LOGIC, "canonical_strand.value.ex_clause.ambiguous = true;\n", "\n"),
                                 (LOGIC, "assert!(!floundered || ambiguous);", "let _ = floundered;")),
    "cannot-prove-forgotten": ("a clause that cannot prove proves", (RESOLVENT, "ambiguous: clause.cannot_prove", "ambiguous: false")),
    "the-answers-variant": ("the head takes the variant of the answer",
                            (RESOLVENT, "ex_clause.delayed_subgoals.extend(delayed_subgoals);",
                             "ex_clause.subst = answer_subst; ex_clause.delayed_subgoals.extend(delayed_subgoals);")),
    "outsized-answer-kept": ("an outsized answer is stored",
                             (SOLVE, "            value.outsized()\n", "            let _ = value.outsized(); false\n")),
    "floundered-goal-searched": ("a floundered goal's clauses are used",
                                 ("src/book.rs", "self.goals[usize::from(goal)].floundered", "{ let _ = goal; false }")),
    "cycle-taken-for-coinductive": ("a positive cycle holds, as a coinductive one does",
                                    (LOGIC, "let table = self.stack[d].table;\n            self.forest.tables[table].coinductive_goal",
                                     "let _ = d; true"),
                                    (LOGIC, ASSERTED, "")),
    "last-literal-left-out": ("a clause's eighth literal is not looked at",
                              (RESOLVENT, "                .literals\n                .iter()\n",
                               "                .literals\n                .iter()\n                .take(7)\n")),
}
