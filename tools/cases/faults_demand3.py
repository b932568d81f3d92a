"""Faults of the definitions that break demand 3, for `tools/run faults definitions`: each a change of a definition, a book and calls on it
with their replies, with the fault (`replies`) and without (`right`). `theorem` is the first one refused, `fact` what it states, `false` why
that is false now, `also` a word on others that are refused. `sides`: what is looked at, and, as terms with their values, what the
definitions give and what the theorem states they give."""
from sorgwenad.faults.demand3 import (AGAIN, NONE, YES, AffirmedFalsehood, DeniedTruth, Fault, Not, OtherStop, TooManyExceeded, opened,
                                      searched)

DEMAND3_FAULTS = [
    Fault(
        "put-back-loses-a-strand",
        what="the put-back at the end of a search loses the active strand of the top",
        file="Logic",
        old="    | some strand ↦ change_table s.forest e.table (enqueue_strand strand) >>= λ f. unwind_callers f es\n",
        new="    | some strand ↦ unwind_callers s.forest es\n",
        book=[[[1]], [[]]],
        calls=["opens 0", "searches 0 0 2", "searches 0 0 100"],
        replies=[opened(0), searched("cut", 2), searched(NONE, 1)],
        right=[opened(0), searched("cut", 2), searched(YES, 2)],
        breaks=DeniedTruth(0),
        theorem="Link.Back.dropped_is",
        fact="what `Drop` puts back is what the machine puts back: after it each queue is the machine's",
        false="a top with an active strand: the machine's queue has the strand, the definitions' has not",
        sides=("strands in the queue after the put-back",
               "elim (drop_state (state (table_of 0 false true [] ∷ []) (entry_of 0 1 MAX MAX (some (strand_of 0 [] none 1)) ∷ "
               "[]))) [ stop n ↦ 99 | go f ↦ queue_at f 0 ]", 0,
               "length (M.all_back all_empty (machine_entry 0 1 MAX MAX (some (machine_strand [] false 1)) ∷ []) 0)", 1)),
    Fault(
        "queue-cleared-at-mode-change",
        what="a table that changes its mode loses its queue",
        file="Turn",
        old="(λ t. with_mode t Ambiguous)",
        new="(λ t. with_mode (take_strands t) Ambiguous)",
        book=[[[1], []], [[0]]],
        calls=["opens 1", "opens 0", "searches 1 0 100", "searches 0 0 100"],
        replies=[opened(0), opened(1), searched(AGAIN, 3), searched(NONE, 1)],
        right=[opened(0), opened(1), searched(AGAIN, 3), searched(YES, 4)],
        breaks=DeniedTruth(1),
        theorem="Link.Idle.waiting_is",
        fact="a table with strands, none of which can be taken, does what the machine's does: it changes its mode, is part of a "
             "cycle, or clears its own",
        false="in the first mode: the machine changes the mode alone, the definitions empty the queue too",
        sides=("strands in the table's queue after the mode change",
               "queue_of (left (on_no_strands_left (state (table_of 0 false true (waits_on 0 ∷ []) ∷ []) (entry_of 0 1 1 MAX none ∷ "
               "[])))) 0", 0,
               "length ((machine_forest (M.waiting limits true (dec_le 1 1) (dec_le 1 MAX) (machine all_first (M.put all_empty 0 "
               "(machine_waits_on 0 ∷ []))) (machine_entry 0 1 1 MAX none) [])).queue 0)", 1)),
    Fault(
        "minimum-not-taken",
        what="a cycle met through a positive literal leaves the minimums as they were",
        file="Turn",
        old="cycle_minimums (Positive goal want outsized) m e = with_minimums e (take_minimums e.cyclic_minimums m)",
        new="cycle_minimums (Positive goal want outsized) m e = e",
        book=[[[2], [1]], [[]], [[0]]],
        calls=["opens 0", "searches 0 0 100", "searches 0 0 1", "searches 0 0 100"],
        replies=[opened(0), searched(AGAIN, 3), searched("cut", 1), searched("(stopped 29)", 2)],
        right=[opened(0), searched(AGAIN, 3), searched("cut", 1), searched(YES, 7)],
        breaks=OtherStop(29),
        theorem="Link.Selected.parked",
        fact="a strand that meets a table on the stack is parked as in the machine: its entry takes the minimum of its own and that "
             "table's clock",
        false="an entry without a minimum: the machine's takes the clock, the definitions' keeps none (2 ^ 64 - 1)",
        also={"Link.Idle.part_is": "false too: the caller's entry does not take the minimum that is passed on to it"},
        sides=("positive minimum of the entry that parks",
               "minimum_of (left (on_cycle (state (table_of 0 false true [] ∷ []) (entry_of 0 1 MAX MAX none ∷ [])) (waits_on 0) "
               "(selection 0 []) 0))", 18446744073709551615,
               "machine_minimum (M.parking limits (P.pos 0) 1 (machine all_first all_empty) (machine_entry 0 1 MAX MAX (some "
               "(machine_waits_on 0))) [] (machine_waits_on 0))", 1)),
    Fault(
        "not-over-a-table-with-strands",
        what="a \"not\" succeeds as soon as it is selected, on a table that has no answer yet and still has strands",
        file="Turn",
        old="        | none ↦ do\n"
            "          s'' ← activate s strand\n"
            "          f ← increment_clock s''.forest\n"
            "          go (continue (record { forest = f; stack = push_entry selected.subgoal_table minimums_MAX f.clock "
            "s''.stack }))\n",
        new="        | none ↦ do\n"
            "          literal ← unwrap (get_elem? strand.ex_clause.subgoals selected.subgoal_index)\n"
            "          let at_once : Bool = elim literal [ Positive goal want outsized ↦ false | Negative goal outsized ↦ not "
            "(is_empty table.strands) ]\n"
            "          let x = strand.ex_clause\n"
            "          let rest = with_ex_clause (with_selected strand none) (with_subgoals x (remove x.subgoals "
            "selected.subgoal_index))\n"
            "          elim at_once [\n"
            "            | true ↦ activate s rest >>= λ s''. go (continue s'')\n"
            "            | false ↦ do\n"
            "              s'' ← activate s strand\n"
            "              f ← increment_clock s''.forest\n"
            "              go (continue (record { forest = f; stack = push_entry selected.subgoal_table minimums_MAX f.clock "
            "s''.stack }))\n"
            "          ]\n",
        note="a \"not\" that succeeds on a table whose strands are all parked in this visit does no harm by itself: by the levels "
             "they wait for that very table, or for tables that do",
        book=[[[Not(1)]], [[]]],
        levels=[1, 0],
        calls=["opens 0", "searches 0 0 100"],
        replies=[opened(0), searched(YES, 2)],
        right=[opened(0), searched(AGAIN, 3)],
        breaks=AffirmedFalsehood(0, """out : In book level 0 → ⊥
out (holds_below (inl x) r) = x
out (holds_below (inr x) r) = let e : ◌≡◌ {A = ℕ} 1 0 = x.0 in omega arith
out (holds_here c e m h r) =
    body (subst (λ (z : Clause). Holds book level 1 (Below book level 1) z.literals) (Memᴰ.eq_of_singleton m) h)
  where
    body : Holds book level 1 (Below book level 1) (neg 1 ∷ []) → ⊥
    body (holds_not n r) = n (inr (refl, holds_here (rule []) refl (Memᴰ.head refl) holds_end holds_end))
"""),
        theorem="Link.Selected.pushed",
        fact="a selected literal whose table has no answer and is not on the stack has its table pushed, as in the machine",
        false="a \"not\" and a table with a strand: the machine pushes the table, the definitions take the literal away",
        sides=("entries on the stack after the turn",
               "length (left (on_subgoal_selected (state (table_of 0 false true [] ∷ table_of 1 false true (strand_of 0 [] none 0 ∷ "
               "[]) ∷ []) (entry_of 0 1 MAX MAX none ∷ [])) "
               "(strand_of 0 (P.neg 1 ∷ []) (some (selection 1 [])) 1))).stack", 1,
               "length (machine_stack (M.pushing limits (dec_lt 2 1000) not_forest not_forest 1 (machine_entry 0 1 MAX MAX (some "
               "not_strand)) [] not_strand))", 2)),
    Fault(
        "answer-stored-five-times",
        what="an answer is stored five times",
        file="Table",
        old="with_answers t (push t.answers a))",
        new="with_answers t (push (push (push (push (push t.answers a) a) a) a) a))",
        note="stored twice the claim stays true: each copy is a true yes, and 64 goals hold at most 128 of the 256 answers that "
             "there is room for. "
             "Five is the least number of copies that breaks it. (The check refuses two copies as well, at the same theorem.)",
        book=[[[g + 1]] for g in range(52)] + [[[]]],
        calls=["opens 0", "searches 0 0 1000"],
        replies=[opened(0), searched("(stopped 23)", 156)],
        right=[opened(0), searched(YES, 157)],
        breaks=OtherStop(23),
        theorem="Link.Answers.pursue_is",
        fact="a strand with no literal left gives its table one answer, and the queue is emptied",
        false="the table has five answers after it; so the sum of the answers is not bounded by the goals, which is what shuts out 23",
        sides=("answers held after the first",
               "elim (pursue_answer (forest_of [] 1000 0 (table_of 0 false true [] ∷ []) 1) 0 (strand_of 0 [] none 1)) [ stop n ↦ "
               "99 | go r ↦ held r.1 ]", 5,
               "held (forest_of [] 1000 0 (table_of 0 true true [] ∷ []) 1)", 1)),
    Fault(
        "parked-strands-count-as-none",
        what="a table that has changed its mode counts as one with no strand left, though it has strands that wait",
        file="Turn",
        old="  elim (is_empty table.strands) [",
        new="  elim (not (not (is_empty table.strands) && is_complete table.answer_mode)) [",
        book=[[[2], [3]], [[0]], [[1]], [[]]],
        calls=["opens 0", "opens 2", "searches 0 0 100", "searches 0 0 1", "searches 0 0 100", "searches 1 0 100"],
        replies=[opened(0), opened(1), searched(AGAIN, 4), searched("cut", 1), searched(AGAIN, 4), searched(NONE, 1)],
        right=[opened(0), opened(1), searched(AGAIN, 4), searched("cut", 1), searched(AGAIN, 5), searched(YES, 10)],
        breaks=DeniedTruth(2),
        theorem="Link.Idle.waiting_is",
        fact="a table with strands, none of which can be taken, does what the machine's does: it changes its mode, is part of a "
             "cycle, or clears its own",
        false="part of a cycle that ends further down: the machine queues the caller's strand again, the definitions drop it",
        sides=("strands in the caller's queue after the turn",
               "queue_of (left (on_no_strands_left cycle_state)) 0", 0,
               "length ((machine_forest cycle_turn).queue 0)", 1)),
    Fault(
        "cycle-cleared-too-early",
        what="a cycle is cleared though its minimum lies below: the positive minimum is not tested",
        file="Turn",
        old="leb e.clock e.cyclic_minimums.positive && leb e.clock e.cyclic_minimums.negative",
        new="leb e.clock e.cyclic_minimums.negative",
        book=[[[2], [1]], [[]], [[0]]],
        calls=["opens 0", "searches 0 0 100", "searches 0 0 2", "searches 0 0 100", "searches 0 0 100", "searches 0 0 100"],
        replies=[opened(0), searched(AGAIN, 3), searched("cut", 2), searched(AGAIN, 3), searched(AGAIN, 2), searched(NONE, 1)],
        right=[opened(0), searched(AGAIN, 3), searched("cut", 2), searched(YES, 5), searched(YES, 0), searched(YES, 0)],
        breaks=DeniedTruth(0),
        theorem="Link.Idle.waiting_is",
        fact="a table with strands, none of which can be taken, does what the machine's does: it changes its mode, is part of a "
             "cycle, or clears its own",
        false="part of a cycle that ends further down: the machine leaves the table's queue, the definitions clear it",
        sides=("strands in the table's queue after the turn",
               "queue_of (left (on_no_strands_left cycle_state)) 1", 0,
               "length ((machine_forest cycle_turn).queue 1)", 1)),
    Fault(
        "strand-taken-too-late",
        what="a strand pursued one tick ago is not taken: the time test is off by one",
        file="Turn",
        old="eligible clock mode s = ltb s.last_pursued_time clock",
        new="eligible clock mode s = ltb (suc s.last_pursued_time) clock",
        book=[[[1]], [[]]],
        calls=["opens 0", "searches 0 0 100", "searches 0 0 2", "searches 0 0 1", "searches 0 0 100"],
        replies=[opened(0), searched(AGAIN, 1), searched("cut", 2), searched("cut", 1), searched("(stopped 29)", 0)],
        right=[opened(0), searched(YES, 4), searched(YES, 0), searched(YES, 0), searched(YES, 0)],
        breaks=OtherStop(29),
        theorem="Link.Taking.may",
        fact="a strand whose last pursued time is below the entry's clock may be taken",
        false="time 1 and clock 2: the strand may not be taken",
        also={"Link.Taking.may_not": "still true, its proof alone is unfit: a strand whose time is not below the clock may not be taken"},
        sides=("may the strand of time 1 be taken at clock 2 (1 is yes)",
               "elim (eligible 2 Complete (strand_of 0 [] none 1)) [ true ↦ 1 | false ↦ 0 ]", 0,
               "M.pick (dec_lt (machine_strand [] false 1).time 2) 1 0", 1)),
    Fault(
        "failed-strand-kept",
        what="a strand whose positive literal has failed goes back to its queue",
        file="Turn",
        old="          es' ← change_top es (λ e. with_active e none)\n"
            "          unwound QuantumExceeded (record { forest = s.forest; stack = es' })\n",
        new="          s'' ← enqueue_at_top (record { forest = s.forest; stack = es }) strand\n"
            "          unwound QuantumExceeded s''\n",
        book=[[[1]], []],
        calls=["opens 0"] + ["searches 0 0 100"] * 4,
        replies=[opened(0)] + [searched(AGAIN, 2)] * 4,
        right=[opened(0), searched(AGAIN, 2)] + [searched(NONE, 1)] * 3,
        breaks=TooManyExceeded(4),
        theorem="Link.Idle.emptied_is",
        fact="a table without strands does to its caller's strand what the machine's does: a positive literal has failed, and the "
             "strand is dropped",
        false="a positive literal: the machine's queue is without the strand, the definitions' has it again",
        sides=("strands in the caller's queue after the turn",
               "queue_of (left (on_no_strands (state (table_of 0 false true [] ∷ table_of 1 false true [] ∷ []) (entry_of 1 2 MAX "
               "MAX none ∷ entry_of 0 1 MAX MAX (some (waits_on 1)) ∷ [])))) 0", 1,
               "length ((machine_forest (M.emptied limits (machine all_first all_empty) (machine_entry 0 1 MAX MAX (some "
               "(machine_waits_on 1)) ∷ []))).queue 0)", 0)),
]
