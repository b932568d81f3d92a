"""The modules that `tools/run faults definitions` puts into its copies: a computed run, what it breaks, and the two sides of a theorem."""
from sorgwenad.faults.demand3 import CLOCK_LIMIT, levelled_term, plain_term
from sorgwenad.shared.computed import HOMES, cons

PROMISES = "Rattle.promises.proofs"
RUN = """-- a book, calls, and what they reply
use Rattle.std.specs.Prelude.{ℕ, ◌≡◌, refl, true, false, List, [], ◌∷◌, map}
use %(d)s.Stop.{go}
use %(d)s.Book.{any, exactly, Literal, Positive, Negative, Clause, Goal, Book}
use %(d)s.Tables.{Forest}
use %(d)s.Logic.{NoMoreSolutions, Floundered, QuantumExceeded}
use %(d)s.Turn.{found, fail, cut, stopped}
use %(d)s.Calls.{Call, opens, searches, Reply, table, searched, sitting, Called, calls}

abbrev pub pos : ℕ → Literal
pos g = Positive g any false

abbrev pub neg : ℕ → Literal
neg g = Negative g false

abbrev pub rule : List Literal → Clause
rule ls = record { variant = 0; cannot_prove = false; outsized = false; literals = ls }

abbrev pub inductive : List Clause → Goal
inductive cs = record { coinductive = false; floundered = false; clauses = cs }

abbrev pub book : Book
book = %(book)s

abbrev pub forest : Forest
forest = record { book = book; clock_limit = %(limit)d; mark = 0; tables = []; clock = 0 }

abbrev pub asked : List Call
asked = %(calls)s

pub replies : map (λ (c : Called). c.reply) (calls (sitting forest) asked) ≡ %(replies)s
replies = refl
"""
BROKEN = """-- with these definitions demand 3 is false
use Rattle.std.specs.Prelude.{ℕ, zero, suc, ◌+◌, ◌≤◌, ◌<◌, ◌≡◌, refl, false, ◌⊎◌, List, [], ◌∷◌, map, length, get_or}
use Rattle.std.proofs.Common.{arith, sym, subst, inl, inr}
use mathlib.Core.List.Memᴰ
use mathlib.Core.List.{Memᴰ}
use %(d)s.Refusal.{accepted}
use %(d)s.Book.{Clause, Book, write, clause_count}
use %(d)s.Tables.{Forest}
use %(d)s.Forest.{make, opened}
use %(d)s.Calls.{sitting, Called, calls}
use %(d)s.Lists.{Each}
use %(p)s.Model.{Plain, clauses_of, LevelLiteral, Levelled, Holds, holds_end, holds_below, holds_here, holds_not, Below, In}
use %(p)s.Claim.{AllSay, exceeded, Demand3}
use %(q)s.Run.{pos, neg, rule, book, forest, asked}

made : make (write book) %(limit)d ≡ accepted forest
made = refl

abbrev level : ℕ → ℕ
level g = get_or (%(levels)s) g 0

plain : Plain book
plain = %(plain)s

-- Levelled, goal after goal; `own` gives the level of the goals from here on.
abbrev AllLevelled : (own : ℕ → ℕ) → Book → Type 0
AllLevelled own [] = Unit {0}
AllLevelled own (g ∷ gs) = Each (λ c. Each (LevelLiteral level (own 0)) c.literals) g.clauses × AllLevelled (λ i. own (suc i)) gs

each_clause : (n : ℕ) (cs : List Clause) → Each (λ c. Each (LevelLiteral level n) c.literals) cs → (c : Clause) → Memᴰ c cs →
    Each (LevelLiteral level n) c.literals
each_clause n [] e c m = absurd (Memᴰ.not-nil m)
each_clause n (x ∷ cs) e c m = go (λ k. each_clause n cs e.1 c k) (Memᴰ.cases_cons m)
  where
    go : (Memᴰ c cs → Each (LevelLiteral level n) c.literals) → (c ≡ x) ⊎ Memᴰ c cs → Each (LevelLiteral level n) c.literals
    go rest (inl k) = subst (λ (z : Clause). Each (LevelLiteral level n) z.literals) (sym k) e.0
    go rest (inr k) = rest k

each_goal : (own : ℕ → ℕ) (gs : Book) → AllLevelled own gs → (i : ℕ) (c : Clause) → Memᴰ c (clauses_of gs i) →
    Each (LevelLiteral level (own i)) c.literals
each_goal own [] e i c m = absurd (Memᴰ.not-nil m)
each_goal own (g ∷ gs) e zero c m = each_clause (own 0) g.clauses e.0 c m
each_goal own (g ∷ gs) e (suc i) c m = each_goal (λ i. own (suc i)) gs e.1 i c m

levelled : Levelled book level
levelled goal c m = each_goal level book %(levelled)s goal c m

-- the forest that the call at a place of the list leaves
abbrev left_by : ℕ → Forest
left_by n = get_or (map (λ (c : Called). c.after.forest) (calls (sitting forest) asked)) n forest

%(out)s
-- %(words)s
pub broken : Demand3 → ⊥
broken demand_3 = let d = demand_3 (write book) %(limit)d forest made level plain levelled asked in %(term)s
"""
SIDES = """-- the two sides of the theorem, on one state
use Prim.Native.Nat.{ℕ}
use native.Mathlib.Decide.{dec_lt, dec_le, ℕ_discrete}
use mathlib.Core.Path.{◌≡◌, refl}
use mathlib.Core.Bool.{Bool, true, false}
use mathlib.Core.Option.{none, some}
use mathlib.Core.List.{List, [], ◌∷◌}
use lib.ListN.{length, get_elem?}
use %(d)s.{MAX, Complete}
use %(d)s.Book.{Book}
use %(d)s.Stop.{Stops, stop, go}
use %(d)s.Strand.{Strand}
use %(d)s.Tables.{Tables, Forest, held}
use %(d)s.Stack.{Stack}
use %(d)s.Logic.{SolveState, Flow, continue, return_ok, return_err, drop_state}
use %(d)s.Turn.{on_cycle, on_subgoal_selected, pursue_answer, on_no_strands, on_no_strands_left, eligible}
use %(p)s.Plain.Model as P
use %(p)s.Plain.Machine as M
use %(p)s.Link.View.{strand_of, selection, machine_strand, table_of, entry_of, machine_entry}
use %(p)s.Link.Tables.{forest_of}

-- The definitions' side. 99 stands where there is nothing to look at. The tables' goals are their numbers, of a book with two goals.

abbrev two_goals : Book
two_goals =
    record { coinductive = false; floundered = false; clauses = [] } ∷ record { coinductive = false; floundered = false; clauses = [] } ∷ []

abbrev state : Tables → Stack → SolveState
state ts es = record { forest = forest_of two_goals 1000 0 ts 2; stack = es }

abbrev waits_on : (table : ℕ) → Strand
waits_on t = strand_of 0 (P.pos t ∷ []) (some (selection t [])) 1

abbrev left : Stops Flow → SolveState
left (stop n) = state [] []
left (go (continue s)) = s
left (go (return_ok s)) = s
left (go (return_err e s)) = s

abbrev queue_at : Forest → (table : ℕ) → ℕ
queue_at f t = elim (get_elem? f.tables t) [ none ↦ 99 | some table ↦ length table.strands ]

abbrev queue_of : SolveState → (table : ℕ) → ℕ
queue_of s t = queue_at s.forest t

abbrev minimum_of : SolveState → ℕ
minimum_of s = elim s.stack [ [] ↦ 99 | e ∷ es ↦ e.cyclic_minimums.positive ]

-- The machine's side.

abbrev limits : M.Limits
limits = record { goals = 2; limit = 1000; max = MAX }

abbrev machine : (first : ℕ → Bool) → M.Queues → M.Forest
machine first q = record { made = λ g. true; answered = λ g. false; first = first; queue = q; clock = 2 }

abbrev all_first : ℕ → Bool
all_first g = true

abbrev all_empty : M.Queues
all_empty g = []

abbrev machine_waits_on : (goal : ℕ) → M.Strand
machine_waits_on g = machine_strand (P.pos g ∷ []) true 1

abbrev machine_forest : M.Turn → M.Forest
machine_forest (M.turn_goes_on f e es) = f
machine_forest (M.stop o f) = f

abbrev machine_stack : M.Turn → List M.Entry
machine_stack (M.turn_goes_on f e es) = e ∷ es
machine_stack (M.stop o f) = []

abbrev machine_minimum : M.Turn → ℕ
machine_minimum (M.turn_goes_on f e es) = e.positive_min
machine_minimum (M.stop o f) = 99

-- Table 1 has a strand without literals; a strand of table 0 with "not" 1 is in hand.

abbrev not_strand : M.Strand
not_strand = machine_strand (P.neg 1 ∷ []) true 1

abbrev not_forest : M.Forest
not_forest = machine all_first (M.put all_empty 1 (machine_strand [] false 0 ∷ []))

-- Table 1 is on top, its mode changed; its one strand waits for table 0, which called it and stands below.

abbrev cycle_state : SolveState
cycle_state =
    state (table_of 0 false true [] ∷ table_of 1 false false (strand_of 0 (P.pos 0 ∷ []) (some (selection 0 [])) 2 ∷ []) ∷ [])
      (entry_of 1 2 1 MAX none ∷ entry_of 0 1 MAX MAX (some (waits_on 1)) ∷ [])

abbrev cycle_forest : M.Forest
cycle_forest = machine (M.put all_first 1 false) (M.put all_empty 1 (machine_strand (P.pos 0 ∷ []) true 2 ∷ []))

abbrev cycle_turn : M.Turn
cycle_turn =
    M.waiting limits false (dec_le 2 1) (dec_le 2 MAX) cycle_forest (machine_entry 1 2 1 MAX none)
      (machine_entry 0 1 MAX MAX (some (machine_waits_on 1)) ∷ [])

definitions_give : ◌≡◌ {A = ℕ} (%(left)s) %(left_value)d
definitions_give = refl

theorem_says : ◌≡◌ {A = ℕ} (%(right)s) %(right_value)d
unfolding dec_lt dec_le ℕ_discrete
theorem_says = refl
"""


def run_text(book, calls, replies):
    """The run's book is a term."""
    return RUN % dict(HOMES, **{"book": book, "limit": CLOCK_LIMIT, "calls": cons(calls), "replies": cons(replies)})


def broken_text(fault):
    return BROKEN % dict(HOMES, **{
        "limit": CLOCK_LIMIT, "levels": cons(map(str, fault.levels)), "plain": plain_term(fault.book),
        "levelled": levelled_term(fault.book),
        "out": getattr(fault.breaks, "out", ""), "words": fault.breaks.words(fault), "term": fault.breaks.term(fault)})


def sides_text(fault, given):
    what, left, faulty, right, stated = fault.sides
    assert faulty != stated
    return SIDES % {"d": HOMES["d"], "p": PROMISES, "left": left, "left_value": given, "right": right, "right_value": stated}
