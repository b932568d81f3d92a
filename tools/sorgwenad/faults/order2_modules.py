"""The modules that `tools/run faults definitions` puts into its copies for order 2: what the check returns for a book, and what a computed
run breaks."""
from sorgwenad.faults.demand3 import CLOCK_LIMIT, pairs
from sorgwenad.faults.order2 import goal_term, literal_term
from sorgwenad.shared.computed import HOMES, cons

LEFT = """-- the forest that the call at a place of the list leaves
abbrev left_by : ℕ → Forest
left_by n = get_or (map (λ (c : Called). c.after.forest) (calls (sitting forest) asked)) n forest
"""
EACH = """each : (P : Clause → Type 0) (cs : List Clause) → Each P cs → (c : Clause) → Memᴰ c cs → P c
each P [] e c m = absurd (Memᴰ.not-nil m)
each P (x ∷ cs) e c m = on (λ k. each P cs e.1 c k) (Memᴰ.cases_cons m)
  where
    on : (Memᴰ c cs → P c) → (c ≡ x) ⊎ Memᴰ c cs → P c
    on rest (inl k) = subst P (sym k) e.0
    on rest (inr k) = rest k
"""
BROKEN = """-- with these definitions an unambiguous answer is found that cannot be derived
use Rattle.std.specs.Prelude.{ℕ, ◌≡◌, refl, true, false, ◌⊎◌, get_or}
use Rattle.std.proofs.Common.{arith, sym, ap, subst, ◌∙◌, true≢false, inl, inr}
use Rattle.std.proofs.lemmas.Bool.{false≢true}
use Rattle.std.proofs.Math.Option.{some}
use mathlib.Core.List.Memᴰ
use mathlib.Core.List.{List, [], ◌∷◌, map, Memᴰ}
use Rattle.std.proofs.Math.ListN.{get_elem?}
use Rattle.laws.proofs.Options.{same_some}
use %(d)s.Refusal.{accepted}
use %(d)s.Stop.{go}
use %(d)s.Book.{any, exactly, Literal, Positive, Clause, Goal, write}
use %(d)s.Fitting.{answer_fits}
use %(d)s.Tables.{Forest}
use %(d)s.Forest.{make, opened}
use %(d)s.Calls.{sitting, Called, calls}
use %(d)s.Lists.{Each}
use %(p)s.Derive.{Usable, Derives, derives, Derivable, CleanBook}
use %(p)s.Certified.{BookCertified}
use %(q)s.Run.{book, forest, asked}

made : make (write book) %(limit)d ≡ accepted forest
made = refl

clean : CleanBook book
clean = %(clean)s

%(left)s
-- which goal a usable clause is of, and what holds of each clause of that goal holds of it

own_is : (goal : ℕ) (g : Goal) → get_elem? book goal ≡ some g → (c : Clause) (u : Usable book goal c) → g ≡ u.own
own_is goal g e c u = same_some (sym e ∙ u.is_own)

%(each)s
used : (P : Clause → Type 0) (goal : ℕ) (g : Goal) → get_elem? book goal ≡ some g → Each P g.clauses
    → (c : Clause) → Usable book goal c → P c
used P goal g e x c u = each P u.own.clauses (subst (λ (h : Goal). Each P h.clauses) (own_is goal g e c u) x) c u.of_own

%(never)s
-- %(words)s
pub broken : BookCertified → ⊥
broken certified =
    let d = certified (write book) %(limit)d forest made clean asked in
    never (d%(at)s.0.reply_derivable.1 0 %(names)s tt (refl {a = false}))
"""
REPORTED = """-- what the check returns for the book
use Rattle.std.specs.Prelude.{◌≡◌, refl, [], ◌∷◌}
use Rattle.std.proofs.Math.Option.{none, some}
use %(d)s.Refusal.{accepted}
use %(d)s.Book.{write}
use %(p)s.Spoilt.{check_spoilers}
use %(q)s.%(run)s.{book}

pub reported : check_spoilers (write book) ≡ accepted (%(reported)s)
reported = refl
"""
SPOILT_BROKEN = """-- with these definitions nothing is reported to spoil a goal whose unambiguous answer cannot be derived
use Rattle.std.specs.Prelude.{ℕ, zero, suc, ◌<◌, ◌≡◌, refl, false, ◌⊎◌, length, get_or}
use Rattle.std.proofs.Common.{arith, sym, subst, inl, inr}
use Rattle.std.proofs.Math.Option.{none, some}
use mathlib.Core.List.Memᴰ
use mathlib.Core.List.{List, [], ◌∷◌, map, Memᴰ}
use Rattle.std.proofs.Math.ListN.{get_elem?}
use Rattle.laws.proofs.Options.{same_some, no_such}
use %(d)s.Refusal.{accepted}
use %(d)s.Stop.{go}
use %(d)s.Book.{Literal, Clause, Goal, Book, write}
use %(d)s.Tables.{Forest}
use %(d)s.Forest.{opened}
use %(d)s.Desk.{make_at_desk}
use %(d)s.Calls.{sitting, Called, calls}
use %(d)s.Lists.{Each}
use %(p)s.Derive.{Usable, Derives, derives_end, derives, Derivable}
use %(p)s.Certified.{UnspoiltCertified}
use %(q)s.Run.{book, forest, asked}
use %(q)s.Reported.{reported}

made : make_at_desk (write book) %(limit)d ≡ accepted forest
made = refl

%(left)s
%(each)s
each_goal : (P : Goal → Type 0) (gs : Book) → Each P gs → (i : ℕ) (g : Goal) → get_elem? gs i ≡ some g → P g
each_goal P [] e i g q = absurd (no_such q)
each_goal P (h ∷ gs) e zero g q = subst P (same_some q) e.0
each_goal P (h ∷ gs) e (suc i) g q = each_goal P gs e.1 i g q

-- no clause is a fact, so that nothing can be derived

abbrev Waits : Clause → Type 0
Waits c = 0 < length c.literals

all_wait : Each (λ g. Each Waits g.clauses) book
all_wait = %(wait)s

waits : (goal : ℕ) (c : Clause) → Usable book goal c → Waits c
waits goal c u =
    each Waits u.own.clauses (each_goal (λ g. Each Waits g.clauses) book all_wait goal u.own u.is_own) c u.of_own

nothing : {ls : List Literal} → Derives book ls → 0 < length ls → ⊥
nothing derives_end lt = omega arith
nothing (derives {goal} c u fits below rest) lt = nothing below (waits goal c u)

never : Derivable book 0 0 → ⊥
never (c, u, v, d) = nothing d (waits 0 c u)

-- %(words)s
pub broken : UnspoiltCertified → ⊥
broken certified =
    let d = certified (write book) (%(reported)s) reported %(limit)d forest made asked in
    never (d%(at)s.0.reply_derivable.1 0 %(names)s (refl {a = none}) (refl {a = false}))
"""


def clean_term(book):
    def goal(g):
        return "record { inductive = refl; literals_clean = %s }" % pairs(pairs("tt" for l in c.literals) for c in g.clauses)
    return pairs(map(goal, book))


def fits(variant, want):
    return want is None or variant in (0, want)


def literal_name(l):
    return "never_%d%s" % (l[0], "" if l[1] is None else "_as_%d" % l[1])


def never(book, goal, test, misfit):
    """A term of ⊥, given a usable clause `c` of the goal by `u`, `f : test c`, and `d`: its literals are derived. `misfit` gives a term
    of ⊥ for a clause whose `f` is false."""
    own = goal_term(book[goal])
    if book[goal].floundered:
        return "true≢false (ap (λ (h : Goal). h.floundered) (own_is %d (%s) refl c u) ∙ u.unfloundered)" % (goal, own)

    def reason(c):
        if c.cannot_prove or c.outsized:
            return "λ p s f d. true≢false %s" % ("p" if c.cannot_prove else "s")
        return "λ p s f d. %s" % (misfit(c) or "%s d" % literal_name(c.literals[0]))
    so = "λ (z : Clause). z.cannot_prove ≡ false → z.outsized ≡ false → %s → Derives book z.literals → ⊥" % test
    reasons = pairs(map(reason, book[goal].clauses))
    return "used (%s) %d (%s) refl %s c u u.provable u.small f d" % (so, goal, own, reasons)


def never_literal(book, l):
    """That no list that begins with the literal is derived."""
    test = "answer_fits (%s) z.variant ≡ true" % literal_term(l)
    term = never(book, l[0], test, lambda c: None if fits(c.variant, l[1]) else "false≢true f")
    below = [never_literal(book, c.literals[0]) for c in book[l[0]].clauses if c.literals and fits(c.variant, l[1])]
    name = literal_name(l)
    head = "%s : {ls : List Literal} → Derives book (%s ∷ ls) → ⊥" % (name, literal_term(l))
    return "".join(below) + "%s\n%s (derives c u f d rest) = %s\n\n" % (head, name, term)


def never_text(book, variant):
    """That goal 0 cannot be derived as the variant."""
    def misfit(c):
        return None if c.variant == variant else "let e : ◌≡◌ {A = ℕ} %d %d = f in omega arith" % (c.variant, variant)
    below = [never_literal(book, c.literals[0]) for c in book[0].clauses if c.literals and c.variant == variant]
    term = never(book, 0, "z.variant ≡ %d" % variant, misfit)
    return "".join(below) + "never : Derivable book 0 %d → ⊥\nnever (c, u, f, d) = %s\n" % (variant, term)


def last_reply(fault):
    """What both modules have of it. The computed sides of the equations are given, so that the checker need not write them out."""
    last = len(fault.calls) - 1
    opens = "opened 0 (left_by %d) 0" % last
    names = "(%s, refl {a = accepted (%s)}, refl {a = go 0})" % (opens, opens)
    return dict(HOMES, **{"limit": CLOCK_LIMIT, "left": LEFT, "each": EACH, "words": fault.words(), "at": ".1" * last, "names": names})


def broken_text(fault):
    return BROKEN % dict(last_reply(fault), clean=clean_term(fault.book), never=never_text(fault.book, fault.variant))


def reported_term(reported):
    return cons("none" if by is None else "some %d" % by for by in reported)


def reported_text(reported, run):
    """`run` is the module that has the book."""
    return REPORTED % dict(HOMES, run=run, reported=reported_term(reported))


def spoilt_broken_text(fault):
    wait = pairs(pairs("omega arith" for c in g.clauses) for g in fault.book)
    return SPOILT_BROKEN % dict(last_reply(fault), reported=reported_term(fault.reported), wait=wait)
