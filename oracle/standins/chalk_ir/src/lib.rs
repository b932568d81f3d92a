//! Stand-in for chalk_ir that speaks book terms. A goal is its number; a literal's want and outsized flag
//! travel with the goal that the literal names; a substitution is a variant. Constraints, environments,
//! binders and universes are empty and cost nothing.

use std::fmt::Debug;
use std::hash::{Hash, Hasher};
use std::marker::PhantomData;

pub mod interner {
    use std::fmt::Debug;
    use std::hash::Hash;

    pub trait Interner: Copy + Debug + Eq + Hash + 'static {}

    /// The one interner in use; it holds nothing.
    #[derive(Copy, Clone, Debug, PartialEq, Eq, Hash)]
    pub struct BookInterner;

    impl Interner for BookInterner {}
}

use interner::Interner;

pub mod fold {
    use super::interner::Interner;
    use super::DebruijnIndex;

    pub trait FallibleTypeFolder<I: Interner> {
        type Error;
    }

    pub trait TypeFoldable<I: Interner>: Sized {
        fn try_fold_with<E>(
            self,
            folder: &mut dyn FallibleTypeFolder<I, Error = E>,
            outer_binder: DebruijnIndex,
        ) -> Result<Self, E>;

        /// What a canonical value becomes when it is taken out of its binders: itself,
        /// but for an answer, whose delayed goals keep their numbers alone.
        fn instantiated(self) -> Self {
            self
        }
    }
}

pub mod visit {
    use super::interner::Interner;

    /// What may be outsized.
    pub trait TypeVisitable<I: Interner> {
        fn outsized(&self) -> bool;
    }
}

pub mod could_match {
    use super::interner::Interner;
    use super::{DomainGoal, ProgramClause, UnificationDatabase};

    pub trait CouldMatch<I: Interner> {
        fn could_match(
            &self,
            interner: I,
            db: &dyn UnificationDatabase<I>,
            other: &DomainGoal<I>,
        ) -> bool;
    }

    /// The clauses come by goal already, so each of them matches.
    impl<I: Interner> CouldMatch<I> for ProgramClause<I> {
        fn could_match(
            &self,
            _interner: I,
            _db: &dyn UnificationDatabase<I>,
            _other: &DomainGoal<I>,
        ) -> bool {
            true
        }
    }
}

use fold::{FallibleTypeFolder, TypeFoldable};
use visit::TypeVisitable;

#[macro_export]
macro_rules! copy_fold {
    ($t:ty) => {};
}

#[macro_export]
macro_rules! const_visit {
    ($t:ty) => {};
}

#[derive(Copy, Clone, Debug, PartialEq, Eq)]
pub struct NoSolution;

#[derive(Copy, Clone, Debug, PartialEq, Eq)]
pub struct Floundered;

pub type Fallible<T> = Result<T, NoSolution>;

pub enum FallibleOrFloundered<T> {
    Ok(T),
    NoSolution,
    Floundered,
}

#[derive(Copy, Clone, Debug, PartialEq, Eq)]
pub struct DebruijnIndex;

#[derive(Copy, Clone, Debug, PartialEq, Eq, Hash)]
pub struct UniverseMap;

/// The variables that a canonical value binds: none.
#[derive(Copy, Clone, Debug, PartialEq, Eq, Hash)]
pub struct CanonicalVarKinds;

#[derive(Clone, Debug, PartialEq, Eq, Hash)]
pub struct Canonical<T> {
    pub value: T,
    pub binders: CanonicalVarKinds,
}

#[derive(Clone, Debug, PartialEq, Eq, Hash)]
pub struct UCanonical<T> {
    pub canonical: Canonical<T>,
    pub universes: usize,
}

#[derive(Copy, Clone, Debug, PartialEq, Eq, Hash)]
pub struct Environment<I: Interner> {
    phantom: PhantomData<I>,
}

impl<I: Interner> Environment<I> {
    pub fn empty() -> Self {
        Environment {
            phantom: PhantomData,
        }
    }
}

#[derive(Clone, Debug, PartialEq, Eq, Hash)]
pub struct InEnvironment<G: HasEnvironment> {
    pub environment: Environment<G::Interner>,
    pub goal: G,
}

/// Ties a goal type to its interner, so that an environment can be of the same one.
pub trait HasEnvironment {
    type Interner: Interner;
}

impl<G: HasEnvironment> InEnvironment<G> {
    pub fn new(environment: &Environment<G::Interner>, goal: G) -> Self {
        InEnvironment {
            environment: *environment,
            goal,
        }
    }
}

/// Which variants of its goal a literal takes, besides 0, the goal as a whole: all of them, one, or those from
/// a low one to a high one, both included.
#[derive(Copy, Clone, Debug, PartialEq, Eq)]
pub enum Want {
    Any,
    Exactly(u16),
    Between(u16, u16),
}

impl Want {
    pub fn low(self) -> u16 {
        match self {
            Want::Any => 0,
            Want::Exactly(variant) => variant,
            Want::Between(low, _) => low,
        }
    }

    pub fn high(self) -> u16 {
        match self {
            Want::Any => u16::MAX,
            Want::Exactly(variant) => variant,
            Want::Between(_, high) => high,
        }
    }

    /// Whether an answer of this variant fits.
    pub fn takes(self, variant: u16) -> bool {
        variant == 0 || self.low() <= variant && variant <= self.high()
    }
}

/// A goal of the book, with what the literal that names it says besides: the variants that it wants and
/// whether the literal is outsized. Both are no part of the goal: two goals are equal if their numbers are.
#[derive(Copy, Clone, Debug)]
pub struct DomainGoal<I: Interner> {
    pub number: u16,
    pub want: Want,
    pub outsized: bool,
    phantom: PhantomData<I>,
}

impl<I: Interner> DomainGoal<I> {
    pub fn new(number: u16, want: Want, outsized: bool) -> Self {
        DomainGoal {
            number,
            want,
            outsized,
            phantom: PhantomData,
        }
    }
}

impl<I: Interner> PartialEq for DomainGoal<I> {
    fn eq(&self, other: &Self) -> bool {
        self.number == other.number
    }
}

impl<I: Interner> Eq for DomainGoal<I> {}

impl<I: Interner> Hash for DomainGoal<I> {
    fn hash<H: Hasher>(&self, state: &mut H) {
        self.number.hash(state);
    }
}

#[derive(Copy, Clone, Debug, PartialEq, Eq, Hash)]
pub enum GoalData<I: Interner> {
    DomainGoal(DomainGoal<I>),
    /// Never made: a book has no other goals.
    Other,
}

#[derive(Copy, Clone, Debug, PartialEq, Eq, Hash)]
pub struct Goal<I: Interner> {
    data: GoalData<I>,
}

impl<I: Interner> Goal<I> {
    pub fn literal(number: u16, want: Want, outsized: bool) -> Self {
        Goal {
            data: GoalData::DomainGoal(DomainGoal::new(number, want, outsized)),
        }
    }

    /// The goal by its number alone.
    pub fn bare(number: u16) -> Self {
        Goal::literal(number, Want::Any, false)
    }

    pub fn data(&self, _interner: I) -> &GoalData<I> {
        &self.data
    }

    pub fn domain_goal(&self) -> &DomainGoal<I> {
        match &self.data {
            GoalData::DomainGoal(goal) => goal,
            GoalData::Other => unreachable!("a book has domain goals only"),
        }
    }
}

impl<I: Interner> HasEnvironment for DomainGoal<I> {
    type Interner = I;
}

impl<I: Interner> HasEnvironment for Goal<I> {
    type Interner = I;
}

impl<I: Interner> HasEnvironment for Constraint<I> {
    type Interner = I;
}

/// What an answer says of the goal: a variant, 0 for the goal as a whole; and whether it is outsized.
#[derive(Copy, Clone, Debug, PartialEq, Eq, Hash)]
pub struct Substitution<I: Interner> {
    pub variant: u16,
    pub outsized: bool,
    phantom: PhantomData<I>,
}

impl<I: Interner> Substitution<I> {
    pub fn new(variant: u16, outsized: bool) -> Self {
        Substitution {
            variant,
            outsized,
            phantom: PhantomData,
        }
    }
}

/// Never made: constraints are left out.
#[derive(Copy, Clone, Debug, PartialEq, Eq, Hash)]
pub struct Constraint<I: Interner> {
    phantom: PhantomData<I>,
}

#[derive(Copy, Clone, Debug, PartialEq, Eq, Hash)]
pub struct Constraints<I: Interner> {
    phantom: PhantomData<I>,
}

impl<I: Interner> Constraints<I> {
    pub fn empty(_interner: I) -> Self {
        Constraints {
            phantom: PhantomData,
        }
    }

    pub fn from_iter(
        interner: I,
        constraints: impl IntoIterator<Item = InEnvironment<Constraint<I>>>,
    ) -> Self {
        assert!(constraints.into_iter().next().is_none());
        Constraints::empty(interner)
    }

    pub fn is_empty(&self, _interner: I) -> bool {
        true
    }

    pub fn as_slice(&self, _interner: I) -> &[InEnvironment<Constraint<I>>] {
        &[]
    }
}

#[derive(Clone, Debug, PartialEq, Eq, Hash)]
pub struct ConstrainedSubst<I: Interner> {
    pub subst: Substitution<I>,
    pub constraints: Constraints<I>,
}

#[derive(Clone, Debug, PartialEq, Eq, Hash)]
pub struct AnswerSubst<I: Interner> {
    pub subst: Substitution<I>,
    pub constraints: Constraints<I>,
    pub delayed_subgoals: Vec<InEnvironment<Goal<I>>>,
}

/// A clause of the book.
#[derive(Clone, Debug)]
pub struct ProgramClause<I: Interner> {
    pub variant: u16,
    pub cannot_prove: bool,
    pub outsized: bool,
    /// In book order; `true` for a positive literal.
    pub literals: Vec<(bool, Goal<I>)>,
}

#[derive(Clone, Debug)]
pub struct ProgramClauses<I: Interner> {
    clauses: Vec<ProgramClause<I>>,
}

impl<I: Interner> ProgramClauses<I> {
    pub fn empty() -> Self {
        ProgramClauses {
            clauses: Vec::new(),
        }
    }

    pub fn iter(&self, _interner: I) -> std::slice::Iter<'_, ProgramClause<I>> {
        self.clauses.iter()
    }
}

pub trait UnificationDatabase<I: Interner>: Debug {}

impl<I: Interner> UCanonical<InEnvironment<Goal<I>>> {
    pub fn is_trivial_substitution(
        &self,
        _interner: I,
        canonical_subst: &Canonical<AnswerSubst<I>>,
    ) -> bool {
        canonical_subst.value.subst.variant == 0
    }
}

impl<I: Interner> TypeVisitable<I> for InEnvironment<Goal<I>> {
    fn outsized(&self) -> bool {
        self.goal.domain_goal().outsized
    }
}

impl<I: Interner> TypeVisitable<I> for Substitution<I> {
    fn outsized(&self) -> bool {
        self.outsized
    }
}

macro_rules! fold_as_is {
    ($t:ty) => {
        impl<I: Interner> TypeFoldable<I> for $t {
            fn try_fold_with<E>(
                self,
                _folder: &mut dyn FallibleTypeFolder<I, Error = E>,
                _outer_binder: DebruijnIndex,
            ) -> Result<Self, E> {
                Ok(self)
            }
        }
    };
}

fold_as_is!(InEnvironment<Goal<I>>);
fold_as_is!(InEnvironment<DomainGoal<I>>);
fold_as_is!(ConstrainedSubst<I>);

impl<I: Interner> TypeFoldable<I> for AnswerSubst<I> {
    fn try_fold_with<E>(
        self,
        _folder: &mut dyn FallibleTypeFolder<I, Error = E>,
        _outer_binder: DebruijnIndex,
    ) -> Result<Self, E> {
        Ok(self)
    }

    fn instantiated(self) -> Self {
        AnswerSubst {
            delayed_subgoals: self
                .delayed_subgoals
                .iter()
                .map(|delayed| {
                    InEnvironment::new(
                        &delayed.environment,
                        Goal::bare(delayed.goal.domain_goal().number),
                    )
                })
                .collect(),
            ..self
        }
    }
}
