//! Stand-in for chalk_solve: the program is a book, and canonical forms cost nothing.

use chalk_ir::interner::Interner;
use chalk_ir::{Environment, ProgramClause, ProgramClauses, UnificationDatabase};
use std::fmt::Debug;

/// What the control files ask of the program. The last three are the book's.
pub trait RustIrDatabase<I: Interner>: Debug {
    fn interner(&self) -> I;
    fn unification_database(&self) -> &dyn UnificationDatabase<I>;

    fn custom_clauses(&self) -> Vec<ProgramClause<I>> {
        Vec::new()
    }

    fn program_clauses_for_env(&self, _environment: &Environment<I>) -> ProgramClauses<I> {
        ProgramClauses::empty()
    }

    fn is_coinductive(&self, goal: u16) -> bool;
    fn is_floundered(&self, goal: u16) -> bool;
    /// The goal's clauses in book order.
    fn clauses(&self, goal: u16) -> Vec<ProgramClause<I>>;
}

pub mod clauses {
    use super::RustIrDatabase;
    use chalk_ir::interner::Interner;
    use chalk_ir::{DomainGoal, Floundered, InEnvironment, ProgramClause, UCanonical};

    pub fn program_clauses_that_could_match<I: Interner>(
        db: &dyn RustIrDatabase<I>,
        goal: &UCanonical<InEnvironment<DomainGoal<I>>>,
    ) -> Result<Vec<ProgramClause<I>>, Floundered> {
        let number = goal.canonical.value.goal.number;
        if db.is_floundered(number) {
            Err(Floundered)
        } else {
            Ok(db.clauses(number))
        }
    }
}

pub mod coinductive_goal {
    use super::RustIrDatabase;
    use chalk_ir::interner::Interner;
    use chalk_ir::{Goal, InEnvironment, UCanonical};

    pub trait IsCoinductive<I: Interner> {
        fn is_coinductive(&self, db: &dyn RustIrDatabase<I>) -> bool;
    }

    impl<I: Interner> IsCoinductive<I> for UCanonical<InEnvironment<Goal<I>>> {
        fn is_coinductive(&self, db: &dyn RustIrDatabase<I>) -> bool {
            db.is_coinductive(self.canonical.value.goal.domain_goal().number)
        }
    }
}

pub mod infer {
    use chalk_ir::fold::TypeFoldable;
    use chalk_ir::interner::Interner;
    use chalk_ir::{Canonical, CanonicalVarKinds, Substitution, UCanonical, UniverseMap};
    use std::marker::PhantomData;
    use ucanonicalize::UCanonicalized;

    /// Holds no variables.
    #[derive(Clone, Debug)]
    pub struct InferenceTable<I: Interner> {
        phantom: PhantomData<I>,
    }

    pub struct Canonicalized<T> {
        pub quantified: Canonical<T>,
    }

    impl<I: Interner> InferenceTable<I> {
        pub fn new() -> Self {
            InferenceTable {
                phantom: PhantomData,
            }
        }

        pub fn from_canonical<T: TypeFoldable<I>>(
            _interner: I,
            _universes: usize,
            canonical: Canonical<T>,
        ) -> (Self, Substitution<I>, T) {
            (
                InferenceTable::new(),
                Substitution::new(0, false),
                canonical.value.instantiated(),
            )
        }

        pub fn instantiate_canonical<T: TypeFoldable<I>>(
            &mut self,
            _interner: I,
            canonical: Canonical<T>,
        ) -> T {
            canonical.value.instantiated()
        }

        pub fn canonicalize<T>(&mut self, _interner: I, value: T) -> Canonicalized<T> {
            Canonicalized {
                quantified: Canonical {
                    value,
                    binders: CanonicalVarKinds,
                },
            }
        }

        pub fn u_canonicalize<T: Clone>(
            _interner: I,
            canonical: &Canonical<T>,
        ) -> UCanonicalized<T> {
            UCanonicalized {
                quantified: UCanonical {
                    canonical: canonical.clone(),
                    universes: 1,
                },
                universes: UniverseMap,
            }
        }

        /// A "not" literal of a book has nothing left open.
        pub fn invert<T>(&mut self, _interner: I, value: T) -> Option<T> {
            Some(value)
        }
    }

    pub mod ucanonicalize {
        use chalk_ir::interner::Interner;
        use chalk_ir::{Canonical, UCanonical, UniverseMap};

        pub struct UCanonicalized<T> {
            pub quantified: UCanonical<T>,
            pub universes: UniverseMap,
        }

        pub trait UniverseMapExt {
            fn map_from_canonical<T: Clone, I: Interner>(
                &self,
                interner: I,
                canonical: &Canonical<T>,
            ) -> Canonical<T>;
        }

        impl UniverseMapExt for UniverseMap {
            fn map_from_canonical<T: Clone, I: Interner>(
                &self,
                _interner: I,
                canonical: &Canonical<T>,
            ) -> Canonical<T> {
                canonical.clone()
            }
        }
    }
}

pub mod solve {
    pub mod truncate {
        use crate::infer::InferenceTable;
        use chalk_ir::interner::Interner;
        use chalk_ir::visit::TypeVisitable;

        pub fn needs_truncation<I: Interner>(
            _interner: I,
            _infer: &mut InferenceTable<I>,
            _max_size: usize,
            value: &impl TypeVisitable<I>,
        ) -> bool {
            value.outsized()
        }
    }
}
