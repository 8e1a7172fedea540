//! The traits of core that people expect of errors, reducers and plans, and of integers (`integers.rs`). Written by hand, and so
//! not proved; all computations here call proved functions.

mod integers;

use crate::applications::lattice_rings::{ml_dsa, ml_kem};
#[cfg(target_pointer_width = "64")]
use crate::applications::long_product::Plans;
use crate::applications::ring_codes::erasure::{CorrectError, PreparedCode, RestoreError, ShareError};
use crate::modular_folds::folds::FoldedWord;
use crate::modular_folds::rings::{FoldModulus, FoldRing};
use crate::modular_folds::solinas::{Trinomial, TrinomialModulus, TrinomialWord};
use crate::modular_monty::odd_ring::{OddModulus, OddRing, StoredModulus};
use crate::modular_prim::reducer_word::ReducerWord;
use crate::modular_word::path_word::PathWord;
use crate::plans::{OwnedPlan, Plan, PlanEntry, PlannedModulus};
use crate::{FixedMersenne, PlainWord, PreModInv, Reducer};
use core::fmt;
use core::hash::{Hash, Hasher};

// A fixed reducer shows its alias and its modulus.
macro_rules! show {
    ($kept:ty, $ring:expr, $word:ty, $trait:ident, [$($parameters:tt)*]) => {
        impl<$($parameters)*> fmt::Debug for $kept {
            /// The reducer and its modulus.
            fn fmt(&self, f: &mut fmt::Formatter) -> fmt::Result {
                write!(f, concat!($ring, " (mod {:?})"), $trait::<$word>::modulus(self))
            }
        }
    };
}

macro_rules! shown {
    ($($ring:ident<$(const $parameter:ident: $kind:ty),*> $word:ty, $family:ident of $trait:ident, $($kept:ident)::*;)*) => {$(
        show!($($kept)::*<$($parameter),*>, stringify!($ring), $word, $trait, [$(const $parameter: $kind),*]);
    )*};
}

kept!(shown);
show!(FixedMersenne<P, K>, "FixedMersenne", u128, Reducer, [const P: u8, const K: u64]);
show!(TrinomialModulus<T, F>, "TrinomialSolinas", T, FoldModulus, [T: TrinomialWord + fmt::Debug, F: Trinomial]);

impl<T: fmt::Debug> fmt::Debug for StoredModulus<T> {
    /// The reducer's alias and the modulus, as `Montgomery` shows itself.
    fn fmt(&self, f: &mut fmt::Formatter) -> fmt::Result {
        f.debug_struct("OddMontgomery").field("modulus", &self.modulus).finish()
    }
}

impl<T, M: fmt::Debug> fmt::Debug for OddRing<T, M> {
    /// As the type of its modulus shows it.
    fn fmt(&self, f: &mut fmt::Formatter) -> fmt::Result {
        self.kept.fmt(f)
    }
}

impl<T, M: fmt::Debug> fmt::Debug for FoldRing<T, M> {
    /// As the type of its modulus shows it.
    fn fmt(&self, f: &mut fmt::Formatter) -> fmt::Result {
        self.kept.fmt(f)
    }
}

// What is computed once from a modulus isn't shown.
macro_rules! shown_by_modulus {
    ($($kind:ident<T>, $bound:ident;)*) => {$(
        impl<T: $bound + fmt::Debug> fmt::Debug for crate::$kind<T> {
            /// The modulus.
            fn fmt(&self, f: &mut fmt::Formatter) -> fmt::Result {
                f.debug_struct(stringify!($kind)).field("modulus", &Reducer::modulus(self)).finish()
            }
        }
    )*};
}

shown_by_modulus! {
    Montgomery<T>, ReducerWord;
    PreMulInv2by1<T>, PlainWord;
}

impl<T: fmt::Debug> fmt::Debug for PlannedModulus<T> {
    /// The modulus.
    fn fmt(&self, f: &mut fmt::Formatter) -> fmt::Result {
        f.debug_struct("PlannedModulus").field("modulus", &self.modulus).finish()
    }
}

fn show_plan<T, F>(name: &str, plan: &Plan<T, F>, f: &mut fmt::Formatter) -> fmt::Result
where
    T: PlainWord + fmt::Debug,
    F: PlanEntry<T>,
{
    let (modulus, root, length) = (plan.modulus().modulus, plan.root(), plan.length());
    f.debug_struct(name).field("modulus", &modulus).field("root", &root).field("length", &length).finish_non_exhaustive()
}

impl<T: PlainWord + fmt::Debug, F: PlanEntry<T>> fmt::Debug for Plan<'_, T, F> {
    /// The modulus, the root and the number of entries, without the table.
    fn fmt(&self, f: &mut fmt::Formatter) -> fmt::Result {
        show_plan("Plan", self, f)
    }
}

impl<T: PlainWord + fmt::Debug, F: PlanEntry<T>, S: AsRef<[F]>> fmt::Debug for OwnedPlan<T, F, S> {
    /// The modulus, the root and the number of entries, without the table.
    fn fmt(&self, f: &mut fmt::Formatter) -> fmt::Result {
        show_plan("OwnedPlan", &self.plan(), f)
    }
}

#[cfg(target_pointer_width = "64")]
impl<F: PlanEntry<u64>> fmt::Debug for Plans<'_, F> {
    /// The number of factors in each table.
    fn fmt(&self, f: &mut fmt::Formatter) -> fmt::Result {
        f.debug_struct("Plans").field("factors", &self.factors()).finish_non_exhaustive()
    }
}

impl fmt::Debug for ml_dsa::Ring {
    /// The modulus, without the table.
    fn fmt(&self, f: &mut fmt::Formatter) -> fmt::Result {
        f.debug_struct("Ring").field("modulus", &ml_dsa::MODULUS).finish_non_exhaustive()
    }
}

impl fmt::Debug for ml_kem::Ring {
    /// The modulus, without the table.
    fn fmt(&self, f: &mut fmt::Formatter) -> fmt::Result {
        f.debug_struct("Ring").field("modulus", &ml_kem::MODULUS).finish_non_exhaustive()
    }
}

// Reducers of one type are equal where their moduli are, of which they are made; equal ones hash equally.
macro_rules! equal {
    ($($ring:ty, $word:ty, [$($parameters:tt)*];)*) => {$(
        impl<$($parameters)*> PartialEq for $ring {
            fn eq(&self, other: &Self) -> bool {
                self.modulus() == other.modulus()
            }
        }

        impl<$($parameters)*> Eq for $ring {}

        impl<$($parameters)*> Hash for $ring
        where
            $word: Hash,
        {
            fn hash<H: Hasher>(&self, state: &mut H) {
                self.modulus().hash(state);
            }
        }
    )*};
}

equal! {
    crate::Vanilla<T>, T, [T: PlainWord];
    crate::Montgomery<T>, T, [T: ReducerWord];
    OddRing<T, M>, T, [T: ReducerWord, M: OddModulus<T>];
    FoldRing<T, M>, T, [T: FoldedWord + ReducerWord, M: FoldModulus<T>];
}

impl<T: PathWord> PartialEq for PreModInv<T> {
    /// Whether the divisors are equal: each has an inverse of its own.
    fn eq(&self, other: &Self) -> bool {
        self.d_inv == other.d_inv
    }
}

impl<T: PathWord> Eq for PreModInv<T> {}

impl<T: PathWord + Hash> Hash for PreModInv<T> {
    fn hash<H: Hasher>(&self, state: &mut H) {
        self.d_inv.hash(state);
    }
}

impl<T: PlainWord, F: PlanEntry<T>> PartialEq for Plan<'_, T, F> {
    /// Whether modulus, root and length are equal, which determine the table.
    fn eq(&self, other: &Self) -> bool {
        (self.modulus(), self.root(), self.length()) == (other.modulus(), other.root(), other.length())
    }
}

impl<T: PlainWord, F: PlanEntry<T>> Eq for Plan<'_, T, F> {}

impl<T: PlainWord, F: PlanEntry<T>, S: AsRef<[F]>> PartialEq for OwnedPlan<T, F, S> {
    /// Whether modulus, root and length are equal, which determine the table.
    fn eq(&self, other: &Self) -> bool {
        self.plan() == other.plan()
    }
}

impl<T: PlainWord, F: PlanEntry<T>, S: AsRef<[F]>> Eq for OwnedPlan<T, F, S> {}

// What only borrows is copied whatever it borrows.
impl<T, R> Clone for PreparedCode<'_, T, R> {
    fn clone(&self) -> Self {
        *self
    }
}

impl<T, R> Copy for PreparedCode<'_, T, R> {}

#[cfg(target_pointer_width = "64")]
impl<F: PlanEntry<u64>> Clone for Plans<'_, F> {
    fn clone(&self) -> Self {
        *self
    }
}

#[cfg(target_pointer_width = "64")]
impl<F: PlanEntry<u64>> Copy for Plans<'_, F> {}

impl Default for ml_dsa::Ring {
    fn default() -> Self {
        Self::new()
    }
}

impl Default for ml_kem::Ring {
    fn default() -> Self {
        Self::new()
    }
}

impl fmt::Display for RestoreError {
    fn fmt(&self, f: &mut fmt::Formatter) -> fmt::Result {
        f.write_str(match self {
            RestoreError::TooFewSymbols => "there are fewer symbols than the message has",
            RestoreError::PlaceOutOfRange => "a place isn't below the number of points",
            RestoreError::PlaceTwice => "a place occurs twice",
            RestoreError::PointsDontFit => "the difference of two points has no inverse",
        })
    }
}

impl<T> From<RestoreError> for CorrectError<T> {
    fn from(fault: RestoreError) -> Self {
        CorrectError::Restore(fault)
    }
}

impl fmt::Display for ShareError {
    fn fmt(&self, f: &mut fmt::Formatter) -> fmt::Result {
        f.write_str(match self {
            ShareError::NoCoefficients => "there is no coefficient, so no secret",
            ShareError::TooFewPoints => "there are fewer points than the shares that recover the secret",
            ShareError::PointWithoutInverse => "a point has no inverse, so that its share would tell of the secret",
            ShareError::PointsDontFit => "the difference of two points has no inverse",
        })
    }
}

impl<T: fmt::Display> fmt::Display for CorrectError<T> {
    fn fmt(&self, f: &mut fmt::Formatter) -> fmt::Result {
        match self {
            CorrectError::Restore(fault) => fault.fmt(f),
            CorrectError::TooManyErrors => f.write_str("no word of the code is near enough to the symbols"),
            CorrectError::NoInverse(number) => write!(f, "{number} has no inverse"),
        }
    }
}

// The reducer of the only modulus of its type.
macro_rules! only_reducers {
    ($($ring:ident $integer:ident<$(const $parameter:ident: $kind:ty),*> $word:ty;)*) => {$(
        impl<$(const $parameter: $kind),*> Default for crate::$ring<$($parameter),*> {
            /// `RING`.
            fn default() -> Self {
                Self::RING
            }
        }
    )*};
}

fixed!(only_reducers);

#[cfg(all(feature = "std", not(has_core_error)))]
extern crate std;
#[cfg(has_core_error)]
use core::error::Error;
#[cfg(all(feature = "std", not(has_core_error)))]
use std::error::Error;

#[cfg(any(feature = "std", has_core_error))]
impl Error for RestoreError {}

#[cfg(any(feature = "std", has_core_error))]
impl Error for ShareError {}

#[cfg(all(any(feature = "std", has_core_error), target_pointer_width = "64"))]
impl Error for crate::applications::long_product::polynomials::MultiplyError {}

#[cfg(any(feature = "std", has_core_error))]
impl<T: fmt::Debug + fmt::Display> Error for CorrectError<T> {}

#[cfg(test)]
mod tests {
    extern crate std;
    use crate::applications::ring_codes::erasure::{CorrectError, RestoreError, ShareError};
    use crate::*;
    use std::string::ToString;

    #[test]
    fn reducers_and_plans_show_no_table() {
        use crate::applications::lattice_rings::ml_kem;
        use crate::plans::{Factor, Plan, PlannedModulus};
        assert_eq!(std::format!("{:?}", FixedMersenne64::<61, 1>::RING), "FixedMersenne64 (mod 2305843009213693951)");
        assert_eq!(std::format!("{:?}", FixedMersenne::<61, 1>::RING), "FixedMersenne (mod 2305843009213693951)");
        assert_eq!(std::format!("{:?}", FixedProth32::<5, 3>::RING), "FixedProth32 (mod 97)");
        assert_eq!(std::format!("{:?}", FixedMontgomery64::<97>::RING), "FixedMontgomery64 (mod 97)");
        assert_eq!(std::format!("{:?}", FixedTrinomialSolinas32::<5, 4, -3>::RING), "TrinomialSolinas (mod 13)");
        assert_eq!(std::format!("{:?}", Montgomery::<u64>::new(96)), "Montgomery { modulus: 96 }");
        assert_eq!(std::format!("{:?}", OddMontgomery::<u64>::new(97)), "OddMontgomery { modulus: 97 }");
        assert_eq!(std::format!("{:?}", PreMulInv2by1::<u8>::new(96)), "PreMulInv2by1 { modulus: 96 }");
        let modulus = PlannedModulus::<u64>::new(97);
        assert_eq!(std::format!("{modulus:?}"), "PlannedModulus { modulus: 97 }");
        let mut table = [Factor::<u64>::ZERO; 2];
        let plan = Plan::new(&modulus, 22, &mut table).unwrap();
        assert_eq!(std::format!("{plan:?}"), "Plan { modulus: 97, root: 22, length: 4, .. }");
        assert_eq!(std::format!("{:?}", ml_kem::Ring::new()), "Ring { modulus: 3329, .. }");
    }

    #[test]
    fn errors_are_written() {
        assert_eq!(RestoreError::PlaceTwice.to_string(), "a place occurs twice");
        assert_eq!(ShareError::PointsDontFit.to_string(), RestoreError::PointsDontFit.to_string());
        assert_eq!(ShareError::NoCoefficients.to_string(), "there is no coefficient, so no secret");
        assert_eq!(CorrectError::NoInverse(15u8).to_string(), "15 has no inverse");
        #[cfg(any(feature = "std", has_core_error))]
        let _errors: [std::boxed::Box<dyn std::error::Error>; 3] =
            [RestoreError::PlaceTwice.into(), ShareError::PointsDontFit.into(), CorrectError::NoInverse(15u8).into()];
    }

    #[test]
    fn a_table_of_an_inferred_word() {
        let mut table = std::vec![plans::Factor::ZERO; 2];
        plans::fill_table(&plans::PlannedModulus::<u64>::new(97), 22, &mut table);
        assert_eq!(table[1].value(), 22);
    }
}
