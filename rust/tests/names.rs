//! The names that the library promises: those of the Rust crate `num-modular` 0.7.0 that FROM_NUM_MODULAR.md doesn't leave out, and
//! this library's own. One that is missing doesn't compile. `checks/names` looks for the imported ones in the proved sources, too.
#![cfg(target_pointer_width = "64")]

pub use num_modular::barrett::{Normalized2by1Divisor, PreMulInv1by1, PreMulInv2by1};
pub use num_modular::mersenne::{FixedMersenne, FixedMersenne32, FixedMersenne64};
pub use num_modular::monty::{FixedMontgomery32, FixedMontgomery64, Montgomery, OddMontgomery};
pub use num_modular::preinv::PreModInv;
pub use num_modular::prim::{powm_u32, powm_u64};
pub use num_modular::proth::{FixedProth32, FixedProth64};
pub use num_modular::reduced::{pow_counted, ReducedInt, Reducer, Vanilla};
pub use num_modular::ring::{all_checked, commands_fit, convolve, ntt, ntt_counted, root_fits, run, RingCommand, RunEnd};
pub use num_modular::solinas::{FixedTrinomialSolinas32, FixedTrinomialSolinas64};
pub use num_modular::word::RingWord;

/// What the root has of the Rust crate's root.
pub mod root {
    pub use num_modular::{imax, umax};
    pub use num_modular::{
        DivExact, DivExactAssign, ModularAbs, ModularCoreOps, ModularInteger, ModularOps, ModularPow, ModularRefOps,
        ModularSymbols, ModularUnaryOps, Reducer,
    };
    pub use num_modular::{
        FixedMersenne, FixedMersenne32, FixedMersenne64, FixedMontgomery32, FixedMontgomery64, FixedProth32, FixedProth64,
        FixedTrinomialSolinas32, FixedTrinomialSolinas64, Montgomery, Normalized2by1Divisor, PreModInv, PreMulInv1by1,
        PreMulInv2by1, ReducedInt, Vanilla,
    };
    pub use num_modular::{
        FixedMersenneInt, FixedMersenneInt32, FixedMersenneInt64, FixedMontgomeryInt32, FixedMontgomeryInt64, FixedProthInt32,
        FixedProthInt64, FixedSolinasInt32, FixedSolinasInt64, MontgomeryInt, OddMontgomeryInt, VanillaInt,
    };
}

/// A module for each width, with the words, the counted calls and the negated inverse.
macro_rules! widths {
    ($($word:ident),*) => {$(
        pub mod $word {
            pub use num_modular::monty::neg_mod_inv::$word::neginv;
            pub use num_modular::prim::counted::$word::{checked_jacobi_counted, invm_counted};
            pub use num_modular::word::$word::{
                extend, high, low, merge, nrem, ones, split, wmul, wsqr, DoubleWord, Word,
            };
        }
    )*};
}
widths!(w8, w16, w32, w64, wsize);

#[test]
fn functions_of_traits() {
    use root::*;

    let _ = (<u8 as ModularCoreOps<u8, &u8>>::addm, <u8 as ModularCoreOps<u8, &u8>>::subm);
    let _ = (<u8 as ModularCoreOps<u8, &u8>>::mulm, <u8 as ModularPow<u8, &u8>>::powm);
    let _ = (<u8 as ModularUnaryOps<&u8>>::negm, <u8 as ModularUnaryOps<&u8>>::invm);
    let _ = (<u8 as ModularUnaryOps<&u8>>::dblm, <u8 as ModularUnaryOps<&u8>>::sqm);
    let _ = (<i8 as ModularAbs<u8>>::absm, <u8 as DivExact<u8, ()>>::div_exact);
    let _ = <u8 as DivExactAssign<u8, ()>>::div_exact_assign;
    let _ = (<u8 as ModularSymbols<&u8>>::legendre, <u8 as ModularSymbols<&u8>>::checked_legendre);
    let _ = (<u8 as ModularSymbols<&u8>>::jacobi, <u8 as ModularSymbols<&u8>>::checked_jacobi);
    let _ = (<u8 as ModularSymbols<&u8>>::kronecker, u8::kronecker_ref, u8::checked_legendre_ref);
    let _ = (u8::addm_ref, u8::subm_ref, u8::mulm_ref, u8::negm_ref, u8::invm_ref, u8::dblm_ref, u8::sqm_ref);
    let _ = (u8::powm_ref, u8::checked_jacobi_ref);
    let _ = (u8::zero, <u8 as RingWord>::one, <u8 as RingWord>::bits, u8::is_zero_word, u8::is_odd, u8::half);
    type Plain = Vanilla<u8>;
    let _ = (Plain::new, Plain::transform, Plain::check, Plain::modulus, Plain::residue, Plain::is_zero);
    let _ = (Plain::add, Plain::sub, Plain::mul, Plain::dbl, Plain::neg, Plain::sqr, Plain::inv, Plain::pow);
    let _ = (Plain::add_in_place, Plain::sub_in_place, Plain::mul_in_place);
    type Int = MontgomeryInt<u8>;
    let _ = (Int::new, Int::repr, Int::inv, Int::pow, Int::convert);
    let _ = (<Int as ModularInteger>::modulus, Int::residue, Int::is_zero, Int::double, Int::square);
}

#[test]
fn functions_of_types() {
    let _ = (PreMulInv1by1::<u8>::new, PreMulInv1by1::<u8>::div_rem);
    let _ = (Normalized2by1Divisor::<u8>::invert_word, Normalized2by1Divisor::<u8>::new);
    let _ = (Normalized2by1Divisor::<u8>::div_rem_1by1, Normalized2by1Divisor::<u8>::div_rem_2by1);
    let _ = (PreMulInv2by1::<u8>::new, PreMulInv2by1::<u8>::divider, PreMulInv2by1::<u8>::shift);
    let _ = (PreMulInv2by1::<u8>::divisor, Montgomery::<u8>::new);
    let _ = (PreModInv::<u8>::new, PreModInv::<u8>::from);
    let _ = (FixedMontgomery32::<97>::fixed_modulus, FixedMontgomery64::<97>::fixed_modulus);
    let _ = (FixedProth32::<5, 3>::fixed_modulus, FixedProth64::<5, 3>::fixed_modulus);
    let _ = (FixedProth32::<5, 3>::reduce, FixedProth64::<5, 3>::reduce);
    macro_rules! folds {
        ($($ring:ty),*) => {$(
            let _ = (<$ring>::fixed_modulus, <$ring>::reduce_single, <$ring>::reduce_counted);
        )*};
    }
    folds!(FixedMersenne32<31, 1>, FixedMersenne64<61, 1>, FixedMersenne<61, 1>);
    folds!(FixedTrinomialSolinas32<16, 8, 1>, FixedTrinomialSolinas64<64, 32, 1>);
    let _ = (FixedMersenne32::<31, 1>::reduce_double, FixedMersenne64::<61, 1>::reduce_double);
    let _ = (FixedMersenne32::<31, 1>::reduce_uncounted, FixedMersenne64::<61, 1>::reduce_uncounted);
    let _ = FixedTrinomialSolinas32::<16, 8, 1>::reduce_double;
    let _ = FixedTrinomialSolinas64::<64, 32, 1>::reduce_double;
    let _ = (FixedTrinomialSolinas32::<16, 8, 1>::reduce_uncounted, FixedTrinomialSolinas64::<64, 32, 1>::reduce_uncounted);
}

#[test]
fn commands_and_ends() {
    use RingCommand::*;

    let [dst, a, b, n, exp] = [0, 1, 2, 3, 4];
    let commands: [RingCommand<usize>; 10] = [
        Load { dst, n },
        Add { dst, a, b },
        Sub { dst, a, b },
        Mul { dst, a, b },
        Div { dst, a, b },
        Neg { dst, a },
        Dbl { dst, a },
        Sqr { dst, a },
        Inv { dst, a },
        Pow { dst, a, exp },
    ];
    assert!(commands_fit(&commands, 3));
    let _ = [RunEnd::Done, RunEnd::NoInverse { at: 0 }];
}
