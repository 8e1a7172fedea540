//! The traits of core that the types implement, by type.

use num_modular::applications::check_digits::Code;
use num_modular::applications::lattice_rings::{ml_dsa, ml_kem};
#[cfg(target_pointer_width = "64")]
use num_modular::applications::long_product::Plans;
use num_modular::applications::mersenne_hash::prefixes::{Patterns, PrefixHashes};
use num_modular::applications::residue_numbers::mixed_radix::System;
#[cfg(any(feature = "std", has_core_error))]
use num_modular::applications::ring_codes::erasure::restore;
use num_modular::applications::ring_codes::erasure::{CorrectError, PreparedCode, RestoreError, ShareError};
use num_modular::plans::{Factor, OwnedPlan, Plan, PlannedModulus};
use num_modular::ring::{run, AsCommand, RingCommand, RunEnd};
use num_modular::{
    FixedMersenne, FixedMersenne32, FixedMersenne64, FixedMersenneInt64, FixedMontgomery32, FixedMontgomery64, FixedProth32,
    FixedProth64, FixedTrinomialSolinas32, FixedTrinomialSolinas64, ModularInteger, Montgomery, MontgomeryInt,
    Normalized2by1Divisor, PreModInv, PreMulInv1by1, PreMulInv2by1, Reducer, Vanilla, VanillaInt,
};
use std::cell::Cell;
use std::collections::HashSet;
use std::fmt::{Debug, Display};
use std::hash::Hash;

fn borrows<T: Debug + Copy + Send + Sync>() {}
fn compared<T: Debug + Copy + Eq + Send + Sync>() {}
fn kept<T: Debug + Clone + Eq + Send + Sync>() {}
fn hashed<T: Debug + Copy + Eq + Hash + Send + Sync>() {}
fn made<T: Debug + Copy + Eq + Hash + Default>() {}
fn table<T: Debug + Clone + Default>() {}
fn error<T: Debug + Display + Copy + Eq + Hash>() {}

macro_rules! are {
    ($($bounds:ident: $($kind:ty),+;)+) => {
        #[test]
        fn traits() {
            $($($bounds::<$kind>();)+)+
        }
    };
}

are! {
    hashed: Vanilla<u8>, Montgomery<u64>, PreMulInv2by1<u64>, VanillaInt<u32>, MontgomeryInt<u64>, FixedMersenneInt64<61, 1>;
    hashed: PreModInv<u64>, PreMulInv1by1<u64>, Normalized2by1Divisor<u64>;
    made: FixedMontgomery32<97>, FixedMontgomery64<97>, FixedProth32<5, 3>, FixedProth64<5, 3>;
    made: FixedMersenne32<31, 1>, FixedMersenne64<61, 1>, FixedMersenne<61, 1>;
    made: FixedTrinomialSolinas32<16, 8, 1>, FixedTrinomialSolinas64<64, 32, 1>, FixedMersenneInt64<61, 1>;
    made: Factor<u64>;
    hashed: PlannedModulus<u64>, RingCommand<u64>, RunEnd, Code<'static>;
    compared: Plan<'static, u64, Factor<u64>>;
    kept: OwnedPlan<u64, Factor<u64>, [Factor<u64>; 2]>, OwnedPlan<u64, Factor<u64>, Vec<Factor<u64>>>;
    borrows: PreparedCode<'static, u64, Vanilla<u64>>, PrefixHashes<'static>, Patterns<'static>, System<'static>;
    table: ml_dsa::Ring, ml_kem::Ring;
    error: RestoreError, ShareError, CorrectError<u64>;
}

#[test]
#[cfg(target_pointer_width = "64")]
fn plans_only_borrow() {
    borrows::<Plans<'static, Factor<u64>>>();
}

#[test]
fn equal_reducers_hash_equally() {
    let all: HashSet<_> = [97, 97, 101].iter().map(|m| Montgomery::<u64>::new(*m)).collect();
    assert_eq!((all.len(), all.contains(&Montgomery::<u64>::new(101))), (2, true));
    let all: HashSet<_> = [3u8, 3, 5].iter().map(|d| PreModInv::<u8>::from(*d)).collect();
    assert_eq!(all.len(), 2);
}

#[test]
fn default_reducers() {
    assert_eq!(FixedMersenne64::<61, 1>::default().modulus(), (1 << 61) - 1);
    assert_eq!(FixedMersenne::<61, 1>::default(), FixedMersenne::<61, 1>::RING);
}

#[test]
fn equal_plans() {
    let modulus = PlannedModulus::<u64>::new(97);
    let mut tables = [[Factor::<u64>::ZERO; 2]; 3];
    let [first, second, third] = &mut tables;
    let plan = Plan::new(&modulus, 22, first).unwrap();
    assert_eq!(plan, Plan::new(&modulus, 22, second).unwrap());
    assert_ne!(plan, Plan::new(&modulus, 75, third).unwrap());
}

#[test]
fn integers_are_divided_by_words() {
    let x = VanillaInt::<u8>::new(10, &21);
    let (borrowed, four) = (&x, &4);
    assert_eq!([x / 4, x / four, borrowed / 4, borrowed / four].map(|it| it.residue()), [13; 4]); // 4 * 13 = 2 * 21 + 10
    assert_eq!((x / 25).residue(), 13); // a word counts by its residue
    let mut y = x;
    y /= 4;
    y /= &5;
    assert_eq!((y * 20).residue(), 10);
}

#[test]
fn errors_of_places_are_errors_of_corrections() {
    fn refuse() -> Result<(), CorrectError<u64>> {
        Err(RestoreError::PlaceTwice)?;
        Ok(())
    }
    assert_eq!(refuse(), Err(CorrectError::Restore(RestoreError::PlaceTwice)));
}

/// A command that returns something else each time that it is read.
struct Alternating(Cell<u32>);

impl AsCommand<u64> for Alternating {
    fn command(&self) -> RingCommand<u64> {
        self.0.set(self.0.get() + 1);
        [RingCommand::Neg { dst: 1, a: 1 }, RingCommand::Load { dst: 0, n: 5 }][self.0.get() as usize % 2]
    }
}

/// `run` carries out what it read, all of one command, whichever that was; a debug build reads the register numbers before.
#[test]
fn a_command_is_read_once() {
    for reads in 0..2 {
        let commands = [Alternating(Cell::new(reads))];
        let mut registers = [3, 7];
        assert_eq!(run(&Vanilla::<u64>::new(&97), &mut registers, &commands), RunEnd::Done);
        let read = commands[0].0.get();
        assert_eq!(registers, [[3, 90], [5, 7]][read as usize % 2]);
        assert_eq!(read, reads + 1 + u32::from(cfg!(debug_assertions)));
    }
}

/// Without a feature where `core` has `Error`.
#[test]
#[cfg(any(feature = "std", has_core_error))]
fn errors_in_boxes() {
    fn message(places: &[usize]) -> Result<[u64; 2], Box<dyn std::error::Error>> {
        let (ring, mut message) = (Vanilla::<u64>::new(&97), [0; 2]);
        restore(&ring, &[1, 2, 3, 4], places, &[33, 19], &mut [0; 2], &mut [0; 2], &mut message)?;
        Ok(message)
    }
    assert_eq!(message(&[3, 1]).unwrap(), [5, 7]);
    assert_eq!(message(&[3, 3]).unwrap_err().to_string(), "a place occurs twice");
}
