//! The fixed reducers, for what the files written by hand have for each. Written by hand, and so not proved.

// Each fixed reducer, its integer, and the word of its modulus.
macro_rules! fixed {
    ($for_each:ident) => {
        $for_each! {
            FixedMontgomery32 FixedMontgomeryInt32<const P: u32> u32;
            FixedMontgomery64 FixedMontgomeryInt64<const P: u64> u64;
            FixedProth32 FixedProthInt32<const N: u8, const K: u8> u32;
            FixedProth64 FixedProthInt64<const N: u8, const K: u8> u64;
            FixedMersenne32 FixedMersenneInt32<const P: u8, const K: u32> u32;
            FixedMersenne64 FixedMersenneInt64<const P: u8, const K: u64> u64;
            FixedMersenne FixedMersenneInt<const P: u8, const K: u64> u128;
            FixedTrinomialSolinas32 FixedSolinasInt32<const P1: u8, const P2: u8, const K: i32> u32;
            FixedTrinomialSolinas64 FixedSolinasInt64<const P1: u8, const P2: u8, const K: i64> u64;
        }
    };
}

// Those whose modulus is a type without fields: the word, the reducer of any such modulus and their trait, and the modulus.
macro_rules! kept {
    ($for_each:ident) => {
        $for_each! {
            FixedMontgomery32<const P: u32> u32, OddRing of OddModulus, crate::modular_monty::fixed::OddNumber32;
            FixedMontgomery64<const P: u64> u64, OddRing of OddModulus, crate::modular_monty::fixed::OddNumber64;
            FixedProth32<const N: u8, const K: u8> u32, OddRing of OddModulus, crate::modular_monty::proth::ProthNumber32;
            FixedProth64<const N: u8, const K: u8> u64, OddRing of OddModulus, crate::modular_monty::proth::ProthNumber64;
            FixedMersenne32<const P: u8, const K: u32> u32, FoldRing of FoldModulus, crate::modular_folds::mersenne::Mersenne32;
            FixedMersenne64<const P: u8, const K: u64> u64, FoldRing of FoldModulus, crate::modular_folds::mersenne::Mersenne64;
        }
    };
}
