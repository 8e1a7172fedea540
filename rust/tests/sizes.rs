//! The reducers of moduli that are parameters hold nothing when the program runs; constants can be made of what a `const fn`
//! answers; and types of the library may stand in a struct without bounds, and behind a `dyn`.

use num_modular::{
    FixedMersenne, FixedMersenne32, FixedMersenne64, FixedMontgomery32, FixedMontgomery64, FixedProth32, FixedProth64,
    FixedTrinomialSolinas32, FixedTrinomialSolinas64, ModularInteger, ModularRefOps, ModularSymbols, Montgomery,
    Normalized2by1Divisor, PreModInv, PreMulInv1by1, PreMulInv2by1, ReducedInt, Reducer, Vanilla, VanillaInt,
};
use std::mem::size_of;

#[test]
fn fixed_reducers_hold_nothing() {
    let sizes = [
        size_of::<FixedMontgomery32<4294967291>>(),
        size_of::<FixedMontgomery64<18446744073709551557>>(),
        size_of::<FixedProth32<23, 255>>(),
        size_of::<FixedProth64<32, 3>>(),
        size_of::<FixedMersenne32<31, 1>>(),
        size_of::<FixedMersenne64<61, 1>>(),
        size_of::<FixedMersenne<61, 1>>(),
        size_of::<FixedTrinomialSolinas32<32, 20, 1>>(),
        size_of::<FixedTrinomialSolinas64<64, 32, 1>>(),
    ];
    assert_eq!(sizes, [0; 9]);
}

#[test]
fn constants_of_const_functions() {
    const BY_SEVEN: PreModInv<u8> = PreModInv::<u8>::new(183, 36);
    let made: PreModInv<u8> = 7u8.into();
    assert_eq!(BY_SEVEN, made);
}

#[test]
fn equal_reducers() {
    assert_eq!(Vanilla::<u8>::new(&7), Vanilla::<u8>::new(&7));
    assert_ne!(Vanilla::<u8>::new(&7), Vanilla::<u8>::new(&9));
    assert_eq!(Montgomery::<u64>::new(12), Montgomery::<u64>::new(12));
    assert_ne!(Montgomery::<u64>::new(12), Montgomery::<u64>::new(3));
    assert_eq!(FixedMontgomery32::<7>::new(&7), FixedMontgomery32::<7>::RING);
    assert_eq!(FixedMersenne64::<61, 1>::RING, FixedMersenne64::<61, 1>::new(&FixedMersenne64::<61, 1>::MODULUS));
    assert_ne!(PreModInv::<u8>::from(7), PreModInv::<u8>::from(9));
}

#[test]
fn constants_of_constructors() {
    const RING: Montgomery<u64> = Montgomery::<u64>::new(97);
    const SIXTY: PreMulInv1by1<u32> = PreMulInv1by1::<u32>::new(60);
    const DIVISOR: Normalized2by1Divisor<u8> = Normalized2by1Divisor::<u8>::new(130);
    const SCALED: PreMulInv2by1<u64> = PreMulInv2by1::<u64>::new(97);
    assert_eq!(RING.residue(RING.mul(&RING.transform(50), &RING.transform(50))), 75);
    assert_eq!(SIXTY.div_rem(3725, 60), (62, 5));
    assert_eq!(DIVISOR.div_rem_2by1(33024), (254, 4));
    assert_eq!(SCALED.residue(SCALED.transform(1000)), 30);
}

#[test]
fn structs_without_bounds() {
    struct Rings<T> {
        ring: Montgomery<T>,
        by: PreMulInv2by1<T>,
        plain: Vanilla<T>,
    }
    struct Integer<T, R>(ReducedInt<T, R>);
    let rings = Rings { ring: Montgomery::<u8>::new(97), by: PreMulInv2by1::of(97), plain: Vanilla::new(&97) };
    assert_eq!([rings.ring.modulus(), rings.by.modulus(), rings.plain.modulus()], [97; 3]);
    assert_eq!(Integer(VanillaInt::<u8>::new(3, &7)).0.residue(), 3);
}

#[test]
fn symbols_of_any_number() {
    let numbers: [&dyn for<'a> ModularSymbols<&'a u64>; 2] = [&2u64, &7u64];
    assert_eq!(numbers.map(|x| x.jacobi(&15)), [1, -1]);
}

#[test]
fn code_for_the_original_with_its_replacements() {
    fn square<T: num_modular::RingWord, R: Reducer<T>>(ring: &R, a: &T) -> T {
        ring.residue(ring.sqr(ring.transform(*a)))
    }
    fn sum<T: num_modular::ModularRefOps + Copy>(a: T, b: T, m: &T) -> T {
        a.addm_ref(&b, m)
    }
    // written for the original, and unchanged
    fn difference<T: ModularRefOps>(a: T, b: T, m: &T) -> Option<T> {
        assert_eq!(a.jacobi(m), 1);
        a.subm(&b, m).powm(&b, m).invm(m)
    }
    assert_eq!(difference(11u64, 4, &19), Some(11));
    fn double<T: num_modular::RingWord, R: Reducer<T> + Copy>(x: ReducedInt<T, R>) -> T {
        (x + x).residue()
    }
    assert_eq!((square(&FixedMersenne64::<61, 1>::RING, &3), sum(3u8, 4, &5), double(VanillaInt::<u8>::new(4, &7))), (9, 2, 1));
}
