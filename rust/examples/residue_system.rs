//! Numbers by their residues modulo several words: a product of two numbers of 60 bits, residue by residue.

use num_modular::residues::{decode, encode, is_system};
use num_modular::ModularCoreOps;

fn main() {
    // 2^64 - 59 is prime, and 2^64 - 1 has only smaller factors
    let moduli = [18446744073709551557, 18446744073709551615];
    assert!(is_system(&moduli) && !is_system(&[6, 9]));
    let (x, y) = (1_000_000_007_u128 << 30, 998_244_353_u128 << 30);
    let (mut left, mut right) = ([0; 2], [0; 2]);
    encode(&moduli, x, &mut left);
    encode(&moduli, y, &mut right);
    let products = [0, 1].map(|i| left[i].mulm(right[i], &moduli[i]));
    assert_eq!(decode(&moduli, &products), x * y);
    println!("{x} * {y} = {}", decode(&moduli, &products));
}
