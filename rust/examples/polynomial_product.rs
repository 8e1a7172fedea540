//! The product of two polynomials modulo the prime 119·2^23 + 1, by a plan: one table serves both transforms.

use num_modular::plans::{Factor, Plan, PlannedModulus};
use num_modular::ring::find_root;
use num_modular::{Reducer, Vanilla};

const PRIME: u32 = 998244353;

fn product(x: &[u32], y: &[u32]) -> Vec<u32> {
    let places = x.len() + y.len() - 1;
    let n = places.next_power_of_two().max(2);
    let root = find_root(&Vanilla::<u32>::new(&PRIME), n).expect("n divides the prime less 1");
    let modulus = PlannedModulus::<u32>::new(PRIME);
    let mut table = vec![Factor::ZERO; n / 2];
    let plan = Plan::new(&modulus, root, &mut table).expect("the root suits n, and the modulus is odd");
    let (mut xs, mut ys) = (x.to_vec(), y.to_vec());
    xs.resize(n, 0);
    ys.resize(n, 0);
    plan.convolve(&mut xs, &mut ys);
    xs.truncate(places);
    xs
}

fn main() {
    // (1 + 2X + 3X²)(4 + 5X), and (X - 1)(X + 1)
    assert_eq!(product(&[1, 2, 3], &[4, 5]), [4, 13, 22, 15]);
    assert_eq!(product(&[PRIME - 1, 1], &[1, 1]), [PRIME - 1, 0, 1]);
    println!("(1 + X)^2 has the coefficients {:?}", product(&[1, 1], &[1, 1]));
}
