//! Times and counted steps against sizes.

use crate::measure::{FIRST, Random, SECOND, best};
use crate::lines::PRIME;
use crate::original;
use crate::port::{self, Bench, POWER};
use crate::report::Growth;
use crate::transforms;
use crate::users;

/// How many pairs of numbers are counted for each size.
const PAIRS: usize = 2000;

/// An odd number of as many bits as are asked for.
fn odd(bits: u32, random: &mut Random) -> u64 {
    (random.next() >> (64 - bits)) | 1 << (bits - 1) | 1
}

fn powers() -> Growth {
    let sizes = [3, 4, 6, 8, 12, 16, 20, 24, 28, 32, 40, 48, 56, 64];
    let lines = sizes.map(|digits| {
        let exponent = SECOND >> (64 - digits);
        let functions: [Bench; 3] = [port::powm, original::powm, port::over_montgomery::<POWER>];
        let mut line = vec![digits as f64];
        line.extend(best(functions, (FIRST, exponent, PRIME)));
        line
    });
    Growth { key: "powers", heads: vec!["digits of the exponent", "powm ns", "crate ns", "Montgomery::pow ns"], lines: lines.to_vec() }
}

/// The mean and the greatest count of steps for odd moduli of so many bits.
fn counted(bits: u32, count: impl Fn(u64, u64) -> u32) -> [f64; 2] {
    let mut random = Random(bits as u64);
    let (mut sum, mut most) = (0, 0);
    for _ in 0..PAIRS {
        let m = odd(bits, &mut random);
        let steps = count(random.next() % m, m);
        sum += steps as u64;
        most = most.max(steps);
    }
    [sum as f64 / PAIRS as f64, most as f64]
}

fn against_bits(key: &'static str, functions: [Bench; 2], count: fn(u64, u64) -> u32) -> Growth {
    let mut lines = Vec::new();
    for bits in (4..=64).step_by(4) {
        let mut random = Random(bits as u64 + 1);
        let m = odd(bits, &mut random);
        let operands = (FIRST >> (64 - bits), SECOND >> (64 - bits) | 1, m);
        let mut line = vec![bits as f64];
        line.extend(best(functions, operands));
        line.extend(counted(bits, count));
        line.push(2.0 * bits as f64);
        lines.push(line);
    }
    Growth { key, heads: vec!["bits", "port ns", "crate ns", "steps, mean", "steps, most", "proved bound"], lines }
}

/// Each growth that the picture shows.
pub fn measured() -> Vec<Growth> {
    let [products, searches] = users::growth();
    vec![
        powers(),
        against_bits("inverses", [port::invm, original::invm], port::divisions),
        against_bits("symbols", [port::checked_jacobi_short, original::checked_jacobi_short], port::halvings),
        transforms::growth(),
        products,
        searches,
    ]
}
