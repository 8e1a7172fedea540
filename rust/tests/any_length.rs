//! Transforms of any length, compared with the sums of their definition, and taken back.
#![cfg(target_pointer_width = "64")]

use num_modular::applications::long_product::any_length::{intt, is_root_of_order, ntt, room, LEAST_CONVOLVED};
use num_modular::applications::long_product::fill_plans;
use num_modular::plans::Factor;
use num_modular::{ModularCoreOps, ModularPow};

// Words by a linear congruential generator (Knuth, The Art of Computer Programming, volume 2, section 3.3.4).
fn words(seed: u64, n: usize) -> Vec<u64> {
    let mut word = seed;
    (0..n)
        .map(|_| {
            word = word.wrapping_mul(6364136223846793005).wrapping_add(1442695040888963407);
            word
        })
        .collect()
}

fn sums(m: u64, g: u64, xs: &[u64]) -> Vec<u64> {
    let entry = |j| {
        let step = g.powm(j as u64, &m);
        let mut power = 1 % m;
        let mut sum = 0;
        for &x in xs {
            sum = x.mulm(power, &m).addm(sum, &m);
            power = power.mulm(step, &m);
        }
        sum
    };
    (0..xs.len()).map(entry).collect()
}

// The transform of words of this length, and the transform back of its result.
fn there_and_back(m: u64, g: u64, xs: &[u64]) -> (Option<Vec<u64>>, Option<Vec<u64>>) {
    let n = xs.len();
    let (length, factors) = room(n);
    let factors = factors.max(1);
    let [mut first, mut second, mut third] = [0; 3].map(|_| vec![Factor::<u64>::ZERO; factors]);
    let plans = fill_plans(&mut first, &mut second, &mut third).unwrap();
    let (mut there, mut back, mut scratch) = (vec![7; n], vec![7; n], vec![7; length]);
    let done = ntt(m, g, xs, &mut there, &mut scratch, &plans);
    let undone = done && intt(m, g, &there, &mut back, &mut scratch, &plans);
    (done.then_some(there), undone.then_some(back))
}

#[test]
fn transforms_are_the_sums() {
    let lengths = (0..4 * LEAST_CONVOLVED).chain([199, 200, 341, 1000]);
    for n in lengths {
        for m in [1, 2, 97, 1_000_000_007, (1 << 63) - 25, 1 << 63, u64::MAX] {
            let g = if m % 2 == 0 { 3 } else { 2 };
            let xs = words(m ^ n as u64, n);
            assert_eq!(there_and_back(m, g, &xs).0, Some(sums(m, g, &xs)), "{m} {n}");
        }
    }
}

#[test]
fn transforms_come_back() {
    let m = 998_244_353; // 119 * 2^23 + 1
    for n in [1, 2, 7, 14, 17, 34, 119, 136, 952, 1904] {
        let g = 3.powm((m - 1) / n, &m);
        assert!(is_root_of_order(m, g, n as usize));
        assert!(!is_root_of_order(m, g, 2 * n as usize));
        let xs = words(n, n as usize);
        let residues = xs.iter().map(|x| x % m).collect();
        assert_eq!(there_and_back(m, g, &xs).1, Some(residues), "{n}");
    }
}
