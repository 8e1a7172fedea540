//! The Cargo crate's functions of `ring` over lists of 1,000 entries, beside FLINT's `nmod_vec`.

use crate::lines::PRIME;
use crate::measure::Random;
use crate::report::Rows;
use erased::ring::{add_lists, dot_product, multiply_lists, scale_list, sub_lists};
use erased::{Montgomery, PreMulInv2by1, Reducer};
use std::hint::black_box;
use std::time::Instant;

const ENTRIES: usize = 1000;

/// 2^62 - 57 and 2^30 - 35, primes: the sum of two residues fits a word.
const MODULI: [(&str, u64); 3] = [("2^64 - 59", PRIME), ("2^62 - 57", (1 << 62) - 57), ("2^30 - 35", (1 << 30) - 35)];

const OPERATIONS: [&str; 5] = ["add_lists", "sub_lists", "multiply_lists", "scale_list", "dot_product"];

unsafe extern "C" {
    fn peer_flint_list(operation: i32, m: u64, xs: *mut u64, ys: *const u64, n: i64);
}

fn by_flint(operation: usize, m: u64, xs: &mut [u64], ys: &[u64]) {
    unsafe { peer_flint_list(operation as i32, m, xs.as_mut_ptr(), ys.as_ptr(), xs.len() as i64) }
}

fn by_ring<R: Reducer<u64>>(operation: usize, r: &R, xs: &mut [u64], ys: &[u64]) {
    match operation {
        0 => add_lists(r, xs, ys),
        1 => sub_lists(r, xs, ys),
        2 => multiply_lists(r, xs, ys),
        3 => scale_list(r, xs, &ys[0]),
        _ => xs[0] = dot_product(r, xs, ys),
    }
}

/// The nanoseconds an entry that the fastest of many turns takes.
fn least(mut turn: impl FnMut()) -> f64 {
    let times = (0..4000).map(|_| {
        let start = Instant::now();
        turn();
        start.elapsed().as_nanos() as f64 / ENTRIES as f64
    });
    times.fold(f64::INFINITY, f64::min)
}

fn residues(seed: u64, m: u64) -> Vec<u64> {
    let mut random = Random(seed);
    (0..ENTRIES).map(|_| random.next() % m).collect()
}

/// The nanoseconds an entry over a reducer, of which the result must be FLINT's.
fn over<R: Reducer<u64>>(r: &R, operation: usize, xs: &[u64], ys: &[u64], expected: &[u64]) -> f64 {
    let forms = |words: &[u64]| words.iter().map(|x| r.transform(*x)).collect::<Vec<u64>>();
    let (mut xs, ys) = (forms(xs), forms(ys));
    by_ring(operation, r, &mut xs, &ys);
    let count = if operation == OPERATIONS.len() - 1 { 1 } else { ENTRIES };
    assert!(xs.iter().zip(expected).take(count).all(|(form, residue)| r.residue(*form) == *residue));
    least(|| by_ring(operation, r, &mut xs, black_box(&ys)))
}

/// The times over two reducers, and FLINT's.
fn times(operation: usize, m: u64) -> Vec<f64> {
    let (mut xs, ys) = (residues(1, m), residues(2, m));
    let words = xs.clone();
    by_flint(operation, m, &mut xs, &ys);
    vec![
        over(&<PreMulInv2by1<u64> as Reducer<u64>>::new(&m), operation, &words, &ys, &xs),
        over(&<Montgomery<u64> as Reducer<u64>>::new(&m), operation, &words, &ys, &xs),
        least(|| by_flint(operation, m, &mut xs, black_box(&ys))),
    ]
}

/// The table.
pub fn measured() -> Rows {
    let all = MODULI.iter().flat_map(|(name, m)| {
        OPERATIONS.iter().enumerate().map(move |(i, operation)| (format!("{operation}, modulo {name}"), times(i, *m)))
    });
    Rows {
        key: "lists",
        title: "Lists of 1,000 words by the Cargo crate, and by FLINT's `nmod_vec`: an entry".to_string(),
        heads: vec!["PreMulInv2by1 ns", "Montgomery ns", "FLINT ns"],
        ratios: vec![("PreMulInv2by1/FLINT", 0, 2), ("Montgomery/FLINT", 1, 2)],
        lines: all.collect(),
    }
}
