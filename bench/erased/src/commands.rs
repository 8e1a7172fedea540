//! Lists of commands of six kinds through `run` in the Cargo crate, beside a loop over the Rust crate's reducer that reads
//! the same commands.

use crate::{ROUNDS, Random, Total};
use erased::ring::{RingCommand, run};
use num_modular::Reducer;
use std::hint::black_box;
use std::time::Instant;

const PRIME: u64 = 18446744073709551557; // 2^64 - 59
const RUNS: u64 = 100;

/// Registers: 128 terms, and two that lists write besides.
type Registers = [u64; 130];
const PART: usize = 128;
const SUM: usize = 129;

type Commands = Vec<RingCommand<u64>>;
type Way = fn(xs: &mut Registers, list: &[RingCommand<u64>]);

const fn add(dst: usize, a: usize, b: usize) -> RingCommand<u64> {
    RingCommand::Add { dst, a, b }
}

const fn sub(dst: usize, a: usize, b: usize) -> RingCommand<u64> {
    RingCommand::Sub { dst, a, b }
}

const fn mul(dst: usize, a: usize, b: usize) -> RingCommand<u64> {
    RingCommand::Mul { dst, a, b }
}

/// The sum of 64 products.
fn inner_product() -> Commands {
    (0..64).flat_map(|i| [mul(PART, i, 64 + i), add(SUM, SUM, PART)]).collect()
}

/// A polynomial with 64 terms, by Horner's rule.
fn polynomial() -> Commands {
    (0..64).flat_map(|i| [mul(SUM, SUM, 0), add(SUM, SUM, 64 + i)]).collect()
}

/// Sums, differences and products of eight registers, drawn at random.
fn random() -> Commands {
    let mut random = Random(8);
    let mut register = || (random.next() % 8) as usize;
    (0..128).map(|_| ([add, sub, mul][register() % 3])(register(), register(), register())).collect()
}

/// A power by squares and products, for an exponent whose every third bit is set.
fn ladder() -> Commands {
    (0..96).flat_map(|i| [mul(SUM, SUM, SUM), mul(SUM, SUM, 0)].into_iter().take(1 + usize::from(i % 3 == 0))).collect()
}

/// Squares, negatives, doubles and products of eight registers, drawn at random.
fn of_one_operand() -> Commands {
    let mut random = Random(9);
    let mut register = || (random.next() % 8) as usize;
    let command = |kind, dst, a, b| match kind % 4 {
        0 => RingCommand::Sqr { dst, a },
        1 => RingCommand::Neg { dst, a },
        2 => RingCommand::Dbl { dst, a },
        _ => mul(dst, a, b),
    };
    (0..128).map(|_| command(register(), register(), register(), register())).collect()
}

/// A transform of 16 numbers: four passes of eight butterflies.
fn transform() -> Commands {
    let pairs = |half: usize| (0..16).filter(move |i| i & half == 0).map(move |i| (i, i + half));
    let butterfly = |(low, high): (usize, usize)| [sub(PART, low, high), add(low, low, high), mul(high, PART, 64 + low)];
    [8, 4, 2, 1].into_iter().flat_map(pairs).flat_map(butterfly).collect()
}

fn by_run(xs: &mut Registers, list: &[RingCommand<u64>]) {
    let reducer = erased::Montgomery::<u64>::new(black_box(PRIME));
    for _ in 0..RUNS {
        black_box(run(&reducer, xs, list));
    }
}

fn by_loop(xs: &mut Registers, list: &[RingCommand<u64>]) {
    let reducer = <num_modular::Montgomery<u64> as Reducer<u64>>::new(&black_box(PRIME));
    for _ in 0..RUNS {
        for command in list {
            match *command {
                RingCommand::Add { dst, a, b } => xs[dst] = reducer.add(&xs[a], &xs[b]),
                RingCommand::Sub { dst, a, b } => xs[dst] = reducer.sub(&xs[a], &xs[b]),
                RingCommand::Mul { dst, a, b } => xs[dst] = reducer.mul(&xs[a], &xs[b]),
                RingCommand::Sqr { dst, a } => xs[dst] = reducer.sqr(xs[a]),
                RingCommand::Neg { dst, a } => xs[dst] = reducer.neg(xs[a]),
                RingCommand::Dbl { dst, a } => xs[dst] = reducer.dbl(xs[a]),
                _ => return,
            }
        }
    }
}

/// The nanoseconds of a command, by the loop and by `run`, each the least of the rounds.
fn times(name: &str, list: &[RingCommand<u64>]) -> [f64; 2] {
    let mut random = Random(64);
    let start: Registers = std::array::from_fn(|_| random.next() % PRIME);
    let mut least = [f64::MAX; 2];
    for _ in 0..ROUNDS {
        let mut left = [start; 2];
        for (i, way) in [by_loop as Way, by_run].into_iter().enumerate() {
            let begun = Instant::now();
            way(black_box(&mut left[i]), black_box(list));
            least[i] = least[i].min(begun.elapsed().as_nanos() as f64);
        }
        assert_eq!(left[0], left[1], "{name}");
    }
    least.map(|time| time / (RUNS as f64 * list.len() as f64))
}

/// Prints a line for each kind of list.
pub fn compare(total: &mut Total) {
    let lists = [
        ("inner product of 64 terms", inner_product()),
        ("polynomial with 64 terms", polynomial()),
        ("at random, of eight registers", random()),
        ("power by squares", ladder()),
        ("transform of 16 numbers", transform()),
        ("squares, negatives, doubles, products at random", of_one_operand()),
    ];
    for (name, list) in lists {
        let [rust, cargo] = times(name, &list);
        total.add(cargo / rust);
        println!("| u64 | `run`, {name} | {rust:.2} | {cargo:.2} | {:.2} |", cargo / rust);
    }
}
