//! Transforms and products by a plan of the Cargo crate: of words of 32 bits beside words of 64 bits, turn by turn. It prints
//! a table in JSON, whose key says for which processors the program was built.

use num_modular::plans::{Factor, Plan, PlannedModulus};
use num_modular::ring::find_root;
use num_modular::{Reducer, Vanilla};
use std::hint::black_box;
use std::time::Instant;

/// 119·2^23 + 1, a prime below a fourth of 2^32.
const SMALL: u32 = 119 << 23 | 1;
/// 29·2^57 + 1, a prime below a fourth of 2^64.
const LARGE: u64 = 29 << 57 | 1;

const ROUNDS: usize = 100;
/// How many entries are transformed between two readings of the clock.
const ENTRIES: usize = 1 << 17;

/// What is measured, by its name.
const OPERATIONS: [&str; 3] = ["forward", "back", "product"];

/// Makes a type for one width: lists, a table, and the nanoseconds an entry of an operation over them.
macro_rules! lists {
    ($name:ident, $word:ty, $prime:expr) => {
        struct $name {
            root: $word,
            table: Vec<Factor<$word>>,
            xs: Vec<$word>,
            ys: Vec<$word>,
        }

        impl $name {
            fn new(bits: u32) -> Self {
                let n = 1 << bits;
                let root = find_root(&Vanilla::<$word>::new(&$prime), n).unwrap();
                let mut table = vec![Factor::<$word>::ZERO; n / 2];
                assert!(Plan::new(&PlannedModulus::<$word>::new($prime), root, &mut table).is_some());
                let list = |a: $word| (0..n as $word).map(|i| i.wrapping_mul(i).wrapping_add(a) % $prime).collect();
                Self { root, table, xs: list(1), ys: list(2) }
            }

            fn nanoseconds(&mut self, operation: &str) -> f64 {
                let plan = Plan::with_table(&PlannedModulus::<$word>::new($prime), self.root, &self.table).unwrap();
                let (xs, ys) = (&mut self.xs[..], &mut self.ys[..]);
                let times = ENTRIES / xs.len();
                let start = Instant::now();
                for _ in 0..times {
                    match operation {
                        "forward" => plan.split(black_box(&mut *xs), 0, 1),
                        "back" => plan.join(black_box(&mut *xs), 0, 1),
                        _ => plan.convolve(black_box(&mut *xs), black_box(&mut *ys)),
                    }
                }
                start.elapsed().as_secs_f64() * 1e9 / ENTRIES as f64
            }
        }
    };
}

lists!(Small, u32, SMALL);
lists!(Large, u64, LARGE);

/// A line of the table: 2^small words of 32 bits beside 2^large words of 64.
fn line(operation: &str, small: u32, large: u32) -> String {
    let (mut ours, mut others) = (Small::new(small), Large::new(large));
    let mut best = [f64::INFINITY; 2];
    for _ in 0..ROUNDS {
        best[0] = best[0].min(ours.nanoseconds(operation));
        best[1] = best[1].min(others.nanoseconds(operation));
    }
    let name = format!("{operation}, 2^{small} words of 32 bits and 2^{large} of 64");
    format!(r#"{{"name": "{name}", "numbers": [{:.3}, {:.3}, {:.4}]}}"#, best[0], best[1], best[0] / best[1])
}

fn main() {
    let (key, built) = if cfg!(target_feature = "avx2") { ("v3", "for x86-64-v3") } else { ("default", "by default") };
    let lengths = [(8, 10), (10, 10), (12, 12), (16, 16)];
    let lines = OPERATIONS.iter().flat_map(|it| lengths.iter().map(move |(small, large)| line(it, *small, *large)));
    let lines = lines.collect::<Vec<_>>().join(", ");
    let title = format!("By a plan, built {built}: nanoseconds an entry");
    println!(r#"{{"key": "{key}", "title": "{title}", "heads": ["u32 ns", "u64 ns", "quotient"], "lines": [{lines}]}}"#);
}
