//! Transforms and cyclic products of whole lists: the port, and two loops over the Rust crate's
//! reducers, by columns and with a table of powers on the heap.

use crate::report::{Growth, Rows};
use num_modular::{FixedTrinomialSolinas64, Montgomery, Reducer};
use std::time::Instant;

/// 2^64 - 2^32 + 1, whose units have the order 2^32 * (2^32 - 1), with the generator 7.
const MODULUS: u64 = u64::MAX - (1 << 32) + 2;

unsafe extern "C" {
    fn bench_solinas_ntt(xs: *mut u64, length: usize, g: u64) -> bool;
    fn bench_montgomery_ntt(xs: *mut u64, length: usize, g: u64) -> bool;
    fn bench_solinas_convolve(xs: *mut u64, length: usize, ys: *mut u64, others: usize, g: u64) -> bool;
    fn bench_montgomery_convolve(xs: *mut u64, length: usize, ys: *mut u64, others: usize, g: u64) -> bool;
}

type Transform = fn(xs: &mut [u64], g: u64);
type Product = fn(xs: &mut [u64], ys: &mut [u64], g: u64);

fn port_solinas_ntt(xs: &mut [u64], g: u64) {
    assert!(unsafe { bench_solinas_ntt(xs.as_mut_ptr(), xs.len(), g) });
}

pub fn port_montgomery_ntt(xs: &mut [u64], g: u64) {
    assert!(unsafe { bench_montgomery_ntt(xs.as_mut_ptr(), xs.len(), g) });
}

fn port_solinas_convolve(xs: &mut [u64], ys: &mut [u64], g: u64) {
    assert!(unsafe { bench_solinas_convolve(xs.as_mut_ptr(), xs.len(), ys.as_mut_ptr(), ys.len(), g) });
}

pub fn port_montgomery_convolve(xs: &mut [u64], ys: &mut [u64], g: u64) {
    assert!(unsafe { bench_montgomery_convolve(xs.as_mut_ptr(), xs.len(), ys.as_mut_ptr(), ys.len(), g) });
}

fn reverse_places(xs: &mut [u64]) {
    let unused = usize::BITS - xs.len().trailing_zeros();
    for place in 0..xs.len() {
        let other = place.reverse_bits().checked_shr(unused).unwrap_or(0);
        if place < other {
            xs.swap(place, other);
        }
    }
}

/// A stage after the other, column by column: no memory, and long strides.
fn by_columns<R: Reducer<u64>>(r: &R, xs: &mut [u64], g: u64) {
    let mut root = r.transform(g);
    let mut half = xs.len() / 2;
    while half > 0 {
        let mut power = r.transform(1);
        for column in 0..half {
            for low in (column..xs.len()).step_by(2 * half) {
                let (a, b) = (xs[low], xs[low + half]);
                xs[low] = r.add(&a, &b);
                xs[low + half] = r.mul(&r.sub(&a, &b), &power);
            }
            power = r.mul(&power, &root);
        }
        root = r.sqr(root);
        half /= 2;
    }
    reverse_places(xs);
}

/// Block by block, with a table of powers on the heap.
fn with_table<R: Reducer<u64>>(r: &R, xs: &mut [u64], g: u64) {
    let root = r.transform(g);
    let mut powers = Vec::with_capacity(xs.len() / 2);
    let mut power = r.transform(1);
    for _ in 0..xs.len() / 2 {
        powers.push(power);
        power = r.mul(&power, &root);
    }
    let mut half = xs.len() / 2;
    let mut stride = 1;
    while half > 0 {
        for block in xs.chunks_exact_mut(2 * half) {
            let (lows, highs) = block.split_at_mut(half);
            for ((low, high), power) in lows.iter_mut().zip(highs).zip(powers.iter().step_by(stride)) {
                let (a, b) = (*low, *high);
                *low = r.add(&a, &b);
                *high = r.mul(&r.sub(&a, &b), power);
            }
        }
        half /= 2;
        stride *= 2;
    }
    reverse_places(xs);
}

fn convolve<R: Reducer<u64>>(r: &R, xs: &mut [u64], ys: &mut [u64], g: u64, transform: fn(&R, &mut [u64], u64)) {
    transform(r, xs, g);
    transform(r, ys, g);
    for (x, y) in xs.iter_mut().zip(&*ys) {
        *x = r.mul(x, y);
    }
    transform(r, xs, g);
    xs[1..].reverse();
    let part = r.inv(r.transform(xs.len() as u64)).expect("a power of two has an inverse");
    for x in xs {
        *x = r.mul(x, &part);
    }
}

fn solinas() -> FixedTrinomialSolinas64<64, 32, 1> {
    FixedTrinomialSolinas64::new(&MODULUS)
}

fn montgomery() -> Montgomery<u64> {
    <Montgomery<u64> as Reducer<u64>>::new(&MODULUS)
}

/// 7 to the (m - 1)/n: a root of -1 to the half of n.
pub fn root(n: usize) -> u64 {
    let (mut power, mut product, mut rest) = (7u128, 1u128, (MODULUS - 1) / n as u64);
    while rest > 0 {
        if rest % 2 == 1 {
            product = product * power % MODULUS as u128;
        }
        power = power * power % MODULUS as u128;
        rest /= 2;
    }
    product as u64
}

fn list(n: usize, seed: u64) -> Vec<u64> {
    (0..n as u64).map(|i| (i * i).wrapping_mul(0x9e37_79b9_7f4a_7c15).wrapping_add(seed) % MODULUS).collect()
}

type Run<'a> = &'a dyn Fn(&mut [u64], &mut [u64]);

/// The milliseconds of one turn, and the answer.
fn turn(n: usize, run: Run) -> (f64, Vec<u64>) {
    let (mut xs, mut ys) = (list(n, 3), list(n, 14));
    let start = Instant::now();
    run(&mut xs, &mut ys);
    (start.elapsed().as_secs_f64() * 1e3, xs)
}

/// The best of some turns, one after the other.
fn best<const N: usize>(n: usize, turns: usize, runs: [Run; N]) -> [f64; N] {
    let mut best = [f64::INFINITY; N];
    for _ in 0..turns {
        for (least, run) in best.iter_mut().zip(runs) {
            *least = least.min(turn(n, run).0);
        }
    }
    best
}

/// What is measured at a length: the port, by columns and with a table.
fn on_transform<R: Reducer<u64>, T>(r: &R, n: usize, port: Transform, then: impl Fn([Run; 3]) -> T) -> T {
    let g = root(n);
    then([&|xs, _| port(xs, g), &|xs, _| by_columns(r, xs, g), &|xs, _| with_table(r, xs, g)])
}

fn on_product<R: Reducer<u64>, T>(r: &R, n: usize, port: Product, then: impl Fn([Run; 3]) -> T) -> T {
    let g = root(n);
    then([
        &|xs, ys| port(xs, ys, g),
        &|xs, ys| convolve(r, xs, ys, g, by_columns),
        &|xs, ys| convolve(r, xs, ys, g, with_table),
    ])
}

/// Something of each transform and each product at a length.
fn each<T>(n: usize, then: impl Fn([Run; 3]) -> T) -> [(&'static str, T); 4] {
    [
        ("FixedTrinomialSolinas64: ntt", on_transform(&solinas(), n, port_solinas_ntt, &then)),
        ("Montgomery: ntt", on_transform(&montgomery(), n, port_montgomery_ntt, &then)),
        ("FixedTrinomialSolinas64: convolve", on_product(&solinas(), n, port_solinas_convolve, &then)),
        ("Montgomery: convolve", on_product(&montgomery(), n, port_montgomery_convolve, &then)),
    ]
}

/// Whether the three answer alike.
pub fn agree() -> bool {
    let mut same = true;
    for bits in [1, 2, 5, 10, 13] {
        for (name, alike) in each(1 << bits, |runs| {
            let [one, two, three] = runs.map(|run| turn(1 << bits, run).1);
            one == two && one == three
        }) {
            if !alike {
                eprintln!("{name}: other answers for 2^{bits} entries");
                same = false;
            }
        }
    }
    same
}

/// The table of transforms and products.
pub fn measured() -> Rows {
    let mut lines = Vec::new();
    for bits in [10, 16, 20] {
        let turns = if bits > 17 { 15 } else { 60 };
        for (place, (name, times)) in each(1 << bits, |runs| best(1 << bits, turns, runs)).into_iter().enumerate() {
            lines.push((place, (format!("{name}, 2^{bits}"), times.to_vec())));
        }
    }
    lines.sort_by_key(|(place, _)| *place);
    Rows {
        key: "transforms",
        title: "Transforms and cyclic products of whole lists over 2^64 - 2^32 + 1".to_string(),
        heads: vec!["port ms", "columns ms", "table ms"],
        ratios: vec![("port/columns", 0, 1), ("port/table", 0, 2)],
        lines: lines.into_iter().map(|(_, line)| line).collect(),
    }
}

/// The times of the transforms against their lengths, the port's alone.
pub fn growth() -> Growth {
    let lines = (4..=18).step_by(2).map(|bits| {
        let n = 1 << bits;
        let turns = if bits > 14 { 20 } else { 200 };
        let over_solinas = on_transform(&solinas(), n, port_solinas_ntt, |runs| best(n, turns, [runs[0]]))[0];
        let over_montgomery = on_transform(&montgomery(), n, port_montgomery_ntt, |runs| best(n, turns, [runs[0]]))[0];
        vec![n as f64, over_solinas * 1e6, over_montgomery * 1e6]
    });
    Growth { key: "transforms", heads: vec!["entries", "Solinas ns", "Montgomery ns"], lines: lines.collect() }
}
