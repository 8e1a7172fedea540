//! Transforms and products by a plan beside NTL's and FLINT's, and beside this library's own that take no table.

use crate::measure::Random;
use crate::peers::seconds;
use crate::report::{Ratio, Rows};
use crate::transforms::{port_montgomery_convolve, port_montgomery_ntt, root as root_of_original};
use std::ffi::{CStr, c_char};
use std::hint::black_box;
use std::thread;

/// 29·2^57 + 1, a prime of 62 bits.
const LARGE: u64 = 29 << 57 | 1;

/// 119·2^23 + 1, a prime below a fourth of 2^32.
const SMALL: u32 = 119 << 23 | 1;

/// The tables of a plan stand on the stack.
const STACK: usize = 1 << 28;

unsafe extern "C" {
    safe fn peer_ntl_version() -> *const c_char;
    safe fn peer_ntl_prime() -> u64;
    fn peer_ntl_forward(xs: *mut u64, bits: i64);
    fn peer_ntl_back(xs: *mut u64, bits: i64);
    fn peer_ntl_set(xs: *const u64, ys: *const u64, n: i64);
    safe fn peer_ntl_multiply();
    safe fn peer_ntl_coefficient(i: i64) -> u64;
    fn peer_ntl_set_large(p: u64, xs: *const u64, ys: *const u64, n: i64);
    safe fn peer_ntl_multiply_large();
    safe fn peer_ntl_coefficient_large(i: i64) -> u64;
    fn peer_flint_set(p: u64, xs: *const u64, ys: *const u64, n: i64);
    safe fn peer_flint_multiply();
    safe fn peer_flint_coefficient(i: i64) -> u64;
    fn bench_planned(operation: u8, m: u64, g: u64, xs: *mut u64, length: usize, ys: *mut u64, others: usize, n: u64);
    fn bench_planned_u32(
        operation: u8,
        m: u32,
        g: u32,
        xs: *mut u32,
        length: usize,
        ys: *mut u32,
        others: usize,
        n: u64,
    );
}

const SPLIT: u8 = 1;
const JOIN: u8 = 2;
const NATURAL: u8 = 3;
const PRODUCT: u8 = 4;

/// NTL's version.
pub fn version() -> String {
    unsafe { CStr::from_ptr(peer_ntl_version()) }.to_string_lossy().into_owned()
}

fn power(p: u64, x: u64, mut rest: u64) -> u64 {
    let (mut power, mut product) = (x as u128, 1u128);
    while rest > 0 {
        if rest % 2 == 1 {
            product = product * power % p as u128;
        }
        power = power * power % p as u128;
        rest /= 2;
    }
    product as u64
}

/// A root of -1 to the half of n modulo the prime p.
fn root(p: u64, n: usize) -> u64 {
    let roots = (2..).map(|x| power(p, x, (p - 1) / n as u64));
    roots.into_iter().find(|g| power(p, *g, n as u64 / 2) == p - 1).expect("n divides p - 1")
}

fn list(p: u64, n: usize, seed: u64) -> Vec<u64> {
    let mut random = Random(seed);
    (0..n).map(|_| random.next() % p).collect()
}

/// The terms of a polynomial with room for a product as long again.
fn terms(p: u64, n: usize, seed: u64) -> Vec<u64> {
    let mut xs = list(p, n, seed);
    xs[n / 2..].fill(0);
    xs
}

/// A modulus, a root and two lists, on which something is done.
struct Lists {
    p: u64,
    g: u64,
    xs: Vec<u64>,
    ys: Vec<u64>,
}

impl Lists {
    fn new(p: u64, xs: Vec<u64>, ys: Vec<u64>) -> Lists {
        Lists { p, g: root(p, xs.len()), xs, ys }
    }

    /// Makes the plan, and does an operation n times.
    fn planned(&mut self, operation: u8, n: u64) {
        let (xs, ys) = (&mut self.xs, &mut self.ys);
        unsafe { bench_planned(operation, self.p, self.g, xs.as_mut_ptr(), xs.len(), ys.as_mut_ptr(), ys.len(), n) }
    }
}

/// What is measured: something done so many times.
pub type Run<'a> = Box<dyn FnMut(u64) + 'a>;

/// The milliseconds of one of each: the best of some rounds, in turn.
pub fn best(rounds: usize, times: u64, runs: &mut [Run]) -> Vec<f64> {
    let mut best = vec![f64::INFINITY; runs.len()];
    for _ in 0..rounds {
        for (least, run) in best.iter_mut().zip(&mut *runs) {
            let start = seconds();
            run(times);
            *least = least.min((seconds() - start) * 1e3 / times as f64);
        }
    }
    best
}

pub fn repeated<'a>(mut once: impl FnMut() + 'a) -> Run<'a> {
    Box::new(move |times| (0..times).for_each(|_| once()))
}

/// The milliseconds of each operation alone, and of the plan: each operation is done so many times after the plan
/// is made, and the plan alone is taken off.
fn best_planned(
    rounds: usize,
    times: u64,
    lists: &Lists,
    operations: &[u8],
    others: &mut [Run],
) -> (f64, Vec<f64>, Vec<f64>) {
    let run = |operation: u8, turns: u64| -> Run {
        let mut lists = Lists { p: lists.p, g: lists.g, xs: lists.xs.clone(), ys: lists.ys.clone() };
        Box::new(move |_| lists.planned(operation, turns))
    };
    let mut runs: Vec<Run> = vec![run(0, 0)];
    runs.extend(operations.iter().map(|operation| run(*operation, times)));
    let mut ours = vec![f64::INFINITY; runs.len()];
    let mut theirs = vec![f64::INFINITY; others.len()];
    for _ in 0..rounds {
        for (least, time) in ours.iter_mut().zip(best(1, 1, &mut runs)) {
            *least = least.min(time);
        }
        for (least, time) in theirs.iter_mut().zip(best(1, times, others)) {
            *least = least.min(time);
        }
    }
    let plan = ours[0];
    (plan, ours[1..].iter().map(|time| (time - plan) / times as f64).collect(), theirs)
}

/// The rounds and the turns of each for lists of 2^bits entries.
fn rounds(bits: usize) -> (usize, u64) {
    match bits {
        0..=12 => (400, 200),
        13..=17 => (100, 4),
        _ => (50, 2),
    }
}

fn measured_transforms() -> [Vec<(String, Vec<f64>)>; 2] {
    let p = peer_ntl_prime();
    let (mut lines, mut natural) = (Vec::new(), Vec::new());
    for bits in [10, 16, 20] {
        let n = 1 << bits;
        let (many, times) = rounds(bits);
        let lists = Lists::new(p, list(p, n, 1), list(p, n, 2));
        let (mut xs, mut ys, mut zs) = (lists.xs.clone(), lists.xs.clone(), lists.xs.clone());
        let g = root_of_original(n);
        let mut others = [
            repeated(|| unsafe { peer_ntl_forward(xs.as_mut_ptr(), bits as i64) }),
            repeated(|| unsafe { peer_ntl_back(ys.as_mut_ptr(), bits as i64) }),
            repeated(|| port_montgomery_ntt(&mut zs, g)),
        ];
        let (_, ours, theirs) = best_planned(many, times, &lists, &[SPLIT, JOIN, NATURAL], &mut others);
        lines.push((format!("forward, 2^{bits}"), vec![ours[0], theirs[0]]));
        lines.push((format!("back, 2^{bits}"), vec![ours[1], theirs[1]]));
        natural.push((format!("2^{bits}"), vec![ours[2], theirs[2]]));
    }
    lines.sort_by_key(|(name, _)| name.starts_with("back"));
    [lines, natural]
}

/// The products of polynomials of 2^15 and 2^19 terms.
fn measured_products() -> [Vec<(String, Vec<f64>)>; 2] {
    let p = peer_ntl_prime();
    let (mut lines, mut large) = (Vec::new(), Vec::new());
    for bits in [16, 20] {
        let n: usize = 1 << bits;
        let (many, times) = rounds(bits);
        let lists = Lists::new(p, terms(p, n, 1), terms(p, n, 2));
        unsafe { peer_ntl_set(lists.xs.as_ptr(), lists.ys.as_ptr(), n as i64 / 2) };
        let (mut xs, mut ys) = (lists.xs.clone(), lists.ys.clone());
        let g = root_of_original(n);
        let mut others =
            [repeated(|| peer_ntl_multiply()), repeated(|| port_montgomery_convolve(&mut xs, &mut ys, g))];
        let (plan, ours, theirs) = best_planned(many, times, &lists, &[PRODUCT], &mut others);
        let with_plan = plan + ours[0];
        unsafe { peer_flint_set(p, lists.xs.as_ptr(), lists.ys.as_ptr(), n as i64 / 2) };
        let flint = best(many.min(8), 1, &mut [repeated(|| peer_flint_multiply())])[0];
        let name = format!("2^{} terms", bits - 1);
        lines.push((name.clone(), vec![ours[0], with_plan, theirs[0], flint, theirs[1]]));
        let lists = Lists::new(LARGE, terms(LARGE, n, 1), terms(LARGE, n, 2));
        unsafe {
            peer_flint_set(LARGE, lists.xs.as_ptr(), lists.ys.as_ptr(), n as i64 / 2);
            peer_ntl_set_large(LARGE, lists.xs.as_ptr(), lists.ys.as_ptr(), n as i64 / 2);
        }
        let (_, ours, _) = best_planned(many.min(20), times, &lists, &[PRODUCT], &mut []);
        let theirs =
            best(many.min(8), 1, &mut [repeated(|| peer_ntl_multiply_large()), repeated(|| peer_flint_multiply())]);
        large.push((name, vec![ours[0], theirs[0], theirs[1]]));
        // NTL's modulus of large numbers is its own; the other is set anew
        black_box(peer_ntl_prime());
    }
    [lines, large]
}

/// The nanoseconds an entry of 256 words of 32 bits and of 1024 of 64.
fn measured_entries() -> Vec<(String, Vec<f64>)> {
    let n = 256;
    let g = root(SMALL as u64, n) as u32;
    let (mut xs, mut ys): (Vec<u32>, Vec<u32>) = (0..n as u32).map(|i| (i * i, i)).unzip();
    let mut run = |operation: u8, turns: u64| {
        let start = seconds();
        unsafe { bench_planned_u32(operation, SMALL, g, xs.as_mut_ptr(), n, ys.as_mut_ptr(), n, turns) };
        seconds() - start
    };
    let p = peer_ntl_prime();
    let lists = Lists::new(p, list(p, 1024, 1), list(p, 1024, 2));
    let mut lines = Vec::new();
    for (name, operation) in [("forward", SPLIT), ("back", JOIN), ("product", PRODUCT)] {
        let mut least = [f64::INFINITY; 2];
        for _ in 0..400 {
            least = [least[0].min(run(0, 0)), least[1].min(run(operation, 800))];
        }
        let small = (least[1] - least[0]) * 1e9 / 800.0 / n as f64;
        let (_, ours, _) = best_planned(400, 200, &lists, &[operation], &mut []);
        lines.push((name.to_string(), vec![small, ours[0] * 1e6 / 1024.0]));
    }
    lines
}

/// Whether the products are NTL's and FLINT's, and the transform back gives the list again.
fn all_agree() -> bool {
    let n: usize = 1 << 10;
    let p = peer_ntl_prime();
    let mut same = true;
    for (p, large) in [(p, false), (LARGE, true)] {
        let mut lists = Lists::new(p, terms(p, n, 5), terms(p, n, 6));
        unsafe {
            peer_flint_set(p, lists.xs.as_ptr(), lists.ys.as_ptr(), n as i64 / 2);
            peer_flint_multiply();
            if large {
                peer_ntl_set_large(p, lists.xs.as_ptr(), lists.ys.as_ptr(), n as i64 / 2);
                peer_ntl_multiply_large();
            } else {
                peer_ntl_set(lists.xs.as_ptr(), lists.ys.as_ptr(), n as i64 / 2);
                peer_ntl_multiply();
            }
        }
        let before = lists.xs.clone();
        lists.planned(PRODUCT, 1);
        let ntl = if large { peer_ntl_coefficient_large } else { peer_ntl_coefficient };
        same &= (0..n).all(|i| lists.xs[i] == ntl(i as i64) && lists.xs[i] == peer_flint_coefficient(i as i64));
        lists.xs.clone_from(&before);
        lists.planned(SPLIT, 1);
        lists.planned(JOIN, 1);
        same &= before.iter().zip(&lists.xs).all(|(x, y)| (*x as u128 * n as u128 % p as u128) as u64 == *y);
    }
    if !same {
        eprintln!("transforms by a plan: other answers");
    }
    same
}

/// Runs something with room for a plan on the stack.
pub fn with_room<T: Send>(run: impl FnOnce() -> T + Send) -> T {
    thread::scope(|scope| {
        let started = thread::Builder::new().stack_size(STACK).spawn_scoped(scope, run);
        started.expect("a thread starts").join().expect("it ends")
    })
}

pub fn agree() -> bool {
    with_room(all_agree)
}

/// The tables.
pub fn measured() -> Vec<Rows> {
    let [transforms, natural] = with_room(measured_transforms);
    let [products, large] = with_room(measured_products);
    let entries = with_room(measured_entries);
    let table = |key, title: &str, heads: &[&'static str], ratios: &[Ratio], lines| Rows {
        key,
        title: title.to_string(),
        heads: heads.to_vec(),
        ratios: ratios.to_vec(),
        lines,
    };
    vec![
        table(
            "planned",
            "Transforms by a plan, in bit-reversed order",
            &["plan ms", "NTL ms"],
            &[("plan/NTL", 0, 1)],
            transforms,
        ),
        table("natural", "In natural order, beside `ntt`", &["ntt_planned ms", "ntt ms"], &[("quotient", 0, 1)], natural),
        table(
            "products",
            "Products of two polynomials",
            &["plan ms", "with the plan ms", "NTL ms", "FLINT ms", "convolve ms"],
            &[("plan/NTL", 0, 2), ("with the plan/NTL", 1, 2), ("plan/convolve", 0, 4)],
            products,
        ),
        table(
            "large",
            "The same modulo 29·2^57 + 1, of 62 bits",
            &["plan ms", "NTL ms", "FLINT ms"],
            &[("plan/NTL", 0, 1), ("plan/FLINT", 0, 2)],
            large,
        ),
        table(
            "words",
            "An entry of 256 words of 32 bits, and of 1024 words of 64",
            &["u32 ns", "u64 ns"],
            &[("quotient", 0, 1)],
            entries,
        ),
    ]
}
