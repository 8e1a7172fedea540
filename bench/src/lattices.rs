//! The rings of ML-DSA and ML-KEM beside plain loops in Rust, written from the algorithms of FIPS 204 and FIPS 203:
//! ML-DSA's with Montgomery's reduction, ML-KEM's with remainders by a constant, which the compiler takes by Barrett's
//! method.

use crate::measure::Random;
use crate::peers::seconds;
use crate::report::Rows;
use std::hint::black_box;

type List = [u32; 256];
type Port = unsafe extern "C" fn(operation: u8, xs: &mut List, ys: &List, n: u64);

unsafe extern "C" {
    fn bench_ml_dsa(operation: u8, xs: &mut List, ys: &List, n: u64);
    fn bench_ml_kem(operation: u8, xs: &mut List, ys: &List, n: u64);
}

const DSA: u32 = 8380417;
const KEM: u32 = 3329;

/// x·y/2^32 modulo DSA, by Montgomery's reduction.
#[inline(always)]
fn reduced(x: u32, y: u32) -> u32 {
    const NEGATED_INVERSE: u32 = 4236238847;
    let product = x as u64 * y as u64;
    let m = (product as u32).wrapping_mul(NEGATED_INVERSE);
    let t = ((product + m as u64 * DSA as u64) >> 32) as u32;
    if t < DSA { t } else { t - DSA }
}

#[inline(always)]
fn remainder(x: u32, y: u32) -> u32 {
    x * y % KEM
}

/// A ring's numbers: the powers of zeta in the standard's order, times 2^32 where products are by Montgomery's
/// reduction, and the number by which the inverse is scaled.
struct Loops<const Q: u32> {
    zetas: List,
    part: u32,
    square: u32,
}

impl<const Q: u32> Loops<Q> {
    fn new(zeta: u64, count: u32, bits: u32, scaled: bool) -> Self {
        let q = Q as u64;
        let scale = if scaled { (1u64 << 32) % q } else { 1 };
        let power = |e: u32| (0..e).fold(1, |power, _| power * zeta % q);
        let reversed = |k: u32| k.reverse_bits() >> (32 - bits);
        let mut zetas = [0; 256];
        (0..count).for_each(|k| zetas[k as usize] = (power(reversed(k)) * scale % q) as u32);
        let inverse = (1..q).find(|x| x * count as u64 % q == 1).expect("q is a prime");
        Loops { zetas, part: (inverse * scale % q) as u32, square: (scale * scale % q) as u32 }
    }

    #[inline(always)]
    fn ntt(&self, w: &mut List, last: usize, product: impl Fn(u32, u32) -> u32) {
        let (mut k, mut half) = (0, 128);
        while half >= last {
            for start in (0..256).step_by(2 * half) {
                k += 1;
                let zeta = self.zetas[k];
                for j in start..start + half {
                    let t = product(zeta, w[j + half]);
                    w[j + half] = difference::<Q>(w[j], t);
                    w[j] = sum::<Q>(w[j], t);
                }
            }
            half /= 2;
        }
    }

    #[inline(always)]
    fn inverse(&self, w: &mut List, last: usize, product: impl Fn(u32, u32) -> u32) {
        let (mut k, mut half) = (256 / last, last);
        while half < 256 {
            for start in (0..256).step_by(2 * half) {
                k -= 1;
                let zeta = self.zetas[k];
                for j in start..start + half {
                    let t = w[j];
                    w[j] = sum::<Q>(t, w[j + half]);
                    w[j + half] = product(zeta, difference::<Q>(w[j + half], t));
                }
            }
            half *= 2;
        }
        w.iter_mut().for_each(|x| *x = product(self.part, *x));
    }
}

#[inline(always)]
fn sum<const Q: u32>(x: u32, y: u32) -> u32 {
    let sum = x + y;
    if sum < Q { sum } else { sum - Q }
}

#[inline(always)]
fn difference<const Q: u32>(x: u32, y: u32) -> u32 {
    if x < y { x + Q - y } else { x - y }
}

/// What is measured, by the number of its operation.
const OPERATIONS: [&str; 4] = ["ntt", "inverse", "multiply", "product"];

fn dsa_loops(ring: &Loops<DSA>, operation: u8, xs: &mut List, ys: &List) {
    let multiply = |xs: &mut List, ys: &List| xs.iter_mut().zip(ys).for_each(|(x, y)| *x = reduced(reduced(*x, *y), ring.square));
    match operation {
        1 => ring.ntt(xs, 1, reduced),
        2 => ring.inverse(xs, 1, reduced),
        3 => multiply(xs, ys),
        _ => {
            let mut others = *ys;
            ring.ntt(xs, 1, reduced);
            ring.ntt(&mut others, 1, reduced);
            multiply(xs, &others);
            ring.inverse(xs, 1, reduced);
        }
    }
}

fn kem_multiply(ring: &Loops<KEM>, xs: &mut List, ys: &List) {
    for (i, (x, y)) in xs.chunks_exact_mut(2).zip(ys.chunks_exact(2)).enumerate() {
        let zeta = ring.zetas[64 + i / 2];
        let gamma = if i % 2 == 0 { zeta } else { KEM - zeta };
        let constant = (x[0] * y[0] + remainder(x[1], y[1]) * gamma) % KEM;
        x[1] = (x[0] * y[1] + x[1] * y[0]) % KEM;
        x[0] = constant;
    }
}

fn kem_loops(ring: &Loops<KEM>, operation: u8, xs: &mut List, ys: &List) {
    match operation {
        1 => ring.ntt(xs, 2, remainder),
        2 => ring.inverse(xs, 2, remainder),
        3 => kem_multiply(ring, xs, ys),
        _ => {
            let mut others = *ys;
            ring.ntt(xs, 2, remainder);
            ring.ntt(&mut others, 2, remainder);
            kem_multiply(ring, xs, &others);
            ring.inverse(xs, 2, remainder);
        }
    }
}

fn lists(q: u32) -> (List, List) {
    let mut random = Random(q as u64);
    let mut list = || std::array::from_fn(|_| (random.next() % q as u64) as u32);
    (list(), list())
}

/// A ring: its name, its modulus, the port and the loops.
struct Ring<'a> {
    name: &'static str,
    q: u32,
    port: Port,
    loops: &'a dyn Fn(u8, &mut List, &List),
}

fn with_rings<T>(run: impl Fn(&Ring) -> T) -> [T; 2] {
    let (dsa, kem) = (Loops::<DSA>::new(1753, 256, 8, true), Loops::<KEM>::new(17, 128, 7, false));
    [
        run(&Ring { name: "ML-DSA", q: DSA, port: bench_ml_dsa, loops: &|operation, xs, ys| dsa_loops(&dsa, operation, xs, ys) }),
        run(&Ring { name: "ML-KEM", q: KEM, port: bench_ml_kem, loops: &|operation, xs, ys| kem_loops(&kem, operation, xs, ys) }),
    ]
}

fn agrees(ring: &Ring) -> bool {
    let same = (1..=4).all(|operation| {
        let ((mut xs, ys), (mut us, vs)) = (lists(ring.q), lists(ring.q));
        unsafe { (ring.port)(operation, &mut xs, &ys, 1) };
        (ring.loops)(operation, &mut us, &vs);
        xs == us
    });
    if !same {
        eprintln!("{}: other answers", ring.name);
    }
    same
}

/// Whether each operation of both rings gives what the loops give.
pub fn agree() -> bool {
    with_rings(agrees) == [true, true]
}

fn timed(run: impl FnOnce()) -> f64 {
    let start = seconds();
    run();
    seconds() - start
}

/// The microseconds of each operation, the ring's table made before: the best of many turns, one after the other.
fn lines(ring: &Ring) -> Vec<(String, Vec<f64>)> {
    const TIMES: u64 = 200;
    let line = |operation: u8| {
        let ((mut xs, ys), (mut us, vs)) = (lists(ring.q), lists(ring.q));
        let mut least = [f64::INFINITY; 3];
        for _ in 0..400 {
            let turn = [
                timed(|| unsafe { (ring.port)(0, &mut xs, &ys, 0) }),
                timed(|| unsafe { (ring.port)(operation, &mut xs, &ys, TIMES) }),
                timed(|| (0..TIMES).for_each(|_| (ring.loops)(operation, black_box(&mut us), &vs))),
            ];
            for (least, time) in least.iter_mut().zip(turn) {
                *least = least.min(time);
            }
        }
        [least[1] - least[0], least[2]].map(|time| time * 1e6 / TIMES as f64)
    };
    (1..=4)
        .map(|operation| {
            (format!("{} {}", ring.name, OPERATIONS[operation as usize - 1]), line(operation).to_vec())
        })
        .collect()
}

/// The table.
pub fn measured() -> Rows {
    Rows {
        key: "lattices",
        title: "The rings of `lattice_rings`, 256 coefficients".to_string(),
        heads: vec!["port us", "loop us"],
        ratios: vec![("port/loop", 0, 1)],
        lines: with_rings(lines).concat(),
    }
}
