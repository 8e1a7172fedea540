//! Products of numbers of 64-bit digits, beside GMP's.

use crate::measure::Random;
use crate::plans::{best, repeated, with_room};
use crate::report::Rows;
use std::ffi::{CStr, c_char};

/// From so many digits on products are computed by transforms, with plans; shorter ones by Karatsuba's method.
const LEAST_BY_TRANSFORMS: usize = 850;

unsafe extern "C" {
    safe fn peer_gmp_version() -> *const c_char;
    fn peer_gmp_multiply(digits: *mut u64, xs: *const u64, ys: *const u64, n: i64);
    fn bench_long_product(
        xs: *const u64, xs_length: usize, ys: *const u64, ys_length: usize, digits: *mut u64, places: usize,
        words: *mut u64, room: usize, n: u64,
    ) -> bool;
}

/// GMP's version.
pub fn version() -> String {
    unsafe { CStr::from_ptr(peer_gmp_version()) }.to_string_lossy().into_owned()
}

/// Two factors of so many digits, with room for the product.
struct Factors {
    xs: Vec<u64>,
    ys: Vec<u64>,
    digits: Vec<u64>,
    words: Vec<u64>,
}

impl Factors {
    fn new(n: usize) -> Factors {
        let mut random = Random(n as u64);
        let mut list = || (0..n).map(|_| random.next()).collect();
        let (xs, ys) = (list(), list());
        Factors { xs, ys, digits: vec![0; 2 * n], words: vec![0; 4 * (2 * n).next_power_of_two()] }
    }

    /// Makes the plans, and multiplies so many times.
    fn port(&mut self, times: u64) {
        let (xs, ys, digits, words) = (&self.xs, &self.ys, &mut self.digits, &mut self.words);
        assert!(unsafe {
            bench_long_product(
                xs.as_ptr(), xs.len(), ys.as_ptr(), ys.len(), digits.as_mut_ptr(), digits.len(),
                words.as_mut_ptr(), words.len(), times,
            )
        });
    }

    fn gmp(&mut self) {
        unsafe { peer_gmp_multiply(self.digits.as_mut_ptr(), self.xs.as_ptr(), self.ys.as_ptr(), self.xs.len() as i64) }
    }
}

/// Whether the products are GMP's, by Karatsuba's method and by transforms.
fn all_agree() -> bool {
    let same = [256, 399, 400, 512, 4096].iter().all(|n| {
        let (mut ours, mut theirs) = (Factors::new(*n), Factors::new(*n));
        ours.xs[0] = u64::MAX;
        theirs.xs[0] = u64::MAX;
        ours.port(1);
        theirs.gmp();
        ours.digits == theirs.digits
    });
    if !same {
        eprintln!("long products: other answers");
    }
    same
}

pub fn agree() -> bool {
    with_room(all_agree)
}

/// The milliseconds of a product with the plans at hand, of the plans, and of GMP's product.
fn measured_line(n: usize) -> [f64; 3] {
    let (rounds, times) = match n {
        0..=4096 => (100, 20),
        4097..=65536 => (20, 2),
        _ => (6, 1),
    };
    let (mut plans, mut ours, mut theirs) = (Factors::new(n), Factors::new(n), Factors::new(n));
    let mut least = [f64::INFINITY; 3];
    for _ in 0..rounds {
        let turn = [
            best(1, 1, &mut [Box::new(|_| plans.port(0))])[0],
            best(1, 1, &mut [Box::new(|_| ours.port(times))])[0],
            best(1, times, &mut [repeated(|| theirs.gmp())])[0],
        ];
        for (least, time) in least.iter_mut().zip(turn) {
            *least = least.min(time);
        }
    }
    let plan = if n < LEAST_BY_TRANSFORMS { 0.0 } else { least[0] };
    [(least[1] - least[0]) / times as f64, plan, least[2]]
}

fn lines() -> Vec<(String, Vec<f64>)> {
    let at = |name: String, n: usize| {
        let [product, plan, gmp] = measured_line(n);
        (name, vec![product, product + plan, gmp])
    };
    let mut lines = vec![at("2^8 digits".to_string(), 256), at("399 digits".to_string(), 399)];
    lines.push(at("400 digits".to_string(), 400));
    lines.extend([10, 12, 14, 16, 18, 20].map(|bits| at(format!("2^{bits} digits"), 1 << bits)));
    lines
}

/// The table.
pub fn measured() -> Rows {
    Rows {
        key: "long",
        title: "A product by `long_product` of two numbers of so many digits of 64 bits".to_string(),
        heads: vec!["with plans at hand ms", "with the plans ms", "GMP ms"],
        ratios: vec![("at hand/GMP", 0, 2), ("with the plans/GMP", 1, 2)],
        lines: with_room(lines),
    }
}
