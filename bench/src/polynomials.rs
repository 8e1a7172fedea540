//! Products of polynomials modulo any m, beside FLINT's and NTL's.

use crate::measure::Random;
use crate::plans::{best, repeated, with_room};
use crate::report::Rows;
use ::erased::applications::long_product::polynomials::{multiply, room};
use ::erased::applications::long_product::{Plans, fill_plans};
use ::erased::plans::Factor;

/// Moduli of 30, 60 and 63 bits. NTL's word-sized ones have at most 60.
const MODULI: [(&str, u64); 3] = [("10^9 + 7", 1_000_000_007), ("2^60 - 93", (1 << 60) - 93), ("2^63 - 25", (1 << 63) - 25)];

unsafe extern "C" {
    fn peer_flint_set(p: u64, xs: *const u64, ys: *const u64, n: i64);
    safe fn peer_flint_multiply();
    safe fn peer_flint_coefficient(i: i64) -> u64;
    fn peer_ntl_set_modulo(p: u64, xs: *const u64, ys: *const u64, n: i64);
    safe fn peer_ntl_multiply();
    safe fn peer_ntl_coefficient(i: i64) -> u64;
    fn peer_ntl_set_large(p: u64, xs: *const u64, ys: *const u64, n: i64);
    safe fn peer_ntl_multiply_large();
    safe fn peer_ntl_coefficient_large(i: i64) -> u64;
}

/// Two polynomials of so many coefficients modulo m, with room for their product.
struct Factors {
    m: u64,
    xs: Vec<u64>,
    ys: Vec<u64>,
    product: Vec<u64>,
    words: Vec<u64>,
}

impl Factors {
    /// Tells FLINT and NTL the factors, too.
    fn new(m: u64, n: usize) -> Factors {
        let mut random = Random(n as u64);
        let mut list = || (0..n).map(|_| random.next() % m).collect::<Vec<u64>>();
        let (xs, ys) = (list(), list());
        let set = if m >> 60 == 0 { peer_ntl_set_modulo } else { peer_ntl_set_large };
        unsafe {
            peer_flint_set(m, xs.as_ptr(), ys.as_ptr(), n as i64);
            set(m, xs.as_ptr(), ys.as_ptr(), n as i64);
        }
        Factors { m, xs, ys, product: vec![0; 2 * n - 1], words: vec![0; room(n, n).0] }
    }

    fn multiply(&mut self, plans: &Plans<Factor<u64>>) {
        assert!(multiply(self.m, &self.xs, &self.ys, &mut self.product, &mut self.words, plans));
    }

    /// Whether the product is FLINT's and NTL's.
    fn agrees(&mut self, plans: &Plans<Factor<u64>>) -> bool {
        self.multiply(plans);
        peer_flint_multiply();
        multiply_by_ntl(self.m);
        let ntl = if self.m >> 60 == 0 { peer_ntl_coefficient } else { peer_ntl_coefficient_large };
        (0..).zip(&self.product).all(|(i, x)| *x == ntl(i) && *x == peer_flint_coefficient(i))
    }
}

/// NTL's product: by `zz_pX`, whose moduli have at most 60 bits, or by `ZZ_pX`.
fn multiply_by_ntl(m: u64) {
    if m >> 60 == 0 { peer_ntl_multiply() } else { peer_ntl_multiply_large() }
}

/// Calls with the plans for products of so many coefficients.
fn with_plans<T>(n: usize, call: impl FnOnce(&Plans<Factor<u64>>) -> T) -> T {
    let [mut first, mut second, mut third] = [0; 3].map(|_| vec![Factor::<u64>::ZERO; room(n, n).1]);
    call(&fill_plans(&mut first, &mut second, &mut third).expect("the lengths are equal powers of two"))
}

fn all_agree() -> bool {
    let same = [256, 300, 1000, 8192].iter().all(|n| {
        with_plans(*n, |plans| MODULI.iter().all(|(_, m)| Factors::new(*m, *n).agrees(plans)))
    });
    if !same {
        eprintln!("products of polynomials: other answers");
    }
    same
}

pub fn agree() -> bool {
    with_room(all_agree)
}

/// The milliseconds of a product with the plans at hand, of FLINT's and of NTL's.
fn measured_line(m: u64, n: usize, plans: &Plans<Factor<u64>>) -> Vec<f64> {
    let (rounds, times) = match n {
        0..=1024 => (100, 20),
        1025..=8192 => (40, 4),
        _ => (10, 1),
    };
    let mut factors = Factors::new(m, n);
    let mut least = [f64::INFINITY; 3];
    for _ in 0..rounds {
        let turn = [
            best(1, times, &mut [repeated(|| factors.multiply(plans))])[0],
            best(1, times, &mut [repeated(|| peer_flint_multiply())])[0],
            best(1, times, &mut [repeated(|| multiply_by_ntl(m))])[0],
        ];
        for (least, time) in least.iter_mut().zip(turn) {
            *least = least.min(time);
        }
    }
    least.to_vec()
}

fn lines() -> Vec<(String, Vec<f64>)> {
    [10, 13, 16, 18]
        .into_iter()
        .flat_map(|bits| {
            with_plans(1 << bits, |plans| {
                MODULI.map(|(name, m)| (format!("2^{bits}, modulo {name}"), measured_line(m, 1 << bits, plans)))
            })
        })
        .collect()
}

/// The table.
pub fn measured() -> Rows {
    Rows {
        key: "polynomials",
        title: "A product by `polynomials::multiply` of the Cargo crate, with plans at hand, of two polynomials of so many coefficients; NTL's `zz_pX`, and `ZZ_pX` modulo 2^63 - 25".to_string(),
        heads: vec!["Cargo crate ms", "FLINT ms", "NTL ms"],
        ratios: vec![("crate/FLINT", 0, 1), ("crate/NTL", 0, 2)],
        lines: with_room(lines),
    }
}
