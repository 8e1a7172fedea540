//! FLINT's word-sized calls beside the port's: chains, in which each answer feeds the next, and lists of
//! operands that wait for no answer. Moduli are the greatest primes of 64 and of 32 bits, in words of 64.

use crate::lines::{PRIME, PRIME_32};
use crate::measure::{FIRST, Random, SECOND, best_by, compare};
use crate::port::{self, Bench, EIGHT_CHAINS, PRODUCT};
use crate::report::Rows;
use std::ffi::{CStr, c_char};

/// The turns of a line in each round over all lines. Other programs slow the processor for seconds at a time, so
/// the best of a line is looked for in many rounds.
const TURNS: usize = 60;
const ROUNDS: usize = 12;

/// A factor below 2^63, as FLINT's exponents are, that leaves 5 modulo 8: with it the numbers of a list have the
/// period 2^64.
const FACTOR: u64 = SECOND >> 1 | 5;

unsafe extern "C" {
    safe fn peer_seconds() -> f64;
    safe fn peer_version() -> *const c_char;
    safe fn bench_list(operation: u8, x: u64, y: u64, m: u64, n: u64) -> u64;
}

/// The port's answers for a list, by the operation's number: 0 the power, 1 the inverse, 2 Jacobi's symbol by
/// subtractions, 3 by `jacobi`, 4 the inverse by subtractions.
fn list<const OPERATION: u8>(x: u64, y: u64, m: u64, n: u64) -> u64 {
    bench_list(OPERATION, x, y, m, n)
}

macro_rules! exported {
    ($($symbol:ident as $name:ident),* $(,)?) => {
        unsafe extern "C" {
            $(safe fn $symbol(x: u64, y: u64, m: u64, n: u64) -> u64;)*
        }
        $(fn $name(x: u64, y: u64, m: u64, n: u64) -> u64 {
            $symbol(x, y, m, n)
        })*
    };
}

exported! {
    peer_mulm as mulm,
    peer_mulm_eight as mulm_eight,
    peer_powm as powm,
    peer_invm as invm,
    peer_jacobi as jacobi,
    peer_powm_list as powm_list,
    peer_invm_list as invm_list,
    peer_jacobi_list as jacobi_list,
}

/// FLINT's version.
pub fn version() -> String {
    unsafe { CStr::from_ptr(peer_version()) }.to_string_lossy().into_owned()
}

/// The thread's time.
pub fn seconds() -> f64 {
    peer_seconds()
}

/// Which of x and y have no more bits than the modulus.
#[derive(Clone, Copy)]
enum Cut {
    Both,
    First,
    Neither,
}

/// A line: its name, the port's function and FLINT's, the operands, and how many products are in a step.
struct Line {
    name: &'static str,
    port: Bench,
    flint: Bench,
    cut: Cut,
    products: f64,
}

const fn line(name: &'static str, port: Bench, flint: Bench, cut: Cut) -> Line {
    Line { name, port, flint, cut, products: 1.0 }
}

/// Each call beside FLINT's.
static LINES: [Line; 12] = [
    line("PreMulInv2by1::mul, n_mulmod2_preinv, chain", port::over_premul::<PRODUCT>, mulm, Cut::Both),
    Line {
        name: "PreMulInv2by1::mul, n_mulmod2_preinv, eight chains side by side",
        port: port::over_premul::<EIGHT_CHAINS>,
        flint: mulm_eight,
        cut: Cut::Both,
        products: 8.0,
    },
    line("powm, n_powmod2_preinv, chain", port::powm, powm, Cut::Both),
    line("powm, n_powmod2_preinv, list", list::<0>, powm_list, Cut::Neither),
    line("invm, n_invmod, chain", port::invm, invm, Cut::Both),
    line("invm, n_invmod, list", list::<1>, invm_list, Cut::Neither),
    line("by_subtraction::inverse, n_invmod, chain", port::inverse_by_subtraction, invm, Cut::Both),
    line("by_subtraction::inverse, n_invmod, list", list::<4>, invm_list, Cut::Neither),
    line("jacobi, n_jacobi_unsigned, chain", port::jacobi, jacobi, Cut::First),
    line("jacobi, n_jacobi_unsigned, list", list::<3>, jacobi_list, Cut::Neither),
    line("by_subtraction::jacobi, n_jacobi_unsigned, chain", port::jacobi_by_subtraction, jacobi, Cut::First),
    line("by_subtraction::jacobi, n_jacobi_unsigned, list", list::<2>, jacobi_list, Cut::Neither),
];

const MODULI: [(u32, u64); 2] = [(64, PRIME), (32, PRIME_32)];

impl Line {
    fn operands(&self, bits: u32, m: u64, x: u64) -> (u64, u64, u64) {
        let unused = 64 - bits;
        match self.cut {
            Cut::Both => (x >> unused, FACTOR >> unused, m),
            Cut::First => (x >> unused, FACTOR, m),
            Cut::Neither => (x, FACTOR, m),
        }
    }

    /// Whether both functions answer alike for random numbers.
    fn agrees(&self, bits: u32, m: u64) -> bool {
        let mut random = Random(bits as u64);
        (0..400).all(|_| compare(self.name, self.port, self.flint, self.operands(bits, m, random.next())))
    }
}

/// Whether FLINT and the port answer alike.
pub fn agree() -> bool {
    MODULI.iter().all(|(bits, m)| LINES.iter().all(|line| line.agrees(*bits, *m)))
}

/// The times of each line, at 64 bits and then at 32: the best of all rounds.
fn times() -> Vec<[f64; 2]> {
    let all: Vec<_> = MODULI.iter().flat_map(|modulus| LINES.iter().map(move |line| (*modulus, line))).collect();
    let mut best = vec![[f64::INFINITY; 2]; all.len()];
    for _ in 0..ROUNDS {
        for (least, ((bits, m), it)) in best.iter_mut().zip(&all) {
            let found = best_by(seconds, TURNS, [it.port, it.flint], it.operands(*bits, *m, FIRST));
            for (least, time) in least.iter_mut().zip(found) {
                *least = least.min(time / it.products);
            }
        }
    }
    best
}

/// The table of all lines.
pub fn measured() -> Rows {
    let names = MODULI.iter().flat_map(|(bits, _)| LINES.iter().map(move |line| format!("{}, {bits} bits", line.name)));
    Rows {
        key: "peers",
        title: "Beside FLINT's calls".to_string(),
        heads: vec!["port ns", "FLINT ns"],
        ratios: vec![("port/FLINT", 0, 1)],
        lines: names.zip(times()).map(|(name, times)| (name, times.to_vec())).collect(),
    }
}
