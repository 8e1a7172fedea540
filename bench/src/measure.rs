//! Times: the best of some turns, and answers compared on random operands.

use crate::lines::{Line, Moduli};
use crate::port::Bench;
use std::hint::black_box;
use std::sync::LazyLock;
use std::time::Instant;

const TURNS: usize = 25;

/// A turn takes about as many nanoseconds.
const TURN: f64 = 1e6;

pub const FIRST: u64 = 0x0123_4567_89ab_cdef;
pub const SECOND: u64 = 0xfedc_ba98_7654_3211;

/// Numbers without a pattern, the same in each run (Vigna's splitmix64).
pub struct Random(pub u64);

impl Random {
    pub fn next(&mut self) -> u64 {
        self.0 = self.0.wrapping_add(0x9e37_79b9_7f4a_7c15);
        let z = (self.0 ^ (self.0 >> 30)).wrapping_mul(0xbf58_476d_1ce4_e5b9);
        let z = (z ^ (z >> 27)).wrapping_mul(0x94d0_49bb_1331_11eb);
        z ^ (z >> 31)
    }

    /// A number below 2^bits, of any length.
    pub fn below(&mut self, bits: u32) -> u64 {
        (self.next() >> (64 - bits)) >> (self.next() % bits as u64)
    }
}

/// The seconds of the clock on the wall, from the first call.
fn wall() -> f64 {
    static START: LazyLock<Instant> = LazyLock::new(Instant::now);
    START.elapsed().as_secs_f64()
}

/// The nanoseconds of some steps.
fn once(clock: fn() -> f64, function: Bench, operands: (u64, u64, u64), steps: u64) -> f64 {
    let (x, y, m) = operands;
    let start = clock();
    black_box(function(black_box(x), black_box(y), black_box(m), black_box(steps)));
    (clock() - start) * 1e9
}

/// How many steps of a function fill a turn.
fn steps_of_turn(clock: fn() -> f64, function: Bench, operands: (u64, u64, u64)) -> u64 {
    let steps = 500;
    let time = once(clock, function, operands, steps).min(once(clock, function, operands, steps));
    (TURN * steps as f64 / time.max(1.0)) as u64 + 1
}

/// The nanoseconds of one step of each function, by a clock: the best of some turns, the functions in turn.
pub fn best_by<const N: usize>(
    clock: fn() -> f64,
    turns: usize,
    functions: [Bench; N],
    operands: (u64, u64, u64),
) -> [f64; N] {
    let steps = functions.map(|function| steps_of_turn(clock, function, operands));
    let mut best = [f64::INFINITY; N];
    for _ in 0..turns {
        for ((best, function), steps) in best.iter_mut().zip(functions).zip(steps) {
            *best = best.min(once(clock, function, operands, steps) / steps as f64);
        }
    }
    best
}

/// The same by the clock on the wall.
pub fn best<const N: usize>(functions: [Bench; N], operands: (u64, u64, u64)) -> [f64; N] {
    best_by(wall, TURNS, functions, operands)
}

/// The operands of a line: of as many bits as its words have.
pub fn operands(line: &Line) -> (u64, u64, u64) {
    let unused = 64 - line.bits;
    (FIRST >> unused, SECOND >> unused | 1, line.modulus)
}

/// Whether two functions answer alike after 1, 2 and 7 steps.
pub fn compare(name: &str, first: Bench, second: Bench, operands: (u64, u64, u64)) -> bool {
    let (x, y, m) = operands;
    for steps in [1, 2, 7] {
        let one = first(x, y, m, steps);
        let other = second(x, y, m, steps);
        if one != other {
            eprintln!("{name}: {one} and {other} for x = {x}, y = {y}, m = {m}, {steps} steps");
            return false;
        }
    }
    true
}

fn modulus(moduli: Moduli, bits: u32, random: &mut Random) -> u64 {
    match moduli {
        Moduli::Any => random.below(bits).max(2),
        Moduli::Odd => (random.below(bits) | 1).max(3),
        Moduli::Top => random.next() | 1 << 63 | 1,
        Moduli::One(m) => m,
    }
}

/// Whether two functions answer alike: for small and large operands, and for random ones, modulo the
/// one number or modulo random ones.
pub fn agree(name: &str, first: Bench, second: Bench, bits: u32, moduli: Moduli, measured: u64) -> bool {
    let mut random = Random(bits as u64);
    let most = u64::MAX >> (64 - bits);
    let mut same = true;
    for turn in 0..400 {
        let m = if turn < 8 { measured } else { modulus(moduli, bits, &mut random) };
        let (x, y) = match turn % 8 {
            0 => (0, 1),
            1 => (1, 0),
            2 => (m - 1, m - 1),
            3 => (most, 2),
            4 => (m, most),
            _ => (random.below(bits), random.below(bits)),
        };
        same = same && compare(name, first, second, (x, y, m));
    }
    same
}
