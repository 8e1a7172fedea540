//! The steps with the Cargo crate of rust/, the port's sources without their contracts.

use erased as library;

#[path = "steps.rs"]
mod steps;

pub use steps::*;

use library::prim::by_subtraction;

#[inline(never)]
pub fn inverse_by_subtraction(x: u64, y: u64, m: u64, n: u64) -> u64 {
    let mut x = x;
    for _ in 0..n {
        x = (by_subtraction::inverse(x, m).unwrap_or(1) >> 1).wrapping_add(y >> 1);
    }
    x
}

#[inline(never)]
pub fn jacobi_by_subtraction(x: u64, y: u64, m: u64, n: u64) -> u64 {
    symbols(x, y, m, n, |x| Some(by_subtraction::jacobi(false, x, m)))
}
