//! The steps with the Rust crate `num-modular`, and the plain line of Rust for a product.

use num_modular as library;

#[path = "steps.rs"]
mod steps;

pub use steps::*;

#[inline(never)]
pub fn plain_mulm(x: u64, y: u64, m: u64, n: u64) -> u64 {
    let mut x = x;
    for _ in 0..n {
        x = (x as u128 * y as u128 % m as u128) as u64;
    }
    x
}
