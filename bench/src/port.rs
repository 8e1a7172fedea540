//! The functions of the static library: each does `n` dependent steps. What `m` must be for each is
//! said there.

use crate::measure::SECOND;

pub type Bench = fn(x: u64, y: u64, m: u64, n: u64) -> u64;

macro_rules! exported {
    ($($symbol:ident as $name:ident),* $(,)?) => {
        unsafe extern "C" {
            $(safe fn $symbol(x: u64, y: u64, m: u64, n: u64) -> u64;)*
        }
        $(pub fn $name(x: u64, y: u64, m: u64, n: u64) -> u64 {
            $symbol(x, y, m, n)
        })*
    };
}

exported! {
    bench_mulm as mulm,
    bench_powm as powm,
    bench_invm as invm,
    bench_inverse_by_subtraction as inverse_by_subtraction,
    bench_jacobi as jacobi,
    bench_jacobi_by_subtraction as jacobi_by_subtraction,
    bench_mulm_eight as mulm_eight,
    bench_premulinv1by1_div_rem as premulinv1by1_div_rem,
    bench_normalized_div_rem_2by1 as normalized_div_rem_2by1,
    bench_preinv_div_exact as preinv_div_exact,
}

unsafe extern "C" {
    safe fn bench_plain_u8(operation: u8, x: u8, y: u8, m: u8, n: u64) -> u8;
    safe fn bench_plain_u32(operation: u8, x: u32, y: u32, m: u32, n: u64) -> u32;
    safe fn bench_plain_u64(operation: u8, x: u64, y: u64, m: u64, n: u64) -> u64;
    safe fn bench_montgomery_mul_u8(x: u8, y: u8, m: u8, n: u64) -> u8;
    safe fn bench_montgomery_mul_u32(x: u32, y: u32, m: u32, n: u64) -> u32;
    safe fn bench_fixed_solinas_mul_u32(x: u32, y: u32, m: u32, n: u64) -> u32;
    safe fn bench_symbols(operation: u8, x: u64, y: u64, m: u64, n: u64) -> u64;
    safe fn bench_divisions(x: u64, m: u64) -> u32;
    safe fn bench_halvings(x: u64, m: u64) -> u32;
}

/// The operations of a call over a reducer, by their numbers in crates/modular_bench. Plain words have the first five.
pub const PRODUCT: u8 = 0;
pub const POWER: u8 = 1;
pub const SUM: u8 = 2;
pub const DIFFERENCE: u8 = 3;
pub const NEGATIVE: u8 = 4;
/// The form of a number.
pub const FORM: u8 = 5;
/// The residue of the form of a number.
pub const RESIDUE: u8 = 6;
/// Eight chains of products.
pub const EIGHT_CHAINS: u8 = 7;
pub const INVERSE: u8 = 8;

/// A chain of an operation on plain words.
pub fn plain_u8<const OPERATION: u8>(x: u64, y: u64, m: u64, n: u64) -> u64 {
    bench_plain_u8(OPERATION, x as u8, y as u8, m as u8, n) as u64
}

pub fn plain_u32<const OPERATION: u8>(x: u64, y: u64, m: u64, n: u64) -> u64 {
    bench_plain_u32(OPERATION, x as u32, y as u32, m as u32, n) as u64
}

pub fn plain_u64<const OPERATION: u8>(x: u64, y: u64, m: u64, n: u64) -> u64 {
    bench_plain_u64(OPERATION, x, y, m, n)
}

pub fn montgomery_mul_u8(x: u64, y: u64, m: u64, n: u64) -> u64 {
    bench_montgomery_mul_u8(x as u8, y as u8, m as u8, n) as u64
}

pub fn montgomery_mul_u32(x: u64, y: u64, m: u64, n: u64) -> u64 {
    bench_montgomery_mul_u32(x as u32, y as u32, m as u32, n) as u64
}

pub fn fixed_solinas_mul_u32(x: u64, y: u64, m: u64, n: u64) -> u64 {
    bench_fixed_solinas_mul_u32(x as u32, y as u32, m as u32, n) as u64
}

pub fn checked_jacobi(x: u64, y: u64, m: u64, n: u64) -> u64 {
    bench_symbols(0, x, y, m, n)
}

/// The same with a y of 64 bits, by which a short x stays without a pattern.
pub fn checked_jacobi_short(x: u64, _: u64, m: u64, n: u64) -> u64 {
    checked_jacobi(x, SECOND, m, n)
}

pub fn kronecker(x: u64, y: u64, m: u64, n: u64) -> u64 {
    bench_symbols(1, x, y, m, n)
}

pub fn legendre(x: u64, y: u64, m: u64, n: u64) -> u64 {
    bench_symbols(2, x, y, m, n)
}

/// The divisions of an inverse of x modulo m.
pub fn divisions(x: u64, m: u64) -> u32 {
    bench_divisions(x, m)
}

/// The halvings and swaps of a symbol of x over an odd m.
pub fn halvings(x: u64, m: u64) -> u32 {
    bench_halvings(x, m)
}

macro_rules! over_reducer {
    ($($symbol:ident as $name:ident),* $(,)?) => {
        unsafe extern "C" {
            $(safe fn $symbol(operation: u8, x: u64, y: u64, m: u64, n: u64) -> u64;)*
        }
        $(
            /// A chain of an operation over a reducer.
            pub fn $name<const OPERATION: u8>(x: u64, y: u64, m: u64, n: u64) -> u64 {
                $symbol(OPERATION, x, y, m, n)
            }
        )*
    };
}

over_reducer! {
    bench_over_vanilla as over_vanilla,
    bench_over_premul as over_premul,
    bench_over_montgomery as over_montgomery,
    bench_over_fixed_montgomery as over_fixed_montgomery,
    bench_over_fixed_proth as over_fixed_proth,
    bench_over_fixed_mersenne as over_fixed_mersenne,
    bench_over_fixed_solinas as over_fixed_solinas,
}
