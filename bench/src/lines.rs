//! The lines of the tables beside the Rust crate.

use crate::port::{self, Bench, DIFFERENCE, EIGHT_CHAINS, FORM, INVERSE, NEGATIVE, POWER, PRODUCT, RESIDUE, SUM};
use crate::{erased, original};

/// What moduli a line takes.
#[derive(Clone, Copy)]
pub enum Moduli {
    /// Each from 2 up.
    Any,
    /// The odd ones from 3 up.
    Odd,
    /// The odd ones with the top bit set.
    Top,
    /// This one.
    One(u64),
}

/// A line: what the port, the Rust crate and the Cargo crate do, of how many bits the operands are, the moduli and
/// the modulus that is measured, and how many products are in a step.
pub struct Line {
    pub name: String,
    pub port: Bench,
    pub original: Bench,
    pub erased: Bench,
    pub bits: u32,
    pub moduli: Moduli,
    pub modulus: u64,
    pub products: f64,
}

/// A table with its title.
pub struct Table {
    pub key: &'static str,
    pub title: &'static str,
    pub lines: Vec<Line>,
}

/// The greatest prime below 2^64, and below 2^32.
pub const PRIME: u64 = u64::MAX - 58;
pub const PRIME_32: u64 = (1 << 32) - 5;
const PRIME_8: u64 = 251;

/// 2^61 - 1, by which texts are hashed.
const MERSENNE: u64 = (1 << 61) - 1;

/// 2^64 - 2^32 + 1 and 29 * 2^57 + 1, by which transforms are made.
const SOLINAS: u64 = u64::MAX - (1 << 32) + 2;
const PROTH: u64 = (29 << 57) + 1;

/// 2^32 - 2^20 + 1.
const SOLINAS_32: u64 = (1 << 32) - (1 << 20) + 1;

/// A function of the Rust crate and of the Cargo crate, over a reducer of either or none.
macro_rules! both {
    ($($part:ident)::+ $(, $ring:ident $(<$word:ident>)?)?) => {
        [
            original::$($part)::+ $(::<original::$ring $(<$word>)?>)? as Bench,
            erased::$($part)::+ $(::<erased::$ring $(<$word>)?>)?,
        ]
    };
}

fn line(name: impl Into<String>, port: Bench, crates: [Bench; 2], moduli: Moduli) -> Line {
    let [original, erased] = crates;
    let modulus = match moduli {
        Moduli::One(m) => m,
        _ => PRIME,
    };
    Line { name: name.into(), port, original, erased, bits: 64, moduli, modulus, products: 1.0 }
}

fn narrow(name: &str, bits: u32, port: Bench, crates: [Bench; 2], moduli: Moduli) -> Line {
    let modulus = if bits == 8 { PRIME_8 } else { PRIME_32 };
    Line { bits, modulus, ..line(name, port, crates, moduli) }
}

fn eight(name: &str, port: Bench, crates: [Bench; 2], moduli: Moduli) -> Line {
    Line { products: 8.0, ..line(name, port, crates, moduli) }
}

fn any_modulus() -> Vec<Line> {
    use Moduli::{Any, Odd, Top};
    vec![
        line("mulm", port::mulm, both!(mulm), Any),
        line("mulm (plain line)", port::mulm, [original::plain_mulm as Bench, erased::mulm], Any),
        line("powm", port::powm, both!(powm), Any),
        line("invm", port::invm, both!(invm), Any),
        line(
            "by_subtraction::inverse, beside invm",
            port::inverse_by_subtraction,
            [original::invm as Bench, erased::inverse_by_subtraction],
            Odd,
        ),
        line("Vanilla::mul", port::over_vanilla::<PRODUCT>, both!(u64s::mul, Vanilla<u64>), Any),
        line("Vanilla::pow", port::over_vanilla::<POWER>, both!(pow, Vanilla<u64>), Any),
        line("Vanilla::inv", port::over_vanilla::<INVERSE>, both!(inv, Vanilla<u64>), Any),
        line("PreMulInv2by1::mul", port::over_premul::<PRODUCT>, both!(u64s::mul, PreMulInv2by1<u64>), Any),
        line("PreMulInv2by1::pow", port::over_premul::<POWER>, both!(pow, PreMulInv2by1<u64>), Any),
        line("PreMulInv2by1::inv", port::over_premul::<INVERSE>, both!(inv, PreMulInv2by1<u64>), Any),
        line("Montgomery::mul", port::over_montgomery::<PRODUCT>, both!(u64s::mul, Montgomery<u64>), Odd),
        line("Montgomery::pow", port::over_montgomery::<POWER>, both!(pow, Montgomery<u64>), Odd),
        line("Montgomery::inv", port::over_montgomery::<INVERSE>, both!(inv, Montgomery<u64>), Odd),
        line("PreMulInv1by1::div_rem", port::premulinv1by1_div_rem, both!(premulinv1by1_div_rem), Any),
        line(
            "Normalized2by1Divisor::div_rem_2by1",
            port::normalized_div_rem_2by1,
            both!(normalized_div_rem_2by1),
            Top,
        ),
        line("PreModInv: div_exact", port::preinv_div_exact, both!(preinv_div_exact), Odd),
    ]
}

fn fixed_modulus() -> Vec<Line> {
    use Moduli::One;
    vec![
        line("FixedMontgomery64::mul", port::over_fixed_montgomery::<PRODUCT>, both!(u64s::mul, FixedMontgomery), One(PRIME)),
        line("FixedMontgomery64::pow", port::over_fixed_montgomery::<POWER>, both!(pow, FixedMontgomery), One(PRIME)),
        line("FixedProth64::mul", port::over_fixed_proth::<PRODUCT>, both!(u64s::mul, FixedProth), One(PROTH)),
        line("FixedProth64::pow", port::over_fixed_proth::<POWER>, both!(pow, FixedProth), One(PROTH)),
        line("FixedMersenne64::mul", port::over_fixed_mersenne::<PRODUCT>, both!(u64s::mul, FixedMersenne), One(MERSENNE)),
        line("FixedMersenne64::pow", port::over_fixed_mersenne::<POWER>, both!(pow, FixedMersenne), One(MERSENNE)),
        line("FixedTrinomialSolinas64::mul", port::over_fixed_solinas::<PRODUCT>, both!(u64s::mul, FixedSolinas), One(SOLINAS)),
        line("FixedTrinomialSolinas64::pow", port::over_fixed_solinas::<POWER>, both!(pow, FixedSolinas), One(SOLINAS)),
    ]
}

fn symbols() -> Vec<Line> {
    use Moduli::{Any, Odd};
    vec![
        line("jacobi", port::jacobi, both!(jacobi), Odd),
        line(
            "by_subtraction::jacobi, beside jacobi",
            port::jacobi_by_subtraction,
            [original::jacobi as Bench, erased::jacobi_by_subtraction],
            Odd,
        ),
        line("checked_jacobi", port::checked_jacobi, both!(checked_jacobi), Any),
        line("kronecker", port::kronecker, both!(kronecker), Any),
        line("checked_legendre", port::legendre, both!(legendre), Odd),
        narrow("checked_jacobi, 32 bits in words of 64", 32, port::checked_jacobi_short, both!(checked_jacobi_short), Any),
        narrow("invm, 32 bits in words of 64", 32, port::invm, both!(invm), Any),
    ]
}

fn narrow_words() -> Vec<Line> {
    use Moduli::{Any, Odd};
    vec![
        narrow("u8: mulm", 8, port::plain_u8::<PRODUCT>, both!(mulm_u8), Any),
        narrow("u8: powm", 8, port::plain_u8::<POWER>, both!(powm_u8), Any),
        narrow("u8: Montgomery::mul", 8, port::montgomery_mul_u8, both!(u8s::mul, Montgomery<u8>), Odd),
        narrow("u32: mulm", 32, port::plain_u32::<PRODUCT>, both!(mulm_u32), Any),
        narrow("u32: powm", 32, port::plain_u32::<POWER>, both!(powm_u32), Any),
        narrow("u32: Montgomery::mul", 32, port::montgomery_mul_u32, both!(u32s::mul, Montgomery<u32>), Odd),
        Line {
            bits: 32,
            ..line("u32: FixedTrinomialSolinas32::mul", port::fixed_solinas_mul_u32, both!(u32s::mul, FixedSolinas32), Moduli::One(SOLINAS_32))
        },
    ]
}

/// For a reducer the sum, the difference, the negative, the form and its residue.
macro_rules! parts {
    ($lines:ident, $name:literal, $over:path, $ring:ident $(<$word:ident>)?, $moduli:expr) => {
        {
            use $over as over;
            $lines.push(line(concat!($name, "::add"), over::<SUM>, both!(add, $ring $(<$word>)?), $moduli));
            $lines.push(line(concat!($name, "::sub"), over::<DIFFERENCE>, both!(sub, $ring $(<$word>)?), $moduli));
            $lines.push(line(concat!($name, "::neg"), over::<NEGATIVE>, both!(neg, $ring $(<$word>)?), $moduli));
            $lines.push(line(concat!($name, "::transform"), over::<FORM>, both!(form, $ring $(<$word>)?), $moduli));
            $lines.push(line(concat!($name, "::transform, residue"), over::<RESIDUE>, both!(residue, $ring $(<$word>)?), $moduli));
        }
    };
}

fn parts() -> Vec<Line> {
    use Moduli::{Any, Odd, One};
    let mut lines = vec![
        line("addm", port::plain_u64::<SUM>, both!(addm), Any),
        line("subm", port::plain_u64::<DIFFERENCE>, both!(subm), Any),
        line("negm", port::plain_u64::<NEGATIVE>, both!(negm), Any),
    ];
    parts!(lines, "Vanilla", port::over_vanilla, Vanilla<u64>, Any);
    parts!(lines, "PreMulInv2by1", port::over_premul, PreMulInv2by1<u64>, Any);
    for (name, port, crates) in [
        ("PreMulInv2by1::transform, 61 bits", port::over_premul::<FORM> as Bench, both!(form, PreMulInv2by1<u64>)),
        ("PreMulInv2by1::transform, residue, 61 bits", port::over_premul::<RESIDUE>, both!(residue, PreMulInv2by1<u64>)),
    ] {
        lines.push(Line { modulus: MERSENNE, ..line(name, port, crates, Any) });
    }
    parts!(lines, "Montgomery", port::over_montgomery, Montgomery<u64>, Odd);
    parts!(lines, "FixedMontgomery64", port::over_fixed_montgomery, FixedMontgomery, One(PRIME));
    parts!(lines, "FixedProth64", port::over_fixed_proth, FixedProth, One(PROTH));
    parts!(lines, "FixedMersenne64", port::over_fixed_mersenne, FixedMersenne, One(MERSENNE));
    parts!(lines, "FixedTrinomialSolinas64", port::over_fixed_solinas, FixedSolinas, One(SOLINAS));
    lines
}

fn throughput() -> Vec<Line> {
    use Moduli::{Any, Odd, One};
    vec![
        eight("mulm", port::mulm_eight, both!(mulm_eight), Any),
        eight("Vanilla::mul", port::over_vanilla::<EIGHT_CHAINS>, both!(eight, Vanilla<u64>), Any),
        eight("PreMulInv2by1::mul", port::over_premul::<EIGHT_CHAINS>, both!(eight, PreMulInv2by1<u64>), Any),
        eight("Montgomery::mul", port::over_montgomery::<EIGHT_CHAINS>, both!(eight, Montgomery<u64>), Odd),
        eight("FixedMontgomery64::mul", port::over_fixed_montgomery::<EIGHT_CHAINS>, both!(eight, FixedMontgomery), One(PRIME)),
        eight("FixedProth64::mul", port::over_fixed_proth::<EIGHT_CHAINS>, both!(eight, FixedProth), One(PROTH)),
        eight("FixedMersenne64::mul", port::over_fixed_mersenne::<EIGHT_CHAINS>, both!(eight, FixedMersenne), One(MERSENNE)),
        eight("FixedTrinomialSolinas64::mul", port::over_fixed_solinas::<EIGHT_CHAINS>, both!(eight, FixedSolinas), One(SOLINAS)),
    ]
}

/// Each table beside the crate.
pub fn tables() -> Vec<Table> {
    vec![
        Table { key: "any", title: "The operations of any modulus", lines: any_modulus() },
        Table { key: "fixed", title: "The reducers whose modulus is given by parameters of the type", lines: fixed_modulus() },
        Table { key: "symbols", title: "The symbols, and operands of 32 bits in words of 64", lines: symbols() },
        Table { key: "narrow", title: "Words of 8 and of 32 bits", lines: narrow_words() },
        Table { key: "parts", title: "Sums, differences, negatives, forms and their residues", lines: parts() },
        Table { key: "throughput", title: "Eight chains of products side by side, the time of one product", lines: throughput() },
    ]
}
