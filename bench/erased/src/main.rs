//! The Cargo crate beside the Rust crate: their answers over random words, and their times, from one text for both.
//!
//!     cargo run --release --offline --config 'patch.crates-io.num-modular.path="FOLDER"'
//!
//! Each line is one function of a list of operands, written once by a macro and compiled over either crate. Its answers are
//! summed up; the sums have to be equal in every round. Times are the least of the rounds, which take turns. Then come lists of
//! commands of six kinds, with a mean of their own.

#![allow(unstable_name_collisions)]

mod commands;

use std::time::Instant;

const OPERANDS: usize = 1000;
const ROUNDS: usize = 400;

/// Two words, a modulus of at least 2, and the same made odd and with its top bit set.
type Operands<T> = Vec<(T, T, T)>;

macro_rules! lines {
    ($folder:ident, $library:ident) => {
        mod $folder {
            lines!(@width $library w8 u8 u16);
            lines!(@width $library w16 u16 u32);
            lines!(@width $library w32 u32 u64);
            lines!(@width $library w64 u64 u128);
            lines!(@width $library wsize usize u128);
            lines!(@fixed $library fixed32 u32 u64; FixedMersenne32<31, 1>, FixedMersenne32<16, 5>, FixedTrinomialSolinas32<32, 20, 1>,
                FixedProth32<23, 255>, FixedMontgomery32<4294967291>);
            lines!(@fixed $library fixed64 u64 u128; FixedMersenne64<61, 1>, FixedMersenne64<64, 59>, FixedTrinomialSolinas64<64, 32, 1>,
                FixedProth64<32, 3>, FixedMontgomery64<18446744073709551557>);
        }
    };
    (@width $library:ident $module:ident $word:ident $double:ident) => {
        pub mod $module {
            use $library::*;
            use std::hint::black_box;
            fn sum(all: &[($word, $word, $word)], f: impl Fn($word, $word, $word) -> u64) -> u64 {
                let mut total = 0u64;
                for &(x, y, m) in all {
                    total = total.rotate_left(5) ^ f(black_box(x), black_box(y), black_box(m));
                }
                total
            }
            fn ring<R: Reducer<$word>>(all: &[($word, $word, $word)], odd: bool, f: impl Fn(&R, $word, $word) -> u64) -> u64 {
                let mut total = 0u64;
                for part in all.chunks(50) {
                    let r = R::new(&black_box(if odd { part[0].2 | 1 } else { part[0].2 }));
                    for &(x, y, _) in part {
                        total = total.rotate_left(5) ^ f(&r, r.transform(black_box(x)), r.transform(black_box(y)));
                    }
                }
                total
            }
            fn forms<R: Reducer<$word>>(r: &R, a: $word, b: $word) -> u64 {
                let inv = r.inv(a).map_or(0, |x| r.residue(x) as u64);
                let rest = [r.add(&a, &b), r.sub(&a, &b), r.mul(&a, &b), r.neg(a), r.dbl(a), r.sqr(b), r.pow(a, &7)];
                rest.iter().fold(inv, |total, f| total.rotate_left(7) ^ *f as u64)
            }
            pub fn all() -> Vec<(&'static str, fn(&[($word, $word, $word)]) -> u64)> {
                vec![
                    ("addm", |all| sum(all, |x, y, m| x.addm(y, &m) as u64)),
                    ("subm", |all| sum(all, |x, y, m| x.subm(y, &m) as u64)),
                    ("mulm", |all| sum(all, |x, y, m| x.mulm(y, &m) as u64)),
                    ("negm, dblm, sqm", |all| sum(all, |x, _, m| (x.negm(&m) ^ x.dblm(&m) ^ x.sqm(&m)) as u64)),
                    ("powm", |all| sum(all, |x, y, m| x.powm(y, &m) as u64)),
                    ("invm", |all| sum(all, |x, _, m| x.invm(&m).map_or(0, |it| it as u64))),
                    ("jacobi", |all| sum(all, |x, _, m| x.jacobi(&(m | 1)) as u64)),
                    ("kronecker", |all| sum(all, |x, y, _| x.kronecker(&y) as u64)),
                    ("PreMulInv1by1 new, div_rem", |all| sum(all, |x, _, m| {
                        let (q, r) = PreMulInv1by1::<$word>::new(m).div_rem(x, m);
                        q as u64 ^ r as u64
                    })),
                    ("Normalized2by1Divisor new, div_rem_2by1", |all| sum(all, |x, y, m| {
                        let d = m | (1 << (<$word>::BITS - 1));
                        let (q, r) = Normalized2by1Divisor::<$word>::new(d).div_rem_2by1(((y % d) as $double) << <$word>::BITS | x as $double);
                        q as u64 ^ r as u64
                    })),
                    ("PreModInv, div_exact", |all| sum(all, |x, y, m| {
                        let pre: PreModInv<$word> = (m | 1).into();
                        let wide = (x as $double * (m | 1) as $double).div_exact(m | 1, &pre).unwrap_or(0);
                        wide as u64 ^ y.div_exact(m | 1, &pre).unwrap_or(0) as u64
                    })),
                    ("Vanilla, mul", |all| ring::<Vanilla<$word>>(all, false, |r, a, b| r.mul(&a, &b) as u64)),
                    ("Vanilla, all forms", |all| ring::<Vanilla<$word>>(all, false, forms)),
                    ("PreMulInv2by1, mul", |all| ring::<PreMulInv2by1<$word>>(all, false, |r, a, b| r.mul(&a, &b) as u64)),
                    ("PreMulInv2by1, all forms", |all| ring::<PreMulInv2by1<$word>>(all, false, forms)),
                    ("Montgomery, mul", |all| ring::<Montgomery<$word>>(all, true, |r, a, b| r.mul(&a, &b) as u64)),
                    ("Montgomery, all forms", |all| ring::<Montgomery<$word>>(all, true, forms)),
                    ("MontgomeryInt", |all| sum(all, |x, y, m| {
                        let x = MontgomeryInt::<$word>::new(x, &(m | 1));
                        let y = x.convert(y);
                        ((x + y) * (x - y) * y).residue() as u64
                    })),
                ]
            }
        }
    };
    (@fixed $library:ident $module:ident $word:ident $double:ident; $($ring:ty),*) => {
        pub mod $module {
            use $library::*;
            use std::hint::black_box;
            pub fn all() -> Vec<(&'static str, fn(&[($word, $word, $word)]) -> u64)> {
                vec![$((stringify!($ring), |all| {
                    let r = <$ring>::new(&<$ring>::MODULUS);
                    let mut total = 0u64;
                    for &(x, y, e) in all {
                        let (a, b) = (r.transform(black_box(x)), r.transform(black_box(y)));
                        let c = r.pow(r.mul(&r.add(&a, &b), &r.sub(&a, &b)), &(black_box(e) % 64));
                        total = total.rotate_left(5) ^ c as u64 ^ r.residue(r.neg(r.dbl(r.sqr(b)))) as u64;
                    }
                    total
                })),*]
            }
        }
    };
}

lines!(rust, num_modular);
lines!(cargo, erased);

/// Random numbers (splitmix64); a quarter of the words is small, and a quarter near the greatest.
struct Random(u64);

impl Random {
    fn next(&mut self) -> u64 {
        self.0 = self.0.wrapping_add(0x9e3779b97f4a7c15);
        let x = (self.0 ^ (self.0 >> 30)).wrapping_mul(0xbf58476d1ce4e5b9);
        let x = (x ^ (x >> 27)).wrapping_mul(0x94d049bb133111eb);
        x ^ (x >> 31)
    }

    fn word(&mut self) -> u64 {
        let x = self.next();
        match self.next() % 4 {
            0 => x >> 59,
            1 => u64::MAX - (x >> 59),
            _ => x,
        }
    }
}

#[derive(Default)]
struct Total {
    answers: u64,
    lines: u32,
    logarithms: f64,
}

impl Total {
    fn add(&mut self, quotient: f64) {
        self.lines += 1;
        self.logarithms += quotient.ln();
    }

    fn mean(&self) -> f64 {
        (self.logarithms / self.lines as f64).exp()
    }
}

macro_rules! compare {
    ($total:expr, $module:ident $word:ident) => {
        let mut random = Random(0);
        for (&(name, rust), &(_, cargo)) in rust::$module::all().iter().zip(&cargo::$module::all()) {
            let mut least = [f64::MAX; 2];
            for round in 0..ROUNDS {
                let all: Operands<$word> = (0..OPERANDS)
                    .map(|_| (random.word() as $word, random.word() as $word, (random.word() as $word).max(2)))
                    .collect();
                let mut sums = [0; 2];
                for part in 0..2 {
                    let which = (part + round) % 2;
                    let begun = Instant::now();
                    sums[which] = if which == 0 { rust(&all) } else { cargo(&all) };
                    least[which] = least[which].min(begun.elapsed().as_nanos() as f64);
                }
                assert_eq!(sums[0], sums[1], "{name} of {}", stringify!($word));
                $total.answers += OPERANDS as u64;
            }
            let quotient = least[1] / least[0];
            $total.add(quotient);
            let each = least.map(|it| it / OPERANDS as f64);
            println!("| {} | `{name}` | {:.1} | {:.1} | {quotient:.2} |", stringify!($word), each[0], each[1]);
        }
    };
}

fn main() {
    println!("| Word | Line | Rust crate, ns | Cargo crate, ns | Quotient |\n|---|---|---|---|---|");
    let mut total = Total::default();
    compare!(total, w8 u8);
    compare!(total, w16 u16);
    compare!(total, w32 u32);
    compare!(total, w64 u64);
    compare!(total, wsize usize);
    compare!(total, fixed32 u32);
    compare!(total, fixed64 u64);
    let mut lists = Total::default();
    commands::compare(&mut lists);
    println!("\n{} answers were equal; the mean of the {} quotients is {:.3}", total.answers, total.lines, total.mean());
    println!("the mean of the {} quotients of lists is {:.3}", lists.lines, lists.mean());
}
