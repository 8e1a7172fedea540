//! The lines, written once by macros and compiled over either library.

/// The lines of one library, with its reducer of odd moduli, its equality of integers of one ring, and its fastest reduction of
/// double words.
macro_rules! library {
    ($folder:ident, $library:ident, $odd:ident, $equal:ident, $uncounted:ident) => {
        pub mod $folder {
            library!(@width $library $odd $equal w8 u8 u16);
            library!(@width $library $odd $equal w16 u16 u32);
            library!(@width $library $odd $equal w32 u32 u64);
            library!(@width $library $odd $equal w64 u64 u128);

            pub fn all() -> Vec<crate::measure::Line> {
                let mut lines = Vec::new();
                w8::any(&mut lines);
                w16::any(&mut lines);
                w32::any(&mut lines);
                w64::any(&mut lines);
                fixed32(&mut lines);
                fixed64(&mut lines);
                lines
            }

            library!(@fixed $library $uncounted fixed32 w32 u32 u64;
                FixedMersenne32<2, 1>, FixedMersenne32<7, 1>, FixedMersenne32<16, 5>, FixedMersenne32<31, 1>, FixedMersenne32<32, 5>,
                FixedTrinomialSolinas32<12, 5, 1>, FixedTrinomialSolinas32<20, 8, -1>, FixedTrinomialSolinas32<31, 24, 1>,
                FixedTrinomialSolinas32<32, 20, 1>, FixedTrinomialSolinas32<32, 31, 1>;
                FixedProth32<8, 3>, FixedProth32<16, 1>, FixedProth32<23, 255>,
                FixedMontgomery32<3>, FixedMontgomery32<998244353>, FixedMontgomery32<4294967291>);
            library!(@fixed $library $uncounted fixed64 w64 u64 u128;
                FixedMersenne64<2, 1>, FixedMersenne64<31, 1>, FixedMersenne64<32, 5>, FixedMersenne64<61, 1>, FixedMersenne64<64, 59>,
                FixedTrinomialSolinas64<12, 5, 1>, FixedTrinomialSolinas64<40, 20, 1>, FixedTrinomialSolinas64<61, 32, -1>,
                FixedTrinomialSolinas64<64, 32, 1>, FixedTrinomialSolinas64<64, 62, 1>;
                FixedProth64<16, 1>, FixedProth64<32, 3>, FixedProth64<55, 255>,
                FixedMontgomery64<3>, FixedMontgomery64<998244353>, FixedMontgomery64<18446744073709551557>);
        }
    };
    (@fixed $library:ident $uncounted:ident $name:ident $module:ident $word:ident $double:ident; $($folds:ty),*; $($odd:ty),*) => {
        fn $name(lines: &mut Vec<crate::measure::Line>) {
            use $library::*;
            $(
                $module::ring::<$folds>(lines, stringify!($folds), <$folds>::MODULUS);
                crate::lines::folds!(lines $module $word $double $uncounted $folds);
            )*
            $($module::ring::<$odd>(lines, stringify!($odd), <$odd>::MODULUS);)*
        }
    };
    (@width $library:ident $odd:ident $equal:ident $module:ident $word:ident $double:ident) => {
        pub mod $module {
            use crate::measure::{Line, Random, Rows, rows, step};
            use $library::*;
            use std::hint::black_box;

            type W = $word;
            const BITS: u32 = W::BITS;

            fn see(x: &W) -> u64 {
                *x as u64
            }

            fn low(m: W) -> W {
                (1 << (BITS - 1 - m.leading_zeros())) - 1
            }

            fn start<T: Clone>(rows: &Rows<T>) -> [T; 8] {
                rows[3].clone()
            }

            /// The first word from x on that has no divisor in common with m, so that products don't end at 0.
            fn unit(x: W, m: W) -> W {
                fn gcd(a: W, b: W) -> W {
                    if b == 0 { a } else { gcd(b, a % b) }
                }
                (0..m).map(|i| ((x as u128 + i as u128) % m as u128) as W).find(|it| gcd(*it, m) == 1).unwrap_or(0)
            }

            pub fn units(words: Rows<W>, m: W) -> Rows<W> {
                words.map(|row| row.map(|it| unit(it, m)))
            }

            pub fn ring<R: Reducer<W> + Clone + 'static>(lines: &mut Vec<Line>, place: &str, m: W) {
                let r = R::new(&black_box(m));
                let mut random = Random(m as u64);
                let words = rows(|| random.next() as W);
                let residues = words.map(|row| row.map(|it| it % m));
                let forms = words.map(|row| row.map(|it| r.transform(it)));
                let unit_forms = units(words, m).map(|row| row.map(|it| r.transform(it)));
                let low = low(m);
                let all = |of: Rows<W>| (r.clone(), start(&of), of);
                let with_low = |of: Rows<W>| ((r.clone(), low), start(&of).map(|it| it & low), of);
                step(lines, "transform of a residue", place, with_low(residues), |(r, low), x, y| r.transform((x ^ y) & low), see);
                step(lines, "transform of a word", place, all(words), |r, x, y| r.transform(x ^ y), see);
                step(lines, "residue", place, with_low(forms), |(r, low), x, y| (r.residue(x) ^ y) & low, see);
                step(lines, "check, then dbl", place, all(forms), |r, x, y| if r.check(&x) { r.dbl(x) } else { y }, see);
                step(lines, "is_zero, then sub", place, all(forms), |r, x, y| if r.is_zero(&x) { y } else { r.sub(&x, &y) }, see);
                step(lines, "add", place, all(forms), |r, x, y| r.add(&x, &y), see);
                step(lines, "sub", place, all(forms), |r, x, y| r.sub(&x, &y), see);
                step(lines, "dbl", place, all(forms), |r, x, _| r.dbl(x), see);
                step(lines, "neg, then add", place, all(forms), |r, x, y| r.add(&r.neg(x), &y), see);
                step(lines, "mul", place, all(unit_forms), |r, x, y| r.mul(&x, &y), see);
                step(lines, "mul, then add", place, all(forms), |r, x, y| r.add(&r.mul(&x, &y), &y), see);
                step(lines, "sqr, then add", place, all(forms), |r, x, y| r.add(&r.sqr(x), &y), see);
                step(lines, "inv, then add", place, all(forms), |r, x, y| r.add(&r.inv(x).unwrap_or(x), &y), see);
                step(lines, "pow 13, then add", place, all(forms), |r, x, y| r.add(&r.pow(x, &13), &y), see);
                step(lines, "pow, then add", place, (r.clone(), start(&forms), forms), |r, x, y| r.add(&r.pow(x, &!y), &y), see);
                step(lines, "transform, then mul", place, all(forms), |r, x, y| r.mul(&r.transform(x ^ y), &y), see);
                integers::<R>(lines, place, m, words);
            }

            fn integers<R: Reducer<W> + Clone + 'static>(lines: &mut Vec<Line>, place: &str, m: W, words: Rows<W>) {
                type Integer<R> = ReducedInt<W, R>;
                fn see<R: Reducer<W> + Clone>(x: &Integer<R>) -> u64 {
                    x.residue() as u64
                }
                let of = words.map(|row| row.map(|it| Integer::<R>::new(it, &black_box(m))));
                let of_units = units(words, m).map(|row| row.map(|it| Integer::<R>::new(it, &black_box(m))));
                let all = |of: &Rows<Integer<R>>| ((), of[3].clone(), of.clone());
                step(lines, "ReducedInt +", place, all(&of), |_, x, y| x + y, see::<R>);
                step(lines, "ReducedInt -", place, all(&of), |_, x, y| x - y, see::<R>);
                step(lines, "ReducedInt *", place, all(&of_units), |_, x, y| x * y, see::<R>);
                step(lines, "ReducedInt square, then +", place, all(&of), |_, x, y| x.square() + y, see::<R>);
                step(lines, "ReducedInt neg, then +", place, all(&of), |_, x, y| -x + y, see::<R>);
                step(lines, "ReducedInt ==, then -", place, all(&of), |_, x, y| if x == y { y } else { x - y }, see::<R>);
                step(lines, "ReducedInt == of one ring, then -", place, all(&of), |_, x, y| if x.$equal(&y) { y } else { x - y }, see::<R>);
                step(lines, "ReducedInt residue, convert", place, all(&of), |_, x, y| y.convert(x.residue() ^ *y.repr()), see::<R>);
                step(lines, "ReducedInt pow 13, then +", place, all(&of), |_, x, y| x.pow(&13) + y, see::<R>);
            }

            fn words(lines: &mut Vec<Line>, m: W) {
                let place = format!("u{BITS} modulo {m}");
                let mut random = Random(m as u64);
                let words = rows(|| random.next() as W);
                let residues = words.map(|row| row.map(|it| it % m));
                let all = |of: Rows<W>| (m, start(&of), of);
                let place = place.as_str();
                step(lines, "addm", place, all(residues), |m, x, y| x.addm(y, m), see);
                step(lines, "subm", place, all(residues), |m, x, y| x.subm(y, m), see);
                step(lines, "mulm", place, all(units(words, m)), |m, x, y| x.mulm(y, m), see);
                step(lines, "dblm", place, all(residues), |m, x, _| x.dblm(m), see);
                step(lines, "negm, then addm", place, all(residues), |m, x, y| x.negm(m).addm(y, m), see);
                step(lines, "sqm, then addm", place, all(residues), |m, x, y| x.sqm(m).addm(y, m), see);
                step(lines, "addm of words", place, all(words), |m, x, y| (x ^ y).addm(y, m), see);
                step(lines, "subm of words", place, all(words), |m, x, y| (x ^ y).subm(y, m), see);
                step(lines, "mulm of words", place, all(words), |m, x, y| (x ^ y).mulm(y, m), see);
                step(lines, "dblm of words", place, all(words), |m, x, y| (x ^ y).dblm(m), see);
                step(lines, "negm of words", place, all(words), |m, x, y| (x ^ y).negm(m), see);
                step(lines, "invm, then addm", place, all(residues), |m, x, y| x.invm(m).unwrap_or(x).addm(y, m), see);
                step(lines, "powm 3, then addm", place, all(residues), |m, x, y| x.powm(3, m).addm(y, m), see);
                step(lines, "powm 13, then addm", place, all(residues), |m, x, y| x.powm(13, m).addm(y, m), see);
                step(lines, "powm, then addm", place, all(residues), |m, x, y| x.powm(!y, m).addm(y, m), see);
                step(lines, "jacobi", place, all(residues), |m, x, y| (x ^ y).wrapping_add(x.jacobi(&(*m | 1)) as W), see);
                step(lines, "PreMulInv1by1::new, div_rem", place, all(words), |m, x, y| {
                    let (q, r) = PreMulInv1by1::<W>::new((x ^ *m) | 2).div_rem(y, (x ^ *m) | 2);
                    q ^ r
                }, see);
                step(lines, "PreMulInv1by1::div_rem", place, ((m, PreMulInv1by1::<W>::new(m)), start(&words), words), |(m, pre), x, y| {
                    let (q, r) = pre.div_rem(x ^ y, *m);
                    q.wrapping_add(r)
                }, see);
                let top = m << m.leading_zeros();
                let divider = Normalized2by1Divisor::<W>::new(top);
                step(lines, "div_rem_1by1", place, (divider, start(&words), words), |it, x, y| {
                    let (q, r) = it.div_rem_1by1(x ^ y);
                    q.wrapping_add(r)
                }, see);
                let below = words.map(|row| row.map(|it| it % top));
                step(lines, "div_rem_2by1", place, (divider, start(&below), words), |it, x, y| {
                    it.div_rem_2by1((x as $double) << BITS | y as $double).1
                }, see);
                if m % 2 == 1 {
                    let pre: PreModInv<W> = m.into();
                    step(lines, "div_exact", place, ((m, pre), start(&words), words), |(m, pre), x, y| {
                        x.wrapping_mul(*m).div_exact(*m, pre).unwrap_or(y.wrapping_add(x))
                    }, see);
                }
            }

            /// Moduli: small, half of the width, the greatest; odd and even ones.
            pub fn any(lines: &mut Vec<Line>) {
                let half: W = (1 << (BITS / 2)) - 1;
                for m in [7, half, W::MAX - if BITS == 64 { 58 } else if BITS == 8 { 4 } else { 14 }, W::MAX / 3 * 2 + 1] {
                    words(lines, m);
                    ring::<Vanilla<W>>(lines, &format!("Vanilla<u{BITS}> {m}"), m);
                    ring::<PreMulInv2by1<W>>(lines, &format!("PreMulInv2by1<u{BITS}> {m}"), m);
                    ring::<Montgomery<W>>(lines, &format!("Montgomery<u{BITS}> {m}"), m);
                    ring::<$odd<W>>(lines, &format!("OddMontgomery<u{BITS}> {m}"), m);
                }
                for m in [6, half - 1, W::MAX - 1] {
                    words(lines, m);
                    ring::<Vanilla<W>>(lines, &format!("Vanilla<u{BITS}> {m}"), m);
                    ring::<PreMulInv2by1<W>>(lines, &format!("PreMulInv2by1<u{BITS}> {m}"), m);
                }
            }
        }
    };
}

macro_rules! folds {
    ($lines:ident $module:ident $word:ident $double:ident $uncounted:ident $ring:ty) => {{
        use crate::measure::{Random, rows, step};
        let mut random = Random(0);
        let words = rows(|| random.next() as $word);
        let place = stringify!($ring);
        step($lines, "reduce_single", place, ((), words[3], words), |_, x, y| <$ring>::reduce_single(x ^ y), |x| *x as u64);
        let units = $module::units(words, <$ring>::MODULUS);
        step($lines, "reduce_double", place, ((), units[3], units), |_, x, y| {
            <$ring>::reduce_double(x as $double * y as $double)
        }, |x| *x as u64);
        step($lines, "reduce_uncounted", place, ((), units[3], units), |_, x, y| {
            <$ring>::$uncounted(x as $double * y as $double)
        }, |x| *x as u64);
    }};
}

pub(crate) use folds;

library!(rust, num_modular, Montgomery, eq, reduce_double);
library!(cargo, erased, OddMontgomery, eq_in_same_ring, reduce_uncounted);
