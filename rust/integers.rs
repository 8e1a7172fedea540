//! The traits of core that people expect of integers modulo m: how they are written, compared, hashed, divided, converted and
//! summed, and words on the left of an operator. Written by hand, and so not proved; all computations here call proved
//! functions.

use crate::{ModularInteger, ReducedInt, Reducer};
use core::fmt;
use core::hash::{Hash, Hasher};
use core::iter::{Product, Sum};
use core::ops::{Add, Div, DivAssign, Mul, Sub};

impl<T: PartialEq + Clone + fmt::Display, R: Reducer<T> + Clone> fmt::Display for ReducedInt<T, R> {
    /// The residue.
    fn fmt(&self, f: &mut fmt::Formatter) -> fmt::Result {
        self.residue().fmt(f)
    }
}

impl<T: fmt::Debug, R: Reducer<T>> fmt::Debug for ReducedInt<T, R> {
    /// The residue and the modulus.
    fn fmt(&self, f: &mut fmt::Formatter) -> fmt::Result {
        let (form, reducer) = (&self.form, &self.reducer);
        // the sum with 0 is a copy, also of a form that can't be cloned
        let copy = reducer.add(form, &reducer.sub(form, form));
        write!(f, "{:?} (mod {:?})", reducer.residue(copy), reducer.modulus())
    }
}

// In other bases the residue is written, as `Display` writes it.
macro_rules! bases {
    ($($base:ident)*) => {$(
        impl<T: PartialEq + Clone + fmt::$base, R: Reducer<T> + Clone> fmt::$base for ReducedInt<T, R> {
            /// The residue.
            fn fmt(&self, f: &mut fmt::Formatter) -> fmt::Result {
                fmt::$base::fmt(&self.residue(), f)
            }
        }
    )*};
}

bases!(LowerHex UpperHex Octal Binary);

impl<T: Eq, R: Reducer<T>> Eq for ReducedInt<T, R> {}

impl<T: PartialEq + Clone + Hash, R: Reducer<T> + Clone> Hash for ReducedInt<T, R> {
    /// Equal integers, which have equal residues and moduli, hash equally.
    fn hash<H: Hasher>(&self, state: &mut H) {
        self.residue().hash(state);
        self.modulus().hash(state);
    }
}

// Words on the right of a division, as the proved operators have them on the right of the others.
macro_rules! divided_by_words {
    ($($integer:ty, $word:ty;)*) => {$(
        impl<T: PartialEq + Clone, R: Reducer<T> + Clone> Div<$word> for $integer {
            type Output = ReducedInt<T, R>;

            /// The quotient by a word n.
            ///
            /// # Panics
            ///
            /// Panics unless n has an inverse modulo m.
            #[cfg_attr(debug_assertions, track_caller)]
            fn div(self, n: $word) -> ReducedInt<T, R> {
                let divisor = self.convert(n.clone());
                self / divisor
            }
        }
    )*};
}

divided_by_words! {
    ReducedInt<T, R>, T;
    ReducedInt<T, R>, &T;
    &ReducedInt<T, R>, T;
    &ReducedInt<T, R>, &T;
}

macro_rules! divided_in_place {
    ($($divisor:ty;)*) => {$(
        impl<T: PartialEq + Clone, R: Reducer<T> + Clone> DivAssign<$divisor> for ReducedInt<T, R> {
            #[cfg_attr(debug_assertions, track_caller)]
            fn div_assign(&mut self, rhs: $divisor) {
                *self = self.clone() / rhs;
            }
        }
    )*};
}

divided_in_place!(ReducedInt<T, R>; &ReducedInt<T, R>; T; &T;);

// A word on the left, and the residue as a word: for each word, since a crate can't implement another's trait for any type.
macro_rules! words {
    ($($word:ident)*) => {$(
        word_on_the_left! {
            $word;
            /// The sum of a word n and an integer.
            Add::add(n, x) = x + n;
            /// The difference of a word n and an integer.
            Sub::sub(n, x) = -(x - n);
            /// The product of a word n and an integer.
            Mul::mul(n, x) = x * n;
            /// The quotient of a word n by an integer.
            ///
            /// # Panics
            ///
            /// Panics unless the integer has an inverse modulo m.
            Div::div(n, x) = x.convert(n) / x;
        }

        impl<R: Reducer<$word> + Clone> From<ReducedInt<$word, R>> for $word {
            /// The residue.
            fn from(x: ReducedInt<$word, R>) -> $word {
                x.residue()
            }
        }
    )*};
}

macro_rules! word_on_the_left {
    ($word:ident; $($(#[$docs:meta])* $operator:ident::$method:ident($n:ident, $x:ident) = $value:expr;)*) => {$(
        impl<R: Reducer<$word> + Clone> $operator<ReducedInt<$word, R>> for $word {
            type Output = ReducedInt<$word, R>;

            $(#[$docs])*
            #[cfg_attr(debug_assertions, track_caller)]
            fn $method(self, $x: ReducedInt<$word, R>) -> ReducedInt<$word, R> {
                let $n = self;
                $value
            }
        }

        impl<R: Reducer<$word> + Clone> $operator<&ReducedInt<$word, R>> for $word {
            type Output = ReducedInt<$word, R>;

            $(#[$docs])*
            #[cfg_attr(debug_assertions, track_caller)]
            fn $method(self, x: &ReducedInt<$word, R>) -> ReducedInt<$word, R> {
                self.$method(x.clone())
            }
        }

        impl<R: Reducer<$word> + Clone> $operator<ReducedInt<$word, R>> for &$word {
            type Output = ReducedInt<$word, R>;

            $(#[$docs])*
            #[cfg_attr(debug_assertions, track_caller)]
            fn $method(self, x: ReducedInt<$word, R>) -> ReducedInt<$word, R> {
                (*self).$method(x)
            }
        }

        impl<R: Reducer<$word> + Clone> $operator<&ReducedInt<$word, R>> for &$word {
            type Output = ReducedInt<$word, R>;

            $(#[$docs])*
            #[cfg_attr(debug_assertions, track_caller)]
            fn $method(self, x: &ReducedInt<$word, R>) -> ReducedInt<$word, R> {
                (*self).$method(x.clone())
            }
        }
    )*};
}

words!(u8 u16 u32 u64 usize u128);

// Integers of words, and sums and products of any number of integers. These need a modulus that the type knows.
macro_rules! made_of_words {
    ($($ring:ident $integer:ident<$(const $parameter:ident: $kind:ty),*> $word:ty;)*) => {$(
        impl<$(const $parameter: $kind),*> From<$word> for crate::$integer<$($parameter),*> {
            /// The word modulo m.
            fn from(n: $word) -> Self {
                Self::new(n, &crate::$ring::<$($parameter),*>::MODULUS)
            }
        }

        impl<$(const $parameter: $kind),*> Default for crate::$integer<$($parameter),*> {
            /// The integer 0.
            fn default() -> Self {
                Self::from(0)
            }
        }

        impl<$(const $parameter: $kind),*> Sum for crate::$integer<$($parameter),*> {
            fn sum<I: Iterator<Item = Self>>(items: I) -> Self {
                items.fold(Self::from(0), |sum, it| sum + it)
            }
        }

        impl<'a, $(const $parameter: $kind),*> Sum<&'a Self> for crate::$integer<$($parameter),*> {
            fn sum<I: Iterator<Item = &'a Self>>(items: I) -> Self {
                items.copied().sum()
            }
        }

        impl<$(const $parameter: $kind),*> Product for crate::$integer<$($parameter),*> {
            fn product<I: Iterator<Item = Self>>(items: I) -> Self {
                items.fold(Self::from(1), |product, it| product * it)
            }
        }

        impl<'a, $(const $parameter: $kind),*> Product<&'a Self> for crate::$integer<$($parameter),*> {
            fn product<I: Iterator<Item = &'a Self>>(items: I) -> Self {
                items.copied().product()
            }
        }
    )*};
}

fixed!(made_of_words);

#[cfg(test)]
mod tests {
    extern crate std;
    use crate::*;
    use std::collections::HashSet;

    #[test]
    fn integers_are_written() {
        let x = MontgomeryInt::<u64>::new(107, &97);
        assert_eq!(std::format!("{x} {x:>4} {x:?}"), "10   10 10 (mod 97)");
        fn has_equality<T: Eq>(_: T) {}
        has_equality(x);
    }

    #[test]
    fn sums_and_products_of_integers_of_one_type() {
        type Int = FixedMersenneInt32<31, 1>;
        let all = [2147483646u32, 2, 3].map(|n| Int::new(n, &FixedMersenne32::<31, 1>::MODULUS));
        assert_eq!((all.iter().sum::<Int>().residue(), all.iter().product::<Int>().residue()), (4, 2147483641));
        assert_eq!((all[..0].iter().sum::<Int>().residue(), all[..0].iter().product::<Int>().residue()), (0, 1));
    }

    #[test]
    fn integers_are_written_in_other_bases() {
        let x = MontgomeryInt::<u64>::new(107, &197);
        assert_eq!(std::format!("{x:x} {x:#X} {x:o} {x:#010b}"), "6b 0x6B 153 0b01101011");
    }

    #[test]
    fn equal_integers_hash_equally() {
        let x = MontgomeryInt::<u64>::new(107, &97);
        let all: HashSet<_> = [x, x.convert(10), x.convert(11), MontgomeryInt::<u64>::new(10, &101)].into_iter().collect();
        assert_eq!((all.len(), all.contains(&x.convert(204))), (3, true));
    }

    #[test]
    fn integers_are_divided_in_place() {
        let mut x = VanillaInt::<u8>::new(10, &21);
        x /= x.convert(5);
        assert_eq!(x.residue(), 2);
        x /= &x.convert(4);
        assert_eq!(x.residue(), 11);
    }

    #[test]
    fn words_on_the_left() {
        macro_rules! try_each {
            ($($word:ident)*) => {$(
                for (x, n) in (0..21).flat_map(|x| (0..50).map(move |n| (x, n))) {
                    let x = VanillaInt::<$word>::new(x, &21);
                    let (borrowed, word): (&_, &$word) = (&x, &n);
                    assert_eq!([n + x, n + borrowed, word + x, word + borrowed], [x + n; 4]);
                    assert_eq!([n - x, n - borrowed, word - x, word - borrowed], [x.convert(n) - x; 4]);
                    assert_eq!([n * x, n * borrowed, word * x, word * borrowed], [x * n; 4]);
                    if let Some(inverse) = x.inv() {
                        assert_eq!([n / x, n / borrowed, word / x, word / borrowed], [inverse * n; 4]);
                    }
                    assert_eq!($word::from(x), x.residue());
                }
            )*};
        }
        try_each!(u8 u16 u32 u64);
        #[cfg(target_pointer_width = "64")]
        try_each!(usize);
        let x = FixedMersenneInt::<61, 1>::from(u128::MAX); // 2^128 - 1 = 2^(2 * 61 + 6) - 1
        assert_eq!([1 + x, 1 - x, 2 * x, x / x].map(u128::from), [64, (1 << 61) - 63, 126, 1]);
    }

    #[test]
    fn integers_of_words() {
        macro_rules! try_each {
            ($($integer:ty = $word:ty;)*) => {$(
                let x = <$integer>::from(<$word>::MAX);
                assert_eq!((x.residue(), <$integer>::default().residue()), (<$word>::MAX % x.modulus(), 0));
            )*};
        }
        try_each! {
            FixedMontgomeryInt32<97> = u32; FixedMontgomeryInt64<97> = u64;
            FixedProthInt32<5, 3> = u32; FixedProthInt64<57, 29> = u64;
            FixedMersenneInt32<31, 1> = u32; FixedMersenneInt64<61, 1> = u64; FixedMersenneInt<61, 1> = u128;
            FixedSolinasInt32<16, 8, 1> = u32; FixedSolinasInt64<64, 32, 1> = u64;
        }
    }
}
