//! Products of polynomials over arrays, and the causes of a failure.

use super::{with_scratch, MOST};
use crate::applications::long_product::polynomials::{self, multiply_once, room_once};
use crate::plans::{Factor, PlanEntry};
use core::fmt;

/// Why there is no product: the first cause.
///
/// # Examples
///
/// ```
/// use num_modular::applications::long_product::polynomials::MultiplyError;
///
/// assert_eq!(MultiplyError::NoModulus.to_string(), "the modulus must be at least 1");
/// ```
#[derive(Debug, Clone, Copy, PartialEq, Eq, Hash)]
pub enum MultiplyError {
    /// The modulus is 0.
    NoModulus,
    /// The length of `out` isn't that of the product: one less than those of the factors together, or 0 where one is empty;
    /// or the lengths of the factors and of `out` differ, where the product is a cyclic or negacyclic one.
    LengthOfProduct,
    /// Both factors have `LEAST_TRANSFORMED` coefficients or more, and they have more than 2^32 together.
    TooManyCoefficients,
    /// There are fewer words than `room_once` returns.
    TooFewWords,
    /// There are fewer factors than `room_once` returns.
    TooFewFactors,
}

impl fmt::Display for MultiplyError {
    fn fmt(&self, f: &mut fmt::Formatter) -> fmt::Result {
        f.write_str(match self {
            MultiplyError::NoModulus => "the modulus must be at least 1",
            MultiplyError::LengthOfProduct => "`out`, and factors of a cyclic product, must have the length of the product",
            MultiplyError::TooManyCoefficients => "there must be at most 2^32 coefficients",
            MultiplyError::TooFewWords => "there must be as many words as `room_once` returns",
            MultiplyError::TooFewFactors => "there must be as many factors as `room_once` returns",
        })
    }
}

// Whether there is a product, or the first cause why there is none. `fits`: `out` has the length of the product.
fn outcome(is_done: bool, m: u64, xs: usize, ys: usize, fits: bool, words: usize) -> Result<(), MultiplyError> {
    if is_done {
        Ok(())
    } else if m == 0 {
        Err(MultiplyError::NoModulus)
    } else if !fits {
        Err(MultiplyError::LengthOfProduct)
    } else if xs + ys > 1 << 32 {
        Err(MultiplyError::TooManyCoefficients)
    } else if words < room_once(xs, ys).0 {
        Err(MultiplyError::TooFewWords)
    } else {
        Err(MultiplyError::TooFewFactors)
    }
}

/// Writes the product of two polynomials modulo m, or returns why there is none.
///
/// It writes what [`multiply_once`] does; where there is no product, all lists are unchanged. Written by hand, over proved calls.
///
/// # Errors
///
/// m is 0, or the lengths don't fit: as [`MultiplyError`] lists, whose first cause is returned.
///
/// # Examples
///
/// ```
/// use num_modular::applications::long_product::polynomials::{try_multiply_once, MultiplyError};
/// use num_modular::plans::Factor;
///
/// let (mut out, mut words, mut factors) = ([0; 3], [0; 0], [Factor::<u64>::ZERO; 0]); // short products need no room
/// assert_eq!(try_multiply_once(97, &[1, 2], &[3, 4], &mut out, &mut words, &mut factors), Ok(()));
/// assert_eq!(out, [3, 10, 8]);
/// let fault = try_multiply_once(97, &[1, 2], &[3], &mut out, &mut words, &mut factors);
/// assert_eq!(fault, Err(MultiplyError::LengthOfProduct));
/// ```
pub fn try_multiply_once<F: PlanEntry<u64>>(
    m: u64,
    xs: &[u64],
    ys: &[u64],
    out: &mut [u64],
    words: &mut [u64],
    factors: &mut [F],
) -> Result<(), MultiplyError> {
    let length = if xs.is_empty() || ys.is_empty() { 0 } else { xs.len() + ys.len() - 1 };
    let is_done = multiply_once(m, xs, ys, out, words, factors);
    outcome(is_done, m, xs.len(), ys.len(), out.len() == length, words.len())
}

// The products of n numbers and n numbers.
macro_rules! try_folded {
    ($($name:ident by $call:ident, $modulus:literal, $product:literal;)*) => {$(
        #[doc = concat!("Writes the product of two polynomials modulo m and modulo ", $modulus, ", or returns why there is none.")]
        ///
        #[doc = concat!("It writes what [`", stringify!($call), "`](polynomials::", stringify!($call), ") does; where there is no")]
        /// product, all lists are unchanged. Written by hand, over proved calls.
        ///
        /// # Errors
        ///
        /// m is 0, or the lengths don't fit: as [`MultiplyError`] lists, whose first cause is returned.
        ///
        /// # Examples
        ///
        /// ```
        #[doc = concat!("use num_modular::applications::long_product::polynomials::{", stringify!($name), ", MultiplyError};")]
        /// use num_modular::plans::Factor;
        ///
        /// let (mut out, mut words, mut factors) = ([0; 2], [0; 0], [Factor::<u64>::ZERO; 0]); // short products need no room
        #[doc = concat!("assert_eq!(", stringify!($name), "(97, &[1, 2], &[3, 4], &mut out, &mut words, &mut factors), Ok(()));")]
        #[doc = concat!("assert_eq!(out, ", $product, ");")]
        #[doc = concat!("let fault = ", stringify!($name), "(97, &[1, 2], &[3], &mut out, &mut words, &mut factors);")]
        /// assert_eq!(fault, Err(MultiplyError::LengthOfProduct));
        /// ```
        pub fn $name<F: PlanEntry<u64>>(
            m: u64,
            xs: &[u64],
            ys: &[u64],
            out: &mut [u64],
            words: &mut [u64],
            factors: &mut [F],
        ) -> Result<(), MultiplyError> {
            let fits = xs.len() == out.len() && ys.len() == out.len();
            let is_done = polynomials::$call(m, xs, ys, out, words, factors);
            outcome(is_done, m, xs.len(), ys.len(), fits, words.len())
        }
    )*};
}

try_folded! {
    try_multiply_cyclic_once by multiply_cyclic_once, "X^n - 1", "[11, 10]";
    try_multiply_negacyclic_once by multiply_negacyclic_once, "X^n + 1", "[92, 10]";
}

/// Products modulo m of polynomials with X and Y coefficients, which have Z coefficients, the lowest first.
///
/// X and Y are at least 1 and have a sum of at most 8,192, and Z is their sum less 1; else it doesn't compile. Scratch is on
/// the stack; for more coefficients call [`multiply_once`] with lists of your own. Written by hand, over proved calls.
///
/// # Examples
///
/// ```
/// use num_modular::applications::long_product::polynomials::Products;
///
/// let products = Products::<2, 3, 4>::new(97).unwrap();
/// assert_eq!(products.multiply(&[1, 2], &[3, 4, 5]), [3, 10, 13, 10]); // (1 + 2X)(3 + 4X + 5X²)
/// assert!(Products::<2, 3, 4>::new(0).is_none());
/// ```
///
/// ```compile_fail,E0080
/// use num_modular::applications::long_product::polynomials::Products;
///
/// Products::<2, 3, 5>::new(97); // Z must be 4
/// ```
#[derive(Debug, Clone, Copy, PartialEq, Eq, Hash)]
#[must_use]
pub struct Products<const X: usize, const Y: usize, const Z: usize> {
    modulus: u64,
}

impl<const X: usize, const Y: usize, const Z: usize> Products<X, Y, Z> {
    const FITS: () = {
        assert!(X > 0 && Y > 0 && X < MOST / 4 && Y <= MOST / 4 - X, "X and Y must be at least 1, and their sum at most 8,192");
        assert!(Z + 1 == X + Y, "Z must be X + Y - 1");
    };

    /// Products modulo m; `None` exactly where m is 0.
    ///
    /// # Examples
    ///
    /// ```
    /// use num_modular::applications::long_product::polynomials::Products;
    ///
    /// assert!(Products::<3, 3, 5>::new(u64::MAX).is_some());
    /// assert!(Products::<3, 3, 5>::new(0).is_none());
    /// ```
    #[must_use]
    pub fn new(m: u64) -> Option<Self> {
        let () = Self::FITS;
        if m == 0 {
            None
        } else {
            Some(Products { modulus: m })
        }
    }

    /// The product, as [`multiply_once`] writes it.
    ///
    /// # Examples
    ///
    /// ```
    /// use num_modular::applications::long_product::polynomials::Products;
    ///
    /// let products = Products::<300, 300, 599>::new(1_000_000_007).unwrap();
    /// let product = products.multiply(&[1; 300], &[1; 300]);
    /// assert_eq!((product[0], product[299], product[598]), (1, 300, 1));
    /// ```
    #[must_use]
    pub fn multiply(&self, xs: &[u64; X], ys: &[u64; Y]) -> [u64; Z] {
        let mut out = [0; Z];
        self.with_room(|m, words, factors| multiply_once(m, xs, ys, &mut out, words, factors));
        out
    }

    fn with_room(&self, call: impl FnOnce(u64, &mut [u64], &mut [Factor<u64>]) -> bool) {
        let (words, factors) = room_once(X, Y);
        let is_done =
            with_scratch(0, words, |words| with_scratch(Factor::ZERO, factors, |factors| call(self.modulus, words, factors)));
        debug_assert!(is_done, "there is a modulus, and the lengths fit");
    }
}

impl<const N: usize, const Z: usize> Products<N, N, Z> {
    /// The product modulo X^N - 1, as [`multiply_cyclic_once`](polynomials::multiply_cyclic_once) writes it.
    ///
    /// # Examples
    ///
    /// ```
    /// use num_modular::applications::long_product::polynomials::Products;
    ///
    /// let products = Products::<3, 3, 5>::new(100).unwrap();
    /// assert_eq!(products.multiply_cyclic(&[1, 2, 3], &[4, 5, 6]), [31, 31, 28]);
    /// ```
    #[must_use]
    pub fn multiply_cyclic(&self, xs: &[u64; N], ys: &[u64; N]) -> [u64; N] {
        let mut out = [0; N];
        self.with_room(|m, words, factors| polynomials::multiply_cyclic_once(m, xs, ys, &mut out, words, factors));
        out
    }

    /// The product modulo X^N + 1, as [`multiply_negacyclic_once`](polynomials::multiply_negacyclic_once) writes it.
    ///
    /// # Examples
    ///
    /// ```
    /// use num_modular::applications::long_product::polynomials::Products;
    ///
    /// let products = Products::<3, 3, 5>::new(100).unwrap();
    /// assert_eq!(products.multiply_negacyclic(&[1, 2, 3], &[4, 5, 6]), [77, 95, 28]); // 4 - 27, 13 - 18, 28
    /// ```
    #[must_use]
    pub fn multiply_negacyclic(&self, xs: &[u64; N], ys: &[u64; N]) -> [u64; N] {
        let mut out = [0; N];
        self.with_room(|m, words, factors| polynomials::multiply_negacyclic_once(m, xs, ys, &mut out, words, factors));
        out
    }
}
