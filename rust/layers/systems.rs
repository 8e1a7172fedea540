//! Residue systems over arrays.

use crate::applications::residue_numbers::mixed_radix::System;
use core::cmp::Ordering;

/// A [`System`] of N moduli that keeps them, over arrays: the range is any. Written by hand, over proved calls.
///
/// # Examples
///
/// ```
/// use num_modular::applications::residue_numbers::mixed_radix::OwnedSystem;
///
/// let system = OwnedSystem::new([3, 5, 7]).unwrap();
/// assert_eq!(system.digits(&[2, 3, 2]), [2, 2, 1]); // 23 = 2 + 2 * 3 + 1 * 3 * 5
/// assert_eq!(system.residues(&[2, 2, 1]), [2, 3, 2]);
/// ```
#[derive(Debug, Clone, Copy, PartialEq, Eq, Hash)]
#[must_use]
pub struct OwnedSystem<const N: usize> {
    moduli: [u64; N],
    inverses: [u64; N],
}

impl<const N: usize> OwnedSystem<N> {
    /// The system of these moduli; `None` exactly as [`System::new`].
    ///
    /// # Examples
    ///
    /// ```
    /// use num_modular::applications::residue_numbers::mixed_radix::OwnedSystem;
    ///
    /// assert!(OwnedSystem::new([3, 5, 7]).is_some());
    /// assert!(OwnedSystem::new([4, 6]).is_none()); // 2 divides both
    /// ```
    #[must_use]
    pub fn new(moduli: [u64; N]) -> Option<Self> {
        let mut inverses = [0; N];
        let _system = System::new(&moduli, &mut inverses)?;
        Some(OwnedSystem { moduli, inverses })
    }

    /// The system, lent for the calls that take lists.
    ///
    /// # Examples
    ///
    /// ```
    /// use num_modular::applications::residue_numbers::mixed_radix::OwnedSystem;
    ///
    /// let system = OwnedSystem::new([3, 5, 7]).unwrap();
    /// assert_eq!(system.system().residue_modulo(10, &[2, 2, 1]), 3); // of 23
    /// ```
    #[inline]
    pub fn system(&self) -> System<'_> {
        System { moduli: &self.moduli, inverses: &self.inverses }
    }

    /// The digits of the number with these residues, as [`System::digits`] writes them.
    ///
    /// # Panics
    ///
    /// Panics unless each residue is below its modulus.
    ///
    /// # Examples
    ///
    /// ```
    /// use num_modular::applications::residue_numbers::mixed_radix::OwnedSystem;
    ///
    /// assert_eq!(OwnedSystem::new([3, 5, 7]).unwrap().digits(&[2, 3, 2]), [2, 2, 1]);
    /// ```
    #[must_use]
    #[track_caller]
    pub fn digits(&self, residues: &[u64; N]) -> [u64; N] {
        let mut digits = [0; N];
        self.system().digits(residues, &mut digits);
        digits
    }

    /// The residues of the number with these digits, as [`System::residues`] writes them.
    ///
    /// # Examples
    ///
    /// ```
    /// use num_modular::applications::residue_numbers::mixed_radix::OwnedSystem;
    ///
    /// assert_eq!(OwnedSystem::new([3, 5, 7]).unwrap().residues(&[2, 2, 1]), [2, 3, 2]);
    /// ```
    #[must_use]
    #[track_caller]
    pub fn residues(&self, digits: &[u64; N]) -> [u64; N] {
        let mut residues = [0; N];
        self.system().residues(digits, &mut residues);
        residues
    }

    /// The residues of a long number, whose words have the lowest first, as [`System::encode`] writes them.
    ///
    /// # Examples
    ///
    /// ```
    /// use num_modular::applications::residue_numbers::mixed_radix::OwnedSystem;
    ///
    /// let system = OwnedSystem::new([3, 5, 7]).unwrap();
    /// assert_eq!(system.encode(&[1, 1]), [2, 2, 3]); // of 2^64 + 1
    /// ```
    #[must_use]
    pub fn encode(&self, words: &[u64]) -> [u64; N] {
        let mut residues = [0; N];
        self.system().encode(words, &mut residues);
        residues
    }

    /// The words of the number with these digits, the lowest first, as [`System::words`] writes them.
    ///
    /// # Examples
    ///
    /// ```
    /// use num_modular::applications::residue_numbers::mixed_radix::OwnedSystem;
    ///
    /// assert_eq!(OwnedSystem::new([3, 5, 7]).unwrap().words(&[2, 2, 1]), [23, 0, 0]);
    /// ```
    #[must_use]
    pub fn words(&self, digits: &[u64; N]) -> [u64; N] {
        let mut words = [0; N];
        self.system().words(digits, &mut words);
        words
    }

    /// Compares the numbers with these digits, as [`System::compare`] does.
    ///
    /// # Panics
    ///
    /// Panics unless each digit is below its modulus.
    ///
    /// # Examples
    ///
    /// ```
    /// use num_modular::applications::residue_numbers::mixed_radix::OwnedSystem;
    /// use std::cmp::Ordering;
    ///
    /// let system = OwnedSystem::new([3, 5, 7]).unwrap();
    /// assert_eq!(system.compare(&[2, 2, 1], &[0, 3, 1]), Ordering::Less); // 23 and 24
    /// ```
    #[must_use]
    #[track_caller]
    pub fn compare(&self, left: &[u64; N], right: &[u64; N]) -> Ordering {
        self.system().compare(left, right)
    }
}
