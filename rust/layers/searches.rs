//! All hits of a search.

use crate::applications::mersenne_hash::prefixes::{Patterns, PrefixHashes};
use crate::hashes::{hash, Hash};
use core::iter::FusedIterator;
use core::slice::from_ref;

/// The positions of a pattern in a text, from the first on: see [`PrefixHashes::hits`].
///
/// # Examples
///
/// ```
/// use num_modular::applications::mersenne_hash::prefixes::{Hits, PrefixHashes};
/// use num_modular::hashes::base;
///
/// let base = base(1000);
/// let (mut hashes, mut powers) = ([base; 5], [base; 5]);
/// let text = PrefixHashes::new(base, b"aaaa", &mut hashes, &mut powers).unwrap();
/// let mut hits: Hits = text.hits(b"aa");
/// assert_eq!((hits.next(), hits.last()), (Some(0), Some(2)));
/// ```
#[derive(Debug, Clone)]
#[must_use]
pub struct Hits<'t, 'p> {
    text: PrefixHashes<'t>,
    pattern: &'p [u8],
    wanted: Hash,
    from: usize,
}

impl<'t> PrefixHashes<'t> {
    /// All positions of the pattern, the least first, also where two overlap.
    ///
    /// The pattern is hashed once, and the hits are those of [`find_any_from`](PrefixHashes::find_any_from). Written by hand,
    /// over proved calls.
    ///
    /// # Examples
    ///
    /// ```
    /// use num_modular::applications::mersenne_hash::prefixes::PrefixHashes;
    /// use num_modular::hashes::base;
    ///
    /// let base = base(123_456_789);
    /// let (mut hashes, mut powers) = ([base; 12], [base; 12]);
    /// let text = PrefixHashes::new(base, b"abracadabra", &mut hashes, &mut powers).unwrap();
    /// assert_eq!(text.hits(b"bra").collect::<Vec<_>>(), [1, 8]);
    /// ```
    pub fn hits<'p>(&self, pattern: &'p [u8]) -> Hits<'t, 'p> {
        Hits { text: *self, pattern, wanted: hash(self.base, pattern), from: 0 }
    }
}

impl Iterator for Hits<'_, '_> {
    type Item = usize;

    fn next(&mut self) -> Option<usize> {
        let (size, symbols, hashes) = (self.pattern.len(), self.pattern, from_ref(&self.wanted));
        let patterns = Patterns { base: self.text.base, size, symbols, hashes };
        let found = self.text.find_any_from(&patterns, self.from);
        self.from = found.map_or(self.text.text.len(), |(at, _)| at) + 1;
        found.map(|(at, _)| at)
    }
}

impl FusedIterator for Hits<'_, '_> {}
