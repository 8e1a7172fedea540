//! Reed-Solomon codes over arrays.

use super::{with_scratch, MOST};
use crate::applications::ring_codes::erasure::{self, CorrectError, ShareError};
use crate::{Reducer, RingWord};

/// A Reed-Solomon code with N points and messages of K symbols, with its reducer.
///
/// K is from 1 to N, which is at most 5,400; else the code doesn't compile. So no call has lists that don't fit, and places can't
/// be wrong: a lost symbol is `None`. Scratch is on the stack. Written by hand, over proved calls.
///
/// Points, messages and words are checked forms, as for the functions of [`erasure`], which compute what the code returns.
///
/// # Examples
///
/// ```
/// use num_modular::applications::ring_codes::erasure::Code;
/// use num_modular::{Reducer, Vanilla};
///
/// let code = Code::<u64, _, 4, 2>::new(Vanilla::new(&97), [1, 2, 3, 4]).unwrap();
/// let word = code.encode(&[5, 7]);
/// assert_eq!(word, [12, 19, 26, 33]); // 5 + 7X at 1, 2, 3 and 4
/// assert_eq!(code.restore(&[None, Some(19), None, Some(33)]), Some([5, 7]));
/// let corrected = code.correct(&[12, 19, 50, 33].map(Some)).unwrap();
/// assert_eq!((corrected.word, corrected.errors), (word, 1));
/// ```
///
/// ```compile_fail,E0080
/// use num_modular::applications::ring_codes::erasure::Code;
/// use num_modular::{Reducer, Vanilla};
///
/// Code::<u64, _, 2, 3>::new(Vanilla::new(&97), [1, 2]); // K is above N
/// ```
#[derive(Debug, Clone, Copy)]
#[must_use]
pub struct Code<T, R, const N: usize, const K: usize> {
    ring: R,
    points: [T; N],
}

/// What [`Code::correct`] returns.
///
/// # Examples
///
/// ```
/// use num_modular::applications::ring_codes::erasure::{Code, Corrected};
/// use num_modular::{Reducer, Vanilla};
///
/// let code = Code::<u64, _, 4, 2>::new(Vanilla::new(&97), [1, 2, 3, 4]).unwrap();
/// let Corrected { message, errors, .. } = code.correct(&[12, 19, 50, 33].map(Some)).unwrap();
/// assert_eq!((message, errors), ([5, 7], 1));
/// ```
#[derive(Debug, Clone, Copy, PartialEq, Eq, Hash)]
pub struct Corrected<T, const N: usize, const K: usize> {
    /// The message.
    pub message: [T; K],
    /// Its word.
    pub word: [T; N],
    /// How many symbols were wrong.
    pub errors: usize,
}

// The places of the symbols that aren't lost, these symbols, and how many there are.
fn kept<T: Copy, const N: usize>(zero: T, word: &[Option<T>; N]) -> ([usize; N], [T; N], usize) {
    let (mut places, mut symbols, mut count) = ([0; N], [zero; N], 0);
    for (place, symbol) in word.iter().enumerate() {
        if let Some(symbol) = symbol {
            places[count] = place;
            symbols[count] = *symbol;
            count += 1;
        }
    }
    (places, symbols, count)
}

impl<T: RingWord, R: Reducer<T>, const N: usize, const K: usize> Code<T, R, N, K> {
    const SCRATCH: usize = {
        assert!(1 <= K && K <= N, "K must be from 1 to N");
        assert!(N <= 5400, "there must be at most 5,400 points");
        let (least, by_syndromes) = (3 * (N + K) + 2, 11 * N - 7 * K + 3);
        // `correct` goes by syndromes where there is so much.
        if least < by_syndromes && by_syndromes <= MOST {
            by_syndromes
        } else {
            least
        }
    };

    /// The code of these points; `None` exactly where they don't fit: the difference of two has no inverse modulo m.
    ///
    /// # Panics
    ///
    /// A debug build panics unless the points are checked forms.
    ///
    /// A release build doesn't test this: where it doesn't hold, the call panics or its result is unspecified.
    ///
    /// # Examples
    ///
    /// ```
    /// use num_modular::applications::ring_codes::erasure::Code;
    /// use num_modular::{Reducer, Vanilla};
    ///
    /// let ring = Vanilla::<u8>::new(&15);
    /// assert!(Code::<_, _, 3, 2>::new(ring, [0, 1, 2]).is_some());
    /// assert!(Code::<_, _, 3, 2>::new(ring, [0, 1, 3]).is_none()); // 3 has no inverse modulo 15
    /// ```
    #[must_use]
    #[track_caller]
    pub fn new(ring: R, points: [T; N]) -> Option<Self> {
        let _fits = Self::SCRATCH;
        if erasure::points_fit(&ring, &points) {
            Some(Code { ring, points })
        } else {
            None
        }
    }

    /// The points.
    ///
    /// # Examples
    ///
    /// ```
    /// use num_modular::applications::ring_codes::erasure::Code;
    /// use num_modular::{Reducer, Vanilla};
    ///
    /// let code = Code::<u64, _, 3, 2>::new(Vanilla::new(&97), [1, 2, 3]).unwrap();
    /// assert_eq!(code.points(), &[1, 2, 3]);
    /// ```
    #[must_use]
    #[inline]
    pub fn points(&self) -> &[T; N] {
        &self.points
    }

    /// The reducer.
    ///
    /// # Examples
    ///
    /// ```
    /// use num_modular::applications::ring_codes::erasure::Code;
    /// use num_modular::{Montgomery, Reducer};
    ///
    /// let ring = Montgomery::<u64>::new(97);
    /// let code = Code::<_, _, 3, 2>::new(ring, [1, 2, 3].map(|x| ring.transform(x))).unwrap();
    /// let word = code.encode(&[5, 7].map(|x| ring.transform(x)));
    /// assert_eq!(word.map(|x| code.ring().residue(x)), [12, 19, 26]);
    /// ```
    #[must_use]
    #[inline]
    pub fn ring(&self) -> &R {
        &self.ring
    }

    #[inline]
    fn zero(&self) -> T {
        self.ring.transform(T::zero())
    }

    /// The word of a message: symbol i is the value at point i, as [`encode`](erasure::encode) writes it.
    ///
    /// # Panics
    ///
    /// A debug build panics unless the message is of checked forms.
    ///
    /// A release build doesn't test this: where it doesn't hold, the call panics or its result is unspecified.
    ///
    /// # Examples
    ///
    /// ```
    /// use num_modular::applications::ring_codes::erasure::Code;
    /// use num_modular::{Reducer, Vanilla};
    ///
    /// let code = Code::<u64, _, 4, 2>::new(Vanilla::new(&97), [1, 2, 3, 4]).unwrap();
    /// assert_eq!(code.encode(&[5, 7]), [12, 19, 26, 33]);
    /// ```
    #[must_use]
    #[track_caller]
    pub fn encode(&self, message: &[T; K]) -> [T; N] {
        let mut word = [self.zero(); N];
        erasure::encode(&self.ring, &self.points, message, &mut word);
        word
    }

    /// The word that begins with the message, as [`encode_systematic`](erasure::encode_systematic) writes it.
    ///
    /// The message is the first K symbols of what [`restore_word`](Code::restore_word) and [`correct`](Code::correct) return.
    ///
    /// # Panics
    ///
    /// A debug build panics unless the message is of checked forms.
    ///
    /// A release build doesn't test this: where it doesn't hold, the call panics or its result is unspecified.
    ///
    /// # Examples
    ///
    /// ```
    /// use num_modular::applications::ring_codes::erasure::Code;
    /// use num_modular::{Reducer, Vanilla};
    ///
    /// let code = Code::<u64, _, 4, 2>::new(Vanilla::new(&97), [1, 2, 3, 4]).unwrap();
    /// let word = code.encode_systematic(&[12, 19]);
    /// assert_eq!(word, [12, 19, 26, 33]);
    /// assert_eq!(code.restore_word(&[None, None, Some(26), Some(33)]), Some(word));
    /// ```
    #[must_use]
    #[track_caller]
    pub fn encode_systematic(&self, message: &[T; K]) -> [T; N] {
        let zero = self.zero();
        let (mut weights, mut coefficients, mut word) = ([zero; K], [zero; K], [zero; N]);
        let is_done = erasure::encode_systematic(&self.ring, &self.points, message, &mut weights, &mut coefficients, &mut word);
        debug_assert!(is_done, "the points of a code fit");
        word
    }

    /// The message of a word of which symbols are lost; `None` exactly where fewer than K are left.
    ///
    /// The first K that are left are used, as by [`restore`](erasure::restore).
    ///
    /// # Panics
    ///
    /// A debug build panics unless the symbols are checked forms.
    ///
    /// A release build doesn't test this: where it doesn't hold, the call panics or its result is unspecified.
    ///
    /// # Examples
    ///
    /// ```
    /// use num_modular::applications::ring_codes::erasure::Code;
    /// use num_modular::{Reducer, Vanilla};
    ///
    /// let code = Code::<u64, _, 4, 2>::new(Vanilla::new(&97), [1, 2, 3, 4]).unwrap();
    /// assert_eq!(code.restore(&[None, Some(19), None, Some(33)]), Some([5, 7]));
    /// assert_eq!(code.restore(&[None, Some(19), None, None]), None);
    /// ```
    #[must_use]
    #[track_caller]
    pub fn restore(&self, word: &[Option<T>; N]) -> Option<[T; K]> {
        let zero = self.zero();
        let (places, symbols, count) = kept(zero, word);
        let (places, symbols) = (&places[..count], &symbols[..count]);
        let (mut chosen, mut weights, mut message) = ([zero; K], [zero; K], [zero; K]);
        erasure::restore(&self.ring, &self.points, places, symbols, &mut chosen, &mut weights, &mut message).ok()?;
        Some(message)
    }

    /// The whole word, of which symbols are lost; `None` exactly where fewer than K are left.
    ///
    /// The first K that are left are used, as by [`restore_word`](erasure::restore_word).
    ///
    /// # Panics
    ///
    /// A debug build panics unless the symbols are checked forms.
    ///
    /// A release build doesn't test this: where it doesn't hold, the call panics or its result is unspecified.
    ///
    /// # Examples
    ///
    /// ```
    /// use num_modular::applications::ring_codes::erasure::Code;
    /// use num_modular::{Reducer, Vanilla};
    ///
    /// let code = Code::<u64, _, 4, 2>::new(Vanilla::new(&97), [1, 2, 3, 4]).unwrap();
    /// assert_eq!(code.restore_word(&[None, Some(19), None, Some(33)]), Some([12, 19, 26, 33]));
    /// ```
    #[must_use]
    #[track_caller]
    pub fn restore_word(&self, word: &[Option<T>; N]) -> Option<[T; N]> {
        let zero = self.zero();
        let (places, symbols, count) = kept(zero, word);
        let (places, symbols) = (&places[..count], &symbols[..count]);
        let (mut weights, mut message, mut whole) = ([zero; K], [zero; K], [zero; N]);
        erasure::restore_word(&self.ring, &self.points, places, symbols, &mut weights, &mut message, &mut whole).ok()?;
        Some(whole)
    }

    /// Corrects a word of which symbols are lost or wrong, as [`correct`](erasure::correct) does.
    ///
    /// It corrects e wrong ones and d lost ones if 2·e + d is at most N - K.
    ///
    /// # Errors
    ///
    /// Those of `correct`: fewer than K symbols are left, too many are wrong, or, where m isn't a prime, a number has no
    /// inverse.
    ///
    /// # Panics
    ///
    /// A debug build panics unless the symbols are checked forms.
    ///
    /// A release build doesn't test this: where it doesn't hold, the call panics or its result is unspecified.
    ///
    /// # Examples
    ///
    /// ```
    /// use num_modular::applications::ring_codes::erasure::Code;
    /// use num_modular::{Reducer, Vanilla};
    ///
    /// let code = Code::<u64, _, 4, 2>::new(Vanilla::new(&97), [1, 2, 3, 4]).unwrap();
    /// let corrected = code.correct(&[12, 19, 50, 33].map(Some)).unwrap(); // the third should be 26
    /// assert_eq!((corrected.message, corrected.word, corrected.errors), ([5, 7], [12, 19, 26, 33], 1));
    /// ```
    #[track_caller]
    pub fn correct(&self, word: &[Option<T>; N]) -> Result<Corrected<T, N, K>, CorrectError<T>> {
        let zero = self.zero();
        let (places, symbols, count) = kept(zero, word);
        let (places, symbols) = (&places[..count], &symbols[..count]);
        debug_assert!(symbols.iter().all(|x| self.ring.check(x)), "points and symbols must be checked forms");
        let (mut message, mut whole) = ([zero; K], [zero; N]);
        let errors = with_scratch(zero, Self::SCRATCH, |scratch| {
            erasure::correct(&self.ring, &self.points, places, symbols, scratch, &mut message, &mut whole)
        })?;
        Ok(Corrected { message, word: whole, errors })
    }

    /// The message, where the word is one of the code; else `None`.
    ///
    /// # Panics
    ///
    /// A debug build panics unless the symbols are checked forms.
    ///
    /// A release build doesn't test this: where it doesn't hold, the call panics or its result is unspecified.
    ///
    /// # Examples
    ///
    /// ```
    /// use num_modular::applications::ring_codes::erasure::Code;
    /// use num_modular::{Reducer, Vanilla};
    ///
    /// let code = Code::<u64, _, 4, 2>::new(Vanilla::new(&97), [1, 2, 3, 4]).unwrap();
    /// assert_eq!(code.message(&[12, 19, 26, 33]), Some([5, 7]));
    /// assert_eq!(code.message(&[12, 19, 26, 34]), None);
    /// ```
    #[must_use]
    #[track_caller]
    pub fn message(&self, word: &[T; N]) -> Option<[T; K]> {
        let zero = self.zero();
        let (mut weights, mut message) = ([zero; K], [zero; K]);
        if erasure::is_codeword(&self.ring, &self.points, word, &mut weights, &mut message) {
            Some(message)
        } else {
            None
        }
    }

    /// The shares of the secret `coefficients[0]`, which any K of them recover, as [`share`](erasure::share) writes them.
    ///
    /// The other coefficients are to be drawn at random.
    ///
    /// # Errors
    ///
    /// A point has no inverse modulo m, such as 0.
    ///
    /// # Panics
    ///
    /// A debug build panics unless the coefficients are checked forms.
    ///
    /// A release build doesn't test this: where it doesn't hold, the call panics or its result is unspecified.
    ///
    /// # Examples
    ///
    /// ```
    /// use num_modular::applications::ring_codes::erasure::Code;
    /// use num_modular::{Reducer, Vanilla};
    ///
    /// let code = Code::<u64, _, 3, 2>::new(Vanilla::new(&97), [1, 2, 3]).unwrap();
    /// assert_eq!(code.share(&[5, 7]), Ok([12, 19, 26])); // 5 is the secret
    /// ```
    #[track_caller]
    pub fn share(&self, coefficients: &[T; K]) -> Result<[T; N], ShareError> {
        let mut shares = [self.zero(); N];
        erasure::share(&self.ring, &self.points, coefficients, &mut shares)?;
        Ok(shares)
    }

    /// The secret from any K shares; `None` exactly where there are fewer.
    ///
    /// # Panics
    ///
    /// A debug build panics unless the shares are checked forms.
    ///
    /// A release build doesn't test this: where it doesn't hold, the call panics or its result is unspecified.
    ///
    /// # Examples
    ///
    /// ```
    /// use num_modular::applications::ring_codes::erasure::Code;
    /// use num_modular::{Reducer, Vanilla};
    ///
    /// let code = Code::<u64, _, 3, 2>::new(Vanilla::new(&97), [1, 2, 3]).unwrap();
    /// assert_eq!(code.recover(&[Some(12), None, Some(26)]), Some(5));
    /// ```
    #[must_use]
    #[track_caller]
    pub fn recover(&self, shares: &[Option<T>; N]) -> Option<T> {
        self.restore(shares).map(|coefficients| coefficients[0])
    }

    /// The secret from shares of which some are forged, as [`recover_correct`](erasure::recover_correct) returns it.
    ///
    /// # Errors
    ///
    /// Those of `correct`.
    ///
    /// # Panics
    ///
    /// A debug build panics unless the shares are checked forms.
    ///
    /// A release build doesn't test this: where it doesn't hold, the call panics or its result is unspecified.
    ///
    /// # Examples
    ///
    /// ```
    /// use num_modular::applications::ring_codes::erasure::Code;
    /// use num_modular::{Reducer, Vanilla};
    ///
    /// let code = Code::<u64, _, 4, 2>::new(Vanilla::new(&97), [1, 2, 3, 4]).unwrap();
    /// assert_eq!(code.recover_correct(&[12, 20, 26, 33].map(Some)), Ok(5)); // 20 is forged
    /// ```
    #[track_caller]
    pub fn recover_correct(&self, shares: &[Option<T>; N]) -> Result<T, CorrectError<T>> {
        self.correct(shares).map(|it| it.message[0])
    }
}
