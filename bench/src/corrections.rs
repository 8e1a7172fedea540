//! Words with wrong symbols, corrected by the Cargo crate's `Corrector`, with a table of checks and without: of 255 symbols from
//! messages of 223, beside `correct`, FLINT and, with 8 bits, libfec; and of 4096 from messages of 3584, at the powers of a
//! root, also by a transform. The calls of a line are measured in turns.

use crate::codes::{Modulus, goldilocks, montgomery};
use crate::report::Rows;
use erased::applications::ring_codes::erasure::{Corrector, correct, encode, fill_powers};
use erased::ring::find_root;
use erased::{OddMontgomery, Reducer, RingWord};
use std::fmt::Debug;
use std::hint::black_box;
use std::time::Instant;

/// The numbers of wrong symbols.
const WRONG: [usize; 4] = [0, 1, 8, 16];

/// The symbols of a word and of its message.
const SHORT: (usize, usize) = (255, 223);
const LONG: (usize, usize) = (4096, 3584);

/// The places from one wrong symbol to the next.
const STEP: usize = 15;

/// How the syndromes are found.
enum By {
    Checks,
    Weights,
    Transform,
}

type Line = (String, Vec<f64>);
type Turn<'a> = Box<dyn FnMut() + 'a>;

unsafe extern "C" {
    fn peer_flint_code(p: u64, points: *const u64, n: i64);
    fn peer_flint_correct(word: *mut u64, k: i64) -> i64;
    fn peer_flint_code_clear();
}

/// The least microseconds of each turn, the turns one after the other.
fn least(turns: &mut [Turn], rounds: usize) -> Vec<f64> {
    let mut times = vec![f64::INFINITY; turns.len()];
    for _ in 0..rounds {
        for (time, turn) in times.iter_mut().zip(turns.iter_mut()) {
            let start = Instant::now();
            turn();
            *time = time.min(start.elapsed().as_secs_f64() * 1e6);
        }
    }
    times
}

/// A code, the word of a message, and the same word with wrong symbols. The points of a long word are the powers of the root.
struct Spoilt<T> {
    points: Vec<T>,
    root: Option<T>,
    k: usize,
    right: Vec<T>,
    spoilt: Vec<T>,
    wrong: usize,
}

impl<T: RingWord + Debug> Spoilt<T> {
    fn new<R: Reducer<T>>(of: &Modulus<T, R>, (n, k): (usize, usize), wrong: usize) -> Spoilt<T> {
        let mut points: Vec<T> = (1..=n as u64).map(|x| of.form(x)).collect();
        let root = if (n, k) == LONG { find_root(&of.ring, n) } else { None };
        if let Some(root) = &root {
            fill_powers(&of.ring, root, &mut points);
        }
        let message: Vec<T> = (0..k as u64).map(|i| of.form(i * i + 3)).collect();
        let mut right = points.clone();
        encode(&of.ring, &points, &message, &mut right);
        let mut spoilt = right.clone();
        spoilt.iter_mut().step_by(STEP).take(wrong).for_each(|symbol| *symbol = of.ring.add(symbol, &of.form(1)));
        Spoilt { points, root, k, right, spoilt, wrong }
    }

    /// `Corrector::correct`.
    fn corrector<'a, R: Reducer<T>>(&'a self, of: &'a Modulus<T, R>, by: By) -> Turn<'a> {
        let (n, k, zero) = (self.points.len(), self.k, of.form(0));
        let list = |length: usize| vec![zero; length].leak();
        let code = Corrector::new(&of.ring, &self.points, k, list(n), list(n)).expect("the points fit");
        let code = match (by, self.root) {
            (By::Checks, _) => code.with_checks(list(n * (n - k))),
            (By::Transform, Some(root)) => code.with_root(root).expect("the points are its powers"),
            _ => code,
        };
        let (mut word, mut scratch) = (self.spoilt.clone(), vec![zero; 2 * n + 7 * (n - k) + 3]);
        Box::new(move || {
            word.copy_from_slice(black_box(&self.spoilt));
            assert_eq!(code.correct(&mut word, &[], &mut scratch).ok(), Some(self.wrong));
            assert!(word == self.right);
        })
    }

    fn by_correct<'a, R: Reducer<T>>(&'a self, of: &'a Modulus<T, R>) -> Turn<'a> {
        let (n, k, zero) = (self.points.len(), self.k, of.form(0));
        let places: Vec<usize> = (0..n).collect();
        let (mut scratch, mut message, mut word) = (vec![zero; 3 * (n + k) + 2], vec![zero; k], vec![zero; n]);
        Box::new(move || {
            let found = correct(&of.ring, &self.points, &places, black_box(&self.spoilt), &mut scratch, &mut message, &mut word);
            assert_eq!(found.ok(), Some(self.wrong));
            assert!(word == self.right);
        })
    }

    /// Gao's decoder by FLINT's polynomials; only one at a time.
    fn by_flint<'a, R: Reducer<T>>(&'a self, of: &'a Modulus<T, R>) -> Turn<'a> {
        let words = |forms: &[T]| forms.iter().map(|f| of.number(*f)).collect::<Vec<u64>>();
        let (points, right, spoilt) = (words(&self.points), words(&self.right), words(&self.spoilt));
        unsafe { peer_flint_code(of.modulus(), points.as_ptr(), points.len() as i64) };
        let mut word = spoilt.clone();
        Box::new(move || {
            word.copy_from_slice(black_box(&spoilt));
            assert_eq!(unsafe { peer_flint_correct(word.as_mut_ptr(), self.k as i64) }, self.wrong as i64);
            assert!(word == right);
        })
    }
}

/// The lines of a modulus: with the table, without, by FLINT, and by `correct` or, if the word is long, by a transform.
fn lines<T: RingWord + Debug, R: Reducer<T>>(of: &Modulus<T, R>, size: (usize, usize)) -> Vec<Line> {
    let line = |wrong: usize| {
        let it = Spoilt::new(of, size, wrong);
        let last = if size == SHORT { it.by_correct(of) } else { it.corrector(of, By::Transform) };
        let mut turns = [it.corrector(of, By::Checks), it.corrector(of, By::Weights), it.by_flint(of), last];
        let times = least(&mut turns, if size == SHORT { 300 } else { 20 });
        unsafe { peer_flint_code_clear() };
        (format!("{}, {wrong} wrong", of.name), times)
    };
    WRONG.map(line).to_vec()
}

/// Of 8 bits, beside libfec.
#[cfg(libfec)]
fn libfec_line<R: Reducer<u16>>(of: &Modulus<u16, R>, wrong: usize) -> Line {
    let it = Spoilt::new(of, SHORT, wrong);
    let mut word = crate::codes::libfec::Word::new(STEP, wrong, 0);
    let theirs = move || {
        assert_eq!(word.correct(), wrong);
        assert!(word.is_right());
    };
    let times = least(&mut [it.corrector(of, By::Checks), it.corrector(of, By::Weights), Box::new(theirs)], 2000);
    (format!("{wrong} wrong"), times)
}

/// The table beside libfec; `None` where it is not there.
pub fn beside_libfec() -> Option<Rows> {
    #[cfg(not(libfec))]
    return None;
    #[cfg(libfec)]
    {
        let bytes = Modulus::new("8 bits, modulo 257", <OddMontgomery<u16> as Reducer<u16>>::new(&257), 1, |x| x as u16, |x| x as u64);
        Some(Rows {
            key: "libfec_corrections",
            title: "Words of 255 symbols of 8 bits with wrong ones, modulo 257 and by libfec over the field of 256 elements, in microseconds"
                .to_string(),
            heads: vec!["with checks", "Corrector", "libfec"],
            ratios: vec![("with checks/libfec", 0, 2), ("Corrector/libfec", 1, 2)],
            lines: WRONG.map(|wrong| libfec_line(&bytes, wrong)).to_vec(),
        })
    }
}

/// The tables beside FLINT.
pub fn measured() -> [Rows; 2] {
    let bytes = Modulus::new("8 bits, modulo 257", <OddMontgomery<u16> as Reducer<u16>>::new(&257), 1, |x| x as u16, |x| x as u64);
    let (middle, wide) = (montgomery("16 bits, modulo 2^16 + 1", 65537, 2), montgomery("32 bits, modulo 2^32 - 2^20 + 1", 4_293_918_721, 4));
    let ratios = vec![("with checks/FLINT", 0, 2), ("Corrector/FLINT", 1, 2)];
    let short = [lines(&bytes, SHORT), lines(&middle, SHORT), lines(&wide, SHORT), lines(&goldilocks(), SHORT)].concat();
    let long = [lines(&middle, LONG), lines(&wide, LONG), lines(&goldilocks(), LONG)].concat();
    [
        Rows {
            key: "corrections",
            title: "Words of 255 symbols with wrong ones, messages of 223, corrected, in microseconds".to_string(),
            heads: vec!["with checks", "Corrector", "FLINT", "correct"],
            ratios: [ratios.clone(), vec![("Corrector/correct", 1, 3)]].concat(),
            lines: short,
        },
        Rows {
            key: "long_corrections",
            title: "Words of 4096 symbols with wrong ones, messages of 3584, corrected, in microseconds".to_string(),
            heads: vec!["with checks", "Corrector", "FLINT", "by transform"],
            ratios: [ratios, vec![("by transform/FLINT", 3, 2)]].concat(),
            lines: long,
        },
    ]
}
