//! Codes of 255 symbols of 8 to 64 bits, from messages of 223 symbols, by the Cargo crate's `ring_codes::erasure`: each call
//! over lists of forms.

use crate::measure::Random;
use crate::report::Rows;
use erased::applications::ring_codes::erasure::{PreparedCode, correct, encode, encode_by_transform, restore_word};
use erased::ring::find_root;
use erased::{FixedTrinomialSolinas64, Montgomery, Reducer, RingWord};
use std::fmt::Debug;
use std::hint::black_box;
use std::time::Instant;

const SYMBOLS: usize = 255;
const MESSAGE: usize = 223;
const SPARE: usize = SYMBOLS - MESSAGE;

/// The symbols of a word at the powers of a root.
const POWERS: usize = 256;

/// A modulus whose forms are words of type T, and the bytes of a symbol.
pub struct Modulus<T, R> {
    pub name: &'static str,
    pub ring: R,
    bytes: usize,
    words: fn(u64) -> T,
    numbers: fn(T) -> u64,
}

/// The word of a message, with other words of the same message, and what the calls write.
struct Lists<T> {
    points: Vec<T>,
    root: T,
    message: Vec<T>,
    word: Vec<T>,
    spoilt: Vec<T>,
    all: Vec<usize>,
    last: Vec<usize>,
}

impl<T: RingWord + Debug, R: Reducer<T>> Modulus<T, R> {
    pub fn new(name: &'static str, ring: R, bytes: usize, words: fn(u64) -> T, numbers: fn(T) -> u64) -> Self {
        Modulus { name, ring, bytes, words, numbers }
    }

    pub fn number(&self, form: T) -> u64 {
        (self.numbers)(self.ring.residue(form))
    }

    pub fn modulus(&self) -> u64 {
        (self.numbers)(self.ring.modulus())
    }

    pub fn form(&self, x: u64) -> T {
        self.ring.transform((self.words)(x))
    }

    fn lists(&self) -> Lists<T> {
        let mut random = Random(7);
        let points: Vec<T> = (1..=SYMBOLS as u64).map(|x| self.form(x)).collect();
        let message: Vec<T> = (0..MESSAGE).map(|_| self.form(random.next())).collect();
        let mut word = points.clone();
        encode(&self.ring, &points, &message, &mut word);
        let mut spoilt = word.clone();
        for symbol in spoilt.iter_mut().step_by(16).take(SPARE / 2) {
            *symbol = self.ring.add(symbol, &self.form(1));
        }
        Lists {
            root: find_root(&self.ring, POWERS).expect("m - 1 is a multiple of 256"),
            points,
            message,
            word,
            spoilt,
            all: (0..SYMBOLS).collect(),
            last: (SPARE..SYMBOLS).collect(),
        }
    }

    /// The megabytes of words a second of each call, which must give the right words.
    fn speeds(&self) -> (String, Vec<f64>) {
        let (ring, lists, zero) = (&self.ring, self.lists(), self.form(0));
        let room = || (vec![zero; SPARE * MESSAGE], vec![zero; 2 * MESSAGE], vec![zero; SPARE]);
        let (points, kept) = (&lists.points, &lists.word[SPARE..]);
        let (mut weights, mut message, mut word) = (vec![zero; MESSAGE], vec![zero; MESSAGE], vec![zero; SYMBOLS]);
        let mut found = Vec::new();
        found.push(least(|| encode(ring, points, black_box(&lists.message), &mut word)));
        assert_eq!(word, lists.word);
        let (mut rows, mut scratch, mut checks) = room();
        let code = PreparedCode::new(ring, &points[..MESSAGE], &points[MESSAGE..], &mut rows, &mut scratch);
        let code = code.expect("the points fit");
        found.push(least(|| code.extend(black_box(&lists.word[..MESSAGE]), &mut checks)));
        assert_eq!(checks, lists.word[MESSAGE..]);
        let mut powers = vec![zero; POWERS];
        let mut transform = least(|| encode_by_transform(ring, &lists.root, black_box(&lists.message), &mut powers));
        transform *= SYMBOLS as f64 / POWERS as f64;
        found.push(transform);
        let restored = || restore_word(ring, points, &lists.last, black_box(kept), &mut weights, &mut message, &mut word);
        found.push(least_of(restored, |ended| assert!(ended.is_ok())));
        assert_eq!(word, lists.word);
        let (mut rows, mut scratch, mut lost) = room();
        let code = PreparedCode::new(ring, &points[SPARE..], &points[..SPARE], &mut rows, &mut scratch);
        let code = code.expect("the points fit");
        found.push(least(|| code.extend(black_box(kept), &mut lost)));
        assert_eq!(lost, lists.word[..SPARE]);
        let mut scratch = vec![zero; 3 * (SYMBOLS + MESSAGE) + 2];
        let corrected = || correct(ring, points, &lists.all, black_box(&lists.spoilt), &mut scratch, &mut message, &mut word);
        found.push(least_of(corrected, |ended| assert_eq!(ended.ok(), Some(SPARE / 2))));
        assert_eq!((&word, &message), (&lists.word, &lists.message));
        let bytes = (self.bytes * SYMBOLS) as f64;
        (self.name.to_string(), found.into_iter().map(|time| bytes / time / 1e6).collect())
    }
}

/// The seconds of the shortest of many turns.
fn least(mut turn: impl FnMut()) -> f64 {
    least_of(&mut turn, |()| ())
}

pub fn least_of<V>(mut turn: impl FnMut() -> V, mut check: impl FnMut(V)) -> f64 {
    (0..200)
        .map(|_| {
            let start = Instant::now();
            let value = turn();
            let time = start.elapsed().as_secs_f64();
            check(value);
            time
        })
        .fold(f64::INFINITY, f64::min)
}

/// A modulus of 32 bits at most.
pub fn montgomery(name: &'static str, m: u32, bytes: usize) -> Modulus<u32, Montgomery<u32>> {
    Modulus::new(name, <Montgomery<u32> as Reducer<u32>>::new(&m), bytes, |x| x as u32, |x| x as u64)
}

pub fn goldilocks() -> Modulus<u64, FixedTrinomialSolinas64<64, 32, 1>> {
    let ring = <FixedTrinomialSolinas64<64, 32, 1> as Reducer<u64>>::new(&(u64::MAX - (1 << 32) + 2));
    Modulus::new("64 bits, modulo 2^64 - 2^32 + 1", ring, 8, |x| x, |x| x)
}

/// The table.
pub fn measured() -> Rows {
    Rows {
        key: "codes",
        title: "Words of 255 symbols (256 by a transform), messages of 223, 32 lost or 16 wrong, in MB/s"
            .to_string(),
        heads: vec!["encode", "prepared encode", "by transform", "restore_word", "prepared restore", "correct"],
        ratios: vec![("prepared/encode", 1, 0), ("transform/encode", 2, 0), ("prepared/restore", 4, 3)],
        lines: vec![
            montgomery("8 bits, modulo 257", 257, 1).speeds(),
            montgomery("16 bits, modulo 2^16 + 1", 65537, 2).speeds(),
            montgomery("32 bits, modulo 2^32 - 2^20 + 1", 4_293_918_721, 4).speeds(),
            goldilocks().speeds(),
        ],
    }
}

/// The microseconds of the check symbols: by prepared rows, and by a loop of products and sums over the same rows.
fn rows_line<T: RingWord + Debug, R: Reducer<T>>(of: &Modulus<T, R>) -> (String, Vec<f64>) {
    let (ring, zero) = (&of.ring, of.form(0));
    let points: Vec<T> = (1..=SYMBOLS as u64).map(|x| of.form(x)).collect();
    let message: Vec<T> = (0..MESSAGE as u64).map(|i| of.form(i * i + 3)).collect();
    let (mut rows, mut scratch) = (vec![zero; SPARE * MESSAGE], vec![zero; 2 * MESSAGE]);
    let _ = PreparedCode::new(ring, &points[..MESSAGE], &points[MESSAGE..], &mut rows, &mut scratch).expect("the points fit");
    let mut same = rows.clone();
    let code = PreparedCode::new(ring, &points[..MESSAGE], &points[MESSAGE..], &mut same, &mut scratch).expect("the points fit");
    let (mut checks, mut summed, mut times) = (vec![zero; SPARE], vec![zero; SPARE], [f64::INFINITY; 2]);
    for _ in 0..300 {
        let start = Instant::now();
        code.extend(black_box(&message), &mut checks);
        times[0] = times[0].min(start.elapsed().as_secs_f64() * 1e6);
        let start = Instant::now();
        for (sum, row) in summed.iter_mut().zip(black_box(&rows).chunks(MESSAGE)) {
            *sum = row.iter().zip(&message).fold(zero, |sum, (a, b)| ring.add(&sum, &ring.mul(a, b)));
        }
        times[1] = times[1].min(start.elapsed().as_secs_f64() * 1e6);
    }
    assert_eq!(checks, summed);
    (of.name.to_string(), times.to_vec())
}

/// Prepared rows beside loops.
pub fn prepared_rows() -> Rows {
    let wide = |name, m: u64| Modulus::new(name, <Montgomery<u64> as Reducer<u64>>::new(&m), 8, |x| x, |x| x);
    Rows {
        key: "prepared_rows",
        title: "32 check symbols of 223 by prepared rows, and by a loop of mul and add over the same rows, in microseconds".to_string(),
        heads: vec!["prepared", "loop"],
        ratios: vec![("loop/prepared", 1, 0)],
        lines: vec![
            rows_line(&montgomery("Montgomery<u32>, 2^16 + 1", 65537, 2)),
            rows_line(&montgomery("Montgomery<u32>, 2^32 - 2^20 + 1", 4_293_918_721, 4)),
            rows_line(&wide("Montgomery<u64>, 2^61 - 1", (1 << 61) - 1)),
            rows_line(&wide("Montgomery<u64>, 2^64 - 59", u64::MAX - 58)),
            rows_line(&goldilocks()),
        ],
    }
}

/// Debian's libfec, whose code of 255 symbols with messages of 223 is over the field of 256 elements.
#[cfg(libfec)]
pub mod libfec {
    use super::{MESSAGE, SPARE, SYMBOLS, least, least_of};
    use std::hint::black_box;

    unsafe extern "C" {
        fn encode_rs_8(data: *mut u8, parity: *mut u8, pad: i32);
        fn decode_rs_8(data: *mut u8, erased: *mut i32, count: i32, pad: i32) -> i32;
    }

    /// The megabytes of words a second: check symbols written, 32 lost symbols restored, and 16 wrong ones corrected.
    pub fn speeds() -> [f64; 3] {
        let mut word: [u8; SYMBOLS] = std::array::from_fn(|i| (i * 37 % 256) as u8);
        let encoded = least(|| {
            let (message, checks) = black_box(&mut word).split_at_mut(MESSAGE);
            unsafe { encode_rs_8(message.as_mut_ptr(), checks.as_mut_ptr(), 0) }
        });
        [encoded, decoded(1, SPARE, SPARE), decoded(16, SPARE / 2, 0)].map(|time| SYMBOLS as f64 / time / 1e6)
    }

    /// A word with so many wrong symbols, each so many places from the last, of which so many are known to be lost.
    pub struct Word {
        step: usize,
        lost: usize,
        right: [u8; SYMBOLS],
        spoilt: [u8; SYMBOLS],
        found: [u8; SYMBOLS],
    }

    impl Word {
        pub fn new(step: usize, wrong: usize, lost: usize) -> Word {
            let mut right: [u8; SYMBOLS] = std::array::from_fn(|i| (i * 37 % 256) as u8);
            let (message, checks) = right.split_at_mut(MESSAGE);
            unsafe { encode_rs_8(message.as_mut_ptr(), checks.as_mut_ptr(), 0) };
            let mut spoilt = right;
            spoilt.iter_mut().step_by(step).take(wrong).for_each(|symbol| *symbol ^= 1);
            Word { step, lost, right, spoilt, found: spoilt }
        }

        /// Corrects it, and returns the number of wrong symbols.
        pub fn correct(&mut self) -> usize {
            let mut erased: [i32; SPARE] = std::array::from_fn(|i| (self.step * i) as i32);
            self.found = *black_box(&self.spoilt);
            unsafe { decode_rs_8(self.found.as_mut_ptr(), erased.as_mut_ptr(), self.lost as i32, 0) as usize }
        }

        pub fn is_right(&self) -> bool {
            self.found == self.right
        }
    }

    /// The seconds in which such a word is corrected.
    fn decoded(step: usize, wrong: usize, lost: usize) -> f64 {
        let mut word = Word::new(step, wrong, lost);
        let time = least_of(|| word.correct(), |changed| assert_eq!(changed, wrong));
        assert!(word.is_right());
        time
    }
}

/// The table beside libfec; `None` where it is not there.
pub fn beside_libfec() -> Option<Rows> {
    #[cfg(not(libfec))]
    return None;
    #[cfg(libfec)]
    {
        let (_, ours) = montgomery("8 bits", 257, 1).speeds();
        let theirs = libfec::speeds();
        let line = |name: &str, our: usize, their: usize| (name.to_string(), vec![ours[our], theirs[their]]);
        Some(Rows {
            key: "libfec",
            title: "The same of 8 bits, modulo 257, and by libfec over the field of 256 elements, in MB/s"
                .to_string(),
            heads: vec!["Cargo crate", "libfec"],
            ratios: vec![("libfec/Cargo crate", 1, 0)],
            lines: vec![
                line("check symbols, prepared", 1, 0),
                line("32 lost symbols, prepared", 4, 1),
                line("32 lost symbols, restore_word", 3, 1),
                line("16 wrong symbols, correct", 5, 2),
            ],
        })
    }
}
