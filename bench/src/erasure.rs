//! Erasure codes: words of 255 symbols of 64 bits with messages of 223, by the Cargo crate's `ring_codes::erasure`,
//! beside the same loops over the Rust crate, by `mulm` and by its reducer, and beside FLINT.

use crate::measure::Random;
use crate::peers::seconds;
use crate::report::Rows;
use erased::applications::ring_codes::erasure;
use erased::ring::{load_forms, unload_forms};
use num_modular::{FixedMersenne64, ModularCoreOps, ModularUnaryOps, Reducer};
use std::hint::black_box;

const SYMBOLS: usize = 255;
const MESSAGE: usize = 223;
const LOST: usize = SYMBOLS - MESSAGE;

/// The bytes of a word.
const BYTES: f64 = (8 * SYMBOLS) as f64;

type Word = [u64; SYMBOLS];
type Message = [u64; MESSAGE];

unsafe extern "C" {
    fn peer_flint_encode(p: u64, message: *const u64, k: i64, points: *const u64, word: *mut u64, n: i64);
    fn peer_flint_restore(p: u64, points: *const u64, symbols: *const u64, k: i64, word: *mut u64, lost: i64);
}

/// One way to encode a message, and to restore a word whose first symbols were lost.
struct Way {
    encode: Box<dyn Fn(&Message) -> Word>,
    restore: Box<dyn Fn(&Message) -> Word>,
}

fn points() -> Word {
    std::array::from_fn(|i| i as u64 + 1)
}

/// The port, words in and words out.
fn port<R: erased::Reducer<u64> + 'static>(new: fn() -> R) -> Way {
    fn loaded<R: erased::Reducer<u64>, const N: usize>(r: &R, words: &[u64; N]) -> [u64; N] {
        let mut forms = [0; N];
        load_forms(r, words, &mut forms);
        forms
    }
    fn unloaded<R: erased::Reducer<u64>>(r: &R, forms: &Word) -> Word {
        let mut words = [0; SYMBOLS];
        unload_forms(r, forms, &mut words);
        words
    }
    Way {
        encode: Box::new(move |message| {
            let r = new();
            let mut word = [0; SYMBOLS];
            erasure::encode(&r, &loaded(&r, &points()), &loaded(&r, message), &mut word);
            unloaded(&r, &word)
        }),
        restore: Box::new(move |symbols| {
            let r = new();
            let places: [usize; MESSAGE] = std::array::from_fn(|i| LOST + i);
            let (mut weights, mut message, mut word) = ([0; MESSAGE], [0; MESSAGE], [0; SYMBOLS]);
            let (points, symbols) = (loaded(&r, &points()), loaded(&r, symbols));
            erasure::restore_word(&r, &points, &places, &symbols, &mut weights, &mut message, &mut word)
                .expect("the points fit");
            unloaded(&r, &word)
        }),
    }
}

/// What the loops compute with: the Rust crate's calls modulo m.
trait Ring {
    fn load(&self, x: u64) -> u64;
    fn unload(&self, x: u64) -> u64;
    fn add(&self, x: u64, y: u64) -> u64;
    fn sub(&self, x: u64, y: u64) -> u64;
    fn mul(&self, x: u64, y: u64) -> u64;
    fn inv(&self, x: u64) -> u64;
}

/// By `addm`, `subm`, `mulm` and `invm`.
struct Plain(u64);

impl Ring for Plain {
    fn load(&self, x: u64) -> u64 {
        x % self.0
    }
    fn unload(&self, x: u64) -> u64 {
        x
    }
    fn add(&self, x: u64, y: u64) -> u64 {
        x.addm(y, &self.0)
    }
    fn sub(&self, x: u64, y: u64) -> u64 {
        x.subm(y, &self.0)
    }
    fn mul(&self, x: u64, y: u64) -> u64 {
        x.mulm(y, &self.0)
    }
    fn inv(&self, x: u64) -> u64 {
        x.invm(&self.0).expect("the points fit")
    }
}

/// By a reducer.
struct Reduced<R>(R);

impl<R: Reducer<u64>> Ring for Reduced<R> {
    fn load(&self, x: u64) -> u64 {
        self.0.transform(x)
    }
    fn unload(&self, x: u64) -> u64 {
        self.0.residue(x)
    }
    fn add(&self, x: u64, y: u64) -> u64 {
        self.0.add(&x, &y)
    }
    fn sub(&self, x: u64, y: u64) -> u64 {
        self.0.sub(&x, &y)
    }
    fn mul(&self, x: u64, y: u64) -> u64 {
        self.0.mul(&x, &y)
    }
    fn inv(&self, x: u64) -> u64 {
        self.0.inv(x).expect("the points fit")
    }
}

/// The value at a point, by Horner's rule.
fn value<R: Ring>(ring: &R, coefficients: &Message, point: u64) -> u64 {
    coefficients.iter().rev().fold(ring.load(0), |value, c| ring.add(*c, ring.mul(value, point)))
}

/// The coefficients of the polynomial with these values, by Newton's divided differences and one inversion.
fn interpolated<R: Ring>(ring: &R, points: &[u64], values: &Message) -> Message {
    let mut weights = [0; MESSAGE];
    for i in 0..MESSAGE {
        weights[i] = (0..i).fold(ring.load(1), |product, j| ring.mul(product, ring.sub(points[i], points[j])));
    }
    let (mut before, mut product) = ([0; MESSAGE], ring.load(1));
    for i in 0..MESSAGE {
        before[i] = product;
        product = ring.mul(product, weights[i]);
    }
    let mut inverse = ring.inv(product);
    for i in (0..MESSAGE).rev() {
        let rest = ring.mul(inverse, weights[i]);
        weights[i] = ring.mul(inverse, before[i]);
        inverse = rest;
    }
    let mut form = *values;
    for i in 0..MESSAGE {
        let known = (0..i).rev().fold(ring.load(0), |value, j| ring.add(form[j], ring.mul(ring.sub(points[i], points[j]), value)));
        form[i] = ring.mul(ring.sub(form[i], known), weights[i]);
    }
    for from in (0..MESSAGE).rev() {
        for i in from + 1..MESSAGE {
            form[i - 1] = ring.sub(form[i - 1], ring.mul(points[from], form[i]));
        }
    }
    form
}

/// The loops, words in and words out.
fn loops<R: Ring + 'static>(new: fn() -> R) -> Way {
    Way {
        encode: Box::new(move |message| {
            let ring = new();
            let message = message.map(|x| ring.load(x));
            points().map(|point| ring.unload(value(&ring, &message, ring.load(point))))
        }),
        restore: Box::new(move |symbols| {
            let ring = new();
            let (points, symbols) = (points().map(|x| ring.load(x)), symbols.map(|x| ring.load(x)));
            let message = interpolated(&ring, &points[LOST..], &symbols);
            let lost = |i: usize| value(&ring, &message, points[i]);
            std::array::from_fn(|i| ring.unload(if i < LOST { lost(i) } else { symbols[i - LOST] }))
        }),
    }
}

fn flint(p: u64) -> Way {
    Way {
        encode: Box::new(move |message| {
            let (points, mut word) = (points(), [0; SYMBOLS]);
            unsafe { peer_flint_encode(p, message.as_ptr(), MESSAGE as i64, points.as_ptr(), word.as_mut_ptr(), SYMBOLS as i64) };
            word
        }),
        restore: Box::new(move |symbols| {
            let (points, mut word) = (points(), [0; SYMBOLS]);
            unsafe { peer_flint_restore(p, points.as_ptr(), symbols.as_ptr(), MESSAGE as i64, word.as_mut_ptr(), LOST as i64) };
            word
        }),
    }
}

/// A modulus, and each way modulo it.
struct Modulus {
    name: &'static str,
    m: u64,
    ways: [Way; 4],
}

fn moduli() -> [Modulus; 2] {
    const MERSENNE: u64 = (1 << 61) - 1;
    const PRIME: u64 = u64::MAX - 58;
    [
        Modulus {
            name: "2^61 - 1",
            m: MERSENNE,
            ways: [
                port(|| <erased::FixedMersenne64<61, 1> as erased::Reducer<u64>>::new(&MERSENNE)),
                loops(|| Plain(MERSENNE)),
                loops(|| Reduced(<FixedMersenne64<61, 1> as Reducer<u64>>::new(&MERSENNE))),
                flint(MERSENNE),
            ],
        },
        Modulus {
            name: "2^64 - 59",
            m: PRIME,
            ways: [
                port(|| <erased::FixedMersenne64<64, 59> as erased::Reducer<u64>>::new(&PRIME)),
                loops(|| Plain(PRIME)),
                loops(|| Reduced(<FixedMersenne64<64, 59> as Reducer<u64>>::new(&PRIME))),
                flint(PRIME),
            ],
        },
    ]
}

/// A message without a pattern.
fn message(m: u64, seed: u64) -> Message {
    let mut random = Random(seed);
    std::array::from_fn(|_| random.next() % m)
}

/// The symbols that are kept.
fn kept(word: &Word) -> Message {
    std::array::from_fn(|i| word[LOST + i])
}

/// Whether each way gives the same words, and restores them.
pub fn agree() -> bool {
    moduli().iter().all(|modulus| {
        (0..4).all(|seed| {
            let message = message(modulus.m, seed);
            let word = (modulus.ways[0].encode)(&message);
            let same = modulus.ways.iter().all(|way| (way.encode)(&message) == word && (way.restore)(&kept(&word)) == word);
            if !same {
                eprintln!("erasure codes: other words modulo {}", modulus.name);
            }
            same
        })
    })
}

/// The megabytes of words a second of each way: the best of many turns, one after the other.
fn speeds(ways: [&dyn Fn(&Message) -> Word; 4], input: &Message) -> Vec<f64> {
    let mut least = [f64::INFINITY; 4];
    for _ in 0..200 {
        for (least, way) in least.iter_mut().zip(ways) {
            let start = seconds();
            black_box(way(black_box(input)));
            *least = least.min(seconds() - start);
        }
    }
    least.map(|time| BYTES / time / 1e6).to_vec()
}

/// The table.
pub fn measured() -> Rows {
    let mut lines = Vec::new();
    for modulus in &moduli() {
        let message = message(modulus.m, 7);
        let word = (modulus.ways[0].encode)(&message);
        let [a, b, c, d] = &modulus.ways;
        lines.push((format!("encode, {}", modulus.name), speeds([&*a.encode, &*b.encode, &*c.encode, &*d.encode], &message)));
        lines.push((format!("restore, {}", modulus.name), speeds([&*a.restore, &*b.restore, &*c.restore, &*d.restore], &kept(&word))));
    }
    Rows {
        key: "erasure",
        title: "Words of 255 symbols of 64 bits by `ring_codes::erasure`, from messages of 223 symbols and from the last 223 symbols; \
                the ratios are those of the times"
            .to_string(),
        heads: vec!["Cargo crate MB/s", "mulm MB/s", "reducer MB/s", "FLINT MB/s"],
        ratios: vec![("Cargo crate/mulm", 1, 0), ("Cargo crate/reducer", 2, 0), ("Cargo crate/FLINT", 3, 0)],
        lines,
    }
}
