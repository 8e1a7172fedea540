//! Correction of random words, compared with brute force: the polynomials through every choice of k places.

mod words;

use num_modular::applications::ring_codes::erasure::{correct, encode, fill_powers, CorrectError, Corrector, RestoreError};
use num_modular::ring::find_root;
use num_modular::{
    FixedMersenne64, FixedTrinomialSolinas64, Montgomery, OddMontgomery, PreMulInv2by1, Reducer, RingWord, Vanilla,
};
use std::fmt::Debug;
use words::{value, Random};

fn inverse(m: u64, a: u64) -> Option<u64> {
    (0..m).find(|x| a * x % m == 1 % m)
}

/// The coefficients of the polynomial through these points, by Lagrange's formula.
fn through(m: u64, points: &[(u64, u64)]) -> Vec<u64> {
    let mut sum = vec![0; points.len()];
    for (i, (x, y)) in points.iter().enumerate() {
        let mut basis = vec![1 % m];
        let mut divisor = 1;
        for (_, z) in points.iter().enumerate().filter(|(j, _)| *j != i) {
            let mut product = vec![0; basis.len() + 1];
            for (e, c) in basis.iter().enumerate() {
                product[e + 1] = (product[e + 1] + c) % m;
                product[e] = (product[e] + (m - z.0) * c) % m;
            }
            basis = product;
            divisor = divisor * (x + m - z.0) % m;
        }
        let scale = y * inverse(m, divisor).unwrap() % m;
        for (e, c) in basis.iter().enumerate() {
            sum[e] = (sum[e] + scale * c) % m;
        }
    }
    sum
}

/// The message whose word differs from the symbols in at most half of s - k places, with their number.
fn nearest(m: u64, points: &[u64], symbols: &[u64], k: usize) -> Option<(Vec<u64>, usize)> {
    let s = points.len();
    for choice in (0u32..1 << s).filter(|choice| choice.count_ones() as usize == k) {
        let chosen: Vec<_> = (0..s).filter(|i| choice >> i & 1 == 1).map(|i| (points[i], symbols[i])).collect();
        let message = through(m, &chosen);
        let errors = (0..s).filter(|i| value(m, &message, points[*i]) != symbols[*i]).count();
        if 2 * errors <= s - k {
            return Some((message, errors));
        }
    }
    None
}

type Found = Result<(Vec<u64>, usize), CorrectError<u64>>;

/// What `correct` returns for the symbols at all points, for a message of k symbols: by the key equation alone, where the
/// least scratch is short enough, and by syndromes first.
fn corrected_by_each(m: u64, points: &[u64], symbols: &[u64], k: usize) -> [Found; 2] {
    let (s, places) = (points.len(), Vec::from_iter(0..points.len()));
    [3 * (s + k) + 2, room(s, k)].map(|places_of_scratch| {
        let (mut scratch, mut message, mut word) = (vec![0; places_of_scratch], vec![0; k], vec![0; s]);
        correct(&Vanilla::<u64>::new(&m), points, &places, symbols, &mut scratch, &mut message, &mut word)
            .map(|errors| (message, errors))
    })
}

/// Places of scratch with which `correct` goes by syndromes.
fn room(s: usize, k: usize) -> usize {
    (3 * (s + k) + 2).max(11 * s - 7 * k + 3)
}

/// By syndromes first, `correct` corrects what it corrects by the key equation alone.
fn corrected(m: u64, points: &[u64], symbols: &[u64], k: usize) -> Found {
    let [alone, first] = corrected_by_each(m, points, symbols, k);
    assert!(matches!(alone, Err(CorrectError::NoInverse(_))) || first == alone, "modulo {m}: {first:?}, {alone:?}");
    first
}

/// Whether the number is one that `NoInverse` may return.
fn has_no_inverse(m: u64, a: u64) -> bool {
    0 < a && a < m && inverse(m, a).is_none()
}

/// The symbols of a message at the points from 0 on.
fn word_of(m: u64, message: &[u64], points: &[u64]) -> Vec<u64> {
    points.iter().map(|x| value(m, message, *x)).collect()
}

#[test]
fn words_without_a_wrong_symbol() {
    let mut random = Random(88172645463325252);
    for (m, least) in [(15, 3), (35, 5), (1001, 7), (101 * 101, 101), (65537 * 3, 3), (4, 2), (1, 5)] {
        for _ in 0..200 {
            let points: Vec<u64> = (0..1 + random.below(least.min(20))).map(|x| x % m).collect();
            let k = 1 + random.below(points.len() as u64) as usize;
            // zero divisors, too
            let factor = [1, 3, 11, 101][random.below(4) as usize];
            let message: Vec<u64> = (0..k).map(|_| random.below(m) * factor % m).collect();
            assert_eq!(corrected(m, &points, &word_of(m, &message, &points), k), Ok((message, 0)), "modulo {m}");
        }
    }
}

/// All words of three symbols modulo 15 for messages of one: the message is the symbol that two of them are.
#[test]
fn all_words_modulo_15() {
    let m = 15;
    for word in 0..m * m * m {
        let symbols = [word % m, word / m % m, word / m / m];
        let found = corrected(m, &[0, 1, 2], &symbols, 1);
        let right = symbols.iter().find(|c| symbols.iter().filter(|d| d == c).count() >= 2);
        let wrong = right.and_then(|c| symbols.iter().find(|d| *d != c));
        match (right, wrong) {
            (Some(c), None) => assert_eq!(found, Ok((vec![*c], 0))),
            (Some(c), Some(_)) => assert_eq!(found, Ok((vec![*c], 1)), "{symbols:?}"),
            (None, _) if found == Err(CorrectError::TooManyErrors) => {}
            _ => assert!(matches!(found, Err(CorrectError::NoInverse(a)) if has_no_inverse(m, a)), "{symbols:?}: {found:?}"),
        }
    }
}

/// Modulo 101², where one number in 101 has no inverse, hardly a word is in the way.
#[test]
fn random_words_modulo_a_square() {
    let (m, k, points) = (101 * 101, 3, [0, 1, 2, 3, 4, 5, 6]);
    let mut random = Random(88172645463325252);
    let mut without = 0;
    for wrong in [1, 2].repeat(150) {
        let message: Vec<u64> = (0..k).map(|_| random.below(m)).collect();
        let mut symbols = word_of(m, &message, &points);
        for i in 0..wrong {
            symbols[(random.below(3) + 3 * i) as usize] = random.below(m);
        }
        // the message's word is near, so no other is
        let wrong = (0..points.len()).filter(|i| value(m, &message, points[*i]) != symbols[*i]).count();
        match corrected(m, &points, &symbols, k as usize) {
            Err(CorrectError::NoInverse(a)) if wrong > 0 && has_no_inverse(m, a) => without += 1,
            found => assert_eq!(found, Ok((message, wrong))),
        }
    }
    assert!(without <= 3, "{without} of 300");
}

#[test]
fn random_words() {
    let mut random = Random(88172645463325252);
    let (mut found, mut refused, mut without, mut near) = (0, 0, 0, 0);
    for (m, least) in [(5, 5), (7, 7), (11, 7), (13, 7), (25, 5), (35, 5), (49, 7), (77, 7)] {
        for _ in 0..500 {
            let s = 1 + random.below(least) as usize;
            let k = 1 + random.below(s as u64) as usize;
            let points: Vec<u64> = (0..s as u64).collect();
            let message: Vec<u64> = (0..k).map(|_| random.below(m)).collect();
            let mut symbols = word_of(m, &message, &points);
            for _ in 0..random.below((s - k) as u64 / 2 + 2) {
                symbols[random.below(s as u64) as usize] = random.below(m);
            }
            let want = nearest(m, &points, &symbols, k);
            near += usize::from(want.is_some());
            match corrected(m, &points, &symbols, k) {
                Ok(got) => {
                    assert_eq!(Some(got), want, "modulo {m}");
                    found += 1;
                }
                Err(CorrectError::TooManyErrors) => {
                    assert_eq!(None, want, "modulo {m}");
                    refused += 1;
                }
                Err(CorrectError::NoInverse(a)) => {
                    assert!(has_no_inverse(m, a) && want.map_or(true, |(_, errors)| errors > 0), "{a} modulo {m}");
                    without += 1;
                }
                Err(error) => panic!("{error:?}"),
            }
        }
    }
    // nearly all words that are near are found, as all are where m is a prime
    assert!(found * 100 > near * 99 && refused > 100 && without > 10, "{found} of {near}, {refused} {without}");
}

/// The numbers of the test of `Corrector`, with the least prime that divides each.
const MODULI: [(u64, u64); 37] = [
    (2, 2),
    (3, 3),
    (4, 2),
    (5, 5),
    (6, 2),
    (7, 7),
    (9, 3),
    (11, 11),
    (13, 13),
    (15, 3),
    (17, 17),
    (19, 19),
    (21, 3),
    (23, 23),
    (25, 5),
    (27, 3),
    (29, 29),
    (33, 3),
    (35, 5),
    (45, 3),
    (49, 7),
    (55, 5),
    (63, 3),
    (65, 5),
    (77, 7),
    (81, 3),
    (91, 7),
    (97, 97),
    (119, 7),
    (121, 11),
    (125, 5),
    (143, 11),
    (169, 13),
    (187, 11),
    (221, 13),
    (245, 5),
    (343, 7),
];

/// A word with lost symbols, and others that may be wrong.
struct Damaged {
    m: u64,
    points: Vec<u64>,
    k: usize,
    word: Vec<u64>,
    lost: Vec<usize>,
}

impl Damaged {
    /// Some symbols are lost, and some of the others are changed, all by any numbers or by multiples of one.
    fn random(m: u64, least: u64, random: &mut Random) -> Damaged {
        let n = 1 + random.below(least.min(8)) as usize;
        let k = 1 + random.below(n as u64) as usize;
        let shift = random.below(m);
        let points: Vec<u64> = (0..n as u64).map(|i| (i + shift) % m).collect();
        let message: Vec<u64> = (0..k).map(|_| random.below(m)).collect();
        let mut word = word_of(m, &message, &points);
        let mut places: Vec<usize> = (0..n).collect();
        for i in (1..n).rev() {
            places.swap(i, random.below(i as u64 + 1) as usize);
        }
        let listed = places.split_off(random.below((n - k) as u64 + 1) as usize);
        let factor = [1, least][random.below(2) as usize];
        for place in listed.iter().take(random.below((listed.len() - k) as u64 / 2 + 2) as usize) {
            word[*place] = (word[*place] + factor * random.below(m)) % m;
        }
        places.iter().for_each(|place| word[*place] = random.below(m));
        Damaged { m, points, k, word, lost: places }
    }

    /// The word and the number that `Corrector::correct` should return, by brute force.
    fn nearest(&self) -> Option<(Vec<u64>, usize)> {
        let listed = (0..self.points.len()).filter(|i| !self.lost.contains(i));
        let (points, symbols): (Vec<u64>, Vec<u64>) = listed.map(|i| (self.points[i], self.word[i])).unzip();
        let (message, errors) = nearest(self.m, &points, &symbols, self.k)?;
        Some((word_of(self.m, &message, &self.points), errors))
    }

    /// Whether `correct` returns `NoInverse` for the symbols that aren't lost; otherwise it finds the nearest word.
    fn is_without_inverse_by_correct(&self, room: fn(usize, usize) -> usize) -> bool {
        let listed: Vec<usize> = (0..self.points.len()).filter(|i| !self.lost.contains(i)).collect();
        let symbols: Vec<u64> = listed.iter().map(|i| self.word[*i]).collect();
        let (mut scratch, mut message) = (vec![0; room(listed.len(), self.k)], vec![0; self.k]);
        let (ring, mut word) = (Vanilla::<u64>::new(&self.m), vec![0; self.points.len()]);
        match correct(&ring, &self.points, &listed, &symbols, &mut scratch, &mut message, &mut word) {
            Err(CorrectError::NoInverse(_)) => true,
            found => {
                assert_eq!(found.ok().map(|errors| (word, errors)), self.nearest(), "modulo {}", self.m);
                false
            }
        }
    }

    /// Whether the word is of the code, by brute force and by `Corrector::is_codeword`, with a table of checks and without.
    fn assert_membership(&self) {
        let (ring, n) = (Vanilla::<u64>::new(&self.m), self.points.len());
        let (mut weights, mut room, mut checks) = (vec![0; n], vec![0; n], vec![self.m; n * (n - self.k)]);
        let mut scratch = vec![self.m - 1; 2 * n - self.k];
        let is_word = matches!(nearest(self.m, &self.points, &self.word, self.k), Some((_, 0)));
        let code = Corrector::new(&ring, &self.points, self.k, &mut weights, &mut room).expect("the points fit");
        assert_eq!(code.is_codeword(&self.word, &mut scratch), is_word, "modulo {}", self.m);
        assert_eq!(code.with_checks(&mut checks).is_codeword(&self.word, &mut scratch), is_word, "modulo {}", self.m);
    }

    /// What `Corrector::correct` leaves and returns, with a table of checks and without.
    fn corrected(&self) -> (Vec<u64>, Result<usize, CorrectError<u64>>) {
        let (ring, n) = (Vanilla::<u64>::new(&self.m), self.points.len());
        let (mut weights, mut room, mut checks) = (vec![0; n], vec![0; n], vec![self.m; n * (n - self.k)]);
        let mut scratch = vec![self.m - 1; 2 * n + 7 * (n - self.k) + 3];
        let mut by = |code: &Corrector<u64, _>| {
            let mut word = self.word.clone();
            let found = code.correct(&mut word, &self.lost, &mut scratch);
            (word, found)
        };
        let code = Corrector::new(&ring, &self.points, self.k, &mut weights, &mut room).expect("the points fit");
        let found = by(&code);
        assert_eq!(by(&code.with_checks(&mut checks)), found, "modulo {}", self.m);
        found
    }
}

/// `NoInverse` never comes where at most one symbol is wrong, and elsewhere seldom: less than half as often as by the key
/// equation alone. `correct` returns it nowhere else than both.
#[test]
fn words_in_place() {
    let mut random = Random(88172645463325252);
    let (mut found, mut refused, mut without, mut without_by_correct, mut without_by_key_equation) = (0, 0, 0, 0, 0);
    for (m, least) in MODULI {
        for _ in 0..400 {
            let it = Damaged::random(m, least, &mut random);
            let want = it.nearest();
            it.assert_membership();
            let by_correct = it.is_without_inverse_by_correct(room);
            let by_key_equation = it.is_without_inverse_by_correct(|s, k| 3 * (s + k) + 2);
            assert!(by_key_equation || !by_correct, "modulo {m}: lost");
            without_by_correct += usize::from(by_correct);
            without_by_key_equation += usize::from(by_key_equation);
            match it.corrected() {
                (word, Ok(errors)) => {
                    found += 1;
                    assert_eq!(want, Some((word, errors)), "modulo {m}");
                }
                (word, Err(error)) => {
                    assert_eq!(word, it.word, "unchanged");
                    match error {
                        CorrectError::TooManyErrors => {
                            refused += 1;
                            assert_eq!(want, None, "modulo {m}");
                        }
                        CorrectError::NoInverse(a) => {
                            without += 1;
                            assert!(has_no_inverse(m, a) && want.map_or(true, |(_, errors)| errors >= 2), "modulo {m}: {a}");
                        }
                        CorrectError::Restore(error) => panic!("{error}"),
                    }
                }
            }
        }
    }
    assert!(
        found > 7000 && refused > 1000 && without_by_correct <= without && 2 * without < without_by_key_equation,
        "{found} {refused} {without} {without_by_correct} {without_by_key_equation}"
    );
}

#[test]
fn lost_places() {
    let it = |lost: &[usize]| {
        Damaged { m: 97, points: vec![1, 2, 3, 4], k: 2, word: vec![12, 19, 26, 33], lost: lost.to_vec() }.corrected().1
    };
    assert_eq!((it(&[]), it(&[3, 0])), (Ok(0), Ok(0)));
    let refused = |lost: &[usize], error| assert_eq!(it(lost), Err(CorrectError::Restore(error)));
    refused(&[0, 1, 2], RestoreError::TooFewSymbols);
    refused(&[0, 0, 9], RestoreError::TooFewSymbols);
    refused(&[1, 4], RestoreError::PlaceOutOfRange);
    refused(&[3, 3], RestoreError::PlaceTwice);
}

/// A word is sent, some symbols are lost and as many others are wrong as can be corrected: the word that was sent is found.
fn longer_words<T: RingWord + Debug, R: Reducer<T>>(ring: &R, longest: u64, words: fn(u64) -> T) {
    let mut random = Random(88172645463325252);
    let form = |x: u64| ring.transform(words(x));
    for _ in 0..60 {
        let n = 1 + random.below(longest) as usize;
        let k = random.below(n as u64 + 1) as usize;
        let points: Vec<T> = (0..n as u64).map(form).collect();
        let message: Vec<T> = (0..k).map(|_| form(random.below(u64::MAX))).collect();
        let mut sent = points.clone();
        encode(ring, &points, &message, &mut sent);
        let mut word = sent.clone();
        let mut places: Vec<usize> = (0..n).collect();
        (1..n).for_each(|i| places.swap(i, random.below(i as u64 + 1) as usize));
        let lost = random.below((n - k) as u64 + 1) as usize;
        let wrong = (n - k - lost) / 2;
        for (i, place) in places.iter().enumerate().take(lost + wrong) {
            word[*place] = if i < lost { form(random.below(u64::MAX)) } else { ring.add(&word[*place], &form(1)) };
        }
        let (mut weights, mut room, mut checks) = (points.clone(), points.clone(), vec![form(0); n * (n - k)]);
        let mut scratch = vec![form(0); 2 * n + 7 * (n - k) + 3];
        let code = Corrector::new(ring, &points, k, &mut weights, &mut room).expect("the points fit");
        let mut again = word.clone();
        assert_eq!((code.correct(&mut word, &places[..lost], &mut scratch), &word), (Ok(wrong), &sent));
        let code = code.with_checks(&mut checks);
        assert_eq!((code.correct(&mut again, &places[..lost], &mut scratch), &again), (Ok(wrong), &sent));
    }
}

#[test]
fn longer_words_of_each_width() {
    longer_words(&<OddMontgomery<u8> as Reducer<u8>>::new(&251), 100, |x| x as u8);
    longer_words(&<OddMontgomery<u16> as Reducer<u16>>::new(&257), 100, |x| x as u16);
    longer_words(&<OddMontgomery<u16> as Reducer<u16>>::new(&1021), 100, |x| x as u16);
    longer_words(&<PreMulInv2by1<u16> as Reducer<u16>>::new(&65521), 100, |x| x as u16);
    longer_words(&<Montgomery<u32> as Reducer<u32>>::new(&4294967291), 100, |x| x as u32);
    longer_words(&<FixedMersenne64<61, 1> as Reducer<u64>>::new(&((1 << 61) - 1)), 100, |x| x);
    longer_words(&<FixedTrinomialSolinas64<64, 32, 1> as Reducer<u64>>::new(&(u64::MAX - (1 << 32) + 2)), 100, |x| x);
}

/// At the powers of a root the syndromes are found by a transform: the same words are found.
#[test]
fn words_at_the_powers_of_a_root() {
    let mut random = Random(88172645463325252);
    for (m, n) in [(17, 16), (257, 64), (85, 4), (65, 4), (3 * 65537, 2), (7, 1)] {
        let ring = Vanilla::<u64>::new(&m);
        let Some(root) = find_root(&ring, n) else { continue };
        let mut points = vec![0; n];
        fill_powers(&ring, &root, &mut points);
        for _ in 0..200 {
            let k = random.below(n as u64 + 1) as usize;
            let message: Vec<u64> = (0..k).map(|_| random.below(m)).collect();
            let mut word = word_of(m, &message, &points);
            (0..random.below(n as u64 - k as u64 + 1)).for_each(|_| word[random.below(n as u64) as usize] = random.below(m));
            let lost: Vec<usize> = (0..random.below((n - k) as u64 + 1) as usize).collect();
            let (mut weights, mut room, mut scratch) = (vec![0; n], vec![0; n], vec![0; 2 * n + 7 * (n - k) + 3]);
            let code = Corrector::new(&ring, &points, k, &mut weights, &mut room).expect("the points fit");
            let mut other = word.clone();
            let found = code.correct(&mut word, &lost, &mut scratch);
            let is_word = code.is_codeword(&other, &mut scratch);
            assert!(found.is_err() || code.is_codeword(&word, &mut scratch));
            let code = code.with_root(root).expect("the points are powers of the root");
            assert_eq!(code.is_codeword(&other, &mut scratch), is_word);
            assert_eq!((code.correct(&mut other, &lost, &mut scratch), other), (found, word), "modulo {m}");
        }
        points.swap(0, n - 1);
        let (mut weights, mut room) = (vec![0; n], vec![0; n]);
        let code = Corrector::new(&ring, &points, 0, &mut weights, &mut room).expect("the points fit");
        assert!(n == 1 || code.with_root(root).is_none());
    }
}
