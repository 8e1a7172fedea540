//! Words whose lost symbols `ErasurePattern` restores, beside those of their messages by `encode`, modulo primes and
//! composite numbers.

use num_modular::applications::ring_codes::erasure::{encode, fill_powers, ErasurePattern, RestoreError};
use num_modular::ring::find_root;
use num_modular::{OddMontgomery, Reducer, Vanilla};

/// Numbers that look random: Marsaglia, "Xorshift RNGs".
struct Random(u64);

impl Random {
    fn below(&mut self, bound: u64) -> u64 {
        self.0 ^= self.0 << 13;
        self.0 ^= self.0 >> 7;
        self.0 ^= self.0 << 17;
        self.0 % bound
    }

    /// Some of the numbers below n, in a random order.
    fn places(&mut self, n: usize, count: usize) -> Vec<usize> {
        let mut all: Vec<usize> = (0..n).collect();
        for i in (1..n).rev() {
            all.swap(i, self.below(i as u64 + 1) as usize);
        }
        all.truncate(count);
        all
    }
}

fn assert_restored<R: Reducer<u64>>(r: &R, m: u64, n: usize, random: &mut Random) {
    let root = find_root(r, n).expect("a root");
    let mut points = vec![0; n];
    fill_powers(r, &root, &mut points);
    for _ in 0..20 {
        let k = 1 + random.below(n as u64) as usize;
        let count = random.below((n - k) as u64 + 1) as usize;
        let lost = random.places(n, count);
        let message: Vec<u64> = (0..k).map(|_| r.transform(random.below(m))).collect();
        let mut word = vec![0; n];
        encode(r, &points, &message, &mut word);
        let (mut factors, mut scratch) = (vec![random.0; n], vec![random.0; 3 * n]);
        let pattern = ErasurePattern::new(r, &root, k, &lost, &mut factors, &mut scratch).unwrap();
        let mut symbols = word.clone();
        for &place in &lost {
            symbols[place] = r.transform(random.below(m));
        }
        assert!(pattern.restore(&mut symbols, &mut scratch));
        assert_eq!(symbols, word, "m = {m}, k = {k}, lost: {lost:?}");
        // one symbol more than is lost is wrong: no word of the code has the others, unless they are k alone
        let wrong = (0..n).find(|i| !lost.contains(i)).unwrap();
        symbols[wrong] = r.add(&symbols[wrong], &r.transform(1));
        let before = symbols.clone();
        assert_eq!(pattern.restore(&mut symbols, &mut scratch), count == n - k);
        assert_eq!(symbols == before, count < n - k || lost.is_empty());
    }
}

#[test]
fn words_restored() {
    let mut random = Random(88172645463325252);
    for (m, most) in [(17, 16), (85, 4), (97, 32), (257, 64), (65537, 128), (18446744069414584321, 128)] {
        let mut n = 1;
        while n <= most {
            assert_restored(&OddMontgomery::<u64>::new(m), m, n, &mut random);
            assert_restored(&Vanilla::<u64>::new(&m), m, n, &mut random);
            n *= 2;
        }
    }
}

#[test]
fn errors() {
    let ring = Vanilla::<u64>::new(&97);
    let error = |root: u64, k, lost: &[usize]| ErasurePattern::new(&ring, &root, k, lost, &mut [0; 4], &mut [0; 12]).err();
    assert_eq!(error(22, 2, &[0, 1, 2]), Some(RestoreError::TooFewSymbols));
    assert_eq!(error(22, 5, &[]), Some(RestoreError::TooFewSymbols));
    assert_eq!(error(22, 2, &[4, 4]), Some(RestoreError::PlaceOutOfRange));
    assert_eq!(error(22, 2, &[3, 3]), Some(RestoreError::PlaceTwice));
    assert_eq!(error(21, 2, &[3, 1]), Some(RestoreError::PointsDontFit));
    assert_eq!(error(22, 2, &[3, 1]), None);
}
