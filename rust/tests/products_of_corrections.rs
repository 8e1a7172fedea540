//! The numbers of products that `Corrector` takes, counted by a reducer, are those that `correct_counted` returns, and at most
//! those that its docs say.

mod words;

use num_modular::applications::ring_codes::erasure::{CorrectError, Corrector};
use num_modular::ring::find_root;
use num_modular::{Reducer, Vanilla};
use std::cell::Cell;
use words::{value, Random};

/// A reducer that counts products. Its `add_products` is the trait's, which calls `mul`.
struct Counted {
    ring: Vanilla<u64>,
    products: Cell<usize>,
}

impl Reducer<u64> for Counted {
    fn new(m: &u64) -> Counted {
        Counted { ring: Vanilla::<u64>::new(m), products: Cell::new(0) }
    }
    fn transform(&self, n: u64) -> u64 {
        self.ring.transform(n)
    }
    fn check(&self, f: &u64) -> bool {
        self.ring.check(f)
    }
    fn modulus(&self) -> u64 {
        self.ring.modulus()
    }
    fn residue(&self, f: u64) -> u64 {
        self.ring.residue(f)
    }
    fn is_zero(&self, f: &u64) -> bool {
        self.ring.is_zero(f)
    }
    fn add(&self, a: &u64, b: &u64) -> u64 {
        self.ring.add(a, b)
    }
    fn dbl(&self, f: u64) -> u64 {
        self.ring.dbl(f)
    }
    fn sub(&self, a: &u64, b: &u64) -> u64 {
        self.ring.sub(a, b)
    }
    fn neg(&self, f: u64) -> u64 {
        self.ring.neg(f)
    }
    fn mul(&self, a: &u64, b: &u64) -> u64 {
        self.products.set(self.products.get() + 1);
        self.ring.mul(a, b)
    }
    fn inv(&self, f: u64) -> Option<u64> {
        self.ring.inv(f)
    }
    fn sqr(&self, f: u64) -> u64 {
        self.mul(&f, &f)
    }
    fn pow(&self, f: u64, exp: &u64) -> u64 {
        self.ring.pow(f, exp)
    }
}

/// At most so many products modulo a prime for n points, t = n - k, c lost symbols and e wrong ones; besides those of the
/// syndromes.
fn most(n: usize, t: usize, c: usize, e: usize) -> usize {
    let (rest, q) = (t - c, c + e);
    2 * rest * (rest + c) + n * (e + 1) + q * (t + 4 * q + 9) + 6 * rest
}

/// A transform of n = 2^z symbols, and n divisions by n.
fn of_transform(n: usize) -> usize {
    let z = n.trailing_zeros() as usize;
    n * z / 2 + 2 * n - 1 + z
}

#[test]
fn products() {
    let mut random = Random(88172645463325252);
    for (m, longest) in [(101, 100), (257, 255), (65537, 255), (1001, 7), (17 * 257, 16)] {
        let prime = m % 7 != 0 && m % 17 != 0;
        for round in 0..60 {
            let ring = <Counted as Reducer<u64>>::new(&m);
            let n = 1 + random.below(longest) as usize;
            let n = if round % 2 == 0 { n } else { (n + 1).next_power_of_two() / 2 };
            let root = if round % 2 == 0 { None } else { find_root(&ring, n) };
            let points: Vec<u64> = match root {
                None => (0..n as u64).collect(),
                Some(g) => std::iter::successors(Some(1), |x| Some(x * g % m)).take(n).collect(),
            };
            ring.products.set(0);
            let t = 1 + random.below((n as u64).min(40)) as usize;
            let message: Vec<u64> = (t..n).map(|_| random.below(m)).collect();
            let sent: Vec<u64> = points.iter().map(|x| value(m, &message, *x)).collect();
            let (mut weights, mut room, mut checks) = (vec![0; n], vec![0; n], vec![0; n * t]);
            let code = Corrector::new(&ring, &points, n - t, &mut weights, &mut room).unwrap();
            assert!(ring.products.take() <= n * n + 3 * n);
            let c = random.below(t as u64 + 1) as usize;
            let wrong = random.below(((t - c) / 2) as u64 + 2).min((n - c) as u64) as usize;
            let mut places: Vec<usize> = (0..n).collect();
            (1..n).for_each(|i| places.swap(i, random.below(i as u64 + 1) as usize));
            let mut spoilt = sent.clone();
            places.iter().take(c + wrong).for_each(|place| spoilt[*place] = (spoilt[*place] + 1 + random.below(m - 1)) % m);
            let mut scratch = vec![0; 2 * n + 7 * t + 3];
            let mut count = |code: &Corrector<u64, Counted>, of_syndromes: usize, of_tests: usize| {
                let mut word = spoilt.clone();
                let (found, products) = code.correct_counted(&mut word, &places[..c], &mut scratch);
                let taken = (ring.products.take() - of_tests) as u128;
                assert_eq!(products, taken, "modulo {m}: n {n}, t {t}, c {c}, {found:?}");
                let most = of_syndromes
                    + match found {
                        Ok(0) if c == 0 => 0,
                        _ if !prime => usize::MAX - of_syndromes,
                        Ok(e) => most(n, t, c, e),
                        Err(CorrectError::TooManyErrors) => n + most(n, t, c, (t - c) / 2),
                        Err(error) => panic!("{error:?}"),
                    };
                assert!(products <= most as u128, "{products} above {most}: n {n}, t {t}, c {c}, {found:?}");
                assert_eq!(code.is_codeword(&spoilt, &mut scratch), c + wrong == 0);
                assert_eq!(ring.products.take(), of_syndromes + of_tests);
            };
            count(&code, n * (t + 1), 0);
            let code = code.with_checks(&mut checks);
            assert!(ring.products.take() <= n * t);
            count(&code, n * t, 0);
            if let Some(g) = root {
                let code = code.with_root(g).unwrap();
                ring.products.set(0);
                // `intt` and `ntt` test whether the root fits
                count(&code, of_transform(n), 2 * n.trailing_zeros().saturating_sub(1) as usize);
            }
        }
    }
}
