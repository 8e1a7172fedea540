//! Prepared codes and codes at the powers of a root, compared with values of the polynomial by plain arithmetic.

mod words;

use num_modular::applications::ring_codes::erasure::{encode_by_transform, fill_powers, points_fit, PreparedCode};
use num_modular::ring::root_fits;
use num_modular::{Reducer, Vanilla};
use words::{value, Random};

fn fit(m: u64, points: &[u64]) -> bool {
    let inverted = |a: u64| (0..m).any(|x| a * x % m == 1 % m);
    (0..points.len()).all(|i| (0..i).all(|j| inverted(points[i] + m - points[j])))
}

#[test]
fn symbols_from_symbols() {
    let mut random = Random(0x2545_f491_4f6c_dd1d);
    let (mut accepted, mut refused) = (0, 0);
    for turn in 0..4000 {
        let m = [1, 2, 5, 7, 13, 25, 35, 49, 77, 91, 101, 121][turn % 12];
        let (k, t) = (random.below(5) as usize, random.below(4) as usize);
        let known: Vec<u64> = (0..k).map(|_| random.below(m)).collect();
        let wanted: Vec<u64> = (0..t).map(|_| random.below(m)).collect();
        let ring = Vanilla::<u64>::new(&m);
        let (mut rows, mut scratch) = (vec![7; t * k], vec![7; 2 * k]);
        let code = PreparedCode::new(&ring, &known, &wanted, &mut rows, &mut scratch);
        assert_eq!(code.is_some(), fit(m, &known));
        let code = match code {
            Some(code) => code,
            None => {
                refused += 1;
                continue;
            }
        };
        let message: Vec<u64> = (0..k).map(|_| random.below(m)).collect();
        let symbols: Vec<u64> = known.iter().map(|x| value(m, &message, *x)).collect();
        let others: Vec<u64> = wanted.iter().map(|x| value(m, &message, *x)).collect();
        let mut found = vec![7; t];
        code.extend(&symbols, &mut found);
        assert_eq!(found, others);
        assert!(code.is_codeword(&symbols, &others));
        for j in 0..t {
            let mut changed = others.clone();
            changed[j] = (changed[j] + 1) % m;
            assert_eq!(code.is_codeword(&symbols, &changed), m == 1);
        }
        accepted += 1;
    }
    assert!(accepted > 1000 && refused > 500, "{accepted} {refused}");
}

#[test]
fn words_at_powers() {
    let mut random = Random(0x9e37_79b9_7f4a_7c15);
    let mut codes = 0;
    for m in (3..600).step_by(2) {
        let ring = Vanilla::<u64>::new(&m);
        for n in [2, 4, 8, 16] {
            for g in (0..m).filter(|g| root_fits(&ring, g, n)) {
                let mut points = vec![0; n];
                fill_powers(&ring, &g, &mut points);
                assert!(points_fit(&ring, &points) && fit(m, &points));
                let k = random.below(n as u64 + 1) as usize;
                let message: Vec<u64> = (0..k).map(|_| random.below(m)).collect();
                let mut word = vec![7; n];
                encode_by_transform(&ring, &g, &message, &mut word);
                assert!((0..n).all(|i| word[i] == value(m, &message, points[i])));
                codes += 1;
            }
        }
    }
    assert!(codes > 500, "{codes}");
}
