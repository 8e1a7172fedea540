//! Structs over arrays, and the other thin layers over calls that take lists: they return what these calls write.

#[macro_use]
mod panics;

use num_modular::applications::mersenne_hash::PrefixHashes;
use num_modular::applications::residue_numbers::mixed_radix::{OwnedSystem, System};
use num_modular::applications::ring_codes::erasure::{
    self, Code, CorrectError, Corrected, PreparedCode, RestoreError, ShareError,
};
use num_modular::hashes;
use num_modular::plans::{Factor, OwnedPlan, Plan, PlannedModulus};
use num_modular::{Montgomery, PreMulInv2by1, Reducer, Vanilla};
use panics::{message, place, SHORT};

const POINTS: [u64; 7] = [1, 2, 3, 4, 5, 6, 7];

fn code() -> Code<u64, Vanilla<u64>, 7, 3> {
    Code::new(Vanilla::new(&929), POINTS).unwrap()
}

/// 1 + 2X + 3X² at the points.
const WORD: [u64; 7] = [6, 17, 34, 57, 86, 121, 162];

#[test]
fn codes_without_faults() {
    assert_eq!((code().encode(&[1, 2, 3]), code().message(&WORD)), (WORD, Some([1, 2, 3])));
    assert_eq!(code().encode_systematic(&[6, 17, 34]), WORD);
    assert_eq!((code().points(), code().ring().modulus()), (&POINTS, 929));
    assert!(Code::<u64, _, 3, 1>::new(Vanilla::new(&15), [0, 1, 3]).is_none());
    assert!(Code::<u64, _, 2, 2>::new(Vanilla::new(&15), [4, 4]).is_none());
}

#[test]
fn codes_with_lost_symbols() {
    for lost in 0..1u32 << 7 {
        let mut word = WORD.map(Some);
        for (place, symbol) in word.iter_mut().enumerate() {
            if lost >> place & 1 == 1 {
                *symbol = None;
            }
        }
        let is_enough = lost.count_ones() <= 4;
        let wanted = (is_enough.then_some([1, 2, 3]), is_enough.then_some(WORD), is_enough.then_some(1));
        assert_eq!((code().restore(&word), code().restore_word(&word), code().recover(&word)), wanted);
        let corrected = code().correct(&word);
        let fault = CorrectError::Restore(RestoreError::TooFewSymbols);
        assert_eq!(corrected, if is_enough { Ok(Corrected { message: [1, 2, 3], word: WORD, errors: 0 }) } else { Err(fault) });
    }
}

#[test]
fn codes_with_wrong_symbols() {
    for (first, second) in (0..7).flat_map(|first| (0..7).map(move |second| (first, second))) {
        let mut symbols = WORD.map(Some);
        symbols[first] = Some(928);
        symbols[second] = Some(0);
        let errors = if first == second { 1 } else { 2 };
        assert_eq!(code().correct(&symbols), Ok(Corrected { message: [1, 2, 3], word: WORD, errors }));
        assert_eq!(code().recover_correct(&symbols), Ok(1));
        symbols[first] = None; // 2·1 + 1 is at most 7 - 3, and so is 2·0 + 1
        assert_eq!(code().correct(&symbols).map(|it| it.word), Ok(WORD));
    }
    let far = [6, 17, 34, 0, 0, 0, 0].map(Some);
    let (mut scratch, mut message, mut word) = ([0; 32], [0; 3], [0; 7]);
    let wanted = erasure::correct(
        &Vanilla::<u64>::new(&929),
        &POINTS,
        &[0, 1, 2, 3, 4, 5, 6],
        &far.map(Option::unwrap),
        &mut scratch,
        &mut message,
        &mut word,
    );
    assert_eq!(code().correct(&far).map(|it| it.errors), wanted);
}

#[test]
fn codes_over_forms_and_of_one_symbol() {
    let ring = Montgomery::<u64>::new(929);
    let code = Code::<_, _, 7, 3>::new(ring, POINTS.map(|x| ring.transform(x))).unwrap();
    let word = code.encode(&[1, 2, 3].map(|x| ring.transform(x)));
    assert_eq!(word.map(|x| ring.residue(x)), WORD);
    let one = Code::<u64, _, 1, 1>::new(Vanilla::new(&929), [0]).unwrap();
    assert_eq!((one.encode(&[5]), one.restore(&[Some(5)]), one.restore(&[None])), ([5], Some([5]), None));
}

/// More scratch than the least array has, for messages as long as words.
#[test]
fn longer_codes() {
    let points: [u64; 300] = core::array::from_fn(|i| i as u64);
    let ring = PreMulInv2by1::<u64>::new(1_000_003);
    let code = Code::<_, _, 300, 280>::new(ring, points.map(|x| ring.transform(x))).unwrap();
    let sent = code.encode_systematic(&core::array::from_fn(|i| ring.transform(i as u64 * 77)));
    let mut got = sent.map(Some);
    for place in [3, 70, 150, 299] {
        got[place] = Some(ring.transform(500_000));
    }
    got[..10].fill(None);
    let corrected = code.correct(&got).unwrap();
    assert_eq!((corrected.word, corrected.errors), (sent, 3));
}

#[test]
fn shares_by_codes() {
    assert_eq!(code().share(&[1, 2, 3]), Ok(WORD));
    let with_0 = Code::<u64, _, 3, 2>::new(Vanilla::new(&97), [0, 1, 2]).unwrap();
    assert_eq!(with_0.share(&[5, 7]), Err(ShareError::PointWithoutInverse));
}

#[test]
fn codes_over_words_that_are_not_forms() {
    panic_in_debug_with!("points and message must be checked forms"; code().encode(&[1, 2, 929]));
    panic_in_debug_with!("points and symbols must be checked forms"; code().restore(&[Some(929); 7]), code().correct(&[Some(929); 7]));
    panic_in_debug_with!("the points must be checked forms"; Code::<u64, _, 2, 2>::new(Vanilla::new(&7), [1, 7]));
}

/// Check symbols are those of a prepared code.
#[test]
fn codes_and_prepared_codes() {
    let (ring, mut rows, mut scratch, mut others) = (Vanilla::<u64>::new(&929), [0; 12], [0; 6], [0; 4]);
    PreparedCode::new(&ring, &POINTS[..3], &POINTS[3..], &mut rows, &mut scratch).unwrap().extend(&[6, 17, 34], &mut others);
    assert_eq!(code().encode_systematic(&[6, 17, 34])[3..], others);
}

#[test]
fn mixed_radix_in_arrays() {
    let moduli = [u64::MAX, u64::MAX - 1, u64::MAX - 2]; // each difference is 1 or 2, and two of them are odd
    let system = OwnedSystem::new(moduli).unwrap();
    let number = [7, 8, 9];
    let residues = system.encode(&number);
    let digits = system.digits(&residues);
    assert_eq!((system.words(&digits), system.residues(&digits)), (number, residues));
    let mut inverses = [0; 3];
    let mut wanted = [0; 3];
    System::new(&moduli, &mut inverses).unwrap().digits(&residues, &mut wanted);
    assert_eq!((digits, system.compare(&digits, &[0, 0, 1])), (wanted, std::cmp::Ordering::Greater));
    assert_eq!(system.system().residue_modulo(10, &digits), ((9 * 6 * 6 + 8 * 6 + 7) % 10) as u64); // 2^64 is 6 modulo 10
    assert!(OwnedSystem::new([4, 6]).is_none());
    panic_with!("each modulus must have a residue below it and room for a digit"; system.digits(&[u64::MAX, 0, 0]));
}

#[test]
fn plans_of_a_length() {
    let modulus = PlannedModulus::<u64>::new(97);
    let owned = OwnedPlan::<u64, Factor<u64>, Vec<_>>::with_length(&modulus, 22, 4).unwrap();
    let mut table = [Factor::ZERO; 2];
    assert_eq!(owned.plan(), Plan::new(&modulus, 22, &mut table).unwrap());
    let mut entries = [1, 2, 3, 4];
    owned.plan().transform(&mut entries);
    assert_eq!(entries, [10, 51, 95, 42]);
    let boxed = OwnedPlan::<u64, Factor<u64>, Box<[_]>>::with_length(&modulus, 22, 4).unwrap();
    assert_eq!(boxed.plan(), owned.plan());
    type Kept = OwnedPlan<u64, Factor<u64>, Vec<Factor<u64>>>;
    for (root, n) in [(22, 0), (22, 1), (22, 2), (22, 3), (22, 8), (22, 6), (5, 4), (119, 4), (1, 1)] {
        assert!(Kept::with_length(&modulus, root, n).is_none(), "{root}, {n}");
    }
    assert!(Kept::with_length(&PlannedModulus::new(10), 9, 2).is_none());
    assert_eq!(Kept::with_length(&modulus, 96, 2).map(|it| it.plan().length()), Some(2));
}

#[test]
fn all_hits() {
    let base = hashes::base(123_456_789);
    let (mut sums, mut powers) = ([base; 12], [base; 12]);
    let text = PrefixHashes::new(base, b"abracadabra", &mut sums, &mut powers).unwrap();
    let hits = |pattern: &[u8]| text.hits(pattern).collect::<Vec<_>>();
    assert_eq!((hits(b"bra"), hits(b"a"), hits(b"abracadabra")), (vec![1, 8], vec![0, 3, 5, 7, 10], vec![0]));
    assert_eq!((hits(b"x"), hits(b"abracadabrab")), (vec![], vec![]));
    assert_eq!(hits(b""), (0..12).collect::<Vec<_>>());
    let mut ended = text.hits(b"abra");
    assert_eq!([ended.next(), ended.next(), ended.next(), ended.next()], [Some(0), Some(7), None, None]);
}

#[cfg(target_pointer_width = "64")]
mod products {
    use num_modular::applications::long_product::polynomials::{
        multiply_cyclic_once, multiply_once, room_once, try_multiply_cyclic_once, try_multiply_negacyclic_once,
        try_multiply_once, MultiplyError, Products,
    };
    use num_modular::plans::Factor;

    /// The product by its definition.
    fn product<const X: usize, const Y: usize, const Z: usize>(m: u64, xs: &[u64; X], ys: &[u64; Y]) -> [u64; Z] {
        let mut out = [0; Z];
        for (i, x) in xs.iter().enumerate() {
            for (j, y) in ys.iter().enumerate() {
                out[i + j] = ((u128::from(out[i + j]) + u128::from(*x) * u128::from(*y)) % u128::from(m)) as u64;
            }
        }
        out
    }

    fn entries<const N: usize>(first: u64) -> [u64; N] {
        let mut word = first;
        [(); N].map(|_| {
            word = word.wrapping_mul(6364136223846793005).wrapping_add(1442695040888963407);
            word
        })
    }

    #[test]
    fn in_arrays() {
        for m in [1, 97, 998_244_353, u64::MAX] {
            let (xs, ys) = (entries::<5>(m), entries::<3>(m));
            assert_eq!(Products::<5, 3, 7>::new(m).unwrap().multiply(&xs, &ys), product::<5, 3, 7>(m, &xs, &ys));
            let (xs, ys) = (entries::<400>(m), entries::<300>(3));
            assert_eq!(Products::<400, 300, 699>::new(m).unwrap().multiply(&xs, &ys), product::<400, 300, 699>(m, &xs, &ys));
        }
        assert_eq!(Products::<1, 1, 1>::new(97).unwrap().multiply(&[96], &[96]), [1]);
        assert!(Products::<1, 1, 1>::new(0).is_none());
    }

    #[test]
    fn modulo_a_binomial() {
        let (m, xs, ys) = (998_244_353, entries::<250>(1), entries::<250>(2));
        let products = Products::<250, 250, 499>::new(m).unwrap();
        let whole = products.multiply(&xs, &ys);
        let folded = |sign: u64| core::array::from_fn(|i| (whole[i] + if i < 249 { sign * whole[i + 250] } else { 0 }) % m);
        assert_eq!(products.multiply_cyclic(&xs, &ys), folded(1));
        assert_eq!(products.multiply_negacyclic(&xs, &ys), folded(m - 1));
        let (words, factors) = room_once(250, 250);
        let (mut out, mut words, mut factors) = ([0; 250], vec![0; words], vec![Factor::<u64>::ZERO; factors]);
        assert!(multiply_cyclic_once(m, &xs, &ys, &mut out, &mut words, &mut factors));
        assert_eq!(out, folded(1));
    }

    #[test]
    fn as_many_coefficients_as_compile() {
        let product = Products::<4096, 4096, 8191>::new(97).unwrap().multiply(&[1; 4096], &[1; 4096]);
        assert_eq!((product[0], product[4095], product[8190]), (1, 4096 % 97, 1));
    }

    #[test]
    fn causes() {
        use MultiplyError::*;
        let tried = |m, xs: usize, ys: usize, out: usize, words, factors| {
            let (mut words, mut factors, mut out) = (vec![0; words], vec![Factor::<u64>::ZERO; factors], vec![9; out]);
            let (xs, ys, was) = (vec![1; xs], vec![1; ys], out.clone());
            let result = try_multiply_once(m, &xs, &ys, &mut out, &mut words, &mut factors);
            assert_eq!(result.is_ok(), multiply_once(m, &xs, &ys, &mut was.clone(), &mut words, &mut factors));
            assert!(result.is_ok() || out == was);
            result
        };
        assert_eq!((tried(0, 2, 2, 5, 0, 0), tried(97, 2, 2, 4, 0, 0)), (Err(NoModulus), Err(LengthOfProduct)));
        assert_eq!((tried(97, 0, 2, 1, 0, 0), tried(97, 0, 2, 0, 0, 0)), (Err(LengthOfProduct), Ok(())));
        let (words, factors) = room_once(200, 200);
        assert_eq!(tried(97, 200, 200, 399, words - 1, factors), Err(TooFewWords));
        assert_eq!(tried(97, 200, 200, 399, words, factors - 1), Err(TooFewFactors));
        assert_eq!(tried(97, 200, 200, 399, words, factors), Ok(()));
        assert_eq!(tried(97, 2, 2, 3, 0, 0), Ok(()));
        assert_eq!(NoModulus.to_string(), "the modulus must be at least 1");
    }

    #[test]
    fn causes_of_cyclic_products() {
        use MultiplyError::{LengthOfProduct, NoModulus, TooFewFactors, TooFewWords};
        let tried = |m, [xs, ys, out]: [usize; 3], words, factors| {
            let (mut words, mut factors) = (vec![0; words], vec![Factor::<u64>::ZERO; factors]);
            let (xs, ys, mut outs) = (vec![1; xs], vec![1; ys], [vec![9; out], vec![9; out]]);
            let results = [
                try_multiply_cyclic_once(m, &xs, &ys, &mut outs[0], &mut words, &mut factors),
                try_multiply_negacyclic_once(m, &xs, &ys, &mut outs[1], &mut words, &mut factors),
            ];
            // n ones times n ones: each coefficient is n, or that of X^i is i + 1 less the n - 1 - i that X^n turns over
            let negacyclic = |i: usize| (2 * i as u64 + 2 + m - out as u64 % m) % m;
            let cyclic = vec![out as u64 % m.max(1); out];
            let is_right = || outs[0] == cyclic && outs[1] == (0..out).map(negacyclic).collect::<Vec<_>>();
            assert!(if results[0].is_ok() { is_right() } else { outs.concat() == vec![9; 2 * out] });
            assert_eq!(results[0], results[1]);
            results[0]
        };
        let (words, factors) = room_once(200, 200);
        assert_eq!((tried(997, [3; 3], 0, 0), tried(997, [200; 3], words, factors)), (Ok(()), Ok(())));
        assert_eq!((tried(0, [3, 3, 2], 0, 0), tried(997, [3, 3, 2], 0, 0)), (Err(NoModulus), Err(LengthOfProduct)));
        assert_eq!((tried(997, [2, 3, 3], 0, 0), tried(997, [3, 2, 3], 0, 0)), (Err(LengthOfProduct), Err(LengthOfProduct)));
        assert_eq!(tried(997, [200; 3], words - 1, factors), Err(TooFewWords));
        assert_eq!(tried(997, [200; 3], words, factors - 1), Err(TooFewFactors));
    }
}
