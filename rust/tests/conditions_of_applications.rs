//! Calls outside the conditions of lists, erasure codes, residue systems and hashes: a panic names the place of the call.

#[macro_use]
mod panics;

use num_modular::applications::check_digits::{iban_digits, Code, EAN_8};
use num_modular::applications::lattice_rings::{ml_dsa, ml_kem};
#[cfg(target_pointer_width = "64")]
use num_modular::applications::long_product::{self, any_length, polynomials};
use num_modular::applications::mersenne_hash::prefixes::PrefixHashes;
use num_modular::applications::residue_numbers::{combine, from_remainders};
use num_modular::applications::ring_codes::erasure::{
    correct, encode, encode_systematic, evaluate, evaluate_each, fill_barycentric_weights, fill_differences, fill_powers,
    interpolate, is_codeword, is_codeword_by_transform, points_fit, recover, recover_correct, restore, restore_word, share,
    CorrectError, Corrector, ErasurePattern, RestoreError,
};
use num_modular::hashes;
use num_modular::plans::PlannedModulus;
use num_modular::ring::{invert_each, unload_forms};
use num_modular::{Montgomery, Reducer, Vanilla};
use panics::{message, place, MODULUS, SHORT};

const POINTS: [u64; 4] = [1, 2, 3, 4];
const WORD: [u64; 4] = [12, 19, 26, 33]; // 5 + 7X at these points

fn ring() -> Vanilla<u64> {
    Vanilla::<u64>::new(&97)
}

#[test]
fn forms_and_scratch() {
    let ring = Montgomery::<u64>::new(97);
    let scratch = "`scratch` must have as many entries as there are forms";
    panic_with!(format!("{scratch}: 2 and 3"); invert_each(&ring, &mut [1; 3], &mut [0; 2]));
    panic_with!(format!("{scratch}: 4 and 3"); invert_each(&ring, &mut [1; 3], &mut [0; 4]));
    panic_in_debug_with!("the entries of `forms` must be checked forms"; invert_each(&ring, &mut [97], &mut [0]), unload_forms(&ring, &[97], &mut [0]));
    panic_with!("there must be at least as many forms as places: 2 and 3"; unload_forms(&ring, &[1; 2], &mut [0; 3]));
}

#[test]
fn factors_and_words_of_planned_moduli() {
    let modulus = PlannedModulus::<u64>::new(97);
    let other = PlannedModulus::<u64>::new(193).factor(100);
    assert_eq!((modulus.multiply(96, 1000), modulus.product_sum(96, 1, 96, 2)), (96 * 1000 % 97, 96 * 3 % 97));
    panic_in_debug_with!("x must be below m"; modulus.multiply(1000, 5));
    panic_in_debug_with!("x + u must be below 2m"; modulus.product_sum(97, 1, 97, 1), modulus.product_sum(1, 1, u64::MAX, 1));
    panic_in_debug_with!("the factor was made by this modulus: its value must be below m, and its quotient must be value·B/m, rounded down";
        modulus.product(5, &other), modulus.times(5, &other), modulus.times_base(&other));
}

#[test]
fn words_of_codes() {
    let words = "the word must have as many places as there are points";
    panic_with!(format!("{words}: 3 and 4"); encode(&ring(), &POINTS, &[5, 7], &mut [0; 3]));
    panic_with!(format!("{words}: 5 and 4"); encode(&ring(), &POINTS, &[5, 7], &mut [0; 5]));
    panic_with!("k must be at most the number of points: 5 and 4"; encode(&ring(), &POINTS, &[5; 5], &mut [0; 4]));
    panic_with!("there must be a place for the value at each point: 3 and 4"; evaluate_each(&ring(), &[5, 7], &POINTS, &mut [0; 3]));
    panic_in_debug_with!("coefficients and points must be checked forms"; evaluate_each(&ring(), &[5, 97], &POINTS, &mut [0; 4]));
    panic_with!("there must be n products: 3 and 4"; fill_differences(&ring(), &POINTS, &mut [0; 3]));
    panic_in_debug_with!("the points must be checked forms"; fill_differences(&ring(), &[1, 97], &mut [0; 2]));
    panic_with!("there must be n products: 3 and 4"; fill_barycentric_weights(&ring(), &POINTS, &mut [0; 3], &mut [0; 4]));
    panic_with!("there must be n weights: 3 and 4"; fill_barycentric_weights(&ring(), &POINTS, &mut [0; 4], &mut [0; 3]));
    panic_with!("k must be at most n: 5 and 4"; Corrector::new(&ring(), &POINTS, 5, &mut [0; 4], &mut [0; 4]));
    panic_with!("there must be n weights: 3 and 4"; Corrector::new(&ring(), &POINTS, 2, &mut [0; 3], &mut [0; 4]));
    panic_with!("there must be n places of scratch: 3 and 4"; Corrector::new(&ring(), &POINTS, 2, &mut [0; 4], &mut [0; 3]));
    let (of_97, mut weights) = (ring(), [0; 4]);
    let code = Corrector::new(&of_97, &POINTS, 2, &mut weights, &mut [0; 4]).unwrap();
    panic_with!("there must be n·(n - k) checks: 7 and 8";
        Corrector::new(&of_97, &POINTS, 2, &mut [0; 4], &mut [0; 4]).unwrap().with_checks(&mut [0; 7]));
    panic_with!("the word must have n symbols: 3 and 4"; code.correct(&mut [12, 19, 26], &[], &mut [0; 25]));
    panic_with!("there must be at least 2·n + 7·(n - k) + 3 places of scratch: 24 and 25";
        code.correct(&mut [12, 19, 26, 33], &[], &mut [0; 24]),
        code.correct_counted(&mut [12, 19, 26, 33], &[], &mut [0; 24]));
    panic_in_debug_with!("the symbols must be checked forms"; code.correct(&mut [12, 19, 26, 97], &[], &mut [0; 25]),
        code.is_codeword(&[12, 19, 26, 97], &mut [0; 6]));
    panic_with!("the word must have n symbols: 3 and 4"; code.is_codeword(&[12, 19, 26], &mut [0; 6]));
    panic_with!("there must be at least n + (n - k) places of scratch: 5 and 6"; code.is_codeword(&[12, 19, 26, 33], &mut [0; 5]));
    let mut factors = [0; 4];
    panic_with!("k must be at least 1"; ErasurePattern::new(&ring(), &22, 0, &[], &mut [0; 4], &mut [0; 12]).is_ok());
    panic_with!("there must be at least 3·n places of scratch: 11 and 12";
        ErasurePattern::new(&ring(), &22, 2, &[], &mut [0; 4], &mut [0; 11]).is_ok());
    panic_in_debug_with!("g must be a checked form"; ErasurePattern::new(&ring(), &97, 2, &[], &mut [0; 4], &mut [0; 12]).is_ok());
    let pattern = ErasurePattern::new(&of_97, &22, 2, &[1], &mut factors, &mut [0; 12]).unwrap();
    panic_with!("the word must have n symbols: 3 and 4"; pattern.restore(&mut [0; 3], &mut [0; 12]));
    panic_with!("there must be at least 3·n places of scratch: 11 and 12"; pattern.restore(&mut [0; 4], &mut [0; 11]));
    panic_in_debug_with!("the symbols must be checked forms"; pattern.restore(&mut [97; 4], &mut [0; 12]));
    let of_3 = Vanilla::<u64>::new(&3);
    panic_with!("k must be at most n: 3 and 2"; is_codeword_by_transform(&of_3, &2, &[1, 1], &mut [0; 2], &mut [0; 3]));
    panic_with!("there must be n places of scratch: 1 and 2"; is_codeword_by_transform(&of_3, &2, &[1, 1], &mut [0; 1], &mut [0; 1]));
    panic_with!("the modulus must be odd";
        is_codeword_by_transform(&Vanilla::<u64>::new(&2), &1, &[1, 1], &mut [0; 2], &mut [0; 1]));
    panic_in_debug_with!("points and message must be checked forms"; encode(&ring(), &POINTS, &[5, 97], &mut [0; 4]));
    panic_in_debug_with!("the points must be checked forms"; points_fit(&ring(), &[1, 98]));
    panic_in_debug_with!("coefficients and point must be checked forms"; evaluate(&ring(), &[97], &1), evaluate(&ring(), &[5], &97));
    panic_in_debug_with!("g must be a checked form"; fill_powers(&ring(), &97, &mut [0; 4]));
    panic_with!(format!("{words}: 3 and 4"); encode_systematic(&ring(), &POINTS, &[12, 19], &mut [0; 2], &mut [0; 2], &mut [0; 3]));
    panic_with!("there must be k weights: 1 and 2"; encode_systematic(&ring(), &POINTS, &[12, 19], &mut [0; 1], &mut [0; 2], &mut [0; 4]));
    panic_with!("there must be k coefficients: 3 and 2";
        encode_systematic(&ring(), &POINTS, &[12, 19], &mut [0; 2], &mut [0; 3], &mut [0; 4]));
    panic_with!("k, the length of the message, must be at most the number of points: 5 and 4";
        encode_systematic(&ring(), &POINTS, &[12; 5], &mut [0; 5], &mut [0; 5], &mut [0; 4]));
    panic_in_debug_with!("points and message must be checked forms";
        encode_systematic(&ring(), &POINTS, &[97], &mut [0; 1], &mut [0; 1], &mut [0; 4]));
}

#[test]
fn messages_of_codes() {
    panic_with!("there must be at least k points: 1 and 2"; interpolate(&ring(), &[1], &WORD, &mut [0; 2], &mut [0; 2]));
    panic_with!("there must be at least k values: 1 and 2"; interpolate(&ring(), &POINTS, &[12], &mut [0; 2], &mut [0; 2]));
    panic_with!("there must be k weights: 1 and 2"; interpolate(&ring(), &POINTS, &WORD, &mut [0; 1], &mut [0; 2]));
    panic_in_debug_with!("points and values must be checked forms"; interpolate(&ring(), &[1, 97], &WORD, &mut [0; 2], &mut [0; 2]));
    panic_with!("the word must have as many symbols as there are points: 3 and 4";
        is_codeword(&ring(), &POINTS, &WORD[..3], &mut [0; 2], &mut [0; 2]));
    panic_with!("there must be k weights: 1 and 2"; is_codeword(&ring(), &POINTS, &WORD, &mut [0; 1], &mut [0; 2]));
    panic_with!("k must be at most the number of points: 5 and 4"; is_codeword(&ring(), &POINTS, &WORD, &mut [0; 5], &mut [0; 5]));
    panic_in_debug_with!("the points must fit"; is_codeword(&ring(), &[1, 2, 3, 3], &WORD, &mut [0; 2], &mut [0; 2]) => false);
    panic_in_debug_with!("points and word must be checked forms"; is_codeword(&ring(), &POINTS, &[97; 4], &mut [0; 2], &mut [0; 2]));
}

#[test]
fn symbols_of_codes() {
    let pairs = "there must be as many symbols as places";
    let weights = "there must be k weights: 1 and 2";
    panic_with!(format!("{pairs}: 1 and 2"); restore(&ring(), &POINTS, &[3, 1], &[33], &mut [0; 2], &mut [0; 2], &mut [0; 2]));
    panic_with!("`chosen` must have k places: 3 and 2";
        restore(&ring(), &POINTS, &[3, 1], &[33, 19], &mut [0; 3], &mut [0; 2], &mut [0; 2]));
    panic_with!(weights; restore(&ring(), &POINTS, &[3, 1], &[33, 19], &mut [0; 2], &mut [0; 1], &mut [0; 2]));
    panic_in_debug_with!("points and symbols must be checked forms";
        restore(&ring(), &POINTS, &[3], &[100], &mut [0; 2], &mut [0; 2], &mut [0; 2]) => Err(RestoreError::TooFewSymbols),
        restore_word(&ring(), &POINTS, &[3], &[100], &mut [0; 2], &mut [0; 2], &mut [0; 4]) => Err(RestoreError::TooFewSymbols));
    let room = "the word must have as many places as there are points";
    panic_with!(format!("{pairs}: 1 and 2"); restore_word(&ring(), &POINTS, &[3, 1], &[33], &mut [0; 2], &mut [0; 2], &mut [0; 4]));
    panic_with!(weights; restore_word(&ring(), &POINTS, &[3, 1], &[33, 19], &mut [0; 1], &mut [0; 2], &mut [0; 4]));
    panic_with!(format!("{room}: 5 and 4"); restore_word(&ring(), &POINTS, &[3, 1], &[33, 19], &mut [0; 2], &mut [0; 2], &mut [0; 5]));
    let places = &[0, 1, 2, 3];
    panic_with!(format!("{pairs}: 3 and 4"); correct(&ring(), &POINTS, places, &WORD[..3], &mut [0; 20], &mut [0; 2], &mut [0; 4]));
    panic_with!("there must be at least 3·(s + k) + 2 places of scratch: 19 and 20";
        correct(&ring(), &POINTS, places, &WORD, &mut [0; 19], &mut [0; 2], &mut [0; 4]));
    panic_with!("k, the length of the message, must be at least 1";
        correct(&ring(), &POINTS, places, &WORD, &mut [0; 20], &mut [], &mut [0; 4]));
    panic_with!(format!("{room}: 5 and 4"); correct(&ring(), &POINTS, places, &WORD, &mut [0; 20], &mut [0; 2], &mut [0; 5]));
    panic_in_debug_with!("points and symbols must be checked forms";
        correct(&ring(), &POINTS, &[3], &[100], &mut [0; 11], &mut [0; 2], &mut [0; 4]) =>
        Err(CorrectError::Restore(RestoreError::TooFewSymbols)));
}

#[test]
fn shares_of_secrets() {
    panic_with!("`shares` must have as many places as there are points: 4 and 3"; share(&ring(), &[1, 2, 3], &[5, 7], &mut [0; 4]));
    panic_in_debug_with!("points and coefficients must be checked forms"; share(&ring(), &[1, 2, 3], &[5, 97], &mut [0; 3]) => Ok(()));
    panic_with!("there must be as many shares as places: 1 and 2";
        recover(&ring(), &POINTS, &[2, 0], &[26], &mut [0; 2], &mut [0; 2], &mut [0; 2]),
        recover_correct(&ring(), &POINTS, &[2, 0], &[26], &mut [0; 20], &mut [0; 2], &mut [0; 4]));
    panic_with!("k must be at least 1"; recover(&ring(), &POINTS, &[], &[], &mut [], &mut [], &mut []));
    panic_with!("there must be k weights: 1 and 2"; recover(&ring(), &POINTS, &[2, 0], &[26, 12], &mut [0; 2], &mut [0; 1], &mut [0; 2]));
    panic_with!("`chosen` must have k places: 1 and 2";
        recover(&ring(), &POINTS, &[2, 0], &[26, 12], &mut [0; 1], &mut [0; 2], &mut [0; 2]));
    panic_with!("there must be at least 3·(s + k) + 2 places of scratch: 19 and 20";
        recover_correct(&ring(), &POINTS, &[0, 1, 2, 3], &WORD, &mut [0; 19], &mut [0; 2], &mut [0; 4]));
    panic_with!("`word` must have as many places as there are points: 3 and 4";
        recover_correct(&ring(), &POINTS, &[0, 1, 2, 3], &WORD, &mut [0; 20], &mut [0; 2], &mut [0; 3]));
    let few = Err(RestoreError::TooFewSymbols);
    panic_in_debug_with!("points and shares must be checked forms";
        recover(&ring(), &POINTS, &[0], &[97], &mut [0; 2], &mut [0; 2], &mut [0; 2]) => few);
    panic_in_debug_with!("points and shares must be checked forms";
        recover_correct(&ring(), &POINTS, &[0], &[97], &mut [0; 11], &mut [0; 2], &mut [0; 4]));
}

#[test]
#[cfg(target_pointer_width = "64")]
fn room_for_products() {
    let digits = "the product must have at most 2^32 digits";
    let most = 1 << 32;
    panic_with!(digits; long_product::room(most, 400), long_product::room(most, 1), long_product::room_once(usize::MAX, 2));
    panic_with!("xs + ys must be at most 2^32"; polynomials::room(most, 200), polynomials::room_once(usize::MAX, 2));
    panic_with!("there must be at most 2^32 places"; long_product::transform_length(most + 1));
    panic_with!("3·n must be at most 2^32"; any_length::room(most / 3 + 1), any_length::room(most));
    assert_eq!((long_product::room(most - 400, 400), long_product::transform_length(most)), ((4 * most, most / 2), most));
    assert_eq!(polynomials::room(most - 1, 1), (0, 0));
}

#[test]
fn words_of_check_digits() {
    let (word, wrong) = ([7, 3, 5, 1, 3, 5, 3, 7], [7, 3, 5, 1, 3, 5, 3, 8]);
    panic_with!("each place must have a weight: 9 and 8"; EAN_8.check_sum(&[0; 9]));
    panic_with!("the code must have the place"; EAN_8.fits(8, 0));
    panic_in_debug_with!("the word must be accepted, and it must have the place"; EAN_8.finds_change(&wrong, 0, 2));
    panic_in_debug_with!("the word must be accepted, and it must have both places"; EAN_8.finds_exchange(&wrong, 0));
    let uneven = Code { greatest: &[9; 9], ..EAN_8 };
    panic_in_debug_with!("the code must have a least and a greatest symbol for each weight: 8, 9 and 8"; uneven.accepts(&word) => true);
    let none = Code { modulus: 0, ..EAN_8 };
    panic_with!(MODULUS; none.accepts(&word), none.check_sum(&word));
    if cfg!(debug_assertions) {
        let halves = Code { weights: &[2, 1], least: &[0; 2], greatest: &[9; 2], ..EAN_8 };
        panic_with!("the last weight must have an inverse modulo m"; Code { weights: &[1, 2], ..halves }.check_digit(&[1]));
        panic_with!("the word must be accepted, and it must have the place"; EAN_8.finds_change(&word, 8, 2));
        panic_with!("the word must be accepted, and it must have both places"; EAN_8.finds_exchange(&word, 7));
        panic_with!("the word must have the place, and the code must have a weight with an inverse modulo m there";
            EAN_8.restore(&word, 8), EAN_8.restore(&[0; 9], 8), halves.restore(&[1, 2], 0));
        panic_with!("the text must have the form of an IBAN, and there must be room for 68 digits";
            iban_digits(b"gb82west12345698765432", &mut [0; 68]), iban_digits(b"GB8", &mut [0; 68]), iban_digits(b"GB82W7", &mut [0; 28]));
    }
}

#[test]
fn entries_of_lattice_rings() {
    let (dsa, kem) = (ml_dsa::Ring::new(), ml_kem::Ring::new());
    let (zeros, dsa_above, kem_above) = ([0; 256], [ml_dsa::MODULUS; 256], [ml_kem::MODULUS; 256]);
    panic_in_debug_with!("the coefficients must be residues";
        dsa.ntt(&mut dsa_above.clone()), kem.ntt(&mut kem_above.clone()),
        dsa.product(&mut zeros.clone(), &mut dsa_above.clone()), kem.product(&mut kem_above.clone(), &mut zeros.clone()));
    panic_in_debug_with!("the entries must be residues";
        dsa.inverse(&mut dsa_above.clone()), kem.inverse(&mut kem_above.clone()),
        dsa.multiply(&mut zeros.clone(), &dsa_above), kem.multiply(&mut zeros.clone(), &kem_above));
}

#[test]
fn remainders() {
    panic_with!("m and n must be at least 1"; combine(1, 0, 1, 5), combine(1, 5, 1, 0), from_remainders(1, 0, 1, 5), from_remainders(1, 5, 1, 0));
}

#[test]
fn parts_of_texts() {
    let base = hashes::base(1000);
    let (mut hashes, mut powers) = ([base; 5], [base; 5]);
    let text = PrefixHashes::new(base, &[1, 2, 3, 4], &mut hashes, &mut powers).unwrap();
    let hash_of = |from, to| message(std::panic::AssertUnwindSafe(|| text.substring_hash(from, to))).unwrap_or_default();
    for (from, to) in [(2, 1), (0, 5), (5, 5)] {
        assert_eq!(hash_of(from, to), "`from` must be at most `to`, which is at most the length of the text");
        assert_eq!(place(), file!());
    }
}
