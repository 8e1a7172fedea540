//! Calls outside their conditions, which the checker refuses and rustc doesn't: each line of the lists in README.md, with the
//! words of the panic, whose place is the call. bench/examples/differences.rs makes some of these calls with the Rust crate.

#![allow(unstable_name_collisions)]

#[macro_use]
mod panics;

use num_modular::applications::check_digits;
use num_modular::hashes;
use num_modular::monty::neg_mod_inv;
use num_modular::plans::{
    convolve_block, convolve_negacyclic, convolve_planned, fill_table, join, multiply, ntt_planned, split, Factor, Plan,
    PlanEntry, PlannedModulus,
};
use num_modular::prim::{by_subtraction, symbol_over_prime};
use num_modular::residues;
use num_modular::ring::{add_lists, convolve, find_root, intt, ntt, ntt_counted, run, sub_lists, RingCommand, RunEnd};
use num_modular::secrets::{inv_secret, invm_secret, invm_secret_counted, pow_secret, pow_secret_counted};
use num_modular::word;
use num_modular::{
    DivExact, FixedMersenne, FixedMersenne32, FixedMersenne64, FixedMontgomery32, FixedMontgomery64, FixedProth32,
    FixedProth64, FixedTrinomialSolinas32, ModularAbs, ModularCoreOps, ModularPow, ModularRefOps, ModularSymbols,
    ModularUnaryOps, Montgomery, MontgomeryInt, Normalized2by1Divisor, OddMontgomery, OddMontgomeryInt, PreModInv,
    PreMulInv1by1, PreMulInv2by1, Reducer, Vanilla, VanillaInt,
};
use panics::{message, place, DIVISOR, MODULUS, SHORT};
use std::cell::RefCell;

const MODULI: &str = "the moduli must be equal: 21 and 22";

fn int(n: u8, m: u8) -> VanillaInt<u8> {
    VanillaInt::<u8>::new(n, &m)
}

#[test]
fn constructors() {
    panic_with!(MODULUS; Vanilla::<u8>::new(&0), int(3, 0), MontgomeryInt::<u32>::new(3, &0));
    panic_with!(MODULUS; PreMulInv2by1::<u8>::new(0), Montgomery::<u8>::new(0), Montgomery::<u64>::new(0));
    panic_with!("the modulus must be odd"; OddMontgomery::<u8>::new(0), OddMontgomery::<u64>::new(6), OddMontgomery::of(6u16));
    panic_with!("the modulus must be odd"; <OddMontgomery<u8> as Reducer<u8>>::new(&6), OddMontgomeryInt::<u32>::new(3, &6));
    panic_with!(MODULUS; <PreMulInv2by1<u8> as Reducer<u8>>::new(&0), <Montgomery<u64> as Reducer<u64>>::new(&0));
    let planned = "the modulus must be at least 1 and at most 2^w/4, for words of w bits";
    panic_with!(planned; PlannedModulus::<u64>::new(0), PlannedModulus::<u64>::new(u64::MAX), PlannedModulus::<u8>::new(65));
    panic_with!("the divisor must be odd"; PreModInv::<u8>::from(0), PreModInv::<u8>::from(6));
    panic_with!("the divisor must be odd"; <PreModInv<u8> as From<u8>>::from(6));
    panic_with!("the divisor's top bit must be set"; Normalized2by1Divisor::<u8>::new(0), Normalized2by1Divisor::<u8>::new(127));
    panic_with!("the divisor must be above 1"; PreMulInv1by1::<u8>::new(0), PreMulInv1by1::<u8>::new(1));
    panic_with!("there must be at most 68 digits"; check_digits::iban_code(69));
}

#[test]
fn texts_of_a_long_code() {
    let code = check_digits::Code { modulus: 1, residue: 0, weights: &[1; 69], least: &[0; 69], greatest: &[9; 69] };
    panic_in_debug_with!("the code must have at most 68 places"; code.accepts_text(b"1") => false);
}

#[test]
fn parameters_out_of_range() {
    panic_with!("the parameter P must be odd"; FixedMontgomery32::<6>::fixed_modulus());
    panic_with!("K·2^N + 1 must be at most 2654435769"; FixedProth32::<31, 3>::fixed_modulus());
    panic_with!("K·2^N + 1 must be at most 11400714819323199485"; FixedProth64::<63, 3>::fixed_modulus());
    let proth = |greatest| format!("N must be from 1 to {greatest}, K must be odd, and K must be below 2^N");
    panic_with!(proth(31); FixedProth32::<0, 1>::fixed_modulus(), FixedProth32::<32, 1>::fixed_modulus());
    panic_with!(proth(31); FixedProth32::<3, 2>::fixed_modulus(), FixedProth32::<2, 5>::fixed_modulus());
    panic_with!(proth(63); FixedProth64::<64, 1>::fixed_modulus(), FixedProth64::<2, 5>::fixed_modulus());
    let mersenne = |greatest| format!("P must be at most {greatest}, K must be odd, and 2·K must be below 2^P");
    panic_with!(mersenne(32); FixedMersenne32::<4, 9>::fixed_modulus(), FixedMersenne32::<4, 9>::reduce_single(1000));
    panic_with!(mersenne(32); FixedMersenne32::<4, 2>::fixed_modulus(), FixedMersenne32::<33, 1>::fixed_modulus());
    panic_with!(mersenne(32); FixedMersenne32::<4, 16>::reduce_single(1000), FixedMersenne32::<4, 16>::reduce_double(1000), FixedMersenne32::<4, 16>::reduce_uncounted(1000));
    panic_with!(mersenne(64); FixedMersenne64::<65, 1>::fixed_modulus(), FixedMersenne::<65, 1>::fixed_modulus());
    panic_with!(mersenne(64); FixedMersenne::<65, 1>::reduce_single(7));
    let width = "P1 must be at most the width of a word, and P2 must be from 1 to P1 - 1";
    panic_with!("K must be odd, and its magnitude must be below 2^P2";
        FixedTrinomialSolinas32::<5, 2, 5>::fixed_modulus(), FixedTrinomialSolinas32::<5, 2, 4>::reduce_single(7));
    panic_with!(width; FixedTrinomialSolinas32::<2, 5, 1>::fixed_modulus());
    panic_with!(width; FixedTrinomialSolinas32::<33, 5, 1>::reduce_double(7), FixedTrinomialSolinas32::<33, 5, 1>::reduce_single(7), FixedTrinomialSolinas32::<33, 5, 1>::reduce_uncounted(7));
}

#[test]
fn fixed_reducers_of_other_moduli() {
    let other = |m, parameters| format!("the modulus must be that of the parameters: {m} and {parameters}");
    panic_with!(other(9, 7); FixedMontgomery32::<7>::new(&9));
    panic_with!(other(19, 17); FixedProth32::<4, 1>::new(&19));
    panic_with!(other(7, 15); FixedMersenne32::<4, 1>::new(&7), FixedMersenne64::<4, 1>::new(&7), FixedMersenne::<4, 1>::new(&7));
    panic_with!(other(7, 29); FixedTrinomialSolinas32::<5, 2, 1>::new(&7));
}

#[test]
fn operations_modulo_0() {
    panic_with!(MODULUS; 3u8.addm(4, &0), 3u8.subm(4, &0), 3u8.mulm(4, &0), 3u64.addm(4, &0), 3u64.subm(3, &0), 3u64.mulm(4, &0));
    panic_with!(MODULUS; 3u8.negm(&0), 3u8.dblm(&0), 3u8.sqm(&0), 0u64.negm(&0), 3u64.dblm(&0), 3u64.sqm(&0));
    panic_with!(MODULUS; 3u8.powm(4, &0), 3u8.powm(0, &0), 3u64.powm(1, &0), 3u64.powm(2, &0), 0u64.powm(7, &0));
    panic_with!(MODULUS; 3u8.invm(&0), 0u8.invm(&0), 3u64.invm(&0), 0u64.invm(&0));
    panic_with!(MODULUS; (-3i8).absm(&0u8), 3i64.absm(&0u64), (-3i128).absm(&0u128));
    panic_with!(MODULUS; 3u8.addm_ref(&4, &0), 3u64.powm_ref(&0, &0), 3u64.invm_ref(&0));
    panic_with!(DIVISOR; 35u8.div_exact(0, &()), 35u64.div_exact(0, &()), 35u128.div_exact(0, &()));
    panic_with!("each modulus must be above 0"; residues::encode(&[0, 3], 5, &mut [0, 0]));
}

#[test]
fn words_of_ones() {
    assert_eq!((word::w8::ones(8), word::w64::ones(0), word::w64::ones(64)), (255, 0, u64::MAX));
    if cfg!(debug_assertions) {
        panic_with!("n must be at most 8"; word::w8::ones(9));
        panic_with!("n must be at most 16"; word::w16::ones(17));
        panic_with!("n must be at most 32"; word::w32::ones(33));
        panic_with!("n must be at most 64"; word::w64::ones(65), word::w64::ones(u32::MAX));
    }
}

#[test]
fn symbols_and_quotients_that_are_not_there() {
    panic_with!("n must be odd and above 0"; 7u8.jacobi(&16), 7u8.jacobi(&0), 7i8.jacobi(&-3));
    panic_with!("`checked_legendre` must be `Some`, as it is for each odd prime n"; 2u8.legendre(&9));
    panic_with!("the divisor must have an inverse modulo m"; int(10, 21) / int(7, 21), { let mut x = int(10, 21); x /= int(7, 21) });
    panic_with!("the divisor must have an inverse modulo m"; int(10, 21) / 7, { let mut x = int(10, 21); x /= 7 });
    panic_with!("the divisor must have an inverse modulo m"; 10 / int(7, 21), 10 / &int(7, 21));
}

#[test]
fn moduli_that_are_not_odd() {
    panic_in_debug_with!("m must be odd"; by_subtraction::inverse(3u64, 10), neg_mod_inv::neginv(4u64), neg_mod_inv::w64::neginv(4));
    let even = &Vanilla::<u64>::new(&10);
    panic_with!("m must be odd"; invm_secret(3u64, &10), invm_secret_counted(3u64, &10), inv_secret(even, 3));
    panic_with!("`bits` must be at most 64: 65"; pow_secret(even, 3, &5, 65), pow_secret_counted(even, 3, &5, 65));
    panic_in_debug_with!("the exponent must be below 2^4"; pow_secret(even, 3, &16, 4), pow_secret_counted(even, 3, &16, 4));
    panic_in_debug_with!("n must be odd"; by_subtraction::jacobi(false, 3u64, 10));
    panic_in_debug_with!("n must be an odd prime"; symbol_over_prime(3u32, 2) => 1);
    if cfg!(debug_assertions) {
        panic_with!("n must be an odd prime"; symbol_over_prime(2u8, 9), symbol_over_prime(2u8, 1), symbol_over_prime(2u8, 0),
            symbol_over_prime(3i8, -7), symbol_over_prime(1u64, u64::MAX), symbol_over_prime(1u64, 3825123056546413051));
    }
    assert_eq!(
        (symbol_over_prime(2u64, 18446744073709551557), symbol_over_prime(6u8, 3), symbol_over_prime(-1i8, 7)),
        (-1, 0, -1)
    );
}

#[test]
fn operators_of_two_moduli() {
    panic_in_debug_with!(MODULI; int(1, 21) + int(1, 22) => int(2, 21), int(1, 21) - int(1, 22) => int(0, 21));
    panic_in_debug_with!(MODULI; int(1, 21) * int(1, 22) => int(1, 21), int(1, 21).eq_in_same_ring(&int(1, 22)) => true);
    panic_in_debug_with!("the moduli must be equal: 21 and 22"; int(10, 21) / int(5, 22) => int(6, 21));
}

#[test]
fn words_that_are_not_forms() {
    assert_eq!(Vanilla::<u8>::new(&21).add(&30, &1), 10);
    assert_eq!(PreMulInv2by1::<u8>::new(21).mul(&201, &250), 34);
    let (ring, any) = (Montgomery::<u64>::new(97), Vanilla::<u64>::new(&97));
    panic_with!("the lists must have the same length: 1 and 2"; ring.add_products(0, &[1], &[1, 2]), any.add_products(0, &[1], &[1, 2]));
    panic_in_debug_with!("`sum` and all entries must be checked forms"; ring.add_products(0, &[97], &[1]), any.add_products(97, &[1], &[1]));
}

#[test]
fn dividers_of_other_divisors() {
    panic_in_debug_with!("the dividend's high word must be below the divisor";
        Normalized2by1Divisor::<u8>::new(130).div_rem_2by1(33280) => (0, 0));
    panic_in_debug_with!("the divider must be that of the divisor d";
        PreMulInv1by1::<u8>::new(7).div_rem(255, 9),
        35u8.div_exact(9, &PreMulInv1by1::<u8>::new(7)));
    panic_in_debug_with!("the stored inverse must be that of the divisor";
        35u8.div_exact(5, &PreModInv::<u8>::new(183, 36)));
    panic_with!("the numbers must be the inverse and the limit of one odd divisor";
        36u64.div_exact(7, &PreModInv::<u64>::new(7905747460161236407, u64::MAX)),
        36u128.div_exact(7u64, &PreModInv::<u64>::new(7905747460161236407, u64::MAX)),
        35u8.div_exact(7, &PreModInv::<u8>::new(183, 35)),
        35u8.div_exact(7, &PreModInv::<u8>::new(183, 37)),
        PreModInv::<u8>::new(0, 255), PreModInv::<u8>::new(2, 127), PreModInv::<u8>::new(183, 0));
    assert_eq!(35u8.div_exact(7, &PreModInv::<u8>::new(183, 36)), Some(5));
}

#[test]
fn lists_of_commands() {
    let ring = Vanilla::<u64>::new(&97);
    let sum = |registers: [u64; 4], b| {
        let mut registers = registers;
        run(&ring, &mut registers, &[RingCommand::Add { dst: 0, a: 1, b }])
    };
    panic_in_debug_with!("each register must hold a checked form"; sum([1000; 4], 2) => RunEnd::Done);
    let words = message(|| sum([1; 4], 7)).unwrap_or_default();
    let wanted =
        ["index out of bounds: the len is 4 but the index is 7", "each register number must be below the number of registers"];
    assert_eq!(words, wanted[usize::from(cfg!(debug_assertions))]);
}

/// Commands that each name one register past a list of `n`, and else its first.
fn commands_past(n: usize) -> Vec<RingCommand<u64>> {
    use RingCommand::*;
    let ones = [(n, 0), (0, n)]
        .into_iter()
        .flat_map(|(dst, a)| [Neg { dst, a }, Dbl { dst, a }, Sqr { dst, a }, Inv { dst, a }, Pow { dst, a, exp: 5 }]);
    let twos = [(n, 0, 0), (0, n, 0), (0, 0, n)]
        .into_iter()
        .flat_map(|(dst, a, b)| [Add { dst, a, b }, Sub { dst, a, b }, Mul { dst, a, b }, Div { dst, a, b }]);
    ones.chain(twos).chain([Load { dst: n, n: 1 }]).collect()
}

#[test]
fn registers_that_dont_exist() {
    let ring = Vanilla::<u64>::new(&97);
    for registers in [vec![], vec![1], vec![1; 8]] {
        for command in commands_past(registers.len()) {
            let panicked = message(|| run(&ring, &mut registers.clone(), &[command])).is_ok();
            assert!(panicked, "{command:?} on {} registers", registers.len());
        }
    }
    // a debug build tests all commands first
    let stopped = message(|| run(&ring, &mut [0], &[RingCommand::Inv { dst: 1, a: 0 }]));
    assert_eq!(stopped.err(), (!cfg!(debug_assertions)).then_some(RunEnd::NoInverse { at: 0 }));
}

/// The transform of a list by the root `g` modulo 97, as residues.
fn transform<const N: usize>(g: u64, entries: [u64; N]) -> [u64; N] {
    let ring = Montgomery::<u64>::new(97);
    let mut xs = entries.map(|x| ring.transform(x));
    ntt(&ring, &mut xs, &ring.transform(g));
    xs.map(|x| ring.residue(x))
}

/// The cyclic product of two lists modulo 97.
fn product<const N: usize, const M: usize>(g: u64, xs: [u64; N], ys: [u64; M]) -> Option<[u64; N]> {
    let ring = Montgomery::<u64>::new(97);
    let (mut xs, mut ys) = (xs.map(|x| ring.transform(x)), ys.map(|y| ring.transform(y)));
    convolve(&ring, &mut xs, &mut ys, &ring.transform(g)).then(|| xs.map(|x| ring.residue(x)))
}

#[test]
fn transforms() {
    assert_eq!(transform(22, [1, 2, 3, 4]), [10, 51, 95, 42]);
    assert_eq!(product(22, [1, 2, 0, 0], [3, 4, 0, 0]), Some([3, 10, 8, 0]));
    panic_with!("the length must be a power of two: 3"; transform(22, [1, 1, 1]), product(22, [1, 1, 1], [1, 1, 1]));
    panic_with!("the length must be a power of two: 0"; transform(22, []));
    panic_with!("the lists must have the same length: 4 and 2"; product(22, [1, 2, 3, 4], [1, 2]));
    panic_with!("the lists must have the same length: 2 and 4"; product(22, [1, 2], [1, 2, 3, 4]));
    panic_with!("g must suit the length: n = 4, m = 97, g = 5"; transform(5, [1, 2, 3, 4]), product(5, [1, 2, 0, 0], [3, 4, 0, 0]));
    let ring = Vanilla::<u64>::new(&97);
    panic_in_debug_with!("g and the entries must be checked forms"; ntt_counted(&ring, &mut [1000, 0], &96));
}

#[test]
fn sums_of_lists() {
    fn tried<R: Reducer<u64> + std::panic::RefUnwindSafe>(ring: &R) {
        let forms = [1, 2].map(|x| ring.transform(x));
        for n in [1, 3] {
            let text = format!("the lists must have the same length: 2 and {n}");
            let words = text.as_str();
            panic_with!(words; ring.add_entries(&mut forms.clone(), &vec![forms[0]; n]));
            panic_with!(words; ring.sub_entries(&mut forms.clone(), &vec![forms[0]; n]), add_lists(ring, &mut forms.clone(), &vec![forms[0]; n]));
        }
        let words = "all entries must be checked forms";
        panic_in_debug_with!(words; ring.add_entries(&mut forms.clone(), &[forms[0], u64::MAX]));
        panic_in_debug_with!(words; ring.sub_entries(&mut [forms[0], u64::MAX], &forms), sub_lists(ring, &mut [u64::MAX], &[forms[0]]));
    }
    tried(&Vanilla::<u64>::new(&97));
    tried(&Montgomery::<u64>::new(97));
    tried(&Montgomery::<u64>::new(96));
    tried(&PreMulInv2by1::<u64>::new(97));
    tried(&FixedMontgomery64::<97>::RING);
    tried(&FixedMersenne64::<31, 1>::RING);
}

#[test]
fn inverse_transforms() {
    let undone = |m: u64, g: u64, entries: [u64; 4]| {
        let mut xs = entries;
        intt(&Vanilla::<u64>::new(&m), &mut xs, &g).then_some(xs)
    };
    assert_eq!(undone(97, 22, [10, 51, 95, 42]), Some([1, 2, 3, 4]));
    let mut xs = [16, 18];
    assert!(!intt(&Vanilla::<u64>::new(&20), &mut xs, &19)); // 2 has no inverse modulo 20
    assert_eq!(xs, [16, 18]);
    panic_with!("the length must be a power of two: 3"; intt(&Vanilla::<u64>::new(&97), &mut [1, 1, 1], &22));
    panic_with!("g must suit the length: n = 4, m = 97, g = 5"; undone(97, 5, [1, 2, 3, 4]));
}

/// The modulus 97, and the table of the root 22 for four entries.
fn planned() -> (PlannedModulus<u64>, [Factor<u64>; 2]) {
    let modulus = PlannedModulus::<u64>::new(97);
    let mut table = [Factor::<u64>::ZERO; 2];
    fill_table(&modulus, 22, &mut table);
    (modulus, table)
}

/// The transform of a list by that table.
fn planned_transform<const N: usize>(entries: [u64; N]) -> [u64; N] {
    let (modulus, table) = planned();
    let mut xs = entries;
    ntt_planned(&modulus, &mut xs, &table);
    xs
}

/// The values of the table of g modulo 97.
fn table<const N: usize>(g: u64) -> [u64; N] {
    let mut table = [Factor::<u64>::ZERO; N];
    fill_table(&PlannedModulus::<u64>::new(97), g, &mut table);
    table.map(|it| it.value())
}

#[test]
fn plans() {
    let modulus = PlannedModulus::<u64>::new(97);
    panic_with!("g must suit n entries, n being a power of two: n = 4, m = 97, g = 5"; table::<2>(5));
    panic_with!("g must suit n entries, n being a power of two: n = 6, m = 97, g = 22"; table::<3>(22));
    panic_with!("g must be below m: 200 and 97"; table::<2>(200));
    let ring = Montgomery::<u64>::new(97);
    let form = find_root(&ring, 4).unwrap();
    assert_ne!(form, ring.residue(form));
    panic_with!(format!("g must suit n entries, n being a power of two: n = 4, m = 97, g = {form}"); table::<2>(form));
    assert_eq!(table::<2>(ring.residue(form)), [1, ring.residue(form)]);
    panic_in_debug_with!("w must be below m"; modulus.factor(97));
}

#[test]
fn plans_of_one_entry() {
    assert_eq!(table::<0>(96), []);
    let modulus = PlannedModulus::<u64>::new(97);
    let mut xs = [98];
    ntt_planned(&modulus, &mut xs, &[] as &[Factor<u64>]);
    assert_eq!(xs, [1]);
}

#[test]
fn transforms_by_plans() {
    let (modulus, table) = planned();
    assert_eq!(planned_transform([1, 2, 3, 4]), [10, 51, 95, 42]);
    panic_in_debug_with!("the entries must be below 4m"; planned_transform([1, 2, 3, 400]));
    let words = message(|| planned_transform([4000, 2, 3, 4])).unwrap_or_default();
    assert_eq!(words, "the entries must be below 4m");
    let lengths =
        "the number of entries must be `last` times a power of two, and the table must have at least (b + 1)·(count/2) entries";
    panic_with!(format!("{lengths}: 3 entries, 2 factors, b = 0, last = 1"); planned_transform([1, 2, 3]));
    panic_with!(format!("{lengths}: 8 entries, 2 factors, b = 0, last = 1"); planned_transform([1, 2, 3, 4, 5, 6, 7, 8]));
    panic_with!(format!("{lengths}: 4 entries, 2 factors, b = 1, last = 1"); split(&modulus, &mut [1, 2, 3, 4], &table, 1, 1));
    panic_with!(format!("{lengths}: 4 entries, 1 factors, b = 0, last = 1");
        join(&modulus, &mut [1, 2, 3, 4], &table[..1], 0, 1));
    let other = PlannedModulus::<u64>::new(89);
    panic_in_debug_with!("the table's entries must be factors modulo m"; split(&other, &mut [1, 2, 3, 4], &table, 0, 1));
    // the entries that the call doesn't use aren't tested
    let mut longer = [Factor::<u64>::ZERO; 4];
    longer[..2].copy_from_slice(&table);
    longer[2] = other.factor(88);
    let mut xs = [1, 2, 3, 4];
    ntt_planned(&modulus, &mut xs, &longer);
    assert_eq!(xs, [10, 51, 95, 42]);
}

#[test]
fn products_of_blocks() {
    let (modulus, table) = planned();
    let product = |xs: &[u64], last| {
        let mut xs = xs.to_vec();
        multiply(&modulus, &mut xs, &[1, 2, 3, 4], &table, 0, last);
        xs
    };
    assert_eq!(product(&[5, 6, 7, 8], 1), [5, 12, 21, 32]);
    panic_with!("`last` must be 1 or 2"; product(&[1; 4], 0), product(&[1; 4], 3));
    panic_with!("the lists must have the same length, a multiple of `last`"; product(&[1; 2], 1), product(&[1; 8], 1));
    assert_eq!(message(|| product(&[4000, 1, 1, 1], 1)).unwrap_or_default(), "the entries of xs must be below m");
    panic_in_debug_with!("the word must be below 4m"; modulus.residue(1000));
}

#[test]
fn tables_that_were_never_filled() {
    let modulus = PlannedModulus::<u64>::new(97);
    let table = vec![Factor::ZERO; 2];
    let ones = || ([1u64; 4], [1u64; 4]);
    panic_with!("the table must be filled: its first factor is 0";
        ntt_planned(&modulus, &mut ones().0, &table), split(&modulus, &mut ones().0, &table, 0, 1),
        join(&modulus, &mut ones().0, &table, 0, 1), convolve_planned(&modulus, &mut ones().0, &mut ones().1, &table, 1),
        convolve_block(&modulus, &mut ones().0, &mut ones().1, &table, 0, 1));
    let one = PlannedModulus::<u64>::new(1);
    let mut xs = [1, 2, 3, 3];
    ntt_planned(&one, &mut xs, &table);
    assert_eq!(xs, [0; 4]);
}

#[test]
fn products_by_plans() {
    let (modulus, table) = planned();
    panic_with!("the lists must have the same length: 2 and 4"; convolve_planned(&modulus, &mut [1, 2], &mut [1, 2, 3, 4], &table, 1));
    let lengths = "`last` must be 1 or 2, the length must be `last` times a power of two, and (b + 1)·(n/last) must be at most twice the table's length";
    panic_with!(format!("{lengths}: 4 entries, 2 factors, b = 0, last = 4");
        convolve_planned(&modulus, &mut [1, 2, 3, 4], &mut [1, 2, 3, 4], &table, 4));
    panic_with!(format!("{lengths}: 4 entries, 2 factors, b = 0, last = 0");
        convolve_block(&modulus, &mut [1, 2, 3, 4], &mut [1, 2, 3, 4], &table, 0, 0));
    panic_with!(format!("{lengths}: 4 entries, 2 factors, b = 1, last = 1");
        convolve_negacyclic(&modulus, &mut [1, 2, 3, 4], &mut [1, 2, 3, 4], &table, 1));
}

#[test]
fn hits() {
    let base = hashes::base(1000);
    let (wanted, other) = (hashes::hash(base, b"cad"), hashes::hash(base, b"aca"));
    assert!(hashes::is_hit(wanted, wanted, b"abracadabra", b"cad", 4));
    panic_in_debug_with!("the text must have as many bytes from the position on as the pattern";
        hashes::is_hit(wanted, other, b"abracadabra", b"cad", 9));
    panic_in_debug_with!("the hashes must be equal if the pattern occurs there"; hashes::is_hit(wanted, other, b"abracadabra", b"cad", 4));
}

#[test]
fn residues_of_systems() {
    let reduced = "there must be as many residues as moduli, each below its modulus";
    panic_with!(reduced; residues::decode(&[3, 5], &[4, 2]), residues::decode(&[3, 5], &[1, 5]));
    panic_with!(reduced; residues::decode(&[3, 5], &[1]), residues::decode(&[3, 5, 7], &[2, 3, 2, 4]));
    panic_with!("the moduli must be at least 1, pairwise coprime, and their product must be below 2^128";
        residues::decode(&[3, 0], &[1, 0]), residues::decode(&[u64::MAX; 3], &[1; 3]), residues::decode(&[6, 9], &[1, 2]),
        residues::decode(&[6, 6], &[5, 4]), residues::decode(&[5, 6, 35], &[0, 0, 0]));
    assert_eq!(residues::decode(&[3, 5], &[1, 2]), 7);
    panic_with!("there must be as many residues as moduli: 1 and 2"; residues::encode(&[3, 5], 7, &mut [0]));
    panic_with!("there must be as many residues as moduli: 3 and 2"; residues::are_reduced(&[3, 5], &[1, 1, 99]));
}

#[test]
fn plans_as_values() {
    let (modulus, mut table) = planned();
    let plan = Plan::new(&modulus, 22, &mut table).unwrap();
    let transformed = |entries: &[u64]| {
        let mut xs = entries.to_vec();
        plan.transform(&mut xs);
        xs
    };
    assert_eq!(transformed(&[1, 2, 3, 4]), [10, 51, 95, 42]);
    panic_with!("the list must have n entries: 2, n = 4"; transformed(&[1, 2]));
    panic_with!("the list must have n entries: 8, n = 4"; plan.inverse(&mut [1; 8]));
    panic_in_debug_with!("the entries must be below 4m"; transformed(&[1, 2, 3, 4000]));
    panic_with!("the lists must have n entries: 4 and 2, n = 4"; plan.convolve(&mut [1; 4], &mut [1; 2]));
    panic_with!("the lists must have the same length: 4 and 2"; plan.multiply(&mut [1; 4], &[1; 2]));
    assert_eq!(message(|| plan.multiply(&mut [4000; 4], &[1; 4])).unwrap_or_default(), "the entries of xs must be below m");
    panic_with!("n must be a power of two, from 2 to the number of entries of this plan"; plan.shorter(8), plan.shorter(3));
    assert!(message(|| plan.split(&mut [1; 4], 1, 1)).is_ok());
}

thread_local! {
    /// How often this thread has read an entry of a table.
    static READ: RefCell<usize> = RefCell::default();
}

/// An entry of a table that counts how often it is read.
#[derive(Clone, Copy)]
struct Counted(Factor<u64>);

impl PlanEntry<u64> for Counted {
    fn entry(factor: Factor<u64>) -> Self {
        Counted(factor)
    }

    fn factor(&self) -> Factor<u64> {
        READ.with(|it| *it.borrow_mut() += 1);
        self.0
    }
}

#[test]
fn a_short_transform_reads_the_used_part_of_a_table() {
    let modulus = PlannedModulus::<u64>::new(469762049); // 7·2^26 + 1, of which 3 is a primitive root
    let mut table = vec![Counted(Factor::ZERO); 1 << 13];
    let root = 3u64.powm((469762049 - 1) >> 14, &469762049);
    fill_table(&modulus, root, &mut table);
    let reads = |length: usize| {
        READ.with(|it| *it.borrow_mut() = 0);
        ntt_planned(&modulus, &mut vec![1; length], &table);
        READ.with(|it| *it.borrow())
    };
    assert!(reads(4) <= 4 * 4 && reads(64) <= 4 * 64, "{} and {}", reads(4), reads(64));
}

#[test]
fn plans_over_filled_tables() {
    let (modulus, table) = planned();
    let plan = Plan::with_table(&modulus, 22, &table).unwrap();
    let mut xs = [10, 51, 95, 42];
    plan.inverse(&mut xs);
    assert_eq!(xs, [1, 2, 3, 4]);
    assert!(Plan::with_table(&modulus, 75, &table).is_none()); // 75 suits too, but the table has the powers of 22
    assert!(Plan::with_table(&modulus, 5, &table).is_none());
    assert!(Plan::with_table(&modulus, 22, &[table[1], table[0]]).is_none());
    assert!(Plan::with_table(&PlannedModulus::<u64>::new(193), 81, &table).is_none());
    // another modulus
}
