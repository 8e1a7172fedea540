//! Structs over arrays, which hold their lists, and the same with a `Vec` of the caller's: a code, a residue system, products of
//! polynomials, a plan, and all hits of a search.

use num_modular::applications::long_product::polynomials::{room_once, try_multiply_once, Products};
use num_modular::applications::mersenne_hash::prefixes::PrefixHashes;
use num_modular::applications::residue_numbers::mixed_radix::{OwnedSystem, System};
use num_modular::applications::ring_codes::erasure::{restore, Code};
use num_modular::hashes::base;
use num_modular::plans::{Factor, OwnedPlan, PlannedModulus};
use num_modular::ring::find_root;
use num_modular::{Reducer, Vanilla};
use std::error::Error;

/// Two of five symbols are lost: the code's length is known to the compiler, or not.
fn codes() -> Result<(), Box<dyn Error>> {
    let ring = Vanilla::<u64>::new(&257);
    let code = Code::<u64, _, 5, 3>::new(ring, [1, 2, 3, 4, 5]).ok_or("the points don't fit")?;
    let sent = code.encode(&[72, 105, 33]);
    let got = [None, Some(sent[1]), Some(sent[2]), None, Some(sent[4])];
    let message = code.restore(&got).ok_or("too few symbols")?;
    println!("code: {sent:?}, restored {message:?}");

    let points: Vec<u64> = (1..=5).collect();
    let (places, symbols): (Vec<_>, Vec<_>) = [4, 1, 2].iter().map(|place| (*place, sent[*place])).unzip();
    let (mut chosen, mut weights, mut restored) = (vec![0; 3], vec![0; 3], vec![0; 3]);
    restore(&ring, &points, &places, &symbols, &mut chosen, &mut weights, &mut restored).map_err(|it| it.to_string())?;
    assert_eq!(restored, message);
    Ok(())
}

/// 2^100 + 1 in a system of three moduli, and back.
fn residues() -> Result<(), Box<dyn Error>> {
    let moduli = [(1 << 61) - 1, (1 << 31) - 1, 1 << 40];
    let system = OwnedSystem::new(moduli).ok_or("the moduli aren't coprime")?;
    let number = vec![1, 1 << 36];
    let residues = system.encode(&number);
    let words = system.words(&system.digits(&residues));
    assert_eq!((&words[..2], words[2]), (&number[..], 0));
    println!("residues: {residues:?}");

    let moduli = moduli.to_vec();
    let (mut inverses, mut encoded) = (vec![0; moduli.len()], vec![0; moduli.len()]);
    System::new(&moduli, &mut inverses).ok_or("the moduli aren't coprime")?.encode(&number, &mut encoded);
    assert_eq!(encoded, residues);
    Ok(())
}

/// The product of 1 + X + .. + X^299 with itself modulo 10^9 + 7.
fn products() -> Result<(), Box<dyn Error>> {
    let modulus = 1_000_000_007;
    let products = Products::<300, 300, 599>::new(modulus).ok_or("the modulus is 0")?;
    let product = products.multiply(&[1; 300], &[1; 300]);

    let ones = vec![1; 300];
    let (words, factors) = room_once(ones.len(), ones.len());
    let (mut out, mut words, mut factors) = (vec![0; 599], vec![0; words], vec![Factor::<u64>::ZERO; factors]);
    try_multiply_once(modulus, &ones, &ones, &mut out, &mut words, &mut factors).map_err(|it| it.to_string())?;
    assert_eq!(out, product);
    println!("product: {} in the middle", product[299]);
    Ok(())
}

/// A plan whose table is in a `Vec`.
fn plan() -> Result<(), Box<dyn Error>> {
    let (modulus, length) = (998_244_353, 8);
    let root = find_root(&Vanilla::<u64>::new(&modulus), length).ok_or("no root of this order")?;
    let plan = OwnedPlan::<u64, Factor<u64>, Vec<_>>::with_length(&PlannedModulus::<u64>::new(modulus), root, length);
    let plan = plan.ok_or("the root doesn't suit the length")?;
    let mut entries: Vec<u64> = (0..8).collect();
    plan.plan().transform(&mut entries);
    plan.plan().inverse(&mut entries);
    println!("transformed and back: {entries:?}");
    Ok(())
}

/// Where a pattern occurs in a text.
fn hits() -> Result<(), Box<dyn Error>> {
    let (base, text) = (base(123_456_789), b"abracadabra");
    let (mut hashes, mut powers) = (vec![base; text.len() + 1], vec![base; text.len() + 1]);
    let text = PrefixHashes::new(base, text, &mut hashes, &mut powers).ok_or("the lists don't fit the text")?;
    println!("hits: {:?}", text.hits(b"abra").collect::<Vec<_>>());
    Ok(())
}

fn main() -> Result<(), Box<dyn Error>> {
    codes()?;
    residues()?;
    products()?;
    plan()?;
    hits()
}
