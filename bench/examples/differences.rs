//! What the Rust crate answers to the uses that rust/FROM_NUM_MODULAR.md names, and others outside a precondition, a line each.
//!
//! `cargo run --example differences`, and the same with `--release`: debug assertions and checks of
//! overflow stand in the first alone. A call that doesn't return within two seconds is said so.

use num_modular::*;
use std::fmt::Debug;
use std::sync::mpsc;
use std::thread;
use std::time::Duration;

fn say<A: Debug>(name: &str, call: impl FnOnce() -> A + Send + 'static) {
    let (answer, heard) = mpsc::channel();
    thread::spawn(move || answer.send(format!("{:?}", call())));
    match heard.recv_timeout(Duration::from_secs(2)) {
        Ok(text) => println!("{name}: {text}"),
        Err(mpsc::RecvTimeoutError::Disconnected) => println!("{name}: panics"),
        Err(mpsc::RecvTimeoutError::Timeout) => println!("{name}: doesn't return"),
    }
}

fn outside_a_condition() {
    say("3u8.addm(4, &0)", || 3u8.addm(4u8, &0u8));
    say("Vanilla::<u8>::new(&0), transform(3)", || Vanilla::<u8>::new(&0).transform(3));
    say("PreMulInv2by1::<u8>::new(0)", || PreMulInv2by1::<u8>::new(0));
    say("Montgomery::<u8>::new(0)", || Montgomery::<u8>::new(0));
    say("PreModInv::<u8>::from(6)", || PreModInv::<u8>::from(6));
    say("Normalized2by1Divisor::<u8>::new(127)", || Normalized2by1Divisor::<u8>::new(127));
    say("PreMulInv1by1::<u8>::new(1)", || PreMulInv1by1::<u8>::new(1));
    say("div_rem_2by1(33280), divisor 130", || Normalized2by1Divisor::<u8>::new(130).div_rem_2by1(33280));
    say("PreMulInv1by1 of 7, div_rem(255, 9)", || PreMulInv1by1::<u8>::new(7).div_rem(255, 9));
    say("PreModInv::<u8>::new(183, 36), 35 by 5", || {
        DivExact::<u8, _>::div_exact(35u8, 5, &PreModInv::<u8>::new(183, 36))
    });
    say("new(1, &21) + new(1, &22)", || {
        (VanillaInt::<u8>::new(1, &21) + VanillaInt::<u8>::new(1, &22)).residue()
    });
    say("new(10, &21) / new(7, &21)", || {
        (VanillaInt::<u8>::new(10, &21) / VanillaInt::<u8>::new(7, &21)).residue()
    });
    say("7u8.jacobi(&16)", || 7u8.jacobi(&16));
    say("2u8.legendre(&9)", || 2u8.legendre(&9));
    say("Vanilla::<u8> of 21, add(&30, &1)", || Vanilla::<u8>::new(&21).add(&30, &1));
}

fn outside_the_parameters() {
    say("FixedProth32<31, 3>, new(&2147483649)", || {
        <FixedProth32<31, 3> as Reducer<u32>>::new(&2147483649).transform(5)
    });
    say("FixedMersenne32<4, 9>, new(&7), transform(255)", || {
        <FixedMersenne32<4, 9> as Reducer<u32>>::new(&7).transform(255)
    });
    say("FixedMersenne32<4, 2>, new(&14), transform(255)", || {
        <FixedMersenne32<4, 2> as Reducer<u32>>::new(&14).transform(255)
    });
    say("FixedTrinomialSolinas32<5, 2, 5>, new(&33), transform(255)", || {
        <FixedTrinomialSolinas32<5, 2, 5> as Reducer<u32>>::new(&33).transform(255)
    });
    say("FixedMersenne32<4, 1>, new(&7)", || {
        <FixedMersenne32<4, 1> as Reducer<u32>>::new(&7).transform(255)
    });
}

fn other_answers() {
    say("i8::MIN.absm(&5)", || i8::MIN.absm(&5u8));
    say("new(3, &7) == new(3, &11)", || VanillaInt::<u8>::new(3, &7) == VanillaInt::<u8>::new(3, &11));
    say("Montgomery::<u8>::new(20)", || Montgomery::<u8>::new(20));
    say("FixedMersenne32<2, 1>::reduce_double(u64::MAX)", || {
        FixedMersenne32::<2, 1>::reduce_double(u64::MAX)
    });
    say("FixedTrinomialSolinas32<4, 2, 1>::reduce_double(u64::MAX)", || {
        FixedTrinomialSolinas32::<4, 2, 1>::reduce_double(u64::MAX)
    });
    say("FixedTrinomialSolinas32<5, 4, -3>, transform(31)", || {
        <FixedTrinomialSolinas32<5, 4, -3> as Reducer<u32>>::new(&13).transform(31)
    });
    say("FixedProth32<27, 17>, reduce(9799832791439900673)", || {
        <FixedProth32<27, 17> as Reducer<u32>>::new(&2281701377).reduce(9799832791439900673)
    });
    say("3u8.checked_legendre(&0)", || 3u8.checked_legendre(&0));
    say("(-1i8).kronecker(&0)", || (-1i8).kronecker(&0));
    say("(-128i8).kronecker(&-128)", || (-128i8).kronecker(&-128));
}

fn sizes() {
    say("bytes of Montgomery<u64>", || std::mem::size_of::<Montgomery<u64>>());
    say("bytes of FixedMontgomery64<97>", || std::mem::size_of::<FixedMontgomery64<97>>());
}

fn main() {
    std::panic::set_hook(Box::new(|_| {}));
    outside_a_condition();
    outside_the_parameters();
    other_answers();
    sizes();
    // A call that doesn't return is still running.
    std::process::exit(0);
}
