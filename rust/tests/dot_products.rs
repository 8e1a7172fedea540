//! Dot products at the bounds of what fits a double word: m - 1 times itself is 1, so their sum is the number of entries.

use num_modular::ring::dot_product;
use num_modular::{Montgomery, OddMontgomery, PreMulInv2by1, Reducer, RingWord, Vanilla};
use std::fmt::Debug;

fn is_right<T: RingWord + Debug, R: Reducer<T>>(m: u64, words: fn(u64) -> T) {
    let ring = R::new(&words(m));
    for length in [1, 2, 127, 128, 129, 255, 256, 4095, 4096, 4097, 8193, 70_000] {
        let xs = vec![ring.transform(words(m - 1)); length];
        assert_eq!(dot_product(&ring, &xs, &xs), ring.transform(words(length as u64 % m)), "{length} modulo {m}");
    }
}

macro_rules! are_right {
    ($word:ty; $($m:expr),*) => {$(
        is_right::<$word, Montgomery<$word>>($m, |x| x as $word);
        is_right::<$word, OddMontgomery<$word>>($m, |x| x as $word);
        is_right::<$word, PreMulInv2by1<$word>>($m, |x| x as $word);
        is_right::<$word, Vanilla<$word>>($m, |x| x as $word);
    )*};
}

#[test]
fn greatest_sums() {
    are_right!(u8; 3, 5, 15, 17, 255);
    are_right!(u16; 3, 255, 257, 1021, 1023, 1025, 65535);
    are_right!(u32; 257, (1 << 24) + 1, (1 << 26) - 1, (1 << 26) + 1, (1 << 32) - 1);
    are_right!(u64; 257, (1 << 56) + 1, (1 << 58) - 1, (1 << 58) + 1, u64::MAX);
}
