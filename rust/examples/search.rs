//! Where a pattern occurs in a text: all places, by a rolling hash whose base the caller draws at random.

use num_modular::hashes::{base, find};
use std::collections::hash_map::RandomState;
use std::hash::{BuildHasher, Hasher};

fn places(text: &[u8], pattern: &[u8]) -> Vec<usize> {
    let base = base(RandomState::new().build_hasher().finish());
    let (mut places, mut from) = (Vec::new(), 0);
    while let Some(place) = find(base, &text[from..], pattern) {
        places.push(from + place);
        from += place + 1;
    }
    places
}

fn main() {
    assert_eq!(places(b"abracadabra", b"abra"), [0, 7]);
    assert_eq!(places(b"aaaa", b"aa"), [0, 1, 2]);
    assert_eq!(places(b"needle", b"hay"), []);
    println!("b occurs at {:?}", places(b"abracadabra", b"b"));
}
