//! A message of three symbols as five, of which any three restore it: Reed and Solomon's code modulo 257.

use num_modular::applications::ring_codes::erasure::{encode, restore, RestoreError};
use num_modular::{FixedProth32, Reducer};

const RING: FixedProth32<8, 1> = FixedProth32::RING;

fn main() {
    let points = [1, 2, 3, 4, 5].map(|n| RING.transform(n));
    let message = [72, 105, 33].map(|n| RING.transform(n));
    let mut word = [0; 5];
    encode(&RING, &points, &message, &mut word);

    // the symbols 0 and 3 are lost
    let (places, kept) = ([1, 2, 4], [word[1], word[2], word[4]]);
    let (mut chosen, mut weights, mut restored) = ([0; 3], [0; 3], [0; 3]);
    let ended = restore(&RING, &points, &places, &kept, &mut chosen, &mut weights, &mut restored);
    assert_eq!((ended, restored), (Ok(()), message));

    let ended = restore(&RING, &points, &[1, 1, 4], &kept, &mut chosen, &mut weights, &mut restored);
    assert_eq!(ended, Err(RestoreError::PlaceTwice));
    println!("restored {:?}", restored.map(|f| RING.residue(f)));
}
