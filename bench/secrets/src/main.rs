//! The Cargo crate's calls for secrets beside its others, over `Montgomery`: chains of random operands, and the least time of
//! the rounds, which take turns. It prints JSON.

use num_modular::secrets::{inv_secret, pow_secret, SecretWord};
use num_modular::{Montgomery, Reducer};
use std::hint::black_box;
use std::time::Instant;

const OPERANDS: usize = 2048;
const ROUNDS: usize = 2000;

/// The nanoseconds a call, by each of two chains, and their ratio.
fn line<T: SecretWord>(name: &str, operands: &[T], calls: [&dyn Fn(T, T) -> T; 2]) -> String {
    let mut best = [f64::INFINITY; 2];
    for _ in 0..ROUNDS {
        for (best, call) in best.iter_mut().zip(calls) {
            let from = Instant::now();
            black_box(operands.iter().fold(operands[0], |x, y| call(x, *y)));
            *best = best.min(from.elapsed().as_secs_f64() * 1e9 / OPERANDS as f64);
        }
    }
    format!(r#"{{"name": "{name}", "numbers": [{:.1}, {:.1}, {:.4}]}}"#, best[0], best[1], best[1] / best[0])
}

fn lines<T: SecretWord + TryFrom<u64>>(m: u64) -> [String; 2]
where
    Montgomery<T>: Reducer<T>,
{
    let word = |n: u64| T::try_from(n % m).ok().unwrap();
    let r = Montgomery::<T>::new(&T::try_from(m).ok().unwrap());
    // The multiplier is Knuth's for MMIX.
    let random = |x: &u64| Some(x.wrapping_mul(6364136223846793005).wrapping_add(1442695040888963407));
    let operands: Vec<T> = std::iter::successors(Some(m), random).map(|x| word(x >> 20 ^ x << 44)).take(OPERANDS).collect();
    let inverse = |x: Option<T>, y| r.add(&x.unwrap_or(T::zero()), &y);
    let of = |call| format!("u{}: {call}", T::bits());
    [
        line(&of("pow_secret"), &operands, [&|x, y| r.pow(x, &y), &|x, y| pow_secret(&r, x, &y, T::bits())]),
        line(&of("inv_secret"), &operands, [&|x, y| inverse(r.inv(x), y), &|x, y| inverse(inv_secret(&r, x), y)]),
    ]
}

fn main() {
    let all = [lines::<u32>((1 << 32) - 5), lines::<u64>(u64::MAX - 58)].concat().join(", ");
    let heads = r#"["plain ns", "secret ns", "secret/plain"]"#;
    println!(r#"{{"beside": "its other calls", "tables": [{{"key": "secrets", "title": "Calls for secrets", "heads": {heads}, "lines": [{all}]}}]}}"#);
}
