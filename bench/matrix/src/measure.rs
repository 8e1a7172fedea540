//! What is measured: chains of steps, and eight chains side by side; how long a step takes.

use std::hint::black_box;
use std::ops::Range;
use std::time::Instant;

/// So many rows of operands that a processor doesn't learn which way each branch goes.
const ROWS: usize = 256;

/// Operands that a loop takes in turn: rows of eight.
pub type Rows<T> = [[T; 8]; ROWS];

/// Measured lines take about so many nanoseconds in each round.
const ROUND: f64 = 12_000.0;
const ROUNDS: usize = 25;

/// One call at one place, over one library: a loop of so many steps, which returns what its last steps gave.
pub struct Line {
    pub call: &'static str,
    pub place: String,
    pub side: &'static str,
    pub run: Box<dyn Fn(Range<usize>) -> u64>,
}

/// Each step takes what the last one returned, and an operand.
#[inline(never)]
fn chain<R, S: Clone, Y: Clone>(ring: &R, start: S, rows: &Rows<Y>, turns: Range<usize>, f: impl Fn(&R, S, Y) -> S) -> S {
    let mut x = start;
    for i in turns {
        x = f(ring, x, rows[i / 8 % ROWS][i % 8].clone());
    }
    x
}

/// Eight chains side by side.
#[inline(never)]
fn eight<R, S: Clone, Y: Clone>(ring: &R, start: [S; 8], rows: &Rows<Y>, turns: Range<usize>, f: impl Fn(&R, S, Y) -> S) -> [S; 8] {
    let mut xs = start;
    for i in turns.start / 8..turns.end / 8 {
        let row = &rows[i % ROWS];
        for (x, y) in xs.iter_mut().zip(row) {
            *x = f(ring, x.clone(), y.clone());
        }
    }
    xs
}

/// The lines of one call: a chain of steps, and eight chains side by side. `see` reads a state as a number.
pub fn step<R, S, Y, F>(lines: &mut Vec<Line>, call: &'static str, place: &str, operands: (R, [S; 8], Rows<Y>), f: F, see: fn(&S) -> u64)
where
    R: Clone + 'static,
    S: Clone + 'static,
    Y: Clone + 'static,
    F: Fn(&R, S, Y) -> S + Copy + 'static,
{
    let (ring, start, rows) = operands;
    let (second, starts, others) = (ring.clone(), start.clone(), rows.clone());
    let one = move |turns| see(&chain(&ring, black_box(&start[0]).clone(), black_box(&rows), turns, f));
    let all = move |turns| {
        let xs = eight(&second, black_box(&starts).clone(), black_box(&others), turns, f);
        xs.iter().fold(0, |sum: u64, x| sum.rotate_left(7) ^ see(x))
    };
    lines.push(Line { call, place: place.to_string(), side: "chain", run: Box::new(one) });
    lines.push(Line { call, place: place.to_string(), side: "eight", run: Box::new(all) });
}

fn time_of(line: &Line, turns: Range<usize>) -> f64 {
    let begun = Instant::now();
    black_box((line.run)(black_box(turns)));
    begun.elapsed().as_nanos() as f64
}

/// Nanoseconds a step of both lines: the least of rounds that take turns. Their answers are compared before.
pub fn compare(rust: &Line, cargo: &Line) -> [f64; 2] {
    assert_eq!((rust.call, &rust.place, rust.side), (cargo.call, &cargo.place, cargo.side));
    for steps in [8, 64, 720] {
        let (theirs, ours) = ((rust.run)(0..steps), (cargo.run)(0..steps));
        assert_eq!(theirs, ours, "{} of {} ({}) after {steps} steps", rust.call, rust.place, rust.side);
    }
    let short = time_of(rust, 0..64).min(time_of(rust, 0..64)).max(64.0);
    let steps = ((ROUND / short) as usize).clamp(1, 200) * 64;
    let mut least = [f64::MAX; 2];
    for round in 0..ROUNDS {
        for turn in 0..2 {
            let which = (turn + round) % 2;
            let time = time_of([rust, cargo][which], round * steps..(round + 1) * steps) / steps as f64;
            least[which] = least[which].min(time);
        }
    }
    least
}

/// Random numbers (splitmix64).
pub struct Random(pub u64);

impl Random {
    pub fn next(&mut self) -> u64 {
        self.0 = self.0.wrapping_add(0x9e3779b97f4a7c15);
        let x = (self.0 ^ (self.0 >> 30)).wrapping_mul(0xbf58476d1ce4e5b9);
        let x = (x ^ (x >> 27)).wrapping_mul(0x94d049bb133111eb);
        x ^ (x >> 31)
    }
}

/// Operands that `f` makes.
pub fn rows<T>(mut f: impl FnMut() -> T) -> Rows<T> {
    std::array::from_fn(|_| std::array::from_fn(|_| f()))
}
