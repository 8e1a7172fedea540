//! The matrix: every call of words, dividers, reducers and integers of the Cargo crate beside the Rust crate, at each width
//! and at several moduli and parameters, as a chain of steps (latency) and as eight chains side by side (throughput). Answers
//! are compared before anything is measured. It prints a line of JSON for each.
//!
//!     matrix-bench [PROCESSES [WORD]]    a line's ratio is the least of so many processes; with WORD only of lines that name it

#![allow(unstable_name_collisions)]

mod lines;
mod measure;

use std::env;
use std::process::{Command, ExitCode};

/// Whether a line's call or place has this word.
fn is_named(line: &measure::Line, word: &str) -> bool {
    line.call.contains(word) || line.place.contains(word)
}

/// The times of each line with this word in one process, in nanoseconds a step.
fn times(word: &str) -> Vec<[f64; 2]> {
    let (rust, cargo) = (lines::rust::all(), lines::cargo::all());
    rust.iter().zip(&cargo).filter(|it| is_named(it.0, word)).map(|(rust, cargo)| measure::compare(rust, cargo)).collect()
}

/// The same of a further process.
fn times_of_another(word: &str) -> Option<Vec<[f64; 2]>> {
    let output = Command::new(env::current_exe().ok()?).args(["--times", word]).output().ok()?;
    let text = String::from_utf8(output.stdout).ok()?;
    text.lines()
        .map(|line| {
            let (rust, cargo) = line.split_once(' ')?;
            Some([rust.parse().ok()?, cargo.parse().ok()?])
        })
        .collect()
}

fn main() -> ExitCode {
    let first = env::args().nth(1).unwrap_or_default();
    let word = env::args().nth(2).unwrap_or_default();
    if first == "--times" {
        for [rust, cargo] in times(&word) {
            println!("{rust} {cargo}");
        }
        return ExitCode::SUCCESS;
    }
    let processes = first.parse().unwrap_or(3);
    let all: Option<Vec<_>> = (0..processes).map(|_| times_of_another(&word)).collect();
    let Some(all) = all else {
        eprintln!("a process that measures failed: matrix-bench --times says why");
        return ExitCode::FAILURE;
    };
    for (i, line) in lines::rust::all().iter().filter(|it| is_named(it, &word)).enumerate() {
        let of = |times: &Vec<[f64; 2]>| times[i][1] / times[i][0];
        let best = all.iter().min_by(|a, b| of(a).total_cmp(&of(b)));
        let Some([rust, cargo]) = best.map(|times| times[i]) else { continue };
        println!(
            "{{\"call\": \"{}\", \"place\": \"{}\", \"side\": \"{}\", \"rust\": {rust:.3}, \"cargo\": {cargo:.3}, \"ratio\": {:.3}}}",
            line.call, line.place, line.side, cargo / rust
        );
    }
    ExitCode::SUCCESS
}
