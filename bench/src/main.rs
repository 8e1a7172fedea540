//! Measures the port beside the Rust crate, and the Cargo crate of rust/ too, turn by turn in one run: a line an operation,
//! with the time of one step and the ratios to the Rust crate's. Then come even moduli, lists of commands, transforms of
//! whole lists, searches, products of long numbers, and times and counted steps against sizes. Before anything is measured
//! the answers are compared; where they differ it says so and ends with status 1.
//!
//! It prints JSON. With `--peers`, which the feature `peers` brings, it measures single calls and lists beside FLINT in place of
//! all that; with `--codes` erasure codes beside FLINT, and libfec where it is; with `--plans` the transforms by a plan and what
//! uses them, beside NTL, FLINT and GMP. It starts itself with `--times`, for the further processes that measure the short lines.

#[cfg(feature = "peers")]
mod codes;
#[cfg(feature = "peers")]
mod corrections;
#[cfg(feature = "peers")]
mod erasure;
mod erased;
mod growth;
#[cfg(feature = "peers")]
mod lattices;
mod lines;
#[cfg(feature = "peers")]
mod long_products;
mod measure;
mod original;
#[cfg(feature = "peers")]
mod peers;
#[cfg(feature = "peers")]
mod plans;
#[cfg(feature = "peers")]
mod polynomials;
mod port;
mod report;
mod runs;
mod transforms;
mod users;
#[cfg(feature = "peers")]
mod word_lists;

use lines::{Moduli, Table};
use measure::{FIRST, SECOND, agree, best, operands};
use port::{Bench, POWER, PRODUCT};
use report::{Report, Rows};
use std::env;
use std::process::{Command, ExitCode};

/// How many processes measure the short lines. Their times have stayed higher throughout one process, with the same code.
const PROCESSES: usize = 5;

/// 2^64 - 2, an even modulus.
const EVEN: u64 = u64::MAX - 1;

/// The operations of even moduli: over `Montgomery`, `PreMulInv2by1` and `Vanilla`.
static EVEN_MODULUS: [(&str, [Bench; 3]); 2] = [
    ("mul", [port::over_montgomery::<PRODUCT>, port::over_premul::<PRODUCT>, port::over_vanilla::<PRODUCT>]),
    ("pow", [port::over_montgomery::<POWER>, port::over_premul::<POWER>, port::over_vanilla::<POWER>]),
];

fn all_agree(tables: &[Table]) -> bool {
    let mut same = true;
    for it in tables.iter().flat_map(|table| &table.lines) {
        same &= agree(&it.name, it.port, it.original, it.bits, it.moduli, it.modulus);
        same &= agree(&it.name, it.erased, it.original, it.bits, it.moduli, it.modulus);
    }
    for (name, [montgomery, premul, vanilla]) in EVEN_MODULUS {
        same &= agree(name, montgomery, vanilla, 64, Moduli::Any, EVEN);
        same &= agree(name, premul, vanilla, 64, Moduli::Any, EVEN);
    }
    same
}

fn measured(table: &Table) -> Rows {
    let lines = table.lines.iter().map(|it| {
        let times = best([it.port, it.original, it.erased], operands(it)).map(|time| time / it.products);
        (it.name.clone(), times.to_vec())
    });
    Rows {
        key: table.key,
        title: table.title.to_string(),
        heads: vec!["port ns", "crate ns", "Cargo crate ns"],
        ratios: vec![("port/crate", 0, 1), ("Cargo crate/crate", 2, 1)],
        lines: lines.collect(),
    }
}

fn measured_even() -> Rows {
    let lines = EVEN_MODULUS
        .iter()
        .map(|(name, functions)| (name.to_string(), best(*functions, (FIRST, SECOND, EVEN)).to_vec()))
        .collect();
    Rows {
        key: "even",
        title: "Modulo an even number, 2^64 - 2, which the crate's `Montgomery` refuses".to_string(),
        heads: vec!["Montgomery ns", "PreMulInv2by1 ns", "Vanilla ns"],
        ratios: Vec::new(),
        lines,
    }
}

/// The lines that take nanoseconds: single operations, and lists of commands.
fn short_lines(tables: &[Table]) -> Vec<Rows> {
    let mut rows: Vec<Rows> = tables.iter().map(measured).collect();
    rows.push(measured_even());
    rows.push(runs::measured());
    rows
}

fn times_in(rows: &mut [Rows]) -> impl Iterator<Item = &mut f64> {
    rows.iter_mut().flat_map(|it| &mut it.lines).flat_map(|(_, times)| times)
}

/// The short lines, each time the least that one of some processes saw, one process after the other.
fn least_of_processes(tables: &[Table]) -> Vec<Rows> {
    let mut rows = short_lines(tables);
    for _ in 1..PROCESSES {
        let this = env::current_exe().expect("the system names this program's file");
        let other = Command::new(this).arg("--times").output().expect("another process starts");
        let said = String::from_utf8_lossy(&other.stdout);
        let times: Vec<f64> = said.lines().map(|line| line.parse().expect("it prints times")).collect();
        assert_eq!(times.len(), times_in(&mut rows).count(), "it measures the same lines");
        for (least, time) in times_in(&mut rows).zip(times) {
            *least = f64::min(*least, time);
        }
    }
    rows
}

/// Each table beside the Rust crate, and each curve; `None` where the answers differ.
fn beside_crate() -> Option<Report> {
    let tables = lines::tables();
    if !all_agree(&tables) || !runs::agree() || !transforms::agree() || !users::agree() {
        return None;
    }
    let mut rows = least_of_processes(&tables);
    rows.push(transforms::measured());
    rows.push(users::searches());
    rows.push(users::products());
    Some(Report { beside: "num-modular 0.7.0".to_string(), tables: rows, growth: growth::measured() })
}

#[cfg(feature = "peers")]
fn beside_peers() -> Option<Report> {
    peers::agree().then(|| Report {
        beside: format!("FLINT {}", peers::version()),
        tables: vec![peers::measured(), word_lists::measured()],
        growth: Vec::new(),
    })
}

#[cfg(feature = "peers")]
fn codes_beside_peers() -> Option<Report> {
    erasure::agree().then(|| Report {
        beside: format!("FLINT {}", peers::version()),
        tables: [erasure::measured(), codes::measured()]
            .into_iter()
            .chain([codes::prepared_rows()])
            .chain(corrections::measured())
            .chain(codes::beside_libfec())
            .chain(corrections::beside_libfec())
            .collect(),
        growth: Vec::new(),
    })
}

#[cfg(feature = "peers")]
fn plans_beside_peers() -> Option<Report> {
    if !plans::agree() || !long_products::agree() || !polynomials::agree() || !lattices::agree() {
        return None;
    }
    let (ntl, flint, gmp) = (plans::version(), peers::version(), long_products::version());
    let mut tables = plans::measured();
    tables.push(long_products::measured());
    tables.push(polynomials::measured());
    tables.push(lattices::measured());
    Some(Report { beside: format!("NTL {ntl}, FLINT {flint}, GMP {gmp}"), tables, growth: Vec::new() })
}

#[cfg(not(feature = "peers"))]
fn beside_peers() -> Option<Report> {
    eprintln!("built without the feature peers");
    None
}

#[cfg(not(feature = "peers"))]
fn codes_beside_peers() -> Option<Report> {
    beside_peers()
}

#[cfg(not(feature = "peers"))]
fn plans_beside_peers() -> Option<Report> {
    beside_peers()
}

fn main() -> ExitCode {
    let word = env::args().nth(1);
    let report = match word.as_deref() {
        Some("--times") => {
            times_in(&mut short_lines(&lines::tables())).for_each(|time| println!("{time}"));
            return ExitCode::SUCCESS;
        }
        Some("--peers") => beside_peers(),
        Some("--codes") => codes_beside_peers(),
        Some("--plans") => plans_beside_peers(),
        _ => beside_crate(),
    };
    let Some(report) = report else {
        eprintln!("nothing was measured");
        return ExitCode::FAILURE;
    };
    println!("{}", report.json());
    ExitCode::SUCCESS
}
