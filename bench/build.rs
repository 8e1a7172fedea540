//! Links the static library that `rt lib` makes of the crate `modular_bench`, and with the feature
//! `peers` FLINT, GMP and NTL, and libfec if it is there.

use std::env;
use std::fs;
use std::path::Path;
use std::process::Command;

/// By how many bytes the code of a list of commands is moved. A line of the processor's cache has 64, and a compiler
/// begins each function at a multiple of 16.
const PLACES: [usize; 4] = [0, 16, 32, 48];

fn main() {
    let here = env::var("CARGO_MANIFEST_DIR").expect("cargo names the folder of the package");
    let folder = Path::new(&here).join("../crates/modular_bench/out");
    println!("cargo:rustc-link-search=native={}", folder.display());
    println!("cargo:rustc-link-lib=static=modular_bench");
    for (prefix, name) in [("", "libmodular_bench.a"), ("within_", "libmodular_bench_within.a")] {
        println!("cargo:rerun-if-changed={}", folder.join(name).display());
        link_moved(prefix, &folder.join(name));
    }
    println!("cargo:rustc-check-cfg=cfg(libfec)");
    if env::var_os("CARGO_FEATURE_PEERS").is_some() {
        link_peers(&Path::new(&here).join("peers"));
    }
}

fn run(command: &str, words: &[&str]) {
    let status = Command::new(command).args(words).status();
    assert!(status.is_ok_and(|status| status.success()), "{command} {}", words.join(" "));
}

/// Links a copy of a library for each place: its code stands that many bytes later, and the calls that run a list have
/// the prefix before their names and the place behind them.
fn link_moved(prefix: &str, library: &Path) {
    let folder = env::var("OUT_DIR").expect("cargo names the folder of what is built");
    println!("cargo:rustc-link-search=native={folder}");
    for place in PLACES {
        let name = |ending: &str| format!("{folder}/{prefix}place_{place}.{ending}");
        let [source, script, pad, object] = ["s", "ld", "pad.o", "o"].map(name);
        let write = |file: &str, text: &str| fs::write(file, text).expect("the folder can be written to");
        write(&source, &format!(".text\n.p2align 6\n.skip {place}\n.section .note.GNU-stack\n"));
        write(&script, "SECTIONS { .text : { *(.text .text.*) } }\n");
        run("cc", &["-c", "-o", &pad, &source]);
        let path = library.to_str().expect("the path is text");
        run("ld", &["-r", "-T", &script, "-o", &object, &pad, "--whole-archive", path]);
        let calls = ["bench_run_inner_product", "bench_run_polynomial"].map(|it| format!("{it}={prefix}{it}_{place}"));
        let kept = ["bench_run_inner_product", "bench_run_polynomial"].map(|it| format!("--keep-global-symbol={it}"));
        run("objcopy", &[&kept[0], &kept[1], &object]);
        run("objcopy", &["--redefine-sym", &calls[0], "--redefine-sym", &calls[1], &object]);
        run("ar", &["crs", &format!("{folder}/lib{prefix}place_{place}.a"), &object]);
        println!("cargo:rustc-link-lib=static={prefix}place_{place}");
    }
}

/// Compiles the steps over the calls of FLINT, GMP and NTL.
fn link_peers(sources: &Path) {
    let folder = env::var("OUT_DIR").expect("cargo names the folder of what is built");
    let library = Path::new(&folder).join("libpeers.a");
    for (compiler, name) in [("cc", "flint.c"), ("cc", "gmp.c"), ("c++", "ntl.cpp")] {
        let source = sources.join(name);
        let object = Path::new(&folder).join(name).with_extension("o");
        let compiled = Command::new(compiler).args(["-O2", "-c", "-o"]).arg(&object).arg(&source).status();
        assert!(compiled.is_ok_and(|status| status.success()), "{compiler} compiles {}", source.display());
        let joined = Command::new("ar").arg("crs").arg(&library).arg(&object).status();
        assert!(joined.is_ok_and(|status| status.success()), "ar joins {}", library.display());
        println!("cargo:rerun-if-changed={}", source.display());
    }
    println!("cargo:rustc-link-search=native={folder}");
    println!("cargo:rustc-link-lib=static=peers");
    for library in ["ntl", "flint", "gmp", "stdc++"] {
        println!("cargo:rustc-link-lib={library}");
    }
    let header = Command::new("cc").args(["-E", "-include", "fec.h", "-x", "c", "/dev/null"]).output();
    if header.is_ok_and(|output| output.status.success()) {
        println!("cargo:rustc-cfg=libfec");
        println!("cargo:rustc-link-lib=fec");
    }
}
