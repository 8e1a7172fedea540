//! Tells the crate whether `core` has `Error`, as it has since Rust 1.81, and `select_unpredictable`, as it has since 1.88: the
//! lowest version that the crate needs has neither.
use std::env::var_os;
use std::process::Command;

fn main() {
    println!("cargo:rerun-if-changed=build.rs");
    let version = var_os("RUSTC").and_then(|rustc| Command::new(rustc).arg("--version").output().ok());
    let version = version.map_or_else(String::new, |it| String::from_utf8_lossy(&it.stdout).into_owned());
    let minor = version.split('.').nth(1).and_then(|it| it.parse::<u32>().ok()).unwrap_or(0);
    if minor >= 80 {
        println!("cargo:rustc-check-cfg=cfg(has_core_error, has_select_unpredictable)");
    }
    if minor >= 81 {
        println!("cargo:rustc-cfg=has_core_error");
    }
    if minor >= 88 {
        println!("cargo:rustc-cfg=has_select_unpredictable");
    }
}
