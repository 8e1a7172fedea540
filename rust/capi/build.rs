//! The name by which programs find the shared library, which needs nothing but libc, for `abort`. Before version 1 it has
//! the minor version, which may change the interface.
fn main() {
    println!("cargo:rerun-if-changed=build.rs");
    let major = env!("CARGO_PKG_VERSION_MAJOR");
    let minor = if major == "0" { concat!(".", env!("CARGO_PKG_VERSION_MINOR")) } else { "" };
    for word in [format!("-soname,libnum_modular.so.{major}{minor}"), "-z,defs".into()] {
        println!("cargo:rustc-cdylib-link-arg=-Wl,{word}");
    }
    println!("cargo:rustc-cdylib-link-arg=-lc");
}
