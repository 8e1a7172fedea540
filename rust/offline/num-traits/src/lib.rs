//! Stands for `num-traits` where cargo has no registry.
#![no_std]
compile_error!("take [patch.crates-io] in Cargo.toml away to build with the feature `num-traits`");
