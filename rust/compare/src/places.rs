//! Where the other parts of the repository stand, from this package's folder.

use std::path::{Path, PathBuf};

/// The package's folder is the one that cargo runs this for; run without cargo, the one it was built in.
fn from_root(path: &str) -> PathBuf {
    let package = std::env::var_os("CARGO_MANIFEST_DIR");
    let package = package.unwrap_or_else(|| env!("CARGO_MANIFEST_DIR").into());
    Path::new(&package).join("../..").join(path)
}

pub fn program() -> PathBuf {
    from_root("target/bin/mileage_bench")
}

pub fn archive() -> PathBuf {
    from_root("target/staticlib/libmileage.a")
}

pub fn header() -> PathBuf {
    from_root("include/mileage.h")
}

/// The folders of stored scripts.
pub fn stored_scripts() -> [PathBuf; 2] {
    [from_root("crates/bench_cases/data"), from_root("scripts")]
}
