//! Links the verified core's archive. Paths are relative, so that a copy of the repository links its own archive.

use std::path::Path;

fn main() {
    let archive = "../../target/staticlib/libmileage.a";
    println!("cargo:rerun-if-changed={archive}");
    if !Path::new(archive).exists() {
        panic!("target/staticlib/libmileage.a is missing: run `make all` in the repository's root first");
    }
    // This runs in the package's folder, rustc in the workspace's.
    println!("cargo:rustc-link-search=native=../target/staticlib");
    println!("cargo:rustc-link-lib=static=mileage");
}
