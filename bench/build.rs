//! Says what is missing where the archive is not there: the package `second` links it, and without it has no calls to measure.

use std::path::Path;
use std::{env, process};

fn main() {
    println!("cargo::rerun-if-env-changed=CLUB_ARCHIVE");
    let usual = Path::new(&env::var("CARGO_MANIFEST_DIR").expect("a folder")).join("../crates/cabi/out/libcabi.a");
    println!("cargo::rerun-if-changed={}", usual.display());
    if env::var_os("CLUB_ARCHIVE").is_none() && !usual.exists() {
        eprintln!("no archive: `rt lib` in crates/cabi writes it to crates/cabi/out/libcabi.a of the repository");
        process::exit(1);
    }
}
