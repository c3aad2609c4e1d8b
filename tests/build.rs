//! Links the library's archive, if it is there: libcabi.a, where `rt lib` in crates/cabi writes it (crates/cabi/out/ of the repository), or
//! the file that the variable CLUB_ARCHIVE names. Without it the package has the second evaluator alone.

use std::path::{Path, PathBuf};
use std::{env, fs};

fn main() {
    println!("cargo::rustc-check-cfg=cfg(archive)");
    println!("cargo::rerun-if-env-changed=CLUB_ARCHIVE");
    let usual = Path::new(&env::var("CARGO_MANIFEST_DIR").expect("a folder")).join("../crates/cabi/out/libcabi.a");
    let archive = env::var_os("CLUB_ARCHIVE").map_or(usual, PathBuf::from);
    println!("cargo::rerun-if-changed={}", archive.display());
    if !archive.exists() {
        return;
    }
    // A copy, so that a build keeps what it was linked with.
    let out = PathBuf::from(env::var_os("OUT_DIR").expect("a folder"));
    fs::copy(&archive, out.join("libcabi.a")).expect("a copy of the archive");
    println!("cargo::rustc-link-search=native={}", out.display());
    println!("cargo::rustc-link-lib=static=cabi");
    println!("cargo::rustc-env=CLUB_ARCHIVE_COPY={}", out.join("libcabi.a").display());
    println!("cargo::rustc-cfg=archive");
}
