//! Links whatever calls these functions with their archive.
//!
//! `libtrials.a` is looked for in the directory named by VG_LIB_DIR, or else where the project builds it.

use std::env;
use std::path::PathBuf;

fn main() {
    println!("cargo:rerun-if-env-changed=VG_LIB_DIR");
    println!("cargo:rerun-if-changed=build.rs");
    let here = PathBuf::from(env::var("CARGO_MANIFEST_DIR").expect("cargo sets CARGO_MANIFEST_DIR"));
    let directory = env::var("VG_LIB_DIR").unwrap_or_else(|_| "../../target/staticlib".to_string());
    let directory = here.join(directory);
    // All files of the directory: the benchmark runs without this archive, and a name of no file would have it
    // built again each time.
    println!("cargo:rerun-if-changed={}", directory.display());
    println!("cargo:rustc-link-search=native={}", directory.display());
    // Not taken into the crate: what does not call the functions is built without the archive.
    println!("cargo:rustc-link-lib=static:-bundle=trials");
}
