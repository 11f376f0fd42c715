//! Tells the linker where the proved code's static library is. A library that is not there stops the build.

use std::env;
use std::path::PathBuf;

/// Where the library is, from this folder, when `EXPORTS_DIR` is not set.
const EXPORTS: &str = "../../crates/exports/out";

fn main() {
    let here = PathBuf::from(env::var_os("CARGO_MANIFEST_DIR").expect("set by cargo"));
    let given = env::var_os("EXPORTS_DIR").unwrap_or_else(|| EXPORTS.into());
    let folder = here.join(given);
    let library = folder.join("libexports.a");
    println!("cargo::rerun-if-env-changed=EXPORTS_DIR");
    println!("cargo::rerun-if-changed=build.rs");
    println!("cargo::rerun-if-changed={}", library.display());
    if library.is_file() {
        println!("cargo::rustc-link-search=native={}", folder.display());
    } else {
        println!(
            "cargo::error=no {}: run `rt lib` in crates/exports, or set EXPORTS_DIR to its folder",
            library.display()
        );
    }
}
