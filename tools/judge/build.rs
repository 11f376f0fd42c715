//! Makes the judge's copies of the Rust source, in the build folder only: `rate.rs` as it is, and with document 01's
//! stand-ins in place of the library's `exp` and `powf`. A source that no longer has the three calls stops the build.

use std::path::{Path, PathBuf};
use std::{env, fs};

/// Where the source is looked for, from this folder, when `RATE_SRC` is not set.
const SOURCES: [&str; 2] = ["../../../shared/docs/src", "../../docs/src"];
/// Where the proved code's static library is, from this folder, when `EXPORTS_DIR` is not set.
const EXPORTS: &str = "../../crates/exports/out";
/// Where that of the calls by value is, when neither `BY_VALUE_DIR` nor `EXPORTS_DIR` is set.
const BY_VALUE: &str = "../../crates/by_value/out";
/// Where that of the half-power and the exponential is, when neither `PROBE_DIR` nor `EXPORTS_DIR` is set.
const PROBE: &str = "../../crates/probe/out";
/// The link layer's files within the source.
const LINK: &str = "core/aether-link/src";
/// The read-only view of a controller's private state that every copy gets.
const ACCESSORS: &str = "patch/accessors.rs";

fn main() {
    let here = PathBuf::from(env::var_os("CARGO_MANIFEST_DIR").expect("set by cargo"));
    let out = PathBuf::from(env::var_os("OUT_DIR").expect("set by cargo"));
    let link = source(&here).join(LINK);
    let rate = without_inner_docs(&read(&link.join("rate.rs")));
    let accessors = read(&here.join(ACCESSORS));

    let standin = replaced(&rate, "(-x).exp()", "crate::standin::exp(-x)", 1);
    let standin = replaced(&standin, "0.5_f64.powf(", "crate::standin::half(", 2);
    no_other_call(&standin);
    write(&out.join("rate_standin.rs"), &(standin + "\n" + &accessors));
    write(&out.join("rate_library.rs"), &(rate + "\n" + &accessors));
    let frames = data_header(&read(&link.join("frames.rs")));
    write(&out.join("frames.rs"), &frames);

    libraries(&here);
    println!("cargo:rerun-if-env-changed=RATE_SRC");
    println!("cargo:rerun-if-env-changed=EXPORTS_DIR");
    println!("cargo:rerun-if-env-changed=BY_VALUE_DIR");
    println!("cargo:rerun-if-env-changed=PROBE_DIR");
    println!("cargo:rerun-if-changed=build.rs");
}

/// The source's folder: `RATE_SRC`, else the first of `SOURCES` that is there.
fn source(here: &Path) -> PathBuf {
    if let Some(given) = env::var_os("RATE_SRC") {
        return here.join(given);
    }
    SOURCES
        .iter()
        .map(|place| here.join(place))
        .find(|place| place.is_dir())
        .unwrap_or_else(|| panic!("no Rust source in {SOURCES:?}; set RATE_SRC to its folder"))
}

/// Tells the linker where the libraries are; only the binaries that name one need it to be there.
fn libraries(here: &Path) {
    let exports = env::var_os("EXPORTS_DIR");
    let by_value = env::var_os("BY_VALUE_DIR").or_else(|| exports.clone());
    let probe = env::var_os("PROBE_DIR").or_else(|| exports.clone());
    for (folder, name) in [
        (exports.unwrap_or_else(|| EXPORTS.into()), "libexports.a"),
        (by_value.unwrap_or_else(|| BY_VALUE.into()), "libby_value.a"),
        (probe.unwrap_or_else(|| PROBE.into()), "libprobe.a"),
    ] {
        let folder = here.join(folder);
        println!("cargo:rustc-link-search=native={}", folder.display());
        let library = folder.join(name);
        if library.is_file() {
            println!("cargo:rerun-if-changed={}", library.display());
        }
    }
}

fn read(path: &Path) -> String {
    println!("cargo:rerun-if-changed={}", path.display());
    fs::read_to_string(path).unwrap_or_else(|e| panic!("cannot read {}: {e}", path.display()))
}

fn write(path: &Path, text: &str) {
    fs::write(path, text).unwrap_or_else(|e| panic!("cannot write {}: {e}", path.display()));
}

/// The text without its leading `//!` lines, which an included file may not have.
fn without_inner_docs(text: &str) -> String {
    let code = text.lines().filter(|line| !line.starts_with("//!"));
    code.map(|line| format!("{line}\n")).collect()
}

/// The text with each `from` made `to`; it must stand there exactly `times` times.
fn replaced(text: &str, from: &str, to: &str, times: usize) -> String {
    let found = text.matches(from).count();
    assert!(
        found == times,
        "rate.rs has `{from}` {found} times where {times} are expected: the source has changed"
    );
    text.replace(from, to)
}

/// The patched copy may call no other function of the library whose last bit is the library's own.
fn no_other_call(text: &str) {
    for call in [
        ".exp(",
        ".exp2(",
        ".exp_m1(",
        ".powf(",
        ".powi(",
        ".ln(",
        ".mul_add(",
    ] {
        assert!(
            !text.contains(call),
            "rate.rs has `{call}` where no stand-in is known: the source has changed"
        );
    }
}

/// The one line of `frames.rs` that the controller uses.
fn data_header(text: &str) -> String {
    let wanted = "pub const DATA_HEADER: usize = ";
    let found: Vec<&str> = text.lines().filter(|l| l.starts_with(wanted)).collect();
    assert!(
        found == ["pub const DATA_HEADER: usize = 3;"],
        "frames.rs has {found:?} where DATA_HEADER = 3 is expected: the source has changed"
    );
    found[0].to_owned() + "\n"
}
