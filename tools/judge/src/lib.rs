//! What the judge's programs share: the source's controller in two variants, document 01's stand-ins read apart from
//! the proved code, inputs by class, and comparison bit for bit.

pub mod asked;
pub mod bits;
pub mod branches;
pub mod counts;
pub mod coverage;
pub mod draw;
pub mod event;
pub mod forms;
pub mod inputs;
pub mod limits;
pub mod list;
pub mod natural;
pub mod oracle;
pub mod paper;
pub mod program;
pub mod random;
pub mod record;
pub mod standin;
pub mod table;
pub mod trace;
pub mod words;

use std::ffi::OsString;
use std::path::PathBuf;

/// What the controller uses of the source's `frames.rs`.
pub mod frames {
    include!(concat!(env!("OUT_DIR"), "/frames.rs"));
}

/// The source's controller, with the stand-ins for `exp` and `powf`: the judge.
pub mod rate {
    include!(concat!(env!("OUT_DIR"), "/rate_standin.rs"));
}

/// The source's controller as it is, with the library's own `exp` and `powf`.
pub mod rate_library {
    include!(concat!(env!("OUT_DIR"), "/rate_library.rs"));
}

/// The program's arguments, whole numbers, with these values for the ones not given. Ends the program on any other.
pub fn arguments<const N: usize>(values: [u64; N]) -> [u64; N] {
    arguments_after(0, values)
}

/// The same for what follows the first `paths` arguments.
pub fn arguments_after<const N: usize>(paths: usize, mut values: [u64; N]) -> [u64; N] {
    for (at, text) in std::env::args().skip(1 + paths).enumerate() {
        let Some(value) = values.get_mut(at) else {
            misused(&format!("at most {N} whole numbers are taken"));
        };
        *value = whole(&text);
    }
    values
}

/// The program's arguments that are paths: the first ones, all of them needed. Ends the program if one is not given.
pub fn path_arguments<const N: usize>(names: [&str; N]) -> [PathBuf; N] {
    paths(&mut std::env::args_os().skip(1), names)
}

/// The program's arguments where they are a seed and then paths, all of them needed and no other.
pub fn seed_and_paths<const N: usize>(names: [&str; N]) -> (u64, [PathBuf; N]) {
    let mut given = std::env::args_os().skip(1);
    let Some(seed) = given.next() else {
        misused("no seed is given");
    };
    let seed = whole(&seed.to_string_lossy());
    let paths = paths(&mut given, names);
    if given.next().is_some() {
        misused(&format!("only a seed and {N} paths are taken"));
    }
    (seed, paths)
}

fn paths<const N: usize>(
    given: &mut impl Iterator<Item = OsString>,
    names: [&str; N],
) -> [PathBuf; N] {
    names.map(|name| match given.next() {
        Some(path) => path.into(),
        None => misused(&format!("no {name} is given")),
    })
}

fn whole(text: &str) -> u64 {
    let parsed = text.parse();
    parsed.unwrap_or_else(|_| misused(&format!("`{text}` is no whole number")))
}

/// Ends a comparison with the line that each ends in, and with status 1 if any differ.
pub fn ended(name: &str, compared: u64, differences: u64) -> ! {
    println!("{name}: {compared} compared, {differences} differences");
    std::process::exit(i32::from(differences > 0));
}

fn misused(why: &str) -> ! {
    eprintln!("{why}");
    std::process::exit(2);
}
