//! A proved program, `trace` or `tables`, run on an input.

use std::io::{Read, Write};
use std::path::{Path, PathBuf};
use std::process::{Command, Stdio};

/// The crates' folder.
const CRATES: &str = concat!(env!("CARGO_MANIFEST_DIR"), "/../../crates");

/// What the program answered, and what went wrong with it, if anything.
pub struct Answered {
    pub output: Vec<u8>,
    pub failure: Option<String>,
}

/// The path of the program of that name: the variable that is its name in capitals, else where the toolchain puts it.
/// Ends this program with status 2 if it is not there.
pub fn find(name: &str) -> PathBuf {
    let variable = name.to_uppercase();
    let place = || format!("{CRATES}/{name}/out/{name}").into();
    let path = PathBuf::from(std::env::var_os(&variable).unwrap_or_else(place));
    match path.canonicalize() {
        Ok(found) if found.is_file() => found,
        _ => {
            let place = path.display();
            eprintln!("no program `{name}` at {place}; build it, or set {variable} to its path");
            std::process::exit(2);
        }
    }
}

/// Gives the program its whole input and takes its whole output.
pub fn answered(program: &Path, input: &[u8]) -> Answered {
    match started(program, input) {
        Ok(answered) => answered,
        Err(error) => Answered {
            output: Vec::new(),
            failure: Some(error.to_string()),
        },
    }
}

fn started(program: &Path, input: &[u8]) -> std::io::Result<Answered> {
    let mut child = Command::new(program)
        .stdin(Stdio::piped())
        .stdout(Stdio::piped())
        .spawn()?;
    let mut to = child.stdin.take().expect("it is piped");
    let mut from = child.stdout.take().expect("it is piped");
    let mut output = Vec::new();
    std::thread::scope(|scope| {
        // a program that ends early leaves input unread: its output and status tell
        scope.spawn(move || to.write_all(input).ok());
        from.read_to_end(&mut output)
    })?;
    let status = child.wait()?;
    let failure = (!status.success()).then(|| status.to_string());
    Ok(Answered { output, failure })
}
