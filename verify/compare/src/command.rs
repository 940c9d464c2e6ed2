//! The common parts of the programs that hold others against each other.

use std::io;
use std::process::ExitCode;

/// Does the work that the arguments of the program with this name ask for. If they ask for nothing, it says how the
/// program is used, with the status 2. The status is 0 if the outcome is `true`, and 1 otherwise.
pub fn status_of<A>(
    name: &str,
    usage: &str,
    asked: Option<A>,
    act: impl FnOnce(&A) -> io::Result<bool>,
) -> ExitCode {
    let asked = match asked {
        Some(asked) => asked,
        None => {
            eprintln!("usage: {name} {usage}");
            return ExitCode::from(2);
        }
    };
    match act(&asked) {
        Ok(true) => ExitCode::SUCCESS,
        Ok(false) => ExitCode::FAILURE,
        Err(error) => {
            eprintln!("{name}: {error}");
            ExitCode::FAILURE
        }
    }
}

/// Returns an error of a program's own.
pub fn failed(what: &str) -> io::Error {
    io::Error::new(io::ErrorKind::Other, what.to_string())
}
