//! How the programs end: a sentence on standard error and a status, and no panic.

use std::fmt::Display;
use std::io::{self, Write};
use std::process::ExitCode;

/// A difference was found.
const DIFFERENCE: u8 = 1;

/// What is given or needed is wrong.
const TROUBLE: u8 = 2;

/// What shells say of a program that a closed pipe ended.
const CLOSED_PIPE: u8 = 141;

/// An error with the name of what it is about. One without is of standard output.
pub fn about(what: impl Display, error: io::Error) -> io::Error {
    io::Error::new(error.kind(), format!("{what}: {error}"))
}

/// Says a sentence on standard error; where that cannot be written, there is nobody to tell.
pub fn say(me: &str, sentence: impl Display) {
    let _ = writeln!(io::stderr(), "{me}: {sentence}");
}

/// The status of an outcome: whether there was no difference, or the trouble, which is said.
pub fn end(me: &str, outcome: io::Result<bool>) -> ExitCode {
    let error = match outcome {
        Ok(true) => return ExitCode::SUCCESS,
        Ok(false) => return ExitCode::from(DIFFERENCE),
        Err(error) => error,
    };
    if error.kind() == io::ErrorKind::BrokenPipe {
        return ExitCode::from(CLOSED_PIPE);
    }
    match error.raw_os_error() {
        Some(_) => say(me, about("standard output", error)),
        None => say(me, error),
    }
    ExitCode::from(TROUBLE)
}
