//! Shows that each fact of docs/DIFFERENCES.md about the crate holds: a fact that does not ends the run.

use std::io::{self, Write};
use std::process::ExitCode;

fn all_hold() -> io::Result<bool> {
    let mut out = io::stdout().lock();
    let facts = crate_oracle::oracle::facts::ALL;
    for (name, hold) in facts {
        hold();
        writeln!(out, "holds: {name}")?;
    }
    writeln!(out, "{} passed, 0 failed", facts.len())?;
    Ok(true)
}

fn main() -> ExitCode {
    records::ending::end("crate-facts", all_hold())
}
