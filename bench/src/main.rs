//! bench [--quick] [PART..]: measures the cases whose name has one of the parts (all without any), and
//! prints tables in Markdown. CAPTURES names the file of captured messages. ./run builds it and runs it.

mod answers;
mod cases;
mod inputs;
mod library;
mod measure;
mod sides;
mod table;

use cases::Cases;
use compare::inputs::captures::{self, Capture};
use compare::inputs::Inputs;
use measure::Effort;
use records::ending::{self, say};
use std::io;
use std::path::Path;
use std::process::ExitCode;

/// Requests of the comparison, good, damaged and refused, that all sides answer alike before any timing.
const COMPARED: u64 = 42_000;

/// What they are made from.
const SEED: u64 = 7;

/// The script that this program runs for, in what it says.
fn me() -> String {
    std::env::var("CALLED_AS").unwrap_or_else(|_| "bench".to_string())
}

fn effort(options: &[&str]) -> io::Result<Effort> {
    match options {
        [] => Ok(Effort::FULL),
        ["--quick"] => Ok(Effort::QUICK),
        _ => Err(io::Error::other("usage: bench [--quick] [PART..]")),
    }
}

/// Measures the cases that are asked for; whether each is within its target.
fn bench(arguments: &[String]) -> io::Result<bool> {
    let (options, wanted): (Vec<&str>, Vec<&str>) =
        arguments.iter().map(String::as_str).partition(|word| word.starts_with("--"));
    let effort = effort(&options)?;
    let path =
        std::env::var_os("CAPTURES").ok_or_else(|| io::Error::other("CAPTURES names no file of captured messages"))?;
    let load = || captures::load(Path::new(&path));
    let captured = load()?;

    crate_oracle::oracle::warnings::record_from_now_on();
    compare_more(load()?)?;
    let made = Cases::new(&wanted, &captured)?;
    // From here on the crate's warnings are off, as for a user without a logger.
    log::set_max_level(log::LevelFilter::Off);
    table::measure(made, effort, &mut io::stdout().lock())
}

fn main() -> ExitCode {
    let arguments: Vec<String> = std::env::args_os().skip(1).map(|word| word.to_string_lossy().into_owned()).collect();
    ending::end(&me(), bench(&arguments))
}

/// Compares answers on requests of the comparison that have a call: good, damaged and refused.
fn compare_more(captured: Vec<Capture>) -> io::Result<()> {
    let mut inputs = Inputs::new(SEED, captured);
    let mut compared = 0;
    while compared < COMPARED {
        let asked = inputs.next();
        if answers::has_call(asked.op) {
            cases::compare("comparison", &asked, &asked)?;
            compared += 1;
        }
    }
    say(&me(), format!("{compared} requests of the comparison answered alike"));
    Ok(())
}
