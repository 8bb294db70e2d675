//! Compares the crate, the model and the program `answers` on the same requests.
//!
//! compare run SEED COUNT FOLDER [ANSWERS]   makes COUNT requests, in FOLDER, and compares every line
//! compare sample SEED FOLDER                writes the fixed sample into FOLDER
//! compare table SEED FOLDER                 writes the lister's input and its table into FOLDER
//!
//! CAPTURES names the file of captured messages; without it there are none. CALLED_AS is the script that it runs for.

use compare::inputs::captures::{self, Capture};
use compare::inputs::Inputs;
use compare::programs::{Built, Program};
use compare::progress::Progress;
use compare::report::{Given, Report};
use compare::{sample, stops, table};
use records::ending::{self, about};
use std::env;
use std::io::{self, Write};
use std::path::Path;
use std::process::ExitCode;

const USAGE: &str = "compare run SEED COUNT FOLDER [ANSWERS] | compare sample SEED FOLDER | compare table SEED FOLDER";

/// Requests in a chunk; a chunk is all that is kept at a time.
const CHUNK: u64 = 20_000;

/// The programs to compare: those built beside this one, and the one that is given.
struct Programs {
    built: Built,
    answers: Option<Program>,
}

impl Programs {
    fn new(answers: Option<&String>) -> io::Result<Programs> {
        let own = env::current_exe().map_err(|error| about("the folder of this program", error))?;
        Ok(Programs { built: Built::beside(&own), answers: answers.map(|path| Program::new("answers", path)) })
    }

    /// Each program once.
    fn all(&self) -> Vec<&Program> {
        [&self.built.by_crate, &self.built.model].into_iter().chain(&self.answers).collect()
    }

    /// Those that answer each request: the model also without marks.
    fn asked(&self) -> Vec<&Program> {
        [&self.built.by_crate, &self.built.model, &self.built.unmarked].into_iter().chain(&self.answers).collect()
    }
}

fn captured() -> io::Result<Vec<Capture>> {
    match env::var_os("CAPTURES") {
        Some(path) => captures::load(Path::new(&path)),
        None => Ok(vec![]),
    }
}

/// Compares `count` requests chunk by chunk; whether there was no difference. Where a program fails, the totals up to there are printed.
fn run(me: &str, seed: u64, count: u64, folder: &Path, programs: &Programs, out: &mut impl Write) -> io::Result<bool> {
    let mut inputs = Inputs::new(seed, captured()?);
    let stops = stops::compare(&programs.all(), folder, out)?;
    let mut report = Report::default();
    let mut progress = Progress::new(me, "requests", count);
    let mut done = 0;
    while done < count {
        let size = CHUNK.min(count - done);
        if let Err(error) = chunk(&mut inputs, done, size, folder, programs, &mut report, out) {
            report.finish(out)?;
            return Err(error);
        }
        done += size;
        progress.tell(done, &format!(", {} differences", report.differences()));
    }
    Ok(report.finish(out)? && stops == 0)
}

/// Makes one chunk, runs each program on it and compares line by line.
fn chunk(
    inputs: &mut Inputs,
    done: u64,
    size: u64,
    folder: &Path,
    programs: &Programs,
    report: &mut Report,
    out: &mut impl Write,
) -> io::Result<()> {
    let requests: Vec<_> = (0..size).map(|_| inputs.next()).collect();
    let mut bytes = vec![];
    for request in &requests {
        request.write_to(&mut bytes);
    }
    let file = folder.join("chunk.bin");
    std::fs::write(&file, &bytes).map_err(|error| about(file.display(), error))?;
    let mut runs = programs.asked().into_iter().map(|program| program.run(&file)).collect::<io::Result<Vec<_>>>()?;
    let mut lines = vec![String::new(); runs.len()];
    for (number, request) in (done + 1..).zip(&requests) {
        for (run, line) in runs.iter_mut().zip(&mut lines) {
            run.next(line)?;
        }
        let [by_crate, model, unmarked, ..] = &lines[..] else { unreachable!("three programs at least") };
        let given = Given { by_crate, model, unmarked, answers: lines.get(3).map(String::as_str) };
        report.add(number, request, &given, out)?;
    }
    for (run, program) in runs.into_iter().zip(programs.asked()) {
        if !run.end()? {
            report.add_more(program.name, done + size, out)?;
        }
    }
    Ok(())
}

fn number(text: &str) -> io::Result<u64> {
    text.parse().map_err(|_| io::Error::other(format!("'{text}' is no number below 2^64; usage: {USAGE}")))
}

fn command(me: &str, arguments: &[String]) -> io::Result<bool> {
    let mut out = io::stdout().lock();
    match arguments {
        [verb, seed, count, folder, rest @ ..] if verb == "run" && rest.len() <= 1 => {
            run(me, number(seed)?, number(count)?, Path::new(folder), &Programs::new(rest.first())?, &mut out)
        }
        [verb, seed, folder] if verb == "sample" || verb == "table" => {
            let programs = Programs::new(None)?;
            let making = sample::Making {
                seed: number(seed)?,
                captures: &captured()?,
                folder: Path::new(folder),
                programs: &programs.built,
            };
            if verb == "sample" {
                sample::write(&making, &mut out)
            } else {
                table::write(&making, &mut out)
            }
        }
        _ => Err(io::Error::other(format!("usage: {USAGE}"))),
    }
}

fn main() -> ExitCode {
    let me = env::var("CALLED_AS").unwrap_or_else(|_| "compare".to_string());
    let arguments: Vec<String> = env::args_os().skip(1).map(|word| word.to_string_lossy().into_owned()).collect();
    ending::end(&me, command(&me, &arguments))
}
