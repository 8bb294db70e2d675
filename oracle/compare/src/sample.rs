//! The fixed sample: document 01's examples, numbers and orders of checks, requests over every op and setting, all captured
//! messages, and at the end a record that is a stop.

use crate::buffers::crossed;
use crate::inputs::captures::Capture;
use crate::inputs::{numbers, random};
use crate::marks::line_of_crate;
use crate::programs::{Built, Lines};
use crate::rng::Rng;
use crate::stops;
use records::ending::about;
use records::{Request, LAST_OP, LAST_SETTINGS};
use std::io::{self, Write};
use std::path::Path;

/// The most bytes that the program `answers` holds of its input.
const INPUT: usize = 1_310_720;

/// Random requests of each op and settings byte.
const OF_EACH: usize = 3;

fn requests(seed: u64, captures: &[Capture]) -> Vec<Request> {
    let mut rng = Rng::new(seed);
    let mut requests = numbers();
    for op in 1..=LAST_OP {
        for settings in 0..=LAST_SETTINGS {
            for _ in 0..OF_EACH {
                requests.push(random::request_of(&mut rng, op, settings));
            }
        }
    }
    requests.extend(captures.iter().flat_map(|capture| capture.requests.clone()));
    requests
}

/// What a sample is made from: a seed, the captured messages, a folder for its files, and the programs.
pub struct Making<'a> {
    pub seed: u64,
    pub captures: &'a [Capture],
    pub folder: &'a Path,
    pub programs: &'a Built,
}

/// The model's lines on requests; how many the crate has too, and where the crate's are others.
pub struct Answers {
    pub lines: Vec<String>,
    pub by_crate: u64,
    pub differences: u64,
}

/// Asks crate and model about the requests and the bytes after them, which take one line more where there are any. `file` gets the records.
pub fn answers(requests: &[Request], after: &[u8], file: &Path, programs: &Built) -> io::Result<Answers> {
    let mut bytes = vec![];
    for request in requests {
        request.write_to(&mut bytes);
    }
    bytes.extend(after);
    std::fs::write(file, &bytes).map_err(|error| about(file.display(), error))?;
    let mut runs = [programs.by_crate.run(file)?, programs.model.run(file)?, programs.unmarked.run(file)?];
    let mut given = Answers { lines: vec![], by_crate: 0, differences: 0 };
    // what comes after the requests is no request, and has no marks
    let none = Request::default();
    for request in requests.iter().chain((!after.is_empty()).then_some(&none)) {
        let [by_crate, model, unmarked] = next_lines(&mut runs)?;
        if by_crate != "-" {
            given.by_crate += 1;
            given.differences += u64::from(by_crate != line_of_crate(request, &model, &unmarked));
        }
        given.lines.push(model);
    }
    for run in runs {
        given.differences += u64::from(!run.end()?);
    }
    Ok(given)
}

fn next_lines(runs: &mut [Lines; 3]) -> io::Result<[String; 3]> {
    let mut lines = [(); 3].map(|()| String::new());
    for (run, line) in runs.iter_mut().zip(&mut lines) {
        run.next(line)?;
    }
    Ok(lines)
}

/// The bytes of a request's record.
fn size(request: &Request) -> usize {
    let mut bytes = vec![];
    request.write_to(&mut bytes);
    bytes.len()
}

/// Writes `requests.bin` and `lines.txt`; the last line is the stop's.
pub fn write(making: &Making, out: &mut impl Write) -> io::Result<bool> {
    let requests = requests(making.seed, making.captures);
    let crossed = crossed(INPUT, requests.iter().map(size))?;
    let given = answers(&requests, &stops::short_record(), &making.folder.join("requests.bin"), making.programs)?;
    let file = making.folder.join("lines.txt");
    std::fs::write(&file, given.lines.join("\n") + "\n").map_err(|error| about(file.display(), error))?;
    writeln!(
        out,
        "sample: {} requests and a stop; the input is full {} times, with a record across each end; {} lines by the crate, {} where the model differs",
        requests.len(),
        crossed.len(),
        given.by_crate,
        given.differences
    )?;
    Ok(given.differences == 0)
}
