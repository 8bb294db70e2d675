//! Records that the format does not give: each is the last of a run that prints `stop` and its number.

use crate::inputs::examples::{hex, on_bytes, request, words};
use crate::programs::Program;
use records::ending::about;
use records::Request;
use std::io::{self, Write};
use std::path::Path;

fn record(request: Request) -> Vec<u8> {
    let mut bytes = vec![];
    request.write_to(&mut bytes);
    bytes
}

/// A record with all three parts.
fn good_record() -> Vec<u8> {
    record(request(17, 0, (64, 0), [words(&[0; 6]), hex("400600"), words(&[0; 6])], 0))
}

/// A record that lacks its last byte.
pub fn short_record() -> Vec<u8> {
    let mut bytes = good_record();
    bytes.pop();
    bytes
}

/// Rows whose last number is cut, to write and to take marks off.
fn cut_stores() -> [Vec<u8>; 4] {
    [(27, 26), (28, 1), (28, 23), (28, 26)].map(|(op, size)| record(on_bytes(op, 0, (9, 0), &vec![0; size])))
}

/// Questions with half a place of an index, and with a number that is not four bytes.
fn cut_questions() -> [Vec<u8>; 8] {
    [(1, 4), (3, 4), (5, 4), (2, 0), (2, 3), (2, 5), (2, 8), (0, 0)]
        .map(|(index, number)| record(request(30, 0, (0, 0), [vec![0; 9], vec![0; index], vec![0; number]], 0)))
}

/// Runs that end in a stop: the bytes after one good record.
fn bad_records() -> Vec<Vec<u8>> {
    let with_numbers = |op, parts| record(request(op, 0, (9, 0), parts, 0));
    let with_argument = |argument, part_3| record(request(21, 0, (9, 9), [vec![], vec![], vec![0; part_3]], argument));
    let mut bad = vec![
        record(on_bytes(0, 0, (0, 0), &[])),
        record(on_bytes(31, 0, (0, 0), &[])),
        record(on_bytes(255, 0, (0, 0), &[])),
        record(on_bytes(3, 64, (0, 0), &[])),
        record(on_bytes(9, 128, (0, 0), &[])),
        record(on_bytes(9, 255, (0, 0), &[])),
        record(on_bytes(2, 0, (400_001, 0), &[])),
        record(on_bytes(6, 0, (0, 400_001), &[])),
        record(on_bytes(3, 0, (0, 400_001), &[])),
        with_numbers(13, [vec![0; 23], vec![], vec![]]),
        with_numbers(14, [vec![0; 7], vec![], vec![]]),
        with_numbers(14, [vec![0; 8], vec![0; 1], vec![]]),
        with_numbers(15, [vec![0; 4], vec![], vec![]]),
        with_numbers(15, [vec![0; 12], vec![], vec![]]),
        with_numbers(15, [vec![], vec![], vec![]]),
        with_numbers(17, [vec![0; 25], vec![], vec![]]),
        with_numbers(17, [vec![], vec![], vec![0; 26]]),
        with_numbers(18, [vec![], vec![], vec![]]),
        with_numbers(18, [vec![], vec![0; 3], vec![]]),
        with_numbers(18, [vec![], vec![0; 5], vec![]]),
        with_numbers(18, [vec![], vec![0; 8], vec![]]),
        with_argument(1, 0),
        with_argument(7, 6),
        with_argument(255, 254),
        with_numbers(26, [vec![0; 16], vec![0; 23], vec![]]),
        with_numbers(26, [vec![], vec![0; 1], vec![]]),
        record(on_bytes(3, 0, (0, 0), &vec![0; 400_001])),
        record(request(3, 0, (0, 0), [vec![], vec![0; 400_001], vec![]], 0)),
        record(request(3, 0, (0, 0), [vec![], vec![], vec![0; 400_001]], 0)),
    ];
    bad.extend(cut_stores());
    bad.extend(cut_questions());
    bad.extend([29, 30].map(|op| record(request(op, 64, (0, 0), [vec![], vec![], vec![0; 4]], 0))));
    let good = good_record();
    bad.extend((1..good.len()).map(|cut| good[..cut].to_vec()));
    bad
}

/// Differences shown; the others are counted.
const SHOWN: u64 = 5;

/// Tries every stop on every program; how many differ from `stop 2` after one line.
pub fn compare(programs: &[&Program], folder: &Path, out: &mut impl Write) -> io::Result<u64> {
    let mut good = vec![];
    on_bytes(3, 0, (0, 0), &hex("200A000001")).write_to(&mut good);
    let file = folder.join("stop.bin");
    let mut differences = 0;
    let bad = bad_records();
    for bytes in &bad {
        std::fs::write(&file, [good.as_slice(), bytes].concat()).map_err(|error| about(file.display(), error))?;
        for program in programs {
            let mut lines = program.run(&file)?;
            let mut line = String::new();
            lines.next(&mut line)?;
            lines.next(&mut line)?;
            if !lines.end()? || line != "stop 2" {
                differences += 1;
                if differences > SHOWN {
                    continue;
                }
                writeln!(out, "{} does not stop at {:02x?}: {line}", program.name, &bytes[..bytes.len().min(40)])?;
            }
        }
    }
    writeln!(out, "stops: {} tried on {} programs, {differences} differ", bad.len(), programs.len())?;
    Ok(differences)
}
