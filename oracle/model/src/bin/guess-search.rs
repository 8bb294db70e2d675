//! Searches for the smallest legal IPv4 lists without ids that the guess reads wrongly.
//!
//! Legal means well-formed with the guess off. With fewer than five bytes an item with an id never fits, so the
//! guess falls back everywhere and reads every legal list rightly. With five bytes an item with an id fits only
//! from the first place, which holds 0, and only with length 0: all of those are tried. Longer lists are tried
//! over the bytes where something changes.

use records::{Answer, Request, GUESS};
use std::io::{self, Write};
use std::process::ExitCode;

const ALPHABET: [u8; 12] = [0, 1, 8, 9, 10, 16, 24, 25, 32, 33, 192, 255];

/// Lists up to this many bytes are tried over the alphabet.
const LONGEST: u32 = 6;

fn read(bytes: &[u8], settings: u8) -> Answer {
    let parts = [bytes.to_vec(), vec![], vec![]];
    model::answer(&Request { op: 2, settings, room_a: 6 * bytes.len(), parts, ..Request::default() })
}

#[derive(Default)]
struct Found {
    legal: u64,
    misread: u64,
    refused: u64,
    first_misread: Option<Vec<u8>>,
    first_refused: Option<Vec<u8>>,
    first_misread_no_twice: Option<Vec<u8>>,
    first_refused_no_twice: Option<Vec<u8>>,
}

/// Whether no two rows of a store are the same route and no address has a bit past its length.
fn is_tidy(answer: &Answer) -> bool {
    let records::Lent::Numbers(store) = &answer.lent[0] else { return false };
    let rows: Vec<&[u32]> = store.chunks_exact(6).take(answer.numbers[0] as usize).collect();
    let host_rows = answer.numbers[1];
    host_rows == 0 && (1..rows.len()).all(|at| !rows[..at].contains(&rows[at]))
}

impl Found {
    fn try_list(&mut self, bytes: &[u8]) {
        let plain = read(bytes, 0);
        if plain.refusal != 0 {
            return;
        }
        self.legal += 1;
        let guessed = read(bytes, GUESS);
        if guessed == plain {
            return;
        }
        let keep = |first: &mut Option<Vec<u8>>| {
            first.get_or_insert_with(|| bytes.to_vec());
        };
        let tidy = is_tidy(&plain);
        if guessed.refusal == 0 {
            self.misread += 1;
            keep(&mut self.first_misread);
            if tidy {
                keep(&mut self.first_misread_no_twice);
            }
        } else {
            self.refused += 1;
            keep(&mut self.first_refused);
            if tidy {
                keep(&mut self.first_refused_no_twice);
            }
        }
    }

    fn print(&self, what: &str, out: &mut impl Write) -> io::Result<()> {
        writeln!(out, "{what}: {} legal lists, {} misread, {} refused", self.legal, self.misread, self.refused)?;
        for (name, list) in [
            ("misread", &self.first_misread),
            ("misread, no route twice and no host bits", &self.first_misread_no_twice),
            ("refused", &self.first_refused),
            ("refused, no route twice and no host bits", &self.first_refused_no_twice),
        ] {
            if let Some(bytes) = list {
                writeln!(out, "  first {name}: {bytes:02X?}, guess: {}", read(bytes, GUESS).line(0, 2))?;
            }
        }
        Ok(())
    }
}

fn over_alphabet(length: u32, out: &mut impl Write) -> io::Result<()> {
    let mut found = Found::default();
    for mut number in 0..ALPHABET.len().pow(length) {
        let mut bytes = vec![0; length as usize];
        for place in bytes.iter_mut().rev() {
            *place = ALPHABET[number % ALPHABET.len()];
            number /= ALPHABET.len();
        }
        found.try_list(&bytes);
    }
    found.print(&format!("{length} bytes over {} values", ALPHABET.len()), out)
}

fn search() -> io::Result<bool> {
    let mut out = io::stdout().lock();
    let mut found = Found::default();
    for number in 0..1u32 << 24 {
        let [_, a, b, c] = number.to_be_bytes();
        found.try_list(&[0, a, b, c, 0]);
    }
    found.print("all of 00 .. .. .. 00", &mut out)?;
    for length in 1..=LONGEST {
        over_alphabet(length, &mut out)?;
    }
    Ok(true)
}

fn main() -> ExitCode {
    records::ending::end("guess-search", search())
}
