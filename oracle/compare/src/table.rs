//! The input of the lister and its table: slot records of captured messages, whole and damaged, of the longest and of short ones, and at the end one
//! that is not all there. What a line says is the model's answer on the message, and the crate's where it has one.

use crate::buffers::crossed;
use crate::inputs::captures::Capture;
use crate::inputs::examples::{hex, on_bytes};
use crate::inputs::pieces;
use crate::rng::Rng;
use crate::sample::{answers, Making};
use records::ending::about;
use records::{Request, ADD_PATH, GUESS};
use std::fmt::Write as _;
use std::io::{self, Write};

/// The most bytes that the lister holds of its input, and of its output, which is full where it has no room for any line.
const INPUT: usize = 131_072;
const OUTPUT: usize = 65_536;
const LINE: usize = 224;

/// Slots of a few bytes, whose lines are longer than they.
const SHORT: usize = 6_000;

const MARK: [u8; 2] = [0xC5, 0x3A];
const UPDATE: u64 = 2;
const HEADER: usize = 19;

const HEADING: &str = "no type claimed kept state withdrawn announced host\n";

/// A slot: its settings byte and its kept bytes.
struct Slot {
    settings: u8,
    kept: Vec<u8>,
}

impl Slot {
    fn new(settings: u8, kept: Vec<u8>) -> Slot {
        Slot { settings, kept }
    }

    fn record(&self) -> Vec<u8> {
        let count = u16::try_from(self.kept.len()).expect("a slot keeps 65,535 bytes at most");
        [&MARK[..], &count.to_be_bytes(), &[self.settings], &self.kept].concat()
    }
}

/// The records of document 01: what comes after an all-FF marker, under settings 0.
const THREE: &[&str] = &["00 13 04", "00 1B 02 00 00 00 00 18 0A 01 08", "00 1B 02 00 00 00 00 18 0A 01"];

/// Lengths, types, states and sections of every kind, likewise.
const PLAIN: &[&str] = &[
    "00 13",
    "00 12 09",
    "00 13 09",
    "00 13 00",
    "00 13 06",
    "10 01 01",
    "10 01 04",
    "10 00 01",
    "00 1D 01 04 FD E9 00 B4 0A 00 00 01 00",
    "00 15 03 06 02",
    "00 17 05 00 01 00 01",
    "00 13 04 C5",
    "FF FF 05",
    "00 1B 02 00 00 00 00 18 0A 01 08 18 0A 01 09",
    "00 13 02",
    "00 14 02 00",
    "00 18 02 00 05 00 00 00",
    "00 16 02 00 00 00",
    "00 17 02 00 00 00 01",
    "00 17 02 00 00 00 00",
    "00 21 02 00 05 08 0A 10 0A 0B 00 04 40 01 01 00 00",
    "00 19 02 00 01 08 00 00 08",
    "00 20 02 00 03 18 0A 01 00 00 21 0A 00 00 00 00",
    "00 22 02 00 06 21 0A 00 00 00 00 00 00 20 0A 00 00 01",
];

/// 10.255.0.0/9 and other routes with a host bit, likewise: in one section, in the other and in both; before a refusal in either; in a message
/// that trails, in two that are cut, and in a body that is refused.
const HOSTS: &[&str] = &[
    "00 1A 02 00 00 00 00 09 0A FF",
    "00 1A 02 00 03 09 0A FF 00 00",
    "00 23 02 00 06 09 0A FF 09 0B FF 00 00 09 0A FF 09 0A 80",
    "00 1E 02 00 04 09 0A FF 21 00 00 09 0A FF",
    "00 1E 02 00 03 09 0A FF 00 00 09 0A FF 09",
    "00 1A 02 00 00 00 00 09 0A FF 09 0A FF",
    "00 1D 02 00 00 00 00 09 0A FF",
    "00 1D 02 00 00 00 00 09 0A FF 09",
    "00 18 02 00 05 09 0A FF",
];

/// Lists that each setting reads otherwise, likewise, but under every settings byte.
const SET: &[&str] = &[
    "00 1D 02 00 00 00 00 00 00 00 07 08 0A",
    "00 20 02 00 09 00 18 0A 01 08 18 C8 02 00 00 00",
    "00 21 02 00 07 00 00 00 07 09 0A FF 00 00 09 0A FF",
];

fn after_marker(settings: u8, text: &str) -> Slot {
    Slot::new(settings, [vec![0xFF; 16], hex(text)].concat())
}

fn three() -> impl Iterator<Item = Slot> {
    THREE.iter().map(|text| after_marker(0, text))
}

/// The records made by hand.
fn examples() -> Vec<Slot> {
    let mut slots: Vec<Slot> = three().collect();
    slots.extend(PLAIN.iter().chain(HOSTS).map(|text| after_marker(0, text)));
    slots.extend(SET.iter().flat_map(|text| (0..4).map(|settings| after_marker(settings, text))));
    slots.push(Slot::new(0, vec![]));
    slots.push(Slot::new(0, [vec![0; 16], hex(THREE[0])].concat()));
    slots
}

/// An UPDATE of 65,535 bytes that announces as many routes as it can hold; a slot keeps so many bytes of it.
fn longest(kept: usize) -> Slot {
    let mut message = vec![0xFF; 16];
    message.extend([0xFF, 0xFF, 2]);
    message.resize(kept, 0);
    Slot::new(0, message)
}

/// An UPDATE of 65,535 bytes with as many host bits as it can hold, in both sections.
fn longest_hosts() -> Slot {
    let section = [1, 0x7F].repeat(16_378);
    let message = [&[0xFF; 18][..], &[2], &pieces::body(&section, &[], &section)].concat();
    Slot::new(0, message)
}

/// A message as a drive may have spoilt it: cut, with a byte changed, or with bytes after it.
fn damaged(rng: &mut Rng, message: &[u8]) -> Vec<u8> {
    let mut kept = message.to_vec();
    match rng.under(3) {
        0 => kept.truncate(rng.under(message.len())),
        1 => kept[rng.under(message.len())] = rng.byte(),
        _ => kept.extend((0..=rng.under(9)).map(|_| 0)),
    }
    kept
}

/// Every record of the input but the last, which is short.
fn slots(seed: u64, captures: &[Capture]) -> Vec<Slot> {
    let mut rng = Rng::new(seed);
    let mut slots = examples();
    for capture in captures {
        let plain = capture.settings() & ADD_PATH;
        slots.push(Slot::new(plain, capture.bytes.clone()));
        slots.push(Slot::new(plain | GUESS, capture.bytes.clone()));
        slots.push(Slot::new(rng.byte() & (ADD_PATH | GUESS), damaged(&mut rng, &capture.bytes)));
    }
    for _ in 0..SHORT {
        let from = captures[rng.under(captures.len())].bytes.as_slice();
        slots.push(Slot::new(0, from[..rng.under(4)].to_vec()));
    }
    for kept in [65_535, 65_534, 4_096] {
        slots.push(longest(kept));
        slots.extend(three());
    }
    slots.push(longest_hosts());
    slots
}

/// How often the lister's output is full in a run, by the starts of the records that cross its input's end, where it writes too.
fn full_outputs(crossed: &[usize], sizes: impl Iterator<Item = (usize, usize)>) -> io::Result<usize> {
    let (mut full, mut start, mut put) = (0, 0, 0);
    for (record, line) in sizes {
        if crossed.contains(&start) {
            put = 0;
        }
        if OUTPUT - put < LINE {
            put = 0;
            full += 1;
        }
        start += record;
        put += line;
    }
    match full {
        0 => Err(io::Error::other("the lister's output is never full: another seed")),
        _ => Ok(full),
    }
}

/// The numbers of an answer's line, after the record's: op, refusal, and what the op answers.
fn numbers(line: &str) -> Vec<u64> {
    line.split(' ').skip(1).map_while(|word| word.parse().ok()).collect()
}

/// What a line says of a message of another type than UPDATE, up to its sections; or why it is refused.
fn fields(kept: usize, header: &[u64]) -> Result<String, u64> {
    match header {
        [_, 0, kind, claimed, _taken, _marker, cut, trailing, ..] => {
            let state = ["whole", "trailing", "cut"][(2 * cut + trailing) as usize];
            Ok(format!("{kind} {claimed} {kept} {state}"))
        }
        [_, refusal, ..] => Err(*refusal),
        _ => Err(0),
    }
}

/// The request for the sections of an UPDATE, where there is one.
fn sections(slot: &Slot, header: &[u64]) -> Option<Request> {
    match header {
        [_, 0, UPDATE, _, taken, ..] => Some(on_bytes(11, slot.settings, (0, 0), &slot.kept[HEADER..*taken as usize])),
        _ => None,
    }
}

/// The line of a slot after its number, by the answers on its header and on its body.
fn entry(slot: &Slot, header: &[u64], body: Option<&[u64]>) -> String {
    let said = match (fields(slot.kept.len(), header), body) {
        (Ok(fields), None) => Ok(format!("{fields} - - -")),
        (Ok(fields), Some([_, 0, withdrawn, verdict, announced, other, first, second])) => {
            Ok(format!("{fields} {withdrawn}/{verdict} {announced}/{other} {}", first + second))
        }
        (Ok(_), Some(body)) => Err(body[1]),
        (Err(refusal), _) => Err(refusal),
    };
    said.unwrap_or_else(|refusal| format!("refused {refusal}"))
}

/// The table of slots and of the short record after them.
fn table(slots: &[Slot], headers: &[String], bodies: &[String]) -> String {
    let (mut text, mut bodies) = (HEADING.to_string(), bodies.iter());
    for (number, (slot, header)) in (1..).zip(slots.iter().zip(headers)) {
        let header = numbers(header);
        let body = sections(slot, &header).and_then(|_| bodies.next()).map(|line| numbers(line));
        writeln!(text, "{number} {}", entry(slot, &header, body.as_deref())).expect("a string");
    }
    writeln!(text, "stop {}", slots.len() + 1).expect("a string");
    text
}

/// Writes `slots.bin` and `table.txt`. Whether crate and model agree on every message.
pub fn write(making: &Making, out: &mut impl Write) -> io::Result<bool> {
    let (folder, programs) = (making.folder, making.programs);
    let slots = slots(making.seed, making.captures);
    let records: Vec<Vec<u8>> = slots.iter().map(Slot::record).collect();
    let on_headers: Vec<Request> = slots.iter().map(|slot| on_bytes(9, 0, (0, 0), &slot.kept)).collect();
    let headers = answers(&on_headers, &[], &folder.join("headers.bin"), programs)?;
    let all = slots.iter().zip(&headers.lines);
    let on_bodies: Vec<Request> = all.filter_map(|(slot, header)| sections(slot, &numbers(header))).collect();
    let bodies = answers(&on_bodies, &[], &folder.join("bodies.bin"), programs)?;
    let text = table(&slots, &headers.lines, &bodies.lines);
    let lines = text.split_inclusive('\n').skip(1).map(str::len);
    let crossed = crossed(INPUT, records.iter().map(Vec::len))?;
    let full = full_outputs(&crossed, records.iter().map(Vec::len).zip(lines))?;
    let short = &slots[0].record()[..7];
    for (name, bytes) in [("slots.bin", [&records.concat(), short].concat()), ("table.txt", text.clone().into_bytes())]
    {
        let file = folder.join(name);
        std::fs::write(&file, bytes).map_err(|error| about(file.display(), error))?;
    }
    let (by_crate, differences) = (headers.by_crate + bodies.by_crate, headers.differences + bodies.differences);
    writeln!(
        out,
        "table: {} records and a stop; the input is full {} times, with a record across each end, and the output {} times; {by_crate} of {} answers by the crate, {differences} where the model differs",
        slots.len(),
        crossed.len(),
        full,
        on_headers.len() + on_bodies.len()
    )?;
    Ok(differences == 0)
}
