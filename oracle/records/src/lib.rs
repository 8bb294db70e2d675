//! Request records and answer lines: the format of the program `answers`, and nothing of what an answer is.

pub mod ending;

use ending::about;
use std::fmt::Write as _;
use std::io::{self, BufRead, BufReader, BufWriter, Read, Write};
use std::process::ExitCode;

pub const ADD_PATH: u8 = 1;
pub const GUESS: u8 = 2;
pub const IPV6: u8 = 4;
pub const FOUR_BYTE_AS: u8 = 8;
pub const STRICT: u8 = 16;
/// A strict header by RFC 8654; by RFC 4271 without.
pub const EXTENDED: u8 = 32;

/// A settings byte is at most all of them.
pub const LAST_SETTINGS: u8 = 63;

/// Ops are numbered from 1 up to this one.
pub const LAST_OP: u8 = 30;

/// The most places of a room and bytes of a part.
pub const MOST: usize = 400_000;

const HEAD: usize = 18;

/// One request as the record gives it.
#[derive(Debug, Clone, Default, PartialEq, Eq)]
pub struct Request {
    pub op: u8,
    pub settings: u8,
    pub room_a: usize,
    pub room_b: usize,
    pub parts: [Vec<u8>; 3],
    pub argument: u8,
}

impl Request {
    pub fn has(&self, setting: u8) -> bool {
        self.settings & setting != 0
    }

    /// The part as big-endian numbers of four bytes; only asked for where the page says it holds numbers.
    pub fn numbers(&self, part: usize) -> Vec<u32> {
        self.parts[part].chunks_exact(4).map(|four| u32::from_be_bytes([four[0], four[1], four[2], four[3]])).collect()
    }

    /// The part as big-endian places of two bytes; only asked for where the page says it holds an index.
    pub fn places(&self, part: usize) -> Vec<u16> {
        self.parts[part].chunks_exact(2).map(|two| u16::from_be_bytes([two[0], two[1]])).collect()
    }

    /// The record's bytes.
    pub fn write_to(&self, out: &mut Vec<u8>) {
        out.push(self.op);
        out.push(self.settings);
        let parts = self.parts.iter().map(Vec::len);
        for number in [self.room_a, self.room_b].into_iter().chain(parts) {
            out.extend_from_slice(&(number as u32).to_be_bytes()[1..]);
        }
        out.push(self.argument);
        for part in &self.parts {
            out.extend_from_slice(part);
        }
    }

    /// Whether the page gives this record; if not, it prints `stop`.
    fn is_given(&self) -> bool {
        let whole = |part: usize| self.parts[part].len() % 4 == 0;
        let parts_given = match self.op {
            13 => whole(0),
            14 => whole(0) && whole(1),
            15 => self.parts[0].len() == 8,
            17 => whole(0) && whole(2),
            18 => self.parts[1].len() == 4,
            21 => usize::from(self.argument) <= self.parts[2].len(),
            26 => whole(1),
            27 | 28 => whole(0),
            30 => self.parts[1].len() % 2 == 0 && self.parts[2].len() == 4,
            _ => true,
        };
        (1..=LAST_OP).contains(&self.op) && self.settings <= LAST_SETTINGS && parts_given
    }
}

/// Bytes from the source until `buffer` is full or the source ends; how many came.
fn read_up_to(source: &mut impl Read, buffer: &mut [u8]) -> io::Result<usize> {
    let mut got = 0;
    while got < buffer.len() {
        match source.read(&mut buffer[got..])? {
            0 => break,
            more => got += more,
        }
    }
    Ok(got)
}

/// What comes next from a source of records.
pub enum Next {
    End,
    Stop,
    Request(Request),
}

/// Reads one record.
pub fn read_request(source: &mut impl Read) -> io::Result<Next> {
    let mut head = [0u8; HEAD];
    match read_up_to(source, &mut head)? {
        0 => return Ok(Next::End),
        HEAD => {}
        _ => return Ok(Next::Stop),
    }
    let three = |at: usize| usize::from(head[at]) << 16 | usize::from(head[at + 1]) << 8 | usize::from(head[at + 2]);
    let sizes = [three(2), three(5), three(8), three(11), three(14)];
    if sizes.iter().any(|size| *size > MOST) {
        return Ok(Next::Stop);
    }
    let mut request = Request {
        op: head[0],
        settings: head[1],
        room_a: sizes[0],
        room_b: sizes[1],
        parts: Default::default(),
        argument: head[17],
    };
    for (part, size) in request.parts.iter_mut().zip(&sizes[2..]) {
        *part = vec![0; *size];
        if read_up_to(source, part)? < *size {
            return Ok(Next::Stop);
        }
    }
    Ok(if request.is_given() { Next::Request(request) } else { Next::Stop })
}

/// A lent store or output after the call.
#[derive(Debug, Clone, PartialEq, Eq)]
pub enum Lent {
    Numbers(Vec<u32>),
    Bytes(Vec<u8>),
}

impl Lent {
    /// A store of 32-bit numbers as it is before a call.
    pub fn numbers(places: usize) -> Lent {
        Lent::Numbers((0..places).map(|i| 2_863_267_840 + (i % 65_536) as u32).collect())
    }

    /// A store of 16-bit places as it is before a call; they are held as numbers.
    pub fn places(places: usize) -> Lent {
        Lent::Numbers((0..places).map(|i| (i % 65_536) as u32).collect())
    }

    /// An output of bytes as it is before a call.
    pub fn bytes(places: usize) -> Lent {
        Lent::Bytes((0..places).map(|i| (i % 251) as u8).collect())
    }

    /// Puts numbers at the beginning.
    pub fn put_numbers(&mut self, written: &[u32]) {
        match self {
            Lent::Numbers(places) => places[..written.len()].copy_from_slice(written),
            Lent::Bytes(_) => panic!("numbers for an output of bytes"),
        }
    }

    /// Puts bytes at the beginning.
    pub fn put_bytes(&mut self, written: &[u8]) {
        match self {
            Lent::Bytes(places) => places[..written.len()].copy_from_slice(written),
            Lent::Numbers(_) => panic!("bytes for a store of numbers"),
        }
    }

    fn write_to(&self, line: &mut String) {
        let (sum, first): (u64, Vec<u32>) = match self {
            Lent::Numbers(places) => (sum(places.iter().copied()), places.iter().copied().take(12).collect()),
            Lent::Bytes(places) => {
                let wide = || places.iter().map(|byte| u32::from(*byte));
                (sum(wide()), wide().take(12).collect())
            }
        };
        write!(line, " | {sum}").expect("a string");
        for place in first {
            write!(line, " {place}").expect("a string");
        }
    }
}

/// The sum of places as the page defines it.
pub fn sum(places: impl Iterator<Item = u32>) -> u64 {
    places.fold(0, |h, place| (h * 65_599 + u64::from(place) + 1) % 4_294_967_291)
}

/// The sum of the bytes of a part.
pub fn sum_bytes(bytes: &[u8]) -> u64 {
    sum(bytes.iter().map(|byte| u32::from(*byte)))
}

/// What a call answered.
#[derive(Debug, Clone, Default, PartialEq, Eq)]
pub struct Answer {
    pub refusal: u32,
    pub numbers: Vec<u64>,
    pub lent: Vec<Lent>,
}

/// How many numbers come after the refusal of an op.
pub fn numbers_of(op: u8) -> usize {
    match op {
        1 | 9 | 30 => 8,
        2..=7 | 24 | 25 => 2,
        8 | 20 | 21 => 3,
        10..=12 => 6,
        18 => 7,
        19 | 22 | 23 => 5,
        _ => 1,
    }
}

/// The stores and outputs an op is lent, as they are before the call.
pub fn lent_of(request: &Request) -> Vec<Lent> {
    match request.op {
        2 | 4 | 22 | 24 => vec![Lent::numbers(request.room_a)],
        6 | 10 | 21 => vec![Lent::numbers(request.room_a), Lent::numbers(request.room_b)],
        13..=17 | 26 | 27 => vec![Lent::bytes(request.room_a)],
        28 => vec![Lent::Numbers(request.numbers(0))],
        29 => vec![Lent::places(request.room_a)],
        _ => vec![],
    }
}

impl Answer {
    /// A refusal: every number 0, every store as it was.
    pub fn refused(request: &Request, refusal: u32) -> Answer {
        Answer { refusal, numbers: vec![0; numbers_of(request.op)], lent: lent_of(request) }
    }

    /// The answer's line, without an end of line.
    pub fn line(&self, record: usize, op: u8) -> String {
        let mut line = format!("{record} {op} {}", self.refusal);
        for number in &self.numbers {
            write!(line, " {number}").expect("a string");
        }
        for lent in &self.lent {
            lent.write_to(&mut line);
        }
        line
    }
}

/// A program that answers records from standard input, a line each on standard output; `-` where there is no answer.
pub fn serve(me: &str, answer: impl FnMut(&Request) -> Option<Answer>) -> ExitCode {
    ending::end(me, answer_all(answer).map(|()| true))
}

fn answer_all(mut answer: impl FnMut(&Request) -> Option<Answer>) -> io::Result<()> {
    let unread = |error| about("standard input", error);
    let mut source = BufReader::with_capacity(1 << 16, io::stdin().lock());
    let mut out = BufWriter::with_capacity(1 << 16, io::stdout().lock());
    for record in 1.. {
        if source.fill_buf().map_err(unread)?.is_empty() {
            break;
        }
        match read_request(&mut source).map_err(unread)? {
            Next::End => break,
            Next::Stop => {
                writeln!(out, "stop {record}")?;
                break;
            }
            Next::Request(request) => match answer(&request) {
                Some(given) => writeln!(out, "{}", given.line(record, request.op))?,
                None => writeln!(out, "-")?,
            },
        }
    }
    out.flush()
}
