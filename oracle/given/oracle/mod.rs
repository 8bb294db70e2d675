//! The crate's own calls behind the request records. What the crate has no call for is not answered (`None`).
//! Around the crate's result stand only what document 01 and the requests add by design: refusals 1, 11, 15 and 20, and the stores.

pub mod as4;
pub mod attributes;
pub mod facts;
pub mod index;
pub mod messages;
pub mod mp_nlri;
pub mod paths;
pub mod private;
pub mod routes;
pub mod warnings;

use records::{lent_of, Answer, Request, ADD_PATH, FOUR_BYTE_AS, GUESS, STRICT};

use crate::error::{EncodingError, ParserError};
use crate::models::AsnLength;

/// The most bytes of a list, an attribute value or an attribute section.
const MOST_BYTES: usize = 65_535;

/// The most bytes of an UPDATE body.
const MOST_BODY: usize = 65_516;

/// What a call of the crate came to.
pub enum Outcome {
    /// The numbers after the refusal, and what goes into each lent store.
    Done(Vec<u64>, Vec<Contents>),
    Refused(u32),
    /// The crate has no such call, or document 01 leaves this input out of the comparison.
    NoCounterpart,
}

/// What a success puts at the beginning of a store, and how many places it needs.
pub enum Contents {
    Rows(Vec<[u32; 6]>),
    Numbers(Vec<u32>),
    Bytes(Vec<u8>),
}

/// The answer to a request, as far as the crate has one.
pub fn answer(request: &Request) -> Option<Answer> {
    if is_strict_path(request) {
        return None;
    }
    let outcome = if over_long(request) { Outcome::Refused(1) } else { call(request) };
    match outcome {
        Outcome::Done(numbers, contents) => Some(stored(request, numbers, contents)),
        Outcome::Refused(refusal) => Some(Answer::refused(request, refusal)),
        Outcome::NoCounterpart => None,
    }
}

fn call(request: &Request) -> Outcome {
    match request.op {
        1 => routes::one_route(request),
        2..=5 => routes::list_or_section(request),
        6 | 7 => paths::as_path(request),
        8 => paths::aggregator(request),
        9 => messages::header(request),
        10 | 11 => messages::update(request),
        12 => messages::update_parts(request),
        13 => routes::write(request),
        14 => paths::write(request),
        15 => paths::write_aggregator(request),
        16 => messages::write(request),
        17 => messages::write_update(request),
        18 => attributes::at(request),
        19 => attributes::first_of(request),
        20 => as4::aggregator(request),
        21 => as4::path(request),
        22..=25 => mp_nlri::read(request),
        26 | 27 => mp_nlri::write(request),
        29 => index::build(request),
        30 => index::route(request),
        _ => Outcome::NoCounterpart,
    }
}

/// Whether a path is to be judged by RFC 7606: the crate keeps an empty segment, and has no such call.
fn is_strict_path(request: &Request) -> bool {
    matches!(request.op, 6 | 7 | 14) && request.has(STRICT)
}

/// Refusal 1 of the readers, which comes before the crate is asked.
fn over_long(request: &Request) -> bool {
    let most = match request.op {
        2..=8 | 18 | 19 | 22..=25 | 29 | 30 => MOST_BYTES,
        10..=12 => MOST_BODY,
        _ => return false,
    };
    request.parts[0].len() > most
}

/// Puts the contents into the stores, or refuses with 11 and leaves them all.
fn stored(request: &Request, numbers: Vec<u64>, contents: Vec<Contents>) -> Answer {
    let rooms = [request.room_a, request.room_b];
    let mut lent = lent_of(request);
    for (content, room) in contents.iter().zip(rooms) {
        let fits = match content {
            Contents::Rows(rows) => rows.len() <= room / 6,
            Contents::Numbers(numbers) => numbers.len() <= room,
            Contents::Bytes(bytes) => bytes.len() <= room,
        };
        if !fits {
            return Answer::refused(request, 11);
        }
    }
    for (content, store) in contents.iter().zip(&mut lent) {
        match content {
            Contents::Rows(rows) => store.put_numbers(&rows.concat()),
            Contents::Numbers(numbers) => store.put_numbers(numbers),
            Contents::Bytes(bytes) => store.put_bytes(bytes),
        }
    }
    Answer { refusal: 0, numbers, lent }
}

/// Bytes that a writer of the crate made: 1 if they are too many for a list or a value, else for the output.
fn written(bytes: Vec<u8>, most: usize) -> Outcome {
    if bytes.len() > most {
        return Outcome::Refused(1);
    }
    Outcome::Done(vec![bytes.len() as u64], vec![Contents::Bytes(bytes)])
}

fn width(request: &Request) -> AsnLength {
    if request.has(FOUR_BYTE_AS) {
        AsnLength::Bits32
    } else {
        AsnLength::Bits16
    }
}

/// Whether the crate reads lists as these settings say: with Add-Path on, or by its guess.
fn crate_reads_so(request: &Request) -> bool {
    request.has(ADD_PATH) || request.has(GUESS)
}

/// The refusal of an error that a reader of the crate gives, from its kind and its text.
fn reader_refusal(error: &ParserError) -> u32 {
    match error {
        ParserError::TruncatedMsg(_) => 2,
        ParserError::ParseError(text) => text_refusal(text),
        other => panic!("no refusal for {other:?}"),
    }
}

/// The refusal of a text of `ParseError`.
fn text_refusal(text: &str) -> u32 {
    let known = [
        ("invalid BGP message length", 3),
        ("Unknown BGP Message Type", 4),
        ("BGP OPEN message length", 3),
        ("BGP KEEPALIVE message length", 3),
        ("Invalid prefix length", 7),
        ("one-byte NLRI field", 8),
        ("Invalid AS path segment type", 9),
        ("Aggregator attribute length is invalid", 10),
    ];
    match known.iter().find(|(beginning, _)| text.starts_with(beginning)) {
        Some((_, refusal)) => *refusal,
        None => panic!("no refusal for the text {text:?}"),
    }
}

/// The refusal of an error that a writer of the crate gives.
fn writer_refusal(error: &EncodingError) -> u32 {
    match error {
        EncodingError::ValueTooLarge { field, .. } => match *field {
            "AS_PATH segment count" => 12,
            "2-octet AS number in AS_PATH segment" | "2-octet AS number in AGGREGATOR" => 13,
            "BGP attribute value length (extended)"
            | "BGP UPDATE withdrawn routes length"
            | "BGP UPDATE total path attribute length" => 1,
            other => panic!("no refusal for the field {other:?}"),
        },
        other => panic!("no refusal for {other:?}"),
    }
}
