//! "One route, and a list of them".

use crate::{Refusal, MOST_BYTES};

#[derive(Debug, Clone, Copy, PartialEq, Eq)]
pub enum Family {
    Ipv4,
    Ipv6,
}

impl Family {
    /// The greatest prefix length.
    pub fn most_bits(self) -> u32 {
        match self {
            Family::Ipv4 => 32,
            Family::Ipv6 => 128,
        }
    }
}

/// How a list is read.
#[derive(Debug, Clone, Copy, PartialEq, Eq)]
pub enum Reading {
    WithIds,
    WithoutIds,
    Guess,
}

/// Length, plus 256 with an id, plus 512 where the id was guessed; id or 0; four address words.
pub type Row = [u32; 6];

const HAS_ID: u32 = 256;

/// The mark of a guessed id.
const GUESSED: u32 = 512;

/// A row that was read, and whether a bit of the item's octets past its length is set.
#[derive(Debug, Clone, Copy, PartialEq, Eq)]
pub struct ReadRow {
    pub words: Row,
    pub has_host_bit: bool,
}

/// The words of rows, back to back.
pub fn words(rows: &[ReadRow]) -> Vec<u32> {
    rows.iter().flat_map(|row| row.words).collect()
}

/// How many rows have a host bit.
pub fn host_rows(rows: &[ReadRow]) -> u64 {
    rows.iter().filter(|row| row.has_host_bit).count() as u64
}

/// Bits rounded up to whole octets.
fn octets(bits: u32) -> usize {
    (bits as usize + 7) / 8
}

/// Octets as four big-endian words, zeros after them.
fn address_words(address: &[u8]) -> [u32; 4] {
    let mut words = [0u32; 4];
    for (at, octet) in address.iter().enumerate() {
        words[at / 4] |= u32::from(*octet) << (24 - 8 * (at % 4));
    }
    words
}

/// Whether a bit of the octets after the first `length` bits is set. Bit 0 is the greatest of the first octet.
fn has_host_bit(octets: &[u8], length: u32) -> bool {
    let is_set = |bit: usize| octets[bit / 8] >> (7 - bit % 8) & 1 == 1;
    (length as usize..8 * octets.len()).any(is_set)
}

/// One item: how many bytes it used, and its row.
pub fn item(bytes: &[u8], with_id: bool, family: Family) -> Result<(usize, ReadRow), Refusal> {
    let mut used = 0;
    let mut id = 0;
    if with_id {
        if bytes.len() < 4 {
            return Err(2);
        }
        id = address_words(&bytes[..4])[0];
        used = 4;
    }
    let Some(length) = bytes.get(used).map(|byte| u32::from(*byte)) else {
        return Err(2);
    };
    used += 1;
    if length > family.most_bits() {
        return Err(7);
    }
    let end = used + octets(length);
    if bytes.len() < end {
        return Err(2);
    }
    let words = address_words(&bytes[used..end]);
    let first = length + if with_id { HAS_ID } else { 0 };
    let words = [first, id, words[0], words[1], words[2], words[3]];
    Ok((end, ReadRow { words, has_host_bit: has_host_bit(&bytes[used..end], length) }))
}

/// Items of one form until the bytes end.
fn items(mut bytes: &[u8], with_id: bool, family: Family) -> Result<Vec<ReadRow>, Refusal> {
    let mut rows = vec![];
    while !bytes.is_empty() {
        let (used, row) = item(bytes, with_id, family)?;
        rows.push(row);
        bytes = &bytes[used..];
    }
    Ok(rows)
}

enum State {
    Plain,
    Tagged,
}

/// One item that the guess takes with an id: its row has the mark.
fn guessed_item(bytes: &[u8], family: Family) -> Result<(usize, ReadRow), Refusal> {
    let (used, mut row) = item(bytes, true, family)?;
    row.words[0] += GUESSED;
    Ok((used, row))
}

/// The walk of the guess.
fn guessed_items(mut bytes: &[u8], family: Family) -> Result<Vec<ReadRow>, Refusal> {
    let mut rows = vec![];
    let mut state = State::Plain;
    while !bytes.is_empty() {
        let (used, row) = match state {
            State::Plain if bytes[0] == 0 => {
                state = State::Tagged;
                continue;
            }
            State::Plain => item(bytes, false, family)?,
            State::Tagged => match guessed_item(bytes, family) {
                Ok(taken) => taken,
                Err(_) => {
                    state = State::Plain;
                    item(bytes, false, family)?
                }
            },
        };
        rows.push(row);
        bytes = &bytes[used..];
    }
    Ok(rows)
}

/// A route list.
pub fn list(bytes: &[u8], reading: Reading, family: Family) -> Result<Vec<ReadRow>, Refusal> {
    if bytes.len() > MOST_BYTES {
        return Err(1);
    }
    match reading {
        Reading::WithIds => items(bytes, true, family),
        Reading::WithoutIds => items(bytes, false, family),
        Reading::Guess => guessed_items(bytes, family),
    }
}

/// A section of an UPDATE: an IPv4 list, except that a single nonzero byte is 8.
pub fn section(bytes: &[u8], reading: Reading) -> Result<Vec<ReadRow>, Refusal> {
    match bytes {
        [byte] if *byte != 0 => Err(8),
        _ => list(bytes, reading, Family::Ipv4),
    }
}

/// Words as rows, or 14 where they are not whole ones.
fn whole_rows(words: &[u32]) -> Result<Vec<Row>, Refusal> {
    if words.len() % 6 != 0 {
        return Err(14);
    }
    Ok(words.chunks_exact(6).map(|row| row.try_into().expect("six words")).collect())
}

/// Rows of any words without their marks; all else is as it was.
pub fn without_marks(words: &[u32]) -> Result<Vec<u32>, Refusal> {
    let mut rows = whole_rows(words)?;
    for row in &mut rows {
        row[0] &= !GUESSED;
    }
    Ok(rows.concat())
}

/// The bytes of one row, or 14; no length is as great as the mark.
fn write_row(row: &[u32], with_id: bool, family: Family) -> Result<Vec<u8>, Refusal> {
    let (first, id, address) = (row[0], row[1], &row[2..6]);
    let length = if with_id { first.checked_sub(HAS_ID).ok_or(14u32)? } else { first };
    if length > family.most_bits() || (!with_id && id != 0) {
        return Err(14);
    }
    let all: Vec<u8> = address.iter().flat_map(|word| word.to_be_bytes()).collect();
    let (kept, past) = all.split_at(octets(length));
    if past.iter().any(|octet| *octet != 0) {
        return Err(14);
    }
    let mut bytes = vec![];
    if with_id {
        bytes.extend_from_slice(&id.to_be_bytes());
    }
    bytes.push(length as u8);
    bytes.extend_from_slice(kept);
    Ok(bytes)
}

/// The bytes of a list of rows, or 14; how many they may be is for the caller.
pub fn write(words: &[u32], with_id: bool, family: Family) -> Result<Vec<u8>, Refusal> {
    let mut bytes = vec![];
    for row in whole_rows(words)? {
        bytes.extend(write_row(&row, with_id, family)?);
    }
    Ok(bytes)
}
