//! "AS_PATH and AGGREGATOR".

use crate::{Refusal, MOST_BYTES};

/// A segment: its type and its AS numbers.
#[derive(Debug, Clone, PartialEq, Eq)]
pub struct Segment {
    pub kind: u32,
    pub numbers: Vec<u32>,
}

/// A big-endian number of two or four bytes.
fn number(bytes: &[u8]) -> u32 {
    bytes.iter().fold(0, |value, byte| value << 8 | u32::from(*byte))
}

/// By what a path is judged: the crate's reading, or RFC 7606 section 7.2, by which no segment is empty.
#[derive(Debug, Clone, Copy, PartialEq, Eq)]
pub enum Rule {
    Crate,
    Strict,
}

/// Whether a segment may have this type, or 9, and then whether so many numbers, or 16.
fn judge(kind: u32, count: usize, rule: Rule) -> Result<(), Refusal> {
    if !(1..=4).contains(&kind) {
        return Err(9);
    }
    if rule == Rule::Strict && count == 0 {
        return Err(16);
    }
    Ok(())
}

/// The segments of an AS_PATH value.
pub fn read(mut bytes: &[u8], width: usize, rule: Rule) -> Result<Vec<Segment>, Refusal> {
    if bytes.len() > MOST_BYTES {
        return Err(1);
    }
    let mut segments = vec![];
    while !bytes.is_empty() {
        let count = usize::from(*bytes.get(1).ok_or(2u32)?);
        let numbers = bytes.get(2..2 + count * width).ok_or(2u32)?;
        let kind = u32::from(bytes[0]);
        judge(kind, count, rule)?;
        segments.push(Segment { kind, numbers: numbers.chunks_exact(width).map(number).collect() });
        bytes = &bytes[2 + count * width..];
    }
    Ok(segments)
}

/// A number as bytes, or 13 where it does not fit.
fn write_number(value: u32, width: usize, out: &mut Vec<u8>) -> Result<(), Refusal> {
    if width == 4 {
        out.extend_from_slice(&value.to_be_bytes());
    } else {
        let narrow = u16::try_from(value).map_err(|_| 13u32)?;
        out.extend_from_slice(&narrow.to_be_bytes());
    }
    Ok(())
}

/// The bytes of an AS_PATH value; how many they may be is for the caller.
pub fn write(pairs: &[u32], numbers: &[u32], width: usize, rule: Rule) -> Result<Vec<u8>, Refusal> {
    let counted: u128 = pairs.iter().skip(1).step_by(2).map(|count| u128::from(*count)).sum();
    if pairs.len() % 2 != 0 || counted != numbers.len() as u128 {
        return Err(14);
    }
    let mut out = vec![];
    let mut rest = numbers;
    for pair in pairs.chunks_exact(2) {
        let (kind, count) = (pair[0], pair[1] as usize);
        judge(kind, count, rule)?;
        if count > 255 {
            return Err(12);
        }
        out.push(kind as u8);
        out.push(count as u8);
        let (own, others) = rest.split_at(count);
        for value in own {
            write_number(*value, width, &mut out)?;
        }
        rest = others;
    }
    Ok(out)
}

/// AS number, identifier and the width found.
pub fn read_aggregator(bytes: &[u8]) -> Result<(u32, u32, usize), Refusal> {
    if bytes.len() > MOST_BYTES {
        return Err(1);
    }
    let width = match bytes.len() {
        8 => 4,
        6 => 2,
        _ => return Err(10),
    };
    let (asn, identifier) = bytes.split_at(width);
    Ok((number(asn), number(identifier), width))
}

/// The bytes of an AGGREGATOR value.
pub fn write_aggregator(asn: u32, identifier: u32, width: usize) -> Result<Vec<u8>, Refusal> {
    let mut out = vec![];
    write_number(asn, width, &mut out)?;
    out.extend_from_slice(&identifier.to_be_bytes());
    Ok(out)
}
