//! An attribute section by RFC 4271 section 4.3, its repeats by RFC 7606 section 3, and the request's order of checks.

use crate::{Refusal, MOST_BYTES};

/// The bit of the flags with which the length is of two bytes.
const EXTENDED_LENGTH: u8 = 0x10;

const MP_REACH_NLRI: u8 = 14;
const MP_UNREACH_NLRI: u8 = 15;

/// An attribute and where its value stands in the section.
#[derive(Debug, Clone, Copy, PartialEq, Eq)]
pub struct Attribute {
    pub flags: u8,
    pub kind: u8,
    pub start: usize,
    pub length: usize,
}

impl Attribute {
    /// The place after the value, where the next attribute stands.
    pub fn next(&self) -> usize {
        self.start + self.length
    }

    pub fn value<'a>(&self, section: &'a [u8]) -> &'a [u8] {
        &section[self.start..self.next()]
    }
}

/// The attribute at a place where there is a byte; 2 if it is cut in its head or in its value.
fn read(section: &[u8], place: usize) -> Result<Attribute, Refusal> {
    let byte = |at: usize| section.get(place + at).copied().ok_or(2u32);
    let (flags, kind) = (byte(0)?, byte(1)?);
    let (head, length) = if flags & EXTENDED_LENGTH == 0 {
        (3, usize::from(byte(2)?))
    } else {
        (4, usize::from(u16::from_be_bytes([byte(2)?, byte(3)?])))
    };
    let attribute = Attribute { flags, kind, start: place + head, length };
    if attribute.next() > section.len() {
        return Err(2);
    }
    Ok(attribute)
}

/// The attribute at a place, or none where the section ends at or before it.
pub fn at(section: &[u8], place: usize) -> Result<Option<Attribute>, Refusal> {
    if section.len() > MOST_BYTES {
        return Err(1);
    }
    if place >= section.len() {
        return Ok(None);
    }
    read(section, place).map(Some)
}

/// The first attribute of a type, or none, once the whole section is judged in byte order.
pub fn first_of(section: &[u8], kind: u8) -> Result<Option<Attribute>, Refusal> {
    let mut all: Vec<Attribute> = vec![];
    let mut place = 0;
    while let Some(attribute) = at(section, place)? {
        let once = [MP_REACH_NLRI, MP_UNREACH_NLRI].contains(&attribute.kind);
        if once && all.iter().any(|before| before.kind == attribute.kind) {
            return Err(15);
        }
        place = attribute.next();
        all.push(attribute);
    }
    Ok(all.into_iter().find(|attribute| attribute.kind == kind))
}
