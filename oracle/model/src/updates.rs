//! "The UPDATE body".

use crate::routes::{self, Family, ReadRow, Reading};
use crate::Refusal;

/// The most bytes of an UPDATE body: a message of 65,535 less its header.
const MOST_BODY: usize = 65_516;

/// The most bytes that a two-byte length can claim.
const MOST_SECTION: usize = 65_535;

pub struct Parts<'a> {
    pub withdrawn: &'a [u8],
    pub attributes: &'a [u8],
    pub announced: &'a [u8],
}

/// A part measured by two bytes before it, and what follows it.
fn measured(bytes: &[u8]) -> Result<(&[u8], &[u8]), Refusal> {
    if bytes.len() < 2 {
        return Err(2);
    }
    let length = usize::from(bytes[0]) << 8 | usize::from(bytes[1]);
    let rest = &bytes[2..];
    if rest.len() < length {
        return Err(2);
    }
    Ok(rest.split_at(length))
}

/// The three parts of a body.
pub fn parts(body: &[u8]) -> Result<Parts<'_>, Refusal> {
    if body.len() > MOST_BODY {
        return Err(1);
    }
    let (withdrawn, rest) = measured(body)?;
    let (attributes, announced) = measured(rest)?;
    Ok(Parts { withdrawn, attributes, announced })
}

/// The two lists of an UPDATE, each with its own verdict.
pub struct Update {
    pub withdrawn: Result<Vec<ReadRow>, Refusal>,
    pub announced: Result<Vec<ReadRow>, Refusal>,
}

impl Update {
    /// Withdrawn count, its verdict, announced count, its verdict; then the rows with a host bit of each.
    pub fn numbers(&self) -> Vec<u64> {
        let lists = [&self.withdrawn, &self.announced];
        let counts = lists.iter().flat_map(|list| match list {
            Ok(rows) => [rows.len() as u64, 0],
            Err(verdict) => [0, u64::from(*verdict)],
        });
        let hosts = lists.iter().map(|list| list.as_ref().map_or(0, |rows| routes::host_rows(rows)));
        counts.chain(hosts).collect()
    }
}

pub fn read(body: &[u8], reading: Reading) -> Result<Update, Refusal> {
    let parts = parts(body)?;
    Ok(Update {
        withdrawn: routes::section(parts.withdrawn, reading),
        announced: routes::section(parts.announced, reading),
    })
}

/// The bytes of a body: 14 in either list, withdrawn first, before 1.
pub fn write(
    withdrawn_rows: &[u32],
    attributes: &[u8],
    announced_rows: &[u32],
    with_id: bool,
) -> Result<Vec<u8>, Refusal> {
    let withdrawn = routes::write(withdrawn_rows, with_id, Family::Ipv4)?;
    let announced = routes::write(announced_rows, with_id, Family::Ipv4)?;
    let total = 4 + withdrawn.len() + attributes.len() + announced.len();
    if withdrawn.len() > MOST_SECTION || attributes.len() > MOST_SECTION || total > MOST_BODY {
        return Err(1);
    }
    let mut body = vec![];
    for section in [withdrawn.as_slice(), attributes] {
        body.extend_from_slice(&(section.len() as u16).to_be_bytes());
        body.extend_from_slice(section);
    }
    body.extend(announced);
    Ok(body)
}
