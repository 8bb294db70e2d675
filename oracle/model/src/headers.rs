//! "The message header".

use crate::Refusal;

const HEADER: usize = 19;
const OPEN: u8 = 1;
const UPDATE: u8 = 2;
const NOTIFICATION: u8 = 3;
const KEEPALIVE: u8 = 4;
const ROUTE_REFRESH: u8 = 5;

/// The most bytes of a message that RFC 8654 did not make longer.
const PLAIN_MOST: usize = 4_096;

/// The most bytes of any other message.
const EXTENDED_MOST: usize = 65_535;

/// The RFC that says how long a strict message may be.
#[derive(Clone, Copy)]
pub enum Edition {
    Rfc4271,
    Rfc8654,
}

impl Edition {
    /// The most bytes of a message, whatever its type.
    fn most(self) -> usize {
        match self {
            Edition::Rfc4271 => PLAIN_MOST,
            Edition::Rfc8654 => EXTENDED_MOST,
        }
    }
}

pub struct Header {
    pub kind: u8,
    pub claimed: usize,
    pub taken: usize,
    pub marker: bool,
    pub cut: bool,
    pub trailing: bool,
}

/// The least length of a message of this type; none for a number that is no type.
fn least_length(kind: u8) -> Option<usize> {
    match kind {
        OPEN => Some(29),
        UPDATE | ROUTE_REFRESH => Some(23),
        NOTIFICATION => Some(21),
        KEEPALIVE => Some(HEADER),
        _ => None,
    }
}

/// Whether this is more than 4,096 bytes of a type that RFC 8654 did not make longer.
fn is_over_plain(kind: u8, claimed: usize) -> bool {
    (kind == OPEN || kind == KEEPALIVE) && claimed > PLAIN_MOST
}

fn marker_is_good(bytes: &[u8]) -> bool {
    bytes[..16].iter().all(|byte| *byte == 0xFF)
}

fn claimed_length(bytes: &[u8]) -> usize {
    usize::from(bytes[16]) << 8 | usize::from(bytes[17])
}

/// The crate's reading. The body check, 5, cannot fail: the body is measured by what is given.
pub fn crate_reading(bytes: &[u8]) -> Result<Header, Refusal> {
    if bytes.len() < HEADER {
        return Err(2);
    }
    let claimed = claimed_length(bytes);
    if claimed < HEADER {
        return Err(3);
    }
    let kind = bytes[18];
    if least_length(kind).is_none() {
        return Err(4);
    }
    if is_over_plain(kind, claimed) {
        return Err(3);
    }
    let taken = claimed.min(bytes.len());
    if bytes.len() - HEADER < taken - HEADER {
        return Err(5);
    }
    Ok(Header {
        kind,
        claimed,
        taken,
        marker: !marker_is_good(bytes),
        cut: claimed > bytes.len(),
        trailing: claimed < bytes.len(),
    })
}

/// The reading of RFC 4271 or of RFC 8654. Bytes after the message are not taken; the flag says that there are some.
pub fn strict(bytes: &[u8], edition: Edition) -> Result<Header, Refusal> {
    if bytes.len() < HEADER {
        return Err(2);
    }
    if !marker_is_good(bytes) {
        return Err(6);
    }
    let claimed = claimed_length(bytes);
    if !(HEADER..=edition.most()).contains(&claimed) {
        return Err(3);
    }
    let kind = bytes[18];
    let least = least_length(kind).ok_or(4u32)?;
    let keepalive_with_body = kind == KEEPALIVE && claimed != HEADER;
    if claimed < least || keepalive_with_body || is_over_plain(kind, claimed) {
        return Err(3);
    }
    if claimed > bytes.len() {
        return Err(2);
    }
    Ok(Header { kind, claimed, taken: claimed, marker: false, cut: false, trailing: claimed < bytes.len() })
}

/// The bytes of a message.
pub fn write(kind: u8, body: &[u8]) -> Result<Vec<u8>, Refusal> {
    let least = least_length(kind).ok_or(4u32)?;
    let total = HEADER + body.len();
    let open_too_long = kind == OPEN && total > PLAIN_MOST;
    let keepalive_with_body = kind == KEEPALIVE && !body.is_empty();
    if total < least || total > EXTENDED_MOST || open_too_long || keepalive_with_body {
        return Err(3);
    }
    let mut out = vec![0xFF; 16];
    out.extend_from_slice(&(total as u16).to_be_bytes());
    out.push(kind);
    out.extend_from_slice(body);
    Ok(out)
}
