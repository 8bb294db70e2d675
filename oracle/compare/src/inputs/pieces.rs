//! Good pieces of messages and ways to damage them.

use super::marks::MARK;
use crate::rng::Rng;

pub const IPV4_LENGTHS: &[u8] = &[0, 1, 7, 8, 9, 15, 16, 17, 22, 23, 24, 25, 30, 31, 32];
pub const IPV6_LENGTHS: &[u8] = &[0, 1, 8, 9, 31, 32, 33, 48, 63, 64, 65, 96, 97, 127, 128];

/// The bit of an attribute's flags with which its length is of two bytes.
pub const EXTENDED_LENGTH: u8 = 0x10;

/// A prefix length: mostly at a boundary, at times any byte.
fn length(rng: &mut Rng, ipv6: bool) -> u8 {
    match rng.under(24) {
        0 => rng.byte(),
        1 => rng.pick(&[33, 129, 255, 128]),
        2 => 0,
        _ if ipv6 => rng.pick(IPV6_LENGTHS),
        _ => rng.pick(IPV4_LENGTHS),
    }
}

/// One item; its octets are as many as the length says, or 16 at most.
pub fn item(rng: &mut Rng, with_id: bool, ipv6: bool) -> Vec<u8> {
    let mut bytes = vec![];
    if with_id {
        let id = match rng.under(4) {
            0 => rng.word(),
            1 => 0,
            _ => rng.under(300) as u32,
        };
        bytes.extend(id.to_be_bytes());
    }
    let bits = length(rng, ipv6);
    bytes.push(bits);
    bytes.extend(octets(rng, bits));
    bytes
}

/// The octets of a length, 16 at most: with any bits past the length, with none, or with one.
pub fn octets(rng: &mut Rng, bits: u8) -> Vec<u8> {
    let count = usize::from(bits).div_ceil(8).min(16);
    let mut octets: Vec<u8> = (0..count).map(|_| if rng.one_in(4) { 0 } else { rng.byte() }).collect();
    let past = (8 - usize::from(bits) % 8) % 8;
    let way = rng.under(3);
    if let (Some(last), 1..) = (octets.last_mut(), way) {
        *last &= 0xFF << past;
        if way == 2 && past > 0 {
            *last |= 1 << rng.under(past);
        }
    }
    octets
}

/// A list of items, mostly of the form asked for; with `mixed` the forms change at random.
pub fn list(rng: &mut Rng, count: usize, with_id: bool, ipv6: bool, mixed: bool) -> Vec<u8> {
    let mut bytes = vec![];
    for _ in 0..count {
        let tagged = if mixed { rng.one_in(2) } else { with_id };
        bytes.extend(item(rng, tagged, ipv6));
    }
    bytes
}

/// A small count, at times a larger one.
pub fn count(rng: &mut Rng) -> usize {
    match rng.under(20) {
        0 => rng.under(40),
        1 => 0,
        _ => rng.under(6),
    }
}

/// Changes bytes in one of a few ways, or leaves them.
pub fn damage(rng: &mut Rng, bytes: &mut Vec<u8>) {
    if bytes.is_empty() {
        return bytes.push(rng.byte());
    }
    let at = rng.under(bytes.len());
    match rng.under(8) {
        0 => bytes.truncate(at),
        1 => {
            bytes.pop();
        }
        2 => bytes[at] = rng.byte(),
        3 => bytes[at] = rng.pick(&[0, 1, 255, 33]),
        4 => bytes[at] ^= 1 << rng.under(8),
        5 => bytes.insert(at, rng.pick(&[0, 8, 255])),
        6 => {
            bytes.remove(at);
        }
        _ => {
            let more = rng.under(6);
            let tail = rng.bytes(more);
            bytes.extend(tail);
        }
    }
}

/// What the segments of a path are like.
#[derive(Clone, Copy, PartialEq)]
pub enum Segments {
    /// Mostly of good types, a few of them empty.
    Mixed,
    /// Of good types, and none empty.
    NoneEmpty,
    /// Of types 0 to 5, half of them empty.
    ManyEmpty,
}

impl Segments {
    pub fn any(rng: &mut Rng) -> Segments {
        rng.pick(&[Segments::Mixed, Segments::Mixed, Segments::NoneEmpty, Segments::ManyEmpty])
    }

    /// The type and count of a segment: small counts and now and then a full segment.
    pub fn segment(self, rng: &mut Rng) -> (u32, usize) {
        let count = match rng.under(60) {
            0 => 255,
            1 => 254,
            2..=6 => 0,
            _ => rng.under(7),
        };
        match self {
            Segments::Mixed if rng.one_in(30) => (rng.pick(&[0, 5, 6, 255]), count),
            Segments::Mixed => (1 + rng.under(4) as u32, count),
            Segments::NoneEmpty => (1 + rng.under(4) as u32, count.max(1)),
            Segments::ManyEmpty => (rng.under(6) as u32, if rng.one_in(2) { 0 } else { count }),
        }
    }
}

/// The bytes of a path.
pub fn path(rng: &mut Rng, segments: usize, width: usize) -> Vec<u8> {
    let like = Segments::any(rng);
    let mut bytes = vec![];
    for _ in 0..segments {
        let (kind, count) = like.segment(rng);
        bytes.extend([kind as u8, count as u8]);
        bytes.extend(rng.bytes(count * width));
    }
    bytes
}

/// An attribute section: well-formed attributes, most of a kind that the crate writes back as it was.
pub fn attributes(rng: &mut Rng, width: usize) -> Vec<u8> {
    attribute_list(rng, width).concat()
}

/// The attributes of such a section, one by one.
pub fn attribute_list(rng: &mut Rng, width: usize) -> Vec<Vec<u8>> {
    let mut attributes = vec![];
    for _ in 0..rng.under(5) {
        let (kind, value): (u8, Vec<u8>) = match rng.under(12) {
            0 => (1, vec![rng.under(3) as u8]),
            1 => {
                let segments = rng.under(3);
                (2, path(rng, segments, width))
            }
            2 => (3, rng.bytes(4)),
            3 => (4, rng.bytes(4)),
            4 => (5, rng.bytes(4)),
            5 => (6, vec![]),
            6 => (7, rng.bytes(width + 4)),
            7 => {
                let communities = 4 * rng.under(4);
                (8, rng.bytes(communities))
            }
            8 => {
                let routes = list(rng, 2, false, true, false);
                (14, announcement(&rng.bytes(16), 0, &routes))
            }
            9 => (15, withdrawal(&list(rng, 2, false, true, false))),
            _ => {
                let size = rng.under(9);
                (rng.byte(), rng.bytes(size))
            }
        };
        attributes.push(attribute(rng, kind, &value));
    }
    attributes
}

fn attribute(rng: &mut Rng, kind: u8, value: &[u8]) -> Vec<u8> {
    let flags = rng.pick(&[0x40, 0x80, 0xC0, 0xE0]);
    let extended = value.len() > 255 || rng.one_in(6);
    with_head(if extended { flags | EXTENDED_LENGTH } else { flags }, kind, value)
}

/// An attribute with as many length bytes as its flags say; one of them keeps the value's length modulo 256.
pub fn with_head(flags: u8, kind: u8, value: &[u8]) -> Vec<u8> {
    let length = (value.len() as u16).to_be_bytes();
    let told = if flags & EXTENDED_LENGTH != 0 { &length[..] } else { &length[1..] };
    [&[flags, kind], told, value].concat()
}

/// The families of IPv6 unicast.
pub const FAMILIES: [u8; 3] = [0, 2, 1];

/// The value of an announcement: the families, a next hop after its length modulo 256, the reserved byte and a list.
pub fn announcement(next_hop: &[u8], reserved: u8, list: &[u8]) -> Vec<u8> {
    [&FAMILIES[..], &[next_hop.len() as u8], next_hop, &[reserved], list].concat()
}

/// The value of a withdrawal: the families and a list.
pub fn withdrawal(list: &[u8]) -> Vec<u8> {
    [&FAMILIES[..], list].concat()
}

/// Attributes of any flags, whose types come again and again; the values are any bytes.
pub fn any_attribute_list(rng: &mut Rng) -> Vec<Vec<u8>> {
    let mut attributes = vec![];
    for _ in 0..count(rng) {
        let kind = if rng.one_in(3) { rng.byte() } else { rng.pick(&[0, 1, 2, 14, 14, 15, 15, 200, 255]) };
        let size = if rng.one_in(30) { 250 + rng.under(12) } else { rng.under(7) };
        let flags = if size > 255 { rng.byte() | EXTENDED_LENGTH } else { rng.byte() };
        attributes.push(with_head(flags, kind, &rng.bytes(size)));
    }
    attributes
}

/// The first bytes of a message of zeros, with this last byte of the marker.
pub fn message(marker: u8, claimed: usize, kind: u8, given: usize) -> Vec<u8> {
    let mut bytes = [vec![0xFF; 15], vec![marker], (claimed as u16).to_be_bytes().to_vec(), vec![kind]].concat();
    bytes.resize(given, 0);
    bytes
}

/// An UPDATE body of three sections.
pub fn body(withdrawn: &[u8], attributes: &[u8], announced: &[u8]) -> Vec<u8> {
    let length = |section: &[u8]| (section.len() as u16).to_be_bytes();
    [&length(withdrawn)[..], withdrawn, &length(attributes), attributes, announced].concat()
}

/// Words of one row to write, mostly writable.
pub fn row(rng: &mut Rng, with_id: bool, ipv6: bool) -> [u32; 6] {
    let most: u32 = if ipv6 { 128 } else { 32 };
    let bits = u32::from(rng.pick(if ipv6 { IPV6_LENGTHS } else { IPV4_LENGTHS })).min(most);
    let mut octets = [0u8; 16];
    for octet in octets.iter_mut().take((bits as usize + 7) / 8) {
        *octet = rng.byte();
    }
    let word = |at: usize| u32::from_be_bytes([octets[at], octets[at + 1], octets[at + 2], octets[at + 3]]);
    let id = if with_id { rng.word() } else { 0 };
    let mut row = [bits + if with_id { 256 } else { 0 }, id, word(0), word(4), word(8), word(12)];
    if rng.one_in(60) {
        row[rng.under(6)] = rng.pick(&[0, 1, 33, 129, 256, 289, 512, u32::MAX, 0x0100_0000, 255]);
    }
    if rng.one_in(80) {
        row[0] ^= rng.pick(&[256, MARK, 256 + MARK]);
    }
    row
}
