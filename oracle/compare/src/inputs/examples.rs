//! The examples of document 01, each under every setting that its op uses.

use records::{Request, EXTENDED, FOUR_BYTE_AS, STRICT};

/// Bytes from hexadecimal digits, spaces ignored.
pub fn hex(text: &str) -> Vec<u8> {
    let digits: Vec<u8> = text.bytes().filter(|byte| !byte.is_ascii_whitespace()).collect();
    digits
        .chunks(2)
        .map(|pair| u8::from_str_radix(std::str::from_utf8(pair).expect("digits"), 16).expect("two digits"))
        .collect()
}

const LISTS: &[&str] = &[
    "",
    "00",
    "08",
    "20 0A 00 00 01",
    "21 0A 00 00 00 00",
    "09 0A FF",
    "00 00 00 07 08 0A",
    "00 18 0A 01 08 18 C8 02 00",
    "00 00 00 00 08 0A 08 0B",
    "40 20 01 0D B8 00 00 00 01",
    "81",
];

const PATHS: &[&str] = &["", "02 02 00 00 FD E9 00 00 FD EA", "02 00", "05 01", "05 00", "02"];

const AGGREGATORS: &[&str] = &["FD E9 0A 00 00 01", "00 00 FD E9 0A 00 00 01", "00 FD E9 0A 00 00 01", ""];

/// Both widths of an AS number, by both rules for a path.
pub const PATH_SETTINGS: [u8; 4] = [0, FOUR_BYTE_AS, STRICT, STRICT | FOUR_BYTE_AS];

/// The readings of a header: the crate's, and the strict one by RFC 4271 and by RFC 8654.
pub const HEADER_SETTINGS: [u8; 3] = [0, STRICT, STRICT | EXTENDED];

/// What comes after an all-FF marker.
const HEADERS: &[&str] =
    &["00 13 04", "00 12 09", "10 01 01", "00 1B 02 00 00 00 00 18 0A 01 08", "00 1B 02 00 00 00 00 18 0A 01"];

pub fn request(op: u8, settings: u8, rooms: (usize, usize), parts: [Vec<u8>; 3], argument: u8) -> Request {
    Request { op, settings, room_a: rooms.0, room_b: rooms.1, parts, argument }
}

/// A request with one part.
pub fn on_bytes(op: u8, settings: u8, rooms: (usize, usize), bytes: &[u8]) -> Request {
    request(op, settings, rooms, [bytes.to_vec(), vec![], vec![]], 0)
}

/// A message's header, read in every way.
pub fn headers(message: &[u8]) -> [Request; 3] {
    HEADER_SETTINGS.map(|settings| on_bytes(9, settings, (0, 0), message))
}

/// Numbers as a part.
pub fn words(numbers: &[u32]) -> Vec<u8> {
    numbers.iter().flat_map(|number| number.to_be_bytes()).collect()
}

pub fn all() -> Vec<Request> {
    let mut requests = vec![];
    for text in LISTS {
        for settings in 0..8 {
            requests.extend((1..=5).map(|op| on_bytes(op, settings, (30, 0), &hex(text))));
        }
    }
    for text in PATHS {
        for settings in PATH_SETTINGS {
            requests.extend([6, 7].map(|op| on_bytes(op, settings, (4, 4), &hex(text))));
        }
    }
    for text in AGGREGATORS {
        requests.extend([0, 8].map(|settings| on_bytes(8, settings, (0, 0), &hex(text))));
    }
    for text in HEADERS {
        let message = [vec![0xFF; 16], hex(text)].concat();
        requests.extend(headers(&message));
        for settings in 0..4 {
            requests.extend([10, 11, 12].map(|op| on_bytes(op, settings, (12, 12), &message[19..])));
        }
    }
    for settings in PATH_SETTINGS {
        let write = |numbers: &[u32]| {
            let parts = [words(&[2, numbers.len() as u32]), words(numbers), vec![]];
            request(14, settings, (1_100, 0), parts, 0)
        };
        requests.extend([write(&[]), write(&[65_536]), write(&[64_512; 255]), write(&[64_512; 256])]);
    }
    requests
}
