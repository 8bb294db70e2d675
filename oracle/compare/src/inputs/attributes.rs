//! The walk and the search over an attribute section: the request's rules, each order of two checks on sections that fail both,
//! every flags byte, type and settings byte. What needs a large section stands in `limits`.

use super::examples::{hex, request, words};
use records::{Request, LAST_SETTINGS};

/// The attribute at a place.
pub fn walk(section: &[u8], place: u32) -> Request {
    request(18, 0, (0, 0), [section.to_vec(), words(&[place]), vec![]], 0)
}

/// The first attribute of a type.
pub fn search(section: &[u8], kind: u8) -> Request {
    request(19, 0, (0, 0), [section.to_vec(), vec![], vec![]], kind)
}

pub fn all() -> Vec<Request> {
    [rules(), cuts(), every_flags(), every_type(), every_settings()].concat()
}

/// Sections with their attributes in one group of digits each.
const SECTIONS: &[&str] = &[
    "",
    "40010100",
    "5001000100",
    "40010100 80040400000007 C0080400010002",
    // a repeat is listed, and passed over in a search
    "40010100 40010102 400101FF",
    "80040400000007 40010100 80040400000008",
    // one of each may stand
    "800E010A 800F010B",
    "800E010A 800E010B",
    "800F00 800F00",
    "800F00 900E0000 40010100 400E00",
    "800E00 800F00 800F00 800E00",
    "C01100 800E00 C01100 800F00",
    // a second one is cut: in its value, in its head, and with a length of two bytes
    "800E00 800E01",
    "800E00 800E",
    "800F00 900F00",
    "800F00 900F0001",
    // 15 and then 2, and 2 where a second one would stand in what is claimed
    "800E00 800E00 400101",
    "800E00 800E00 40",
    "800E00 4001FF 800E00",
    "400105 800E00 800E00",
    "40010100 800E00 5001",
    // a claimed end that 16 bits do not hold
    "5001FFFF00",
    "40010100 5001FFF8 00",
];

/// Types that are asked for: some there, and some absent.
const KINDS: [u8; 6] = [0, 1, 4, 14, 15, 17];

/// Each section walked from every byte of it on, at its end and past it, also at places of more than 16 bits, and searched.
fn rules() -> Vec<Request> {
    let mut requests = vec![];
    for section in SECTIONS.iter().map(|text| hex(text)) {
        let end = section.len() as u32;
        let places = (0..=end + 1).chain([65_536, u32::MAX]);
        requests.extend(places.map(|place| walk(&section, place)));
        requests.extend(KINDS.map(|kind| search(&section, kind)));
    }
    requests
}

/// A section of both forms cut at every byte, walked at each of its attributes, and searched.
fn cuts() -> Vec<Request> {
    let whole = hex("40010100 900E00020A0B C00800 8004020001");
    let mut requests = vec![];
    for cut in 0..whole.len() {
        requests.extend([0, 4, 10, 13].map(|place| walk(&whole[..cut], place)));
        requests.extend([1, 4, 14].map(|kind| search(&whole[..cut], kind)));
    }
    requests
}

/// Every flags byte before a section that is whole with one length byte, where the value is empty, and with two, where it has one byte.
fn every_flags() -> Vec<Request> {
    let section = |flags| [&[flags], hex("63 00 01 08 00 04 01 00").as_slice()].concat();
    (0..=255).flat_map(|flags| [walk(&section(flags), 0), search(&section(flags), 0x63)]).collect()
}

/// Every type, asked for where it stands and where the one before it does.
fn every_type() -> Vec<Request> {
    let section = |kind| [0xC0, kind, 1, 7];
    let asked = |kind: u8| {
        [walk(&section(kind), 0), search(&section(kind), kind), search(&section(kind), kind.wrapping_add(1))]
    };
    (0..=255).flat_map(asked).collect()
}

/// One section under every settings byte, none of which it goes by.
fn every_settings() -> Vec<Request> {
    let section = hex("40010100 900E00020A0B 800F00");
    let under = |settings| [walk(&section, 4), search(&section, 15)].map(|request| Request { settings, ..request });
    (0..=LAST_SETTINGS).flat_map(under).collect()
}
