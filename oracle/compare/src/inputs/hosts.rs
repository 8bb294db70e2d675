//! Host bits, those of an item's octets past its length: at every length of both families, in lists of rows with and without, in lists and
//! sections that are refused, and in UPDATEs. What needs a large input stands in `limits`.

use super::examples::{hex, on_bytes};
use super::pieces;
use records::{Request, ADD_PATH, GUESS, IPV6};
use std::collections::BTreeSet;
use std::ops::Range;

pub fn all() -> Vec<Request> {
    [edges(), lists(), mixed_lists(), refused_lists(), updates(), refused_updates()].concat()
}

pub const READINGS: [u8; 3] = [0, ADD_PATH, GUESS];

/// An id that the guess takes for one; of all its other bits each is set.
const ID: [u8; 4] = [0, 0xFF, 0xFF, 0xFF];

/// Every length of both families, with the family's setting.
fn lengths() -> impl Iterator<Item = (u8, u8)> {
    let ipv4 = (0..=32).map(|length| (0, length));
    ipv4.chain((0..=128).map(|length| (IPV6, length)))
}

/// The octets of a length, of which only these bits are set. Bit 0 is the greatest of the first octet.
fn octets(length: u8, set: Range<usize>) -> Vec<u8> {
    let mut octets = vec![0; usize::from(length).div_ceil(8)];
    for bit in set {
        octets[bit / 8] |= 0x80 >> (bit % 8);
    }
    octets
}

/// The octets of a length: all bits clear, those before the length set alone, and each bit of the last octet set alone.
fn ways(length: u8) -> Vec<Vec<u8>> {
    let bits = 8 * usize::from(length).div_ceil(8);
    let single = (bits.saturating_sub(8)..bits).map(|bit| octets(length, bit..bit + 1));
    [octets(length, 0..0), octets(length, 0..length.into())].into_iter().chain(single).collect()
}

fn plain(length: u8, octets: &[u8]) -> Vec<u8> {
    [&[length], octets].concat()
}

fn tagged(length: u8, octets: &[u8]) -> Vec<u8> {
    [&ID[..], &[length], octets].concat()
}

/// One route without and with an id, and a byte after it whose bits are not the route's.
fn routes(family: u8, length: u8, octets: &[u8]) -> [Request; 2] {
    let items = [(family, plain(length, octets)), (family | ADD_PATH, tagged(length, octets))];
    items.map(|(settings, item)| on_bytes(1, settings, (0, 0), &[item, vec![0xFF]].concat()))
}

/// One route of every length: the bits before the length set alone, and the last of these, the first past it and the last of all alone.
fn edges() -> Vec<Request> {
    let mut requests = vec![];
    for (family, length) in lengths() {
        let (own, all) = (usize::from(length), 8 * usize::from(length).div_ceil(8));
        let edges = [own.checked_sub(1), Some(own), all.checked_sub(1)];
        let edges: BTreeSet<usize> = edges.into_iter().flatten().filter(|bit| *bit < all).collect();
        requests.extend(routes(family, length, &octets(length, 0..own)));
        requests.extend(edges.into_iter().flat_map(|bit| routes(family, length, &octets(length, bit..bit + 1))));
    }
    requests
}

/// All ways of a length from one of them on, as a list for each reading: the guess takes items without ids and then some with.
fn lists_from(family: u8, length: u8, way: usize) -> Vec<Request> {
    let mut ways = ways(length);
    let count = ways.len();
    ways.rotate_left(way % count);
    let all = |form: fn(u8, &[u8]) -> Vec<u8>| ways.iter().flat_map(|octets| form(length, octets)).collect::<Vec<u8>>();
    let lists = [all(plain), all(tagged), [all(plain), all(tagged)].concat()];
    let ops = if family == IPV6 { 2..=3 } else { 2..=5 };
    let asked = |(reading, list): (u8, &Vec<u8>)| {
        ops.clone().map(|op| on_bytes(op, family | reading, (6 * 2 * count, 0), list)).collect::<Vec<_>>()
    };
    READINGS.into_iter().zip(&lists).flat_map(asked).collect()
}

/// Lists of every length, each from another way on, so that each way is now and then the last.
fn lists() -> Vec<Request> {
    lengths().flat_map(|(family, length)| lists_from(family, length, length.into())).collect()
}

/// Every way of every length: as one route, and as a list from it on.
pub fn every_way() -> impl Iterator<Item = Request> {
    lengths().flat_map(|(family, length)| {
        let all = ways(length).into_iter().enumerate();
        all.flat_map(move |(way, octets)| {
            [routes(family, length, &octets).to_vec(), lists_from(family, length, way)].concat()
        })
    })
}

/// The request's example, the route that it is sent for, and both; whole octets, and one bit less; items whose length byte stands elsewhere
/// with an id than without; and IPv6.
pub const MIXED: &[&str] = &[
    "09 0A FF",
    "09 0A 80",
    "09 0A FF 09 0A 80",
    "09 0A 80 09 0A FF 09 0A FF 08 0A",
    "08 FF 10 FF FF 18 FF FF FF 20 FF FF FF FF 00",
    "07 FF 0F FF FF 17 FF FF FF 1F FF FF FF FF 00",
    "00 09 0A FF",
    "00 00 00 07 09 0A FF",
    "00 00 00 09 08 0A",
    "00 00 00 07 09 0A FF 00 00 00 09 08 0A",
    "00 00 00 07 09 0A 80 09 0A FF",
    "00 01 FF 00 01 FF 00",
    "21 20 01 0D B8 40 21 20 01 0D B8 80 40 20 01 0D B8 00 00 00 01",
    "7F FF FF FF FF FF FF FF FF FF FF FF FF FF FF FF FF 80 FF FF FF FF FF FF FF FF FF FF FF FF FF FF FF FF",
];

/// A list of IPv4 routes by each call, with room.
fn with_room(reading: u8, list: &[u8]) -> impl Iterator<Item = Request> + '_ {
    (2..=5).map(move |op| on_bytes(op, reading, (60, 0), list))
}

/// Lists and sections in every reading, of both families.
fn mixed_lists() -> Vec<Request> {
    let lists: Vec<Vec<u8>> = MIXED.iter().map(|text| hex(text)).collect();
    let asked = |(list, reading): (&Vec<u8>, u8)| {
        let ipv6 = [2, 3].map(|op| on_bytes(op, IPV6 | reading, (60, 0), list));
        with_room(reading, list).chain(ipv6).collect::<Vec<_>>()
    };
    lists.iter().flat_map(|list| READINGS.map(|reading| (list, reading))).flat_map(asked).collect()
}

/// Rows with a host bit before an item that is refused, in both forms.
pub const REFUSED: &[&str] = &[
    "09 0A FF 81",
    "09 0A FF 09 0A",
    "09 0A FF 09 0B FF 18 0A 01",
    "00 00 00 07 09 0A FF 00 00 00 08 81",
    "00 00 00 07 09 0A FF 00 00 00",
];

/// Items that are refused, and lists with just enough room and too little.
fn refused_lists() -> Vec<Request> {
    let mut requests = vec![];
    for reading in READINGS {
        requests.extend(REFUSED.iter().flat_map(|text| with_room(reading, &hex(text)).collect::<Vec<_>>()));
        let two = section(reading, &[FIRST, SECOND]);
        for room in [12, 11, 6, 0] {
            requests.extend([2, 4].map(|op| on_bytes(op, reading, (room, 0), &two)));
        }
    }
    requests
}

/// Length and octets: two routes with a host bit, one without, and a length that no family has.
const FIRST: &[u8] = &[9, 10, 255];
const SECOND: &[u8] = &[31, 10, 0, 0, 1];
const NONE: &[u8] = &[9, 10, 128];
const BAD: &[u8] = &[129];

/// A section of items in the form of a reading; the guess is given ids.
fn section(reading: u8, items: &[&[u8]]) -> Vec<u8> {
    let form = if reading == 0 { plain } else { tagged };
    items.iter().flat_map(|item| form(item[0], &item[1..])).collect()
}

/// An IPv6 announcement with a host bit, of which an UPDATE's sections have nothing.
fn attribute() -> Vec<u8> {
    pieces::with_head(0x80, 14, &pieces::announcement(&[0; 16], 0, &[9, 0x20, 0xFF]))
}

/// Every pair of sections with no rows, rows of either kind and of both, and rows before a refusal; and a single byte.
fn updates() -> Vec<Request> {
    let sections: [&[&[u8]]; 5] = [&[], &[NONE], &[FIRST], &[FIRST, NONE, SECOND], &[FIRST, SECOND, BAD]];
    let mut requests = vec![];
    for reading in READINGS {
        let mut lists = sections.map(|items| section(reading, items)).to_vec();
        lists.push(vec![9]);
        for withdrawn in &lists {
            for announced in &lists {
                let body = pieces::body(withdrawn, &attribute(), announced);
                requests.extend([10, 11].map(|op| on_bytes(op, reading, (18, 18), &body)));
            }
        }
    }
    requests
}

/// No room for either section, and a body that is cut after rows with a host bit.
fn refused_updates() -> Vec<Request> {
    let mut requests = vec![];
    for reading in READINGS {
        let (one, two) = (section(reading, &[FIRST]), section(reading, &[FIRST, SECOND]));
        let body = pieces::body(&one, &[], &two);
        requests.extend([(6, 12), (5, 12), (6, 11)].map(|rooms| on_bytes(10, reading, rooms, &body)));
        let cut = &body[..2 + one.len() + 1];
        requests.extend([10, 11].map(|op| on_bytes(op, reading, (6, 12), cut)));
    }
    requests
}
