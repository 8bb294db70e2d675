//! Announcements and withdrawals of IPv6 (MP_REACH_NLRI, MP_UNREACH_NLRI): every cut, next-hop length and reserved byte, families near
//! theirs, lists and rooms in each reading, each order of two checks on values that fail both, what is written, and every settings byte. What
//! needs a large value stands in `limits`.

use super::checks::rows_to_write;
use super::examples::{hex, on_bytes, request, words};
use super::hosts::{MIXED, READINGS, REFUSED};
use super::pieces::{announcement, withdrawal, FAMILIES};
use records::{Request, ADD_PATH, GUESS, IPV6, LAST_SETTINGS};

/// A global address, and a link-local one after it.
pub const NEXT_HOP: [u8; 32] = [
    0x20, 0x01, 0x0D, 0xB8, 0, 1, 0, 2, 0, 3, 0, 4, 0, 5, 0, 6, 0xFE, 0x80, 0, 0, 0, 0, 0, 0, 0x02, 0x0A, 0xF7, 0xFF,
    0xFE, 1, 2, 3,
];

/// Both next hops that may stand.
const NEXT_HOPS: [&[u8]; 2] = [NEXT_HOP.first_chunk::<16>().expect("32 bytes").as_slice(), &NEXT_HOP];

/// The value of an announcement by both calls.
pub fn announced(settings: u8, room: usize, value: &[u8]) -> [Request; 2] {
    [22, 23].map(|op| on_bytes(op, settings, (room, 0), value))
}

/// The value of a withdrawal by both calls.
pub fn withdrawn(settings: u8, room: usize, value: &[u8]) -> [Request; 2] {
    [24, 25].map(|op| on_bytes(op, settings, (room, 0), value))
}

pub fn write_announcement(settings: u8, room: usize, next_hop: &[u8], rows: &[u32]) -> Request {
    request(26, settings, (room, 0), [next_hop.to_vec(), words(rows), vec![]], 0)
}

pub fn write_withdrawal(settings: u8, room: usize, rows: &[u32]) -> Request {
    request(27, settings, (room, 0), [words(rows), vec![], vec![]], 0)
}

pub fn all() -> Vec<Request> {
    [
        cuts(),
        next_hop_lengths(),
        families(),
        reserved_bytes(),
        lists(),
        rooms(),
        announcement_orders(),
        withdrawal_orders(),
        written_next_hops(),
        written_rows(),
        every_settings(),
    ]
    .concat()
}

/// Two rows in the form of a reading, the second with a host bit; the guess is given ids.
fn two_rows(reading: u8) -> Vec<u8> {
    hex(if reading == 0 {
        "20 20 01 0D B8 21 20 01 0D B8 40"
    } else {
        "00 00 00 07 20 20 01 0D B8 00 00 00 08 21 20 01 0D B8 40"
    })
}

/// Every cut of a good value, whose reserved byte is not 0.
fn cuts() -> Vec<Request> {
    let mut requests = vec![];
    for reading in READINGS {
        let list = two_rows(reading);
        for next_hop in NEXT_HOPS {
            let whole = announcement(next_hop, 1, &list);
            requests.extend((0..=whole.len()).flat_map(|end| announced(reading, 12, &whole[..end])));
        }
        let whole = withdrawal(&list);
        requests.extend((0..=whole.len()).flat_map(|end| withdrawn(reading, 12, &whole[..end])));
    }
    requests
}

/// Every length of a next hop, with its bytes and a row, and with nothing after it.
fn next_hop_lengths() -> Vec<Request> {
    let asked = |length: u8| {
        let whole = announcement(&vec![0xA5; length.into()], 0, &[8, 0x20]);
        [&whole[..], &whole[..FAMILIES.len() + 1]].map(|value| on_bytes(23, GUESS, (0, 0), value))
    };
    (0..=255).flat_map(asked).collect()
}

/// Families around 2 and 1, those of other protocols, and 2 in the other byte.
const ADDRESS_FAMILIES: [u16; 13] = [0, 1, 2, 3, 25, 255, 256, 257, 258, 512, 513, 16_388, 65_535];
const SUBFAMILIES: [u8; 10] = [0, 1, 2, 3, 4, 71, 128, 129, 133, 255];

/// Every pair: with a good rest, with nothing after it, and with a rest that is refused; and each address family that is cut, or alone.
fn families() -> Vec<Request> {
    let announcements = [&announcement(&NEXT_HOP, 0, &[8, 0x20])[FAMILIES.len()..], &[], &[17]].map(<[u8]>::to_vec);
    let lists = [vec![8, 0x20], vec![], vec![129]];
    let mut requests = vec![];
    for family in ADDRESS_FAMILIES.map(u16::to_be_bytes) {
        for subfamily in SUBFAMILIES {
            let with = |rest: &[u8]| [&family[..], &[subfamily], rest].concat();
            requests.extend(announcements.iter().map(|rest| on_bytes(23, GUESS, (0, 0), &with(rest))));
            requests.extend(lists.iter().map(|rest| on_bytes(25, GUESS, (0, 0), &with(rest))));
        }
        for cut in [&family[..], &family[..1]] {
            requests.extend([announced(GUESS, 6, cut), withdrawn(GUESS, 6, cut)].concat());
        }
    }
    requests
}

fn reserved_bytes() -> Vec<Request> {
    let value = |reserved| announcement(&NEXT_HOP[..16], reserved, &[8, 0x20]);
    (0..=255).flat_map(|reserved| announced(GUESS, 6, &value(reserved))).collect()
}

/// Nothing, one byte, which is never 8; the family's longest route, and one bit more; lengths that IPv4 does not have; and what the guess
/// takes for ids.
const LISTS: &[&str] = &[
    "",
    "00",
    "01",
    "08",
    "20",
    "21",
    "80",
    "81",
    "FF",
    "80 20 01 0D B8 00 00 00 00 00 00 00 00 00 00 00 01",
    "80 20 01 0D B8 00 00 00 00 00 00 00 00 00 00 00",
    "81 20 01 0D B8 00 00 00 00 00 00 00 00 00 00 00 01 80",
    "18 0A 01 08 20 0A 00 00 01",
    "00 18 0A 01 08 18 C8 02 00",
    "00 00 00 00 08 0A 08 0B",
    "00 00 00 07 80 20 01 0D B8 00 00 00 00 00 00 00 00 00 00 00 01",
];

/// Lists with every next hop and without, in every reading, with and without host bits, good and refused.
fn lists() -> Vec<Request> {
    let mut requests = vec![];
    for list in LISTS.iter().chain(MIXED).chain(REFUSED).map(|text| hex(text)) {
        for reading in READINGS {
            for next_hop in NEXT_HOPS {
                requests.extend(announced(reading, 60, &announcement(next_hop, 0, &list)));
            }
            requests.extend(withdrawn(reading, 60, &withdrawal(&list)));
        }
    }
    requests
}

/// Just enough room, a place too few, a row too few and none; and no rows.
fn rooms() -> Vec<Request> {
    let mut requests = vec![];
    for reading in READINGS {
        for (list, rooms) in [(two_rows(reading), &[13, 12, 11, 6, 5, 0][..]), (vec![], &[1, 0])] {
            for (room, next_hop) in rooms.iter().flat_map(|room| NEXT_HOPS.map(|next_hop| (*room, next_hop))) {
                requests.push(on_bytes(22, reading, (room, 0), &announcement(next_hop, 1, &list)));
            }
            requests.extend(rooms.iter().map(|room| on_bytes(24, reading, (*room, 0), &withdrawal(&list))));
        }
    }
    requests
}

/// Good families, and each of them another.
const PAIRS: [[u8; 3]; 3] = [FAMILIES, [0, 1, 1], [0, 2, 2]];

/// Families, the next hop's length and as many bytes as are given, the reserved byte, if it is there, the list and the room: each good, or wrong
/// in some way, in every combination. No number of a refused value is told.
fn announcement_orders() -> Vec<Request> {
    let next_hops = [
        (16, 16),
        (32, 32),
        (16, 15),
        (32, 16),
        (32, 31),
        (17, 17),
        (17, 0),
        (0, 0),
        (4, 4),
        (24, 24),
        (48, 48),
        (48, 16),
    ];
    let rests = ["", "01", "00 08 20", "01 09 20 FF", "01 81", "01 08", "01 09 20 FF 81", "00 09 20 FF 08"].map(hex);
    let mut requests = vec![];
    for families in PAIRS {
        for (length, given) in next_hops {
            let next_hop: Vec<u8> = NEXT_HOP.into_iter().cycle().take(given).collect();
            for rest in &rests {
                let value = [&families[..], &[length], &next_hop, rest].concat();
                requests.extend(announced(GUESS, 6, &value));
                requests.push(on_bytes(22, GUESS, (5, 0), &value));
            }
        }
    }
    requests
}

fn withdrawal_orders() -> Vec<Request> {
    let lists = ["", "08 20", "09 20 FF", "81", "08", "09 20 FF 81", "09 20 FF 08"].map(hex);
    let mut requests = vec![];
    for families in PAIRS {
        for list in &lists {
            let value = [&families[..], list].concat();
            requests.extend(withdrawn(GUESS, 6, &value));
            requests.push(on_bytes(24, GUESS, (5, 0), &value));
        }
    }
    requests
}

/// Next hops around the two lengths, those of other families, and lengths that are one of the two in their last byte: with rows that are good, not
/// writable, not whole and none; with room and with none.
fn written_next_hops() -> Vec<Request> {
    let lengths = [0, 1, 4, 15, 16, 17, 24, 31, 32, 33, 48, 255, 256, 272, 288];
    let rows: [&[u32]; 4] = [&[32, 0, 0x2001_0DB8, 0, 0, 0], &[129, 0, 0, 0, 0, 0], &[8, 0, 0x2000_0000], &[]];
    let mut requests = vec![];
    for length in lengths {
        let next_hop: Vec<u8> = NEXT_HOP.into_iter().cycle().take(length).collect();
        for rows in rows {
            let exact = 5 + length + if rows.is_empty() { 0 } else { 5 };
            requests.extend([exact, exact - 1, 0].map(|room| write_announcement(0, room, &next_hop, rows)));
        }
    }
    requests
}

/// Rows that are written and rows that are not, alone and after a good one, with room, with just enough for the good one and with none.
fn written_rows() -> Vec<Request> {
    let mut requests = vec![];
    for settings in [0, ADD_PATH] {
        let rows = rows_to_write(settings | IPV6);
        let good = if settings == 0 { 2 } else { 6 };
        for row in rows.iter().flat_map(|row| [row.clone(), [rows[0].as_slice(), row].concat()]) {
            for next_hop in NEXT_HOPS {
                let head = 5 + next_hop.len();
                let rooms = [head + 64, head + good, head + good - 1, 0];
                requests.extend(rooms.map(|room| write_announcement(settings, room, next_hop, &row)));
            }
            requests.extend([64, 3 + good, 2 + good, 0].map(|room| write_withdrawal(settings, room, &row)));
        }
    }
    requests
}

/// The same values and rows under every settings byte. Each reading takes other rows.
fn every_settings() -> Vec<Request> {
    let list = hex("00 18 0A 01 08 18 C8 02 00");
    let (plain, tagged) = ([32, 0, 0x2001_0DB8, 0, 0, 0], [256 + 32, 7, 0x2001_0DB8, 0, 0, 0]);
    let mut requests = vec![];
    for settings in 0..=LAST_SETTINGS {
        requests.extend(announced(settings, 24, &announcement(&NEXT_HOP[..16], 7, &list)));
        requests.extend(withdrawn(settings, 24, &withdrawal(&list)));
        for row in [plain, tagged] {
            requests.push(write_announcement(settings, 64, &NEXT_HOP, &row));
            requests.push(write_withdrawal(settings, 64, &row));
        }
    }
    requests
}
