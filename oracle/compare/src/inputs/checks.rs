//! Least lengths at, below and above, each order of two checks on inputs that fail both, and every settings byte.
//! What needs a large input stands in `limits`.

use super::examples::{headers, hex, on_bytes, request, words, PATH_SETTINGS};
use super::pieces;
use records::{Request, ADD_PATH, FOUR_BYTE_AS, GUESS, IPV6, LAST_SETTINGS};

pub fn all() -> Vec<Request> {
    [
        settings(),
        lengths_read(),
        header_orders(),
        written_messages(),
        routes(),
        lists(),
        bodies(),
        sections(),
        segments(),
        empty_segments(),
        aggregators(),
        written_rows(),
        written_paths(),
        written_empty_segments(),
        written_updates(),
    ]
    .concat()
}

/// The same bytes under every settings byte.
fn settings() -> Vec<Request> {
    let inputs = [
        (2, "00 18 0A 01 08 18 C8 02 00"),
        (6, "02 02 00 00 FD E9 00 00 FD EA"),
        (6, "02 00"),
        (7, "02 00"),
        (8, "FD E9 0A 00 00 01"),
        (9, "FF FF FF FF FF FF FF FF FF FF FF FF FF FF FF FE 00 13 04"),
        (9, "FF FF FF FF FF FF FF FF FF FF FF FF FF FF FF FF 10 01 02"),
        (10, "00 00 00 00 00 18 0A 01 08 18 C8 02 00"),
        (11, "00 07 00 00 00 07 09 0A FF 00 00 09 0A FF"),
    ];
    let read = inputs.map(|(op, text)| on_bytes(op, 0, (24, 24), &hex(text)));
    let written = [(14, vec![2, 1, 1, 0], vec![7]), (15, vec![7, 0x0A00_0001], vec![])]
        .map(|(op, first, second)| request(op, 0, (24, 0), [words(&first), words(&second), vec![]], 0));
    let all = read.into_iter().chain(written);
    all.flat_map(|asked| (0..=LAST_SETTINGS).map(move |settings| Request { settings, ..asked.clone() })).collect()
}

/// Every type's least and most lengths, given whole; and long ones of which only the header is given.
fn lengths_read() -> Vec<Request> {
    let mut requests = vec![];
    for kind in 1..=5 {
        let whole = [18, 19, 20, 21, 22, 23, 24, 28, 29, 30, 4_096].map(|claimed: usize| (claimed, claimed.max(19)));
        let cut = [4_095, 4_096, 4_097, 65_534, 65_535].map(|claimed| (claimed, 19));
        for (claimed, given) in whole.into_iter().chain(cut) {
            requests.extend(headers(&pieces::message(0xFF, claimed, kind, given)));
        }
    }
    requests
}

/// 2, 6, 3, 4, a type's own 3 and 2 again, in every pair.
fn header_orders() -> Vec<Request> {
    let mut requests = vec![];
    for marker in [0xFF, 0xFE] {
        for claimed in [18, 19, 20, 22, 23, 4_097, 65_535] {
            for kind in [0, 1, 2, 3, 4, 5, 6, 255] {
                for given in [18, 19, 23] {
                    requests.extend(headers(&pieces::message(marker, claimed, kind, given)));
                }
            }
        }
    }
    requests
}

/// Least lengths of every type to write, and 4, 3 and 11 in every pair.
fn written_messages() -> Vec<Request> {
    let mut requests = vec![];
    for kind in 0..=6 {
        for size in [0, 1, 2, 3, 4, 5, 9, 10, 11] {
            let write = |room| request(16, 0, (room, 0), [vec![0; size], vec![], vec![]], kind);
            requests.extend([19 + size, 18 + size, 0].map(write));
        }
    }
    requests
}

/// One route: lengths around the family's most, with too few octets and with one more; and every cut of an id.
fn routes() -> Vec<Request> {
    let mut requests = vec![];
    for settings in [0, ADD_PATH, IPV6, IPV6 | ADD_PATH] {
        let id: &[u8] = if settings & ADD_PATH != 0 { &[0, 0, 0, 7] } else { &[] };
        let most: u8 = if settings & IPV6 != 0 { 128 } else { 32 };
        for bits in [0, 1, 8, 9, most - 1, most, most + 1, 255] {
            let octets = (usize::from(bits) + 7) / 8;
            for given in [0, octets.saturating_sub(1), octets, octets + 1] {
                let bytes = [id, &[bits], &vec![0xA5; given]].concat();
                requests.push(on_bytes(1, settings, (0, 0), &bytes));
            }
        }
        requests.extend((0..=id.len()).map(|cut| on_bytes(1, settings, (0, 0), &id[..cut])));
    }
    requests
}

/// Lists and sections: items before 11, 8 before any item, and rooms around two rows.
fn lists() -> Vec<Request> {
    let inputs = [
        "08 0A 08 0B",
        "00 00 00 01 08 0A 00 00 00 02 08 0B",
        "08 0A 21",
        "08 0A 18 0A",
        "00 00 00 01 08 0A 00 00 00 02 81",
        "00 00 00 01 08 0A 00 00 00",
        "08",
        "21",
        "FF",
        "21 00",
    ];
    let mut requests = vec![];
    for bytes in inputs.map(hex) {
        for settings in 0..8 {
            requests.extend([3, 5].map(|op| on_bytes(op, settings, (0, 0), &bytes)));
            for room in [0, 11, 12] {
                requests.extend([2, 4].map(|op| on_bytes(op, settings, (room, 0), &bytes)));
            }
        }
    }
    requests
}

/// Every cut of an UPDATE body, with room and with none.
fn bodies() -> Vec<Request> {
    let whole = pieces::body(&hex("08 0A"), &hex("40 01 01 00"), &hex("08 0B"));
    let mut requests = vec![];
    for cut in 0..=whole.len() {
        for settings in [0, GUESS] {
            requests.extend([11, 12].map(|op| on_bytes(op, settings, (0, 0), &whole[..cut])));
            requests.extend([0, 6].map(|room| on_bytes(10, settings, (room, room), &whole[..cut])));
        }
    }
    requests
}

/// Good and malformed sections of a body beside one another, with room and with none for either.
fn sections() -> Vec<Request> {
    let lists = ["08 0A", "08", "21 00", "18 0A"].map(hex);
    let mut requests = vec![];
    for withdrawn in &lists {
        for announced in &lists {
            let body = pieces::body(withdrawn, &[], announced);
            for settings in [0, GUESS] {
                requests.push(on_bytes(11, settings, (0, 0), &body));
                let rooms = [(0, 0), (5, 6), (6, 5), (6, 6)];
                requests.extend(rooms.map(|rooms| on_bytes(10, settings, rooms, &body)));
            }
        }
    }
    requests
}

/// Segments: 2 for the count, 2 for the numbers and 9, in this order and before 11; and the longest ones.
fn segments() -> Vec<Request> {
    let mut paths = vec![hex("01 01 00 05 02 02 00 01 00 02"), hex("02 00 05"), hex("02 00 05 00")];
    for kind in 0..=5 {
        let rests: [&[u8]; 6] = [&[], &[0], &[1], &[1, 0], &[1, 0, 1], &[1, 0, 0, 0, 1]];
        paths.extend(rests.map(|rest| [&[kind], rest].concat()));
    }
    for count in [254, 255] {
        let full = [vec![2, count], vec![1; 2 * usize::from(count)]].concat();
        paths.extend([full[..full.len() - 1].to_vec(), full]);
    }
    let mut requests = vec![];
    for path in &paths {
        for settings in PATH_SETTINGS {
            requests.push(on_bytes(7, settings, (0, 0), path));
            let rooms = [(0, 0), (2, 1), (3, 3), (4, 2), (4, 3), (2, 255)];
            requests.extend(rooms.map(|rooms| on_bytes(6, settings, rooms, path)));
        }
    }
    requests
}

/// An empty segment of every type: alone, and after and before a good one, a bad type, one that is cut and another empty one. 16 after
/// the segment's own 9, in the segments' order with 2 and 9 of others, and before 11.
fn empty_segments() -> Vec<Request> {
    let mut requests = vec![];
    for settings in PATH_SETTINGS {
        let width = if settings & FOUR_BYTE_AS != 0 { 4 } else { 2 };
        let of_one = |kind, given| [vec![kind, 1], vec![0; given]].concat();
        let others = [vec![], of_one(2, width), of_one(5, width), of_one(2, width - 1), vec![1, 0], vec![2]];
        for kind in 0..=5 {
            for before in &others {
                for after in &others {
                    let path = [before.as_slice(), &[kind, 0], after].concat();
                    requests.push(on_bytes(7, settings, (0, 0), &path));
                    requests.extend([(0, 0), (6, 2)].map(|rooms| on_bytes(6, settings, rooms, &path)));
                }
            }
        }
    }
    requests
}

/// AGGREGATOR of every short length, and written at 65,535, below and above, with 13 before 11.
fn aggregators() -> Vec<Request> {
    let mut requests = vec![];
    for settings in [0, FOUR_BYTE_AS] {
        requests.extend((0..10).map(|size| on_bytes(8, settings, (0, 0), &vec![7; size])));
        for number in [65_534, 65_535, 65_536, u32::MAX] {
            let value = words(&[number, 0x0A00_0001]);
            let write = |room| request(15, settings, (room, 0), [value.clone(), vec![], vec![]], 0);
            requests.extend([0, 5, 6, 7, 8].map(write));
        }
    }
    requests
}

/// Rows to write, the first of them good, and each way not to be writable.
pub fn rows_to_write(settings: u8) -> [Vec<u32>; 11] {
    let (mark, id) = if settings & ADD_PATH != 0 { (256, 7) } else { (0, 0) };
    let most = if settings & IPV6 != 0 { 128 } else { 32 };
    [
        vec![mark + 8, id, 0x0A00_0000, 0, 0, 0],
        vec![mark + most, id, 1, 0, 0, 0],
        vec![mark + most + 1, id, 1, 0, 0, 0],
        vec![mark + 256 + 8, id, 0x0A00_0000, 0, 0, 0],
        vec![8, id, 0x0A00_0000, 0, 0, 0],
        vec![mark + 8, 1, 0x0A00_0000, 0, 0, 0],
        vec![mark + 8, id, 0x0A01_0000, 0, 0, 0],
        vec![mark + 8, id, 0x0A00_0000, 0, 0, 1],
        vec![mark + 32, id, 0x0A00_0000, 1, 0, 0],
        vec![mark, id, 0, 0, 0],
        vec![],
    ]
}

/// Rows to write, alone and after a good row, and 14 before 11.
fn written_rows() -> Vec<Request> {
    let mut requests = vec![];
    for settings in [0, ADD_PATH, IPV6, IPV6 | ADD_PATH] {
        let rows = rows_to_write(settings);
        for row in &rows {
            let after = [rows[0].as_slice(), row].concat();
            for (words_lent, room) in [(row, 64), (row, 6), (row, 0), (&after, 64), (&after, 0)] {
                requests.push(request(13, settings, (room, 0), [words(words_lent), vec![], vec![]], 0));
            }
        }
    }
    requests
}

/// Paths to write: 14, then 9, 12 and 13 segment by segment, then 11; counts and rooms at their limits.
fn written_paths() -> Vec<Request> {
    let (many, wide) = (vec![1; 256], vec![65_536; 256]);
    let mut paths: Vec<(Vec<u32>, &[u32])> = vec![
        (vec![], &[]),
        (vec![2, 1, 2], &[1]),
        (vec![5, 0, 2], &[]),
        (vec![2, 2], &[1]),
        (vec![5, 2], &[1]),
        (vec![2, 257], &many),
        (vec![2, 2], &[65_536]),
        (vec![5, 256], &many),
        (vec![5, 1], &[65_536]),
        (vec![2, 256], &wide),
        (vec![2, 1, 5, 0], &[65_536]),
        (vec![2, 256, 5, 0], &many),
        (vec![5, 0, 2, 256], &many),
        (vec![2, 1, 2, 255], &wide),
        (vec![2, 1], &[65_534]),
        (vec![2, 1], &[65_535]),
        (vec![2, 1], &[65_536]),
    ];
    paths.extend((0..=5).map(|kind| (vec![kind, 0], [].as_slice())));
    paths.extend([254, 255, 256].map(|count| (vec![2, count as u32], &many[..count])));
    paths.iter().flat_map(|(pairs, numbers)| written_path(pairs, numbers)).collect()
}

/// A path to write at both widths by both rules, with room, with one place too few and with none.
fn written_path(pairs: &[u32], numbers: &[u32]) -> Vec<Request> {
    let mut requests = vec![];
    for settings in PATH_SETTINGS {
        let width = if settings & FOUR_BYTE_AS != 0 { 4 } else { 2 };
        let exact = pairs.len() + width * numbers.len();
        let write = |room| request(14, settings, (room, 0), [words(pairs), words(numbers), vec![]], 0);
        requests.extend([exact, exact.saturating_sub(1), 0].map(write));
    }
    requests
}

/// An empty segment to write, after and before a good one, a bad type, another empty one, a wide number and too many numbers; and where
/// the counts do not add up. 16 after 14 and its own 9, in the segments' order with 9, 12 and 13 of others, and before 11.
fn written_empty_segments() -> Vec<Request> {
    let (many, wide) = (vec![7; 256], [65_536]);
    let others: [(&[u32], &[u32]); 6] =
        [(&[], &[]), (&[2, 1], &[7]), (&[5, 1], &[7]), (&[1, 0], &[]), (&[2, 1], &wide), (&[2, 256], &many)];
    let mut requests = vec![];
    for kind in [0, 2, 5] {
        for (before, first) in others {
            for (after, second) in others {
                requests.extend(written_path(&[before, &[kind, 0], after].concat(), &[first, second].concat()));
            }
        }
        requests.extend([vec![kind, 0, 2], vec![kind, 0, 2, 2]].iter().flat_map(|pairs| written_path(pairs, &[])));
        requests.extend(written_path(&[kind, 0], &[7]));
    }
    requests.extend([[2, 0, 2, 255], [2, 255, 2, 0]].iter().flat_map(|pairs| written_path(pairs, &many[1..])));
    requests
}

/// Bodies to write: rows that are not writable in either list, and 14 before 11.
fn written_updates() -> Vec<Request> {
    let lists: [&[u32]; 4] = [&[], &[8, 0, 0x0A00_0000, 0, 0, 0], &[33, 0, 0, 0, 0, 0], &[8, 0, 0x0A00_0000]];
    let mut requests = vec![];
    for withdrawn in lists {
        for announced in lists {
            let exact = 8 + (withdrawn.len() + announced.len()) / 3;
            for room in [exact, exact - 1, 0] {
                let parts = [words(withdrawn), hex("40 01 01 00"), words(announced)];
                requests.push(request(17, 0, (room, 0), parts, 0));
            }
        }
    }
    requests
}
