//! Marks of guessed ids: what each reading marks, stores of every kind whose marks are taken off, and marked rows to write. What needs a large
//! store stands in `limits`.

use super::examples::{hex, on_bytes, request, words};
use super::mp_nlri::{write_announcement, write_withdrawal, NEXT_HOP};
use super::pieces;
use records::{Request, ADD_PATH, GUESS, IPV6, LAST_SETTINGS};

/// The mark in a row's first word.
pub const MARK: u32 = 512;

/// The marks of a store taken off.
pub fn take_off(store: &[u32]) -> Request {
    on_bytes(28, 0, (0, 0), &words(store))
}

/// Rows as the guess gives them: those with ids are marked.
pub fn marked(rows: &[u32]) -> Vec<u32> {
    let mut rows = rows.to_vec();
    for first in rows.iter_mut().step_by(6).filter(|first| **first & 256 != 0) {
        *first |= MARK;
    }
    rows
}

pub fn all() -> Vec<Request> {
    [lists(), updates(), sizes(), bits(), first_words(), guessed_rows(), written_rows(), every_settings()].concat()
}

/// With and without ids, told and guessed; and both set, where nothing is guessed.
const READINGS: [u8; 4] = [0, ADD_PATH, GUESS, ADD_PATH | GUESS];

/// Lists that are taken in more than one reading, and what the guess goes through: items without ids, one and more with, an item that it falls
/// back on, and ids after it; ids 0 and with every bit but the first eight; and marked rows before a refusal.
const LISTS: &[&str] = &[
    "00 00 00 07 08 0A",
    "00 00 00 07 00",
    "00 00 00 00 00 00 00 00 00 00",
    "00 FF FF FF 08 0A 01 02 03 04 08 0B",
    "08 0A 00 00 00 07 08 0B 00 00 00 08 09 0C 80 20 01 02 03 FF 00 00 00 00 00",
    "00 08 0A 08 0B",
    "00 00 00 07 08 0A FF",
    "00 00 00 07 08 0A 08 0B 20",
];

/// Each list in each reading by each call that puts rows, with room and with a place too few for a row.
fn lists() -> Vec<Request> {
    let mut requests = vec![];
    for list in LISTS.iter().map(|text| hex(text)) {
        for reading in READINGS {
            for room in [60, 5] {
                requests.extend([2, 4].map(|op| on_bytes(op, reading, (room, 0), &list)));
                requests.push(on_bytes(2, reading | IPV6, (room, 0), &list));
                let announcement = pieces::announcement(&NEXT_HOP, 0, &list);
                requests.push(on_bytes(22, reading, (room, 0), &announcement));
                requests.push(on_bytes(24, reading, (room, 0), &pieces::withdrawal(&list)));
            }
        }
    }
    requests
}

/// Sections with marked rows and without, and one that is refused after a marked row, beside one another.
fn updates() -> Vec<Request> {
    let sections = ["", "08 0A", "00 00 00 07 08 0A", "00 00 00 07 08 0A 08 0B", "00 00 00 07 08 0A FF"].map(hex);
    let mut requests = vec![];
    for withdrawn in &sections {
        for announced in &sections {
            let body = pieces::body(withdrawn, &[], announced);
            for reading in READINGS {
                requests.extend([(24, 24), (6, 5)].map(|rooms| on_bytes(10, reading, rooms, &body)));
            }
        }
    }
    requests
}

/// Stores of every number of words up to four rows and one, and of many: all bits set, or the mark alone.
fn sizes() -> Vec<Request> {
    let counts = (0..=25).chain([600, 601, 605]);
    counts.flat_map(|count| [u32::MAX, MARK].map(|word| take_off(&vec![word; count]))).collect()
}

/// Every bit of every word of a row: clear alone in the first row, and set alone in the second.
fn bits() -> Vec<Request> {
    let mut requests = vec![];
    for place in 0..6 {
        for bit in 0..32 {
            let mut store = [[u32::MAX; 6], [0; 6]].concat();
            store[place] ^= 1 << bit;
            store[6 + place] ^= 1 << bit;
            requests.push(take_off(&store));
        }
    }
    requests
}

/// First words with the mark and without, beside lengths, 256 and greater bits.
const FIRST_WORDS: [u32; 16] =
    [0, 8, 256, 264, 511, 512, 520, 767, 768, 776, 1_023, 1_024, 1_536, 1_792, u32::MAX, u32::MAX - MARK];

/// Each as the first, second and last row; the other words of its row have the mark's bit, and the other rows have none.
fn first_words() -> Vec<Request> {
    let store = |first: u32, at: usize| {
        let mut rows = [[264, 7, 0x0A00_0000, 0, 0, 0]; 3];
        rows[at] = [first, MARK, MARK, MARK, MARK, MARK];
        rows.concat()
    };
    FIRST_WORDS.into_iter().flat_map(|first| [0, 1, 2].map(|at| take_off(&store(first, at)))).collect()
}

/// The rows of lists by the guess, and the same before words of a row that is cut.
fn guessed_rows() -> Vec<Request> {
    let stores: [&[u32]; 3] = [
        &[776, 7, 0x0A00_0000, 0, 0, 0],
        &[768, 0, 0, 0, 0, 0, 768, 0, 0, 0, 0, 0],
        &[8, 0, 0x0A00_0000, 0, 0, 0, 776, 7, 0x0B00_0000, 0, 0, 0, 777, 8, 0x0C80_0000, 0, 0, 0, 32, 0, 1, 0, 0, 0],
    ];
    stores.iter().flat_map(|store| [take_off(store), take_off(&[store, &[776, 7][..]].concat())]).collect()
}

/// Rows with the mark beside an id, without one, and alone; and with the bit above it.
const MARKED: [[u32; 6]; 6] = [
    [776, 7, 0x0A00_0000, 0, 0, 0],
    [520, 7, 0x0A00_0000, 0, 0, 0],
    [520, 0, 0x0A00_0000, 0, 0, 0],
    [768, 0, 0, 0, 0, 0],
    [512, 0, 0, 0, 0, 0],
    [1_800, 7, 0x0A00_0000, 0, 0, 0],
];

/// Marked rows by each writer: alone, after a row that is written and before one; with room and with none.
fn written_rows() -> Vec<Request> {
    let mut requests = vec![];
    for settings in READINGS {
        let good = if settings & ADD_PATH != 0 { [264, 7, 0x0A00_0000, 0, 0, 0] } else { [8, 0, 0x0A00_0000, 0, 0, 0] };
        for row in MARKED {
            for rows in [row.to_vec(), [good, row].concat(), [row, good].concat()] {
                requests.extend([99, 0].into_iter().flat_map(|room| written(settings, room, &rows, &good)));
            }
        }
    }
    requests
}

/// Rows by every writer, and by that of UPDATEs in either list beside a row that is written.
fn written(settings: u8, room: usize, rows: &[u32], good: &[u32]) -> Vec<Request> {
    let list = |settings| request(13, settings, (room, 0), [words(rows), vec![], vec![]], 0);
    let update = |first, second| request(17, settings, (room, 0), [words(first), vec![], words(second)], 0);
    vec![
        list(settings),
        list(settings | IPV6),
        update(rows, good),
        update(good, rows),
        write_announcement(settings, room, &NEXT_HOP, rows),
        write_withdrawal(settings, room, rows),
    ]
}

/// The same store under every settings byte, with rooms, other parts and an argument of which nothing is used.
fn every_settings() -> Vec<Request> {
    let store = words(&[776, 7, 0x0A00_0000, 0, 0, 0, 8, 0, 0x0B00_0000, 0, 0, 0]);
    let asked = |settings| request(28, settings, (7, 5), [store.clone(), vec![1, 2, 3], vec![9]], settings);
    (0..=LAST_SETTINGS).map(asked).collect()
}
