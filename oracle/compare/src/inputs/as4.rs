//! Old and new AS numbers side by side: the request's example and rules, every length of both AGGREGATORs, where 23456 is looked for, each
//! order of two checks on inputs that fail both, and every settings byte. What needs a large input stands in `limits`.

use super::examples::{hex, request};
use records::{Request, LAST_SETTINGS};

/// AGGREGATOR and AS4_AGGREGATOR.
pub type Aggregators<'a> = [&'a [u8]; 2];

/// The AGGREGATOR that stands.
pub fn standing([old, new]: Aggregators) -> Request {
    request(20, 0, (0, 0), [old.to_vec(), new.to_vec(), vec![]], 0)
}

/// The path of AS_PATH and AS4_PATH.
pub fn joined([old, new]: [&[u8]; 2], aggregators: Aggregators, rooms: (usize, usize)) -> Request {
    let argument = u8::try_from(aggregators[0].len()).expect("an AGGREGATOR that the argument can tell");
    request(21, 0, rooms, [old.to_vec(), new.to_vec(), aggregators.concat()], argument)
}

pub fn all() -> Vec<Request> {
    [merges(), lengths(), where_as_trans_stands(), orders(), widths(), every_settings()].concat()
}

/// Both absent, one absent, and both there: the second stands, or the first, which ignores AS4_PATH.
pub const ABSENT: Aggregators = [&[], &[]];
const OLD_ALONE: Aggregators = [&[0xFD, 0xE9, 10, 0, 0, 1], &[]];
const NEW_ALONE: Aggregators = [&[], &[0, 1, 0x11, 0x70, 10, 0, 0, 1]];
const SECOND_STANDS: Aggregators = [&[0x5B, 0xA0, 10, 0, 0, 1], &[0, 1, 0x11, 0x70, 10, 0, 0, 2]];
pub const FIRST_STANDS: Aggregators = [&[0xFD, 0xE9, 10, 0, 0, 1], &[0, 1, 0x11, 0x70, 10, 0, 0, 2]];

/// AS_PATH and AS4_PATH, the type and numbers of each segment; then how many segments and numbers their path has.
const MERGES: &[(&str, &str, usize, usize)] = &[
    ("2:65001,23456,23456", "2:70000,70001", 2, 3),
    // as many, one fewer, and three more
    ("2:1,2", "2:70000,70001", 1, 2),
    ("2:1", "2:7,8", 1, 1),
    ("2:1,2,3,4", "2:7", 2, 4),
    ("2:1,2,3,4", "2:7,8,9", 2, 4),
    // a set counts one, whatever it has
    ("1:1,2", "2:7,8", 1, 2),
    ("1:1,2", "2:7", 1, 1),
    ("2:1", "1:7,8", 1, 2),
    ("2:1,2", "1:7,8", 2, 3),
    ("1:1,2 2:3", "2:7", 2, 3),
    ("1:1,2,3 2:4", "2:7,8", 1, 2),
    ("2:1 1:2,3 2:4", "2:7", 3, 4),
    ("2:1 1:2,3 2:4", "2:7,8", 2, 3),
    ("1:", "2:7", 1, 1),
    ("1:", "2:7,8", 1, 0),
    ("2:1", "1:", 1, 0),
    ("2:1", "1: 1:", 1, 1),
    ("1: 2:3,4", "2:7", 3, 2),
    ("1: 1: 2:3", "1: 2:7", 3, 1),
    // nothing in AS4_PATH, or nothing but confederation segments; an empty sequence is something
    ("", "", 0, 0),
    ("", "2:7", 0, 0),
    ("", "1:", 0, 0),
    ("", "2:", 1, 0),
    ("", "3:7", 0, 0),
    ("3:5", "", 1, 1),
    ("3:5", "4:7", 1, 1),
    ("3:5", "2:", 2, 1),
    ("2:1,2 3:5", "", 2, 3),
    ("2:1 3:5", "3:7", 2, 2),
    ("2:1 3:5 2:", "3: 4:", 3, 2),
    ("2:1,2 3:5", "2:", 3, 3),
    ("2:1 3:5 2:", "2:", 3, 2),
    ("2:1 2: 3:5", "2:", 2, 1),
    ("2:", "2:", 1, 0),
    ("2: 2:", "", 2, 0),
    ("2: 3:5", "2: 2:", 2, 0),
    // confederation segments of AS4_PATH
    ("2:1,2", "3:9 2:7 4:8", 2, 2),
    ("2:1", "2:7 3:8,9", 1, 1),
    ("2:1", "4: 2:7", 1, 1),
    // with nothing to make up, and with nothing left of it
    ("3:5 2:1", "2:7", 2, 2),
    ("4:5,6 3:8 2:1", "2:7", 3, 4),
    ("3: 2:1", "2:7", 2, 1),
    ("2:1 3:5 2:2", "2:7", 3, 3),
    ("2:1 3:5 4:6 2:2", "2:7", 4, 4),
    ("1:1 4: 2:2", "2:7", 3, 2),
    ("2:1 3:5 2: 3:6 2:2", "2:7", 3, 3),
    ("2: 3:5 2:1", "2:7", 1, 1),
    ("2:1 2:2 3:5", "2:7", 2, 2),
    // on the way
    ("2:1 3:5 2:2,3", "2:7", 4, 4),
    ("3:5 2:1 4:6 2:2 2:3", "2:7", 5, 5),
    ("2: 2:1,2", "2:7", 3, 2),
    ("2:1 2: 2:2,3", "2:7", 4, 3),
    ("2:1 2: 2:2", "2:7", 2, 2),
    // after a split
    ("2:1,2 3:5", "2:7", 2, 2),
    ("2:1,2 4:5 2:3", "2:7,8", 2, 3),
    ("3:5 2:1,2,3 3:6", "2:7", 3, 4),
    // segments that are not merged
    ("2:1 2:2 2:3", "2:7", 3, 3),
    ("2:1,2,3", "2:7 2:8", 3, 3),
    ("2:1,2", "2: 2:7,8", 2, 2),
    ("2:1 2:2", "", 2, 2),
    ("3:5 3:6 2:1", "2:7", 3, 3),
];

/// A path's segments: types and numbers.
fn segments(text: &str) -> Vec<(u8, Vec<u32>)> {
    let number = |text: &str| text.parse().expect("a number");
    let numbers = |text: &str| text.split(',').filter(|text| !text.is_empty()).map(number).collect();
    let segment = |text: &str| text.split_once(':').map(|(kind, list)| (number(kind) as u8, numbers(list)));
    text.split_whitespace().map(|text| segment(text).expect("a segment")).collect()
}

/// The bytes of segments at a width.
pub fn bytes(segments: &[(u8, Vec<u32>)], width: usize) -> Vec<u8> {
    let mut bytes = vec![];
    for (kind, numbers) in segments {
        bytes.extend([*kind, numbers.len() as u8]);
        bytes.extend(numbers.iter().flat_map(|number| number.to_be_bytes()[4 - width..].to_vec()));
    }
    bytes
}

/// Every merge with each pair of AGGREGATORs, with just the room that it needs, and with a place too few of either store.
fn merges() -> Vec<Request> {
    let mut requests = vec![];
    for (old, new, count, numbers) in MERGES {
        let alone = segments(old);
        let paths = [&bytes(&alone, 2)[..], &bytes(&segments(new), 4)];
        for aggregators in [ABSENT, OLD_ALONE, NEW_ALONE, SECOND_STANDS] {
            requests.extend(around(2 * count, *numbers).map(|rooms| joined(paths, aggregators, rooms)));
        }
        let numbers = alone.iter().map(|(_, numbers)| numbers.len()).sum();
        requests.extend(around(2 * alone.len(), numbers).map(|rooms| joined(paths, FIRST_STANDS, rooms)));
    }
    requests
}

/// Rooms that are enough, and each a place too few.
fn around(pairs: usize, numbers: usize) -> [(usize, usize); 3] {
    [(pairs, numbers), (pairs.saturating_sub(1), numbers), (pairs, numbers.saturating_sub(1))]
}

/// Every length of both AGGREGATORs up to 9, where the first has 23456 as far as it goes, and where it has not.
fn lengths() -> Vec<Request> {
    let paths = [&hex("02 01 00 01")[..], &hex("02 01 00 01 11 70")];
    let mut requests = vec![];
    for old in [hex("5B A0 0A 00 00 01 00 00 00"), hex("FD E9 0A 00 00 01 00 00 00")] {
        let new = hex("00 01 11 70 0A 00 00 02 00");
        for (first, second) in (0..=9).flat_map(|first| (0..=9).map(move |second| (first, second))) {
            let aggregators = [&old[..first], &new[..second]];
            requests.extend([standing(aggregators), joined(paths, aggregators, (2, 1))]);
        }
    }
    requests
}

/// 23456 in the first, as four bytes and as two in the second, a byte late, with its bytes exchanged, or with one of them wrong.
fn where_as_trans_stands() -> Vec<Request> {
    let paths = [&hex("02 01 00 01")[..], &hex("02 01 00 01 11 70")];
    let olds =
        ["5BA0", "5BA1", "5B00", "00A0", "A05B", "005B", "FDE9"].map(|number| [hex(number), vec![0; 4]].concat());
    let late = [hex("FD5BA0000000"), hex("FDE95BA00000"), hex("000000005BA0")];
    let news = ["00005BA0", "5BA00000", "005BA000", "00011170"].map(|number| [hex(number), vec![0; 4]].concat());
    let mut requests = vec![];
    for old in olds.iter().chain(&late) {
        for new in &news {
            requests.extend([standing([old, new]), joined(paths, [old, new], (2, 1))]);
        }
    }
    requests
}

/// 10, the refusals of AS_PATH, those of AS4_PATH, and 11, in every combination; AS4_PATH built upon and ignored.
fn orders() -> Vec<Request> {
    let olds = ["02 02 00 01 00 02", "02", "02 02 00 01 00", "05 01 00 01", "05 01", "02 01 00 01 05 00"].map(hex);
    let news = ["02 01 00 01 11 70", "02", "02 01 00 01 11", "05 01 00 01 11 70", "05 01 00", "03 00 05 00"].map(hex);
    let wrong: [Aggregators; 3] = [[&[0; 7], &[]], [&[0x5B, 0xA0, 0, 0, 0, 0], &[0; 7]], [&[0; 8], &[0; 6]]];
    let mut requests = vec![];
    for aggregators in [ABSENT, SECOND_STANDS, FIRST_STANDS].into_iter().chain(wrong) {
        for old in &olds {
            for new in &news {
                let rooms = [(4, 2), (1, 2), (4, 1), (0, 0)];
                requests.extend(rooms.map(|rooms| joined([old, new], aggregators, rooms)));
            }
        }
    }
    requests
}

/// Paths that are well-formed at the other's width: each is read at its own.
fn widths() -> Vec<Request> {
    let (narrow, wide) = (hex("02 02 00 01 00 02"), hex("02 02 00 01 11 70 00 01 11 71"));
    let both = hex("02 02 00 01 02 00 02 00 02 00");
    let pairs = [(&narrow, &narrow), (&wide, &wide), (&wide, &narrow), (&both, &both), (&both, &wide)];
    pairs.map(|(old, new)| joined([old, new], ABSENT, (20, 20))).to_vec()
}

/// The same inputs under every settings byte, none of which they go by.
fn every_settings() -> Vec<Request> {
    let (old, new) = (hex("03 00 02 02 00 01 5B A0"), hex("02 01 00 01 11 70"));
    let asked = [standing(SECOND_STANDS), joined([&old, &new], SECOND_STANDS, (6, 2))];
    let under = |settings| asked.clone().map(|request| Request { settings, ..request });
    (0..=LAST_SETTINGS).flat_map(under).collect()
}
