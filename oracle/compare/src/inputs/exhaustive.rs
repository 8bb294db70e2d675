//! All short inputs: every byte string of at most two bytes, longer ones over the bytes where something changes, every
//! host bit, every short first word of a row, short indexes, and all combinations of boundary values for headers, rows and written messages.

use super::as4::{self, joined};
use super::attributes::{search, walk};
use super::examples::{self, on_bytes, request, words, PATH_SETTINGS};
use super::hosts::{self, READINGS};
use super::index::{self, ask, build};
use super::marks::{take_off, MARK};
use super::mp_nlri::NEXT_HOP;
use super::pieces;
use records::{Request, ADD_PATH, FOUR_BYTE_AS, GUESS, IPV6};

/// Requests in a fixed order, made one at a time.
pub struct Short(Box<dyn Iterator<Item = Request>>);

impl Short {
    pub fn new() -> Short {
        Short(Box::new(
            written_paths()
                .chain(written_messages())
                .chain(written_rows())
                .chain(marks_taken_off())
                .chain(index::every_list())
                .chain(index::longest())
                .chain(indexes())
                .chain(indexed_lists())
                .chain(aggregators())
                .chain(announcements_and_withdrawals())
                .chain(hosts::every_way())
                .chain(malformed_pairs())
                .chain(headers())
                .chain(attributes())
                .chain(updates())
                .chain(pairs())
                .chain(paths())
                .chain(lists()),
        ))
    }

    pub fn next(&mut self) -> Option<Request> {
        self.0.next()
    }
}

/// Every string over the alphabet with a length of the range.
fn strings(alphabet: &'static [u8], lengths: std::ops::RangeInclusive<u32>) -> impl Iterator<Item = Vec<u8>> {
    lengths.flat_map(move |length| {
        (0..alphabet.len().pow(length)).map(move |mut number| {
            let mut string = vec![];
            for _ in 0..length {
                string.push(alphabet[number % alphabet.len()]);
                number /= alphabet.len();
            }
            string
        })
    })
}

/// Every byte value.
static BYTES: [u8; 256] = {
    let mut all = [0; 256];
    let mut at = 0;
    while at < 256 {
        all[at] = at as u8;
        at += 1;
    }
    all
};

fn lists() -> impl Iterator<Item = Request> {
    let all_settings = READINGS.map(|reading| [reading, reading | IPV6]).concat();
    let around_zero = strings(&[0, 1, 8, 32, 33, 255], 3..=6).chain(strings(&[0, 8, 24], 7..=9));
    let long = around_zero
        .flat_map(|bytes| [GUESS, GUESS | IPV6, ADD_PATH, 0].map(|settings| on_bytes(2, settings, (54, 0), &bytes)));
    let short = strings(&BYTES, 0..=2).flat_map(move |bytes| {
        let mut requests = vec![];
        requests.extend(all_settings.iter().map(|settings| on_bytes(2, *settings, (12, 0), &bytes)));
        requests.extend(READINGS.map(|settings| on_bytes(4, settings, (12, 0), &bytes)));
        requests.extend([0, ADD_PATH, IPV6].map(|settings| on_bytes(1, settings, (0, 0), &bytes)));
        requests
    });
    long.chain(short)
}

fn paths() -> impl Iterator<Item = Request> {
    let long = strings(&[0, 1, 2, 4, 5, 255], 3..=6);
    long.chain(strings(&BYTES, 0..=2))
        .flat_map(|bytes| PATH_SETTINGS.map(|settings| on_bytes(6, settings, (6, 3), &bytes)))
}

fn aggregators() -> impl Iterator<Item = Request> {
    (0..=20).chain([65_535, 65_536]).flat_map(|length| {
        let bytes: Vec<u8> = (0..length).map(|at| (at * 37 + 200) as u8).collect();
        [0, FOUR_BYTE_AS].map(|settings| on_bytes(8, settings, (0, 0), &bytes))
    })
}

fn updates() -> impl Iterator<Item = Request> {
    strings(&[0, 1, 2, 8, 255], 0..=6).flat_map(|bytes| {
        let mut requests: Vec<Request> =
            READINGS.iter().map(|settings| on_bytes(10, *settings, (12, 12), &bytes)).collect();
        requests.push(on_bytes(12, 0, (0, 0), &bytes));
        requests
    })
}

/// Values over the bytes of the families and of a next hop's length; every byte in the place of each of these; and short lists in each reading.
fn announcements_and_withdrawals() -> impl Iterator<Item = Request> {
    let short =
        strings(&[0, 1, 2, 16, 255], 0..=4).flat_map(|value| [23, 25].map(|op| on_bytes(op, GUESS, (0, 0), &value)));
    let every_byte = (0..4).flat_map(|at| {
        BYTES.into_iter().flat_map(move |byte| {
            let mut values = [pieces::announcement(&NEXT_HOP, 0, &[8, 0x20]), pieces::withdrawal(&[8, 0x20])];
            values.iter_mut().for_each(|value| value[at] = byte);
            [on_bytes(23, GUESS, (0, 0), &values[0]), on_bytes(25, GUESS, (0, 0), &values[1])]
        })
    });
    let lists = strings(&[0, 1, 8, 33, 129], 0..=4).flat_map(|list| {
        let values = [(22, pieces::announcement(&NEXT_HOP, 0, &list)), (24, pieces::withdrawal(&list))];
        READINGS
            .into_iter()
            .flat_map(move |reading| values.clone().map(|(op, value)| on_bytes(op, reading, (18, 0), &value)))
    });
    short.chain(every_byte).chain(lists)
}

/// Sections over no length, a length and the extended bit, of one type and of MP_REACH_NLRI.
fn attributes() -> impl Iterator<Item = Request> {
    strings(&[0, 1, 14, 16], 0..=7)
        .flat_map(|section| [walk(&section, 0), walk(&section, 3), search(&section, 1), search(&section, 14)])
}

/// AS_PATH and AS4_PATH over no numbers, one, and good and bad types.
fn malformed_pairs() -> impl Iterator<Item = Request> {
    const ALPHABET: &[u8] = &[0, 1, 2, 5];
    strings(ALPHABET, 0..=3)
        .flat_map(|old| strings(ALPHABET, 0..=3).map(move |new| joined([&old, &new], as4::ABSENT, (6, 3))))
}

/// Every AS_PATH of up to three segments with every AS4_PATH of up to two: sets, sequences and confederation sequences of up to two numbers.
fn pairs() -> impl Iterator<Item = Request> {
    // a type and a count in each
    const SEGMENTS: &[u8] = &[10, 11, 12, 20, 21, 22, 30, 31, 32];
    let path = |forms: &[u8], width| {
        let numbers = |count: u8| (1..=u32::from(count)).map(|number| 7 * number).collect();
        as4::bytes(&forms.iter().map(|form| (form / 10, numbers(form % 10))).collect::<Vec<_>>(), width)
    };
    strings(SEGMENTS, 0..=3).flat_map(move |old| {
        strings(SEGMENTS, 0..=2).map(move |new| joined([&path(&old, 2), &path(&new, 4)], as4::ABSENT, (10, 10)))
    })
}

fn headers() -> impl Iterator<Item = Request> {
    const CLAIMED: [u16; 16] = [0, 18, 19, 20, 21, 22, 23, 24, 28, 29, 30, 4_095, 4_096, 4_097, 65_534, 65_535];
    const GIVEN: [usize; 17] = [0, 1, 15, 16, 17, 18, 19, 20, 21, 22, 23, 24, 28, 29, 30, 31, 64];
    const TYPES: [u8; 8] = [0, 1, 2, 3, 4, 5, 6, 255];
    CLAIMED.into_iter().flat_map(move |claimed| {
        GIVEN
            .into_iter()
            .flat_map(move |given| TYPES.into_iter().flat_map(move |kind| header_requests(claimed, given, kind)))
    })
}

/// A header with each of three markers, read in every way.
fn header_requests(claimed: u16, given: usize, kind: u8) -> Vec<Request> {
    let mut requests = vec![];
    for wrong_at in [None, Some(0), Some(15)] {
        let mut bytes = vec![0xFF; 16];
        if let Some(at) = wrong_at {
            bytes[at] = 0xFE;
        }
        bytes.extend(claimed.to_be_bytes());
        bytes.push(kind);
        bytes.resize(64, 0);
        bytes.truncate(given);
        requests.extend(examples::headers(&bytes));
    }
    requests
}

/// First words of rows to write: lengths at boundaries, with 256, with the mark and with both, and greater ones.
const FIRST: [u32; 32] = [
    0,
    1,
    7,
    8,
    9,
    16,
    17,
    24,
    25,
    31,
    32,
    33,
    64,
    127,
    128,
    129,
    255,
    256,
    257,
    288,
    289,
    384,
    385,
    511,
    512,
    520,
    544,
    768,
    776,
    800,
    1_032,
    u32::MAX,
];

fn written_rows() -> impl Iterator<Item = Request> {
    const ADDRESSES: [[u32; 4]; 9] = [
        [0; 4],
        [0x0A00_0000, 0, 0, 0],
        [0x0A01_0000, 0, 0, 0],
        [0x0A01_0100, 0, 0, 0],
        [0x0A01_0101, 0, 0, 0],
        [0x2001_0DB8, 1, 0, 0],
        [0x2001_0DB8, 1, 0x0100_0000, 0],
        [0, 0, 0, 1],
        [u32::MAX; 4],
    ];
    FIRST.into_iter().flat_map(move |first| {
        ADDRESSES.into_iter().flat_map(move |a| {
            [0, 1, u32::MAX].into_iter().flat_map(move |id| {
                [0, ADD_PATH, IPV6, ADD_PATH | IPV6].map(|settings| {
                    let row = words(&[first, id, a[0], a[1], a[2], a[3]]);
                    request(13, settings, (24, 0), [row, vec![], vec![]], 0)
                })
            })
        })
    })
}

/// Every first word up to twice the bit above the mark, before words with the mark's bit and a row of it.
fn marks_taken_off() -> impl Iterator<Item = Request> {
    (0..4 * MARK).map(|first| take_off(&[[first, MARK, MARK, MARK, MARK, MARK], [MARK; 6]].concat()))
}

/// Every index of up to three places about the starts and the end of a list, and of 256.
fn indexes() -> impl Iterator<Item = Request> {
    const NUMBERS: [u32; 9] = [0, 1, 4, 15, 16, 17, 32, 35, 48];
    strings(&[0, 1, 2, 5, 8, 9, 255], 0..=3).flat_map(|places| {
        let list = [0, 8, 10, 9, 11, 255, 33, 8, 12];
        let index: Vec<u16> = places.iter().map(|place| if *place == 255 { 256 } else { (*place).into() }).collect();
        NUMBERS.map(|number| ask(0, &list, &index, number))
    })
}

/// Short lists in both families and forms: their index, and routes from the first start.
fn indexed_lists() -> impl Iterator<Item = Request> {
    strings(&[0, 1, 8, 33, 129], 0..=5).flat_map(|list| {
        let index: &[u16] = if list.is_empty() { &[] } else { &[0] };
        let built = index::FORMS.map(|settings| build(settings, 1, &list));
        let asked = [(0, 0), (0, 2), (ADD_PATH, 0), (IPV6, 1)];
        let asked = asked.map(|(settings, number)| ask(settings, &list, index, number));
        [built, asked].concat()
    })
}

/// Two segments of good and bad types and counts; the numbers all fit two bytes, or the first or last does not.
fn written_paths() -> impl Iterator<Item = Request> {
    const SEGMENTS: [[u32; 2]; 12] =
        [[0, 0], [0, 1], [0, 256], [1, 0], [2, 1], [3, 255], [4, 1], [4, 256], [5, 0], [5, 1], [6, 256], [257, 1]];
    SEGMENTS.into_iter().flat_map(move |first| {
        SEGMENTS.into_iter().flat_map(move |second| {
            let count = (first[1] + second[1]) as usize;
            [None, Some(0), Some(count.saturating_sub(1))].into_iter().flat_map(move |wide| {
                let mut numbers = vec![65_535; count];
                if let Some(number) = wide.and_then(|at| numbers.get_mut(at)) {
                    *number = 65_536;
                }
                let parts = [words(&[first, second].concat()), words(&numbers), vec![]];
                PATH_SETTINGS.map(|settings| request(14, settings, (2_100, 0), parts.clone(), 0))
            })
        })
    })
}

fn written_messages() -> impl Iterator<Item = Request> {
    let lengths = (0..=14).chain([4_076, 4_077, 4_078, 65_515, 65_516, 65_517]);
    lengths.flat_map(|length| {
        (0..=7).chain([255]).flat_map(move |kind| {
            let body = vec![0; length];
            [length + 18, length + 19, 65_600]
                .map(|room| request(16, 0, (room, 0), [body.clone(), vec![], vec![]], kind))
        })
    })
}
