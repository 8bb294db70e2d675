//! The index of a list, and routes by an index: lists of every number of starts, questions by their own index and by others, and each order
//! of two checks on inputs that fail both. What needs a long list stands in `limits`.

use super::examples::{hex, on_bytes, request, words};
use records::{Request, ADD_PATH, IPV6, LAST_SETTINGS};

/// An index has the start of every sixteenth item.
pub const STEP: usize = 16;

/// The index of a list.
pub fn build(settings: u8, room: usize, list: &[u8]) -> Request {
    on_bytes(29, settings, (room, 0), list)
}

/// The route of a number, by an index.
pub fn ask(settings: u8, list: &[u8], index: &[u16], number: u32) -> Request {
    let places = index.iter().flat_map(|place| place.to_be_bytes()).collect();
    request(30, settings, (0, 0), [list.to_vec(), places, words(&[number])], 0)
}

/// Where each item of a list starts, by the lengths that stand there, in range or not.
pub fn starts(list: &[u8], settings: u8) -> Vec<u16> {
    let id = if settings & ADD_PATH != 0 { 4 } else { 0 };
    let mut starts = vec![];
    let mut place = 0;
    while place < list.len() {
        starts.push(place as u16);
        let bits = list.get(place + id).copied().unwrap_or(0);
        place += id + 1 + usize::from(bits).div_ceil(8);
    }
    starts
}

/// The list's own index.
pub fn own(list: &[u8], settings: u8) -> Vec<u16> {
    starts(list, settings).into_iter().step_by(STEP).collect()
}

pub fn all() -> Vec<Request> {
    [
        built(),
        cut_lists(),
        bad_lengths(),
        every_route(),
        numbers(),
        other_indexes(),
        every_start(),
        refused_items(),
        single_bytes(),
        lengths(),
        every_settings(),
    ]
    .concat()
}

/// Both families, without ids and with.
pub const FORMS: [u8; 4] = [0, ADD_PATH, IPV6, ADD_PATH | IPV6];

/// Lists of no, one, two, three and four starts, and of one item less and more.
pub const COUNTS: [usize; 10] = [0, 1, 15, 16, 17, 31, 32, 33, 48, 49];

/// Lengths that items have in turn: of neighbours and of items sixteen apart no two are the same.
const IPV4_IN_TURN: [u8; 7] = [0, 8, 9, 0, 24, 1, 32];
const IPV6_IN_TURN: [u8; 7] = [0, 8, 33, 0, 64, 1, 128];

/// One item of a list: lengths, ids and octets change from item to item, and some have a host bit.
fn item(settings: u8, number: usize) -> Vec<u8> {
    let in_turn = if settings & IPV6 != 0 { IPV6_IN_TURN } else { IPV4_IN_TURN };
    let bits = in_turn[number % in_turn.len()];
    let octets = (0..usize::from(bits).div_ceil(8)).map(|at| (37 * number + 11 * at + 1) as u8);
    let id = if number % 5 == 4 { u32::MAX - number as u32 } else { number as u32 };
    let id = if settings & ADD_PATH != 0 { id.to_be_bytes().to_vec() } else { vec![] };
    [id, vec![bits], octets.collect()].concat()
}

/// A good list of so many items.
pub fn list(settings: u8, count: usize) -> Vec<u8> {
    (0..count).flat_map(|number| item(settings, number)).collect()
}

/// Lists with just enough room and a place too few; those of one form also with more and with none.
fn built() -> Vec<Request> {
    let mut requests = vec![];
    for settings in FORMS {
        let counts: &[usize] = if settings == 0 { &COUNTS } else { &[0, 1, 16, 17, 33] };
        for count in counts {
            let needed = count.div_ceil(STEP);
            let rooms = if settings == 0 { vec![needed + 12, 0] } else { vec![] };
            let rooms = [needed, needed.saturating_sub(1)].into_iter().chain(rooms);
            requests.extend(rooms.map(|room| build(settings, room, &list(settings, *count))));
        }
    }
    requests
}

/// A list that ends at every byte, or at every byte of its last items, with room or with none: 2, and 11 after the items.
fn cut_lists() -> Vec<Request> {
    let mut requests = vec![];
    for settings in FORMS {
        let whole = list(settings, 17);
        let (first, rooms): (usize, &[usize]) = if settings == 0 { (0, &[2, 0]) } else { (15, &[2]) };
        for cut in usize::from(starts(&whole, settings)[first])..whole.len() {
            requests.extend(rooms.iter().map(|room| build(settings, *room, &whole[..cut])));
        }
    }
    requests
}

/// A list of 18 items of which one has this byte for its length: the octets after it stay.
fn with_length(settings: u8, number: usize, bits: u8) -> Vec<u8> {
    let mut bytes = list(settings, 18);
    let id = if settings & ADD_PATH != 0 { 4 } else { 0 };
    let start = usize::from(starts(&bytes, settings)[number]);
    bytes[start + id] = bits;
    bytes
}

/// A length out of range in the first item, the last before a start, the start and the last, with room and with none; and by the list's
/// index the routes before it, it and the one after.
fn bad_lengths() -> Vec<Request> {
    let mut requests = vec![];
    for settings in FORMS {
        let bits = if settings & IPV6 != 0 { 129 } else { 33 };
        let index = own(&list(settings, 18), settings);
        let numbers: &[usize] = if settings == 0 { &[0, 15, 16, 17] } else { &[15, 16] };
        for &number in numbers {
            let bytes = with_length(settings, number, bits);
            requests.extend([2, 0].map(|room| build(settings, room, &bytes)));
            let asked = number.saturating_sub(1)..=number + 1;
            requests.extend(asked.map(|number| ask(settings, &bytes, &index, number as u32)));
        }
    }
    requests
}

/// Every route of lists by their own index, and numbers past them.
fn every_route() -> Vec<Request> {
    let mut requests = vec![];
    for (settings, count, past) in
        [(0, 0, 3), (0, 1, 20), (0, 16, 3), (0, 17, 3), (0, 33, 20), (1, 17, 3), (4, 17, 3), (5, 17, 1)]
    {
        let bytes = list(settings, count);
        let index = own(&bytes, settings);
        requests.extend((0..count + past).map(|number| ask(settings, &bytes, &index, number as u32)));
    }
    requests
}

/// Numbers whose start an index lacks: near those that it has, near 16 bits and at 32; some are a good number by their last bits.
fn numbers() -> Vec<Request> {
    let numbers =
        [47, 48, 64, 255, 256, 272, 65_535, 65_536, 65_552, 0x0010_0000, 0x8000_0000, u32::MAX - 15, u32::MAX];
    let mut requests = vec![];
    for count in [0, 1, 17] {
        let bytes = list(0, count);
        requests.extend(numbers.map(|number| ask(0, &bytes, &own(&bytes, 0), number)));
    }
    requests
}

/// Indexes of a list of 18 items, whose second start and end are given: good ones, with more and fewer places, with other starts; and not from
/// 0, not rising, and with a place at the end or past it, each in any place.
fn indexes(second: u16, end: u16) -> Vec<Vec<u16>> {
    let good: [&[u16]; 8] = [
        &[],
        &[0],
        &[0, second],
        &[0, second - 1],
        &[0, second + 1],
        &[0, end - 1],
        &[0, second, end - 1],
        &[0, 1, 2, 3, second],
    ];
    let bad: [&[u16]; 20] = [
        &[1],
        &[second],
        &[1, second],
        &[second, end - 1],
        &[256],
        &[65_535],
        &[end],
        &[0, 0],
        &[0, 0, second],
        &[0, second, 0],
        &[0, second, second],
        &[0, second, second - 1],
        &[0, second, second - 1, end - 1],
        &[0, second, second + 1, second + 1],
        &[0, end],
        &[0, end + 1],
        &[0, 65_535],
        &[0, second, end],
        &[0, second, 256 + second],
        &[0, second, 65_535, end - 1],
    ];
    good.into_iter().chain(bad).map(<[u16]>::to_vec).collect()
}

/// Each index, asked for the routes about its starts and for some that it lacks.
fn other_indexes() -> Vec<Request> {
    let mut requests = vec![];
    for (settings, numbers) in [(0, &[0, 16, 17, 32, 48, 80][..]), (ADD_PATH, &[16])] {
        let bytes = list(settings, 18);
        let second = own(&bytes, settings)[1];
        for index in indexes(second, bytes.len() as u16) {
            requests.extend(numbers.iter().map(|number| ask(settings, &bytes, &index, *number)));
        }
    }
    // an empty list has an empty index alone
    let empty: [&[u16]; 5] = [&[], &[0], &[1], &[0, 1], &[65_535]];
    requests.extend(empty.iter().flat_map(|index| [0, 1, 16, u32::MAX].map(|number| ask(0, &[], index, number))));
    requests
}

/// Every byte of a list as a start: what is read from there, or two items further.
fn every_start() -> Vec<Request> {
    let mut requests = vec![];
    for (settings, count, number) in [(0, 18, 16), (0, 18, 18), (ADD_PATH, 7, 16)] {
        let bytes = list(settings, count);
        requests.extend((1..bytes.len() as u16).map(|start| ask(settings, &bytes, &[0, start], number)));
    }
    requests
}

/// Lists with an item that is refused, and with one that is cut: routes before it, it and after it, where the items run out, and by indexes
/// that start after it, at it and in it, or lack the start.
fn refused_items() -> Vec<Request> {
    let lists = ["00 08 0A 21 00 08 0B", "08 0A 00 20 0A 0B", "00 00 81 00 FF", "21 08", "08 0A 08 0B"].map(hex);
    let mut requests = vec![];
    for bytes in &lists {
        let last = bytes.len() as u16 - 1;
        for index in [&[0][..], &[0, last], &[0, 3], &[0, 2, last]] {
            let numbers = [0, 1, 2, 3, 4, 15, 16, 17, 18, 32];
            requests.extend(numbers.map(|number| ask(0, bytes, index, number)));
        }
    }
    let tagged = hex("00 00 00 07 08 0A 00 00 00 08 21 0B 00 00 00 09 00");
    for cut in 0..=tagged.len() {
        requests.push(build(ADD_PATH, 1, &tagged[..cut]));
        requests.extend([0, 1, 2, 3].map(|number| ask(ADD_PATH, &tagged[..cut], &[0], number)));
    }
    requests
}

/// Lists of one byte, which are no sections: with an index and without.
fn single_bytes() -> Vec<Request> {
    let mut requests = vec![];
    for settings in FORMS {
        for byte in [0, 1, 8, 32, 33, 128, 129, 255] {
            requests.extend([1, 0].map(|room| build(settings, room, &[byte])));
            requests.extend([0, 1].map(|number| ask(settings, &[byte], &[0], number)));
        }
        requests.push(ask(settings, &[0], &[], 0));
    }
    requests
}

/// Every length of both families and the one after the most, of octets with every bit set, after one without; every other one with an id.
fn lengths() -> Vec<Request> {
    let mut requests = vec![];
    for (family, most) in [(0, 32), (IPV6, 128)] {
        for bits in 0..=most + 1 {
            let settings = family | (bits % 2) * ADD_PATH;
            let id: &[u8] = if settings & ADD_PATH != 0 { &[0, 0, 0, 7] } else { &[] };
            let ones = vec![0xFF; usize::from(bits).div_ceil(8)];
            let bytes = [id, &[0], id, &[bits], &ones].concat();
            requests.push(ask(settings, &bytes, &[0], 1));
        }
    }
    requests
}

/// Both calls under every settings byte, on lists that the guess reads otherwise, with rooms, parts and an argument of which nothing is used.
fn every_settings() -> Vec<Request> {
    let bytes = hex("00 18 0A 01 08 18 C8 02 00 00 00");
    let both = |settings| {
        let asked = ask(settings, &bytes, &[0], 1);
        // the guess refuses it, and with ids it is cut
        let built = request(29, settings, (3, 5), [bytes[..9].to_vec(), vec![1, 2, 3], vec![9]], settings);
        [built, Request { room_a: 7, room_b: 5, argument: settings, ..asked }]
    };
    (0..=LAST_SETTINGS).flat_map(both).collect()
}

/// The longest list: its index with a place too few and one more; its routes about the last start and after its end; and by indexes whose last
/// place is another or not there.
pub fn longest() -> impl Iterator<Item = Request> {
    let bytes = vec![0; 65_535];
    let index = own(&bytes, 0);
    let last = index.len() - 1;
    let mut changed = [65_504, 65_505, 65_534, 65_535].map(|place| [&index[..last], &[place]].concat()).to_vec();
    changed.push(index[..last].to_vec());
    let asked = changed.iter().map(|index| ask(0, &bytes, index, 65_520)).collect::<Vec<_>>();
    let routes = [65_519, 65_520, 65_535, 65_536, u32::MAX].map(|number| ask(0, &bytes, &index, number));
    [4_095, 4_097].map(|room| build(0, room, &bytes)).into_iter().chain(asked).chain(routes)
}

/// Every list by its own index: each route and twenty numbers past it, and every room up to one more than it needs.
pub fn every_list() -> impl Iterator<Item = Request> {
    FORMS.into_iter().flat_map(|settings| {
        COUNTS.into_iter().flat_map(move |count| {
            let bytes = list(settings, count);
            let index = own(&bytes, settings);
            let rooms = (0..=index.len() + 1).map(|room| build(settings, room, &bytes));
            let asked = (0..count + 20).map(|number| ask(settings, &bytes, &index, number as u32));
            rooms.chain(asked).collect::<Vec<_>>()
        })
    })
}
