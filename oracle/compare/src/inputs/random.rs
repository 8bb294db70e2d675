//! Random requests: good inputs, damaged ones, rooms just enough and just too small, and a few of the largest.

use super::as4::{joined, standing};
use super::as4_pairs::{self, AS_TRANS};
use super::attributes::{search, walk};
use super::examples::{on_bytes, words};
use super::index::{self, ask, build, STEP};
use super::limits::raw_attribute;
use super::marks::{take_off, MARK};
use super::mp_nlri::{write_announcement, write_withdrawal};
use super::pieces::{self, damage, Segments};
use crate::rng::Rng;
use records::{Request, ADD_PATH, FOUR_BYTE_AS, GUESS, IPV6, LAST_OP, LAST_SETTINGS, STRICT};

/// One in this many requests is large.
const LARGE: usize = 1_500;

/// A request of this op under these settings.
pub fn request_of(rng: &mut Rng, op: u8, settings: u8) -> Request {
    match op {
        1 => one_route(rng, settings),
        2..=5 => list(rng, op, settings),
        6 | 7 => path(rng, op, settings),
        8 => aggregator(rng, settings),
        9 => header(rng, settings),
        10..=12 => update(rng, op, settings),
        13 => write_rows(rng, settings),
        14 => write_path(rng, settings),
        15 => write_aggregator(rng, settings),
        16 => write_message(rng, settings),
        17 => write_update(rng, settings),
        18 => walked(rng, settings),
        19 => searched(rng, settings),
        20 => standing_one(rng, settings),
        21 => joined_paths(rng, settings),
        22..=25 => announced_or_withdrawn(rng, op, settings),
        26 => written_announcement(rng, settings),
        27 => written_withdrawal(rng, settings),
        28 => marks_taken_off(rng, settings),
        29 => built_index(rng, settings),
        _ => route_by_index(rng, settings),
    }
}

pub fn request(rng: &mut Rng) -> Request {
    if rng.one_in(LARGE) {
        let op = 1 + rng.under(usize::from(LAST_OP)) as u8;
        return large(rng, op);
    }
    let op = other_op(rng);
    let settings = any_settings(rng);
    // in the place of what the crate cannot answer either, so that no op is compared with it less for this one
    let op = if has_no_call_of_crate(op, settings) && rng.one_in(4) { TAKE_OFF } else { op };
    request_of(rng, op, settings)
}

/// The op that takes marks off, which the crate does not have.
const TAKE_OFF: u8 = 28;

/// Any op but that one.
fn other_op(rng: &mut Rng) -> u8 {
    let op = 1 + rng.under(usize::from(LAST_OP) - 1) as u8;
    if op < TAKE_OFF {
        op
    } else {
        op + 1
    }
}

/// Whether the crate has no call for an op by its settings: a strict path or header, and sections with neither Add-Path nor the guess. Lists
/// with neither it can read item by item.
fn has_no_call_of_crate(op: u8, settings: u8) -> bool {
    match op {
        6 | 7 | 9 | 14 => settings & STRICT != 0,
        4 | 5 | 10 | 11 => settings & (ADD_PATH | GUESS) == 0,
        _ => false,
    }
}

/// Any settings; of those with neither Add-Path nor the guess one in eight has the guess after all, which marks rows.
fn any_settings(rng: &mut Rng) -> u8 {
    let settings = rng.under(usize::from(LAST_SETTINGS) + 1) as u8;
    let neither = settings & (ADD_PATH | GUESS) == 0;
    if neither && rng.one_in(8) {
        settings | GUESS
    } else {
        settings
    }
}

fn width(settings: u8) -> usize {
    if settings & FOUR_BYTE_AS != 0 {
        4
    } else {
        2
    }
}

/// A room near what is needed: mostly enough, at times one too few, at times any small number.
fn room(rng: &mut Rng, needed: usize) -> usize {
    match rng.under(8) {
        0 => needed.saturating_sub(1),
        1 => needed + rng.under(8),
        2 => rng.under(40),
        3 => needed.saturating_sub(rng.under(8)),
        4 => 0,
        _ => needed,
    }
}

/// Bytes of a list under these settings: good, of mixed forms, damaged or any bytes.
fn list_bytes(rng: &mut Rng, settings: u8, ipv6: bool) -> (Vec<u8>, usize) {
    let count = pieces::count(rng);
    let with_id = settings & ADD_PATH != 0;
    let mixed = !with_id && (settings & GUESS != 0 || rng.one_in(4));
    let mut bytes = match rng.under(10) {
        0 => {
            let size = rng.under(24);
            (0..size).map(|_| rng.pick(&[0, 0, 1, 8, 9, 16, 24, 32, 33, 128, 129, 255])).collect()
        }
        _ => pieces::list(rng, count, with_id, ipv6, mixed),
    };
    if rng.one_in(3) {
        damage(rng, &mut bytes);
    }
    (bytes, count)
}

fn one_route(rng: &mut Rng, settings: u8) -> Request {
    let with_id = (settings & ADD_PATH != 0) != rng.one_in(10);
    let mut bytes = pieces::item(rng, with_id, settings & IPV6 != 0);
    if rng.one_in(2) {
        damage(rng, &mut bytes);
    }
    on_bytes(1, settings, (0, 0), &bytes)
}

fn list(rng: &mut Rng, op: u8, settings: u8) -> Request {
    let ipv6 = settings & IPV6 != 0 && op <= 3;
    let (bytes, count) = list_bytes(rng, settings, ipv6);
    let places = room(rng, 6 * count);
    on_bytes(op, settings, (places, 0), &bytes)
}

fn path(rng: &mut Rng, op: u8, settings: u8) -> Request {
    let segments = pieces::count(rng).min(12);
    let mut bytes = pieces::path(rng, segments, width(settings));
    if rng.one_in(3) {
        damage(rng, &mut bytes);
    }
    let numbers = bytes.len().saturating_sub(2 * segments) / width(settings);
    let rooms = (room(rng, 2 * segments), room(rng, numbers));
    on_bytes(op, settings, rooms, &bytes)
}

fn aggregator(rng: &mut Rng, settings: u8) -> Request {
    let size = if rng.one_in(3) { rng.under(20) } else { rng.pick(&[5, 6, 7, 8, 9]) };
    let bytes = rng.bytes(size);
    on_bytes(8, settings, (0, 0), &bytes)
}

/// A body that may belong to the type.
fn message_body(rng: &mut Rng, kind: u8, settings: u8) -> Vec<u8> {
    let size = rng.under(12);
    match kind {
        1 => open_body(rng),
        2 => update_body(rng, settings).0,
        4 if !rng.one_in(8) => vec![],
        5 => rng.bytes(4 + size / 4),
        _ => rng.bytes(size),
    }
}

/// The body of an OPEN: ten bytes and optional parameters.
fn open_body(rng: &mut Rng) -> Vec<u8> {
    let mut parameters = vec![];
    for _ in 0..rng.under(4) {
        let size = rng.under(6);
        let value = rng.bytes(size);
        parameters.push(rng.pick(&[1, 2, 2, 3]));
        parameters.push(value.len() as u8 + 2);
        parameters.push(rng.byte());
        parameters.push(value.len() as u8);
        parameters.extend(value);
    }
    let mut body = rng.bytes(9);
    body.push(parameters.len() as u8);
    body.extend(parameters);
    body
}

/// A body of any bytes with which a message has about 4,096 bytes or some more.
fn long_body(rng: &mut Rng) -> Vec<u8> {
    let total = if rng.one_in(2) { 4_094 + rng.under(6) } else { 4_097 + rng.under(2_000) };
    rng.bytes(total - 19)
}

fn header(rng: &mut Rng, settings: u8) -> Request {
    let kind = if rng.one_in(12) { rng.byte() } else { 1 + rng.under(5) as u8 };
    let body = if rng.one_in(12) { long_body(rng) } else { message_body(rng, kind, settings) };
    let mut bytes = vec![0xFF; 16];
    if rng.one_in(8) {
        bytes[rng.under(16)] = rng.byte();
    }
    let exact = 19 + body.len();
    let claimed = match rng.under(10) {
        0 => exact + rng.under(4),
        1 => exact.saturating_sub(rng.under(4)),
        2 => rng.pick(&[0, 18, 19, 4_095, 4_096, 4_097, 65_534, 65_535]),
        _ => exact,
    };
    bytes.extend((claimed as u16).to_be_bytes());
    bytes.push(kind);
    bytes.extend(body);
    if rng.one_in(5) {
        damage(rng, &mut bytes);
    }
    on_bytes(9, settings, (0, 0), &bytes)
}

/// A body and the counts of its two lists.
fn update_body(rng: &mut Rng, settings: u8) -> (Vec<u8>, usize, usize) {
    let (withdrawn, withdrawn_count) = if rng.one_in(3) { (vec![], 0) } else { list_bytes(rng, settings, false) };
    let (announced, announced_count) = if rng.one_in(4) { (vec![], 0) } else { list_bytes(rng, settings, false) };
    let mut attributes = pieces::attributes(rng, width(settings));
    if rng.one_in(6) {
        damage(rng, &mut attributes);
    }
    (pieces::body(&withdrawn, &attributes, &announced), withdrawn_count, announced_count)
}

fn update(rng: &mut Rng, op: u8, settings: u8) -> Request {
    let (mut bytes, withdrawn, announced) = update_body(rng, settings);
    if rng.one_in(6) {
        damage(rng, &mut bytes);
    }
    let rooms = (room(rng, 6 * withdrawn), room(rng, 6 * announced));
    on_bytes(op, settings, rooms, &bytes)
}

/// Rows to write, at times not whole; and how many bytes they come to if they are writable.
fn rows(rng: &mut Rng, settings: u8, ipv6: bool) -> (Vec<u32>, usize) {
    let with_id = settings & ADD_PATH != 0;
    let count = pieces::count(rng);
    let mut numbers = vec![];
    let mut bytes = 0;
    for _ in 0..count {
        let row = pieces::row(rng, with_id, ipv6);
        bytes += if with_id { 5 } else { 1 } + ((row[0] % 256) as usize + 7) / 8;
        numbers.extend(row);
    }
    if rng.one_in(50) {
        numbers.truncate(numbers.len().saturating_sub(1 + rng.under(5)));
    }
    (numbers, bytes)
}

fn write_rows(rng: &mut Rng, settings: u8) -> Request {
    let (numbers, bytes) = rows(rng, settings, settings & IPV6 != 0);
    let places = room(rng, bytes);
    request_on(13, settings, places, [words(&numbers), vec![], vec![]], 0)
}

fn request_on(op: u8, settings: u8, room: usize, parts: [Vec<u8>; 3], argument: u8) -> Request {
    super::examples::request(op, settings, (room, 0), parts, argument)
}

/// A number that mostly fits into two bytes.
fn as_number(rng: &mut Rng, settings: u8) -> u32 {
    match rng.under(if width(settings) == 2 { 200 } else { 4 }) {
        0 => rng.word(),
        1 => 65_536,
        2 => 65_535,
        _ => rng.under(65_536) as u32,
    }
}

fn write_path(rng: &mut Rng, settings: u8) -> Request {
    let like = Segments::any(rng);
    let too_long = if like == Segments::ManyEmpty { 12 } else { 80 };
    let mut pairs = vec![];
    let mut numbers = vec![];
    let mut bytes = 0;
    for _ in 0..pieces::count(rng).min(8) {
        let (kind, mut count) = like.segment(rng);
        if rng.one_in(too_long) {
            count = 255 + rng.under(4);
        }
        pairs.extend([kind, count as u32]);
        numbers.extend((0..count).map(|_| as_number(rng, settings)));
        bytes += 2 + count * width(settings);
    }
    match rng.under(40) {
        0 => pairs.push(2),
        1 => numbers.push(1),
        2 => {
            pairs.pop();
        }
        3 => pairs.extend([2, u32::MAX]),
        4 => pairs.extend([1, u32::MAX, 2, 1]),
        _ => {}
    }
    let places = room(rng, bytes);
    request_on(14, settings, places, [words(&pairs), words(&numbers), vec![]], 0)
}

fn write_aggregator(rng: &mut Rng, settings: u8) -> Request {
    let number = if rng.one_in(3) { rng.word() } else { rng.pick(&[0, 1, 23_456, 65_535, 65_536, 65_537]) };
    let places = room(rng, 4 + width(settings));
    request_on(15, settings, places, [words(&[number, rng.word()]), vec![], vec![]], 0)
}

fn write_message(rng: &mut Rng, settings: u8) -> Request {
    let kind = if rng.one_in(12) { rng.byte() } else { 1 + rng.under(5) as u8 };
    let body = message_body(rng, kind, settings);
    let places = room(rng, 19 + body.len());
    request_on(16, settings, places, [body, vec![], vec![]], kind)
}

fn write_update(rng: &mut Rng, settings: u8) -> Request {
    let (withdrawn, withdrawn_bytes) = rows(rng, settings, false);
    let (announced, announced_bytes) = rows(rng, settings, false);
    let mut attributes = pieces::attributes(rng, width(settings));
    if rng.one_in(12) {
        damage(rng, &mut attributes);
    }
    let places = room(rng, 4 + withdrawn_bytes + attributes.len() + announced_bytes);
    request_on(17, settings, places, [words(&withdrawn), attributes, words(&announced)], 0)
}

/// A section, at times damaged, and where its attributes stood before.
fn section(rng: &mut Rng, settings: u8) -> (Vec<u8>, Vec<usize>) {
    let list =
        if rng.one_in(2) { pieces::any_attribute_list(rng) } else { pieces::attribute_list(rng, width(settings)) };
    let starts = (0..=list.len()).map(|count| list[..count].concat().len()).collect();
    let mut section = list.concat();
    if rng.one_in(3) {
        damage(rng, &mut section);
    }
    (section, starts)
}

/// The attribute at a place: mostly where one stands or stood, at times anywhere. Its room and argument are any, as nothing uses them.
fn walked(rng: &mut Rng, settings: u8) -> Request {
    let (section, starts) = section(rng, settings);
    let place = match rng.under(8) {
        0 => rng.under(section.len() + 4) as u32,
        1 => rng.word(),
        2 => section.len() as u32,
        _ => rng.pick(&starts) as u32,
    };
    let parts = [section, words(&[place]), vec![]];
    request_on(18, settings, rng.under(9), parts, rng.byte())
}

/// The first attribute of a type: mostly of one that stands there. Its room and second part are any.
fn searched(rng: &mut Rng, settings: u8) -> Request {
    let (section, starts) = section(rng, settings);
    let kind = match rng.under(6) {
        0 => rng.byte(),
        1 => rng.pick(&[14, 15]),
        _ => section.get(rng.pick(&starts) + 1).copied().unwrap_or(1),
    };
    let size = rng.under(5);
    let parts = [section, rng.bytes(size), vec![]];
    request_on(19, settings, rng.under(9), parts, kind)
}

/// AGGREGATOR and AS4_AGGREGATOR: each mostly of its length or absent; the first has 23456 half the time.
fn aggregators(rng: &mut Rng) -> [Vec<u8>; 2] {
    let mut value = |length: usize| {
        let size = match rng.under(24) {
            0 => rng.under(12),
            1..=7 => 0,
            _ => length,
        };
        rng.bytes(size)
    };
    let [mut old, new] = [value(6), value(8)];
    if old.len() > 1 && rng.one_in(2) {
        old[..2].copy_from_slice(&AS_TRANS.to_be_bytes());
    }
    [old, new]
}

/// Its rooms, third part and argument are any, as nothing uses them.
fn standing_one(rng: &mut Rng, settings: u8) -> Request {
    let [old, new] = aggregators(rng);
    let size = rng.under(4);
    let parts = [old, new, rng.bytes(size)];
    request_on(20, settings, rng.under(9), parts, rng.byte())
}

/// Paths that belong together, or any two, at times damaged.
fn joined_paths(rng: &mut Rng, settings: u8) -> Request {
    let mut pair = as4_pairs::pair(rng);
    if rng.one_in(8) {
        let segments = rng.under(4);
        pair.new = pieces::path(rng, segments, 4);
    }
    match rng.under(10) {
        0 => damage(rng, &mut pair.old),
        1 => damage(rng, &mut pair.new),
        _ => {}
    }
    let both = if rng.one_in(2) { aggregators(rng) } else { Default::default() };
    let rooms = (room(rng, 2 * pair.segments), room(rng, pair.numbers));
    Request { settings, ..joined([&pair.old, &pair.new], [&both[0], &both[1]], rooms) }
}

/// A next hop: mostly of 16 or 32 bytes, at times of a length near these or of another family's.
fn next_hop(rng: &mut Rng) -> Vec<u8> {
    let length = if rng.one_in(16) { rng.pick(&OTHER_NEXT_HOPS) } else { rng.pick(&[16, 32]) };
    rng.bytes(length.into())
}

/// Lengths that no next hop of IPv6 has.
const OTHER_NEXT_HOPS: [u8; 10] = [0, 4, 12, 15, 17, 24, 31, 33, 48, 255];

/// What comes before the list of an announcement (ops 22 and 23) or a withdrawal.
fn before_list(rng: &mut Rng, op: u8) -> Vec<u8> {
    if op > 23 {
        return pieces::withdrawal(&[]);
    }
    let reserved = if rng.one_in(4) { rng.byte() } else { 0 };
    pieces::announcement(&next_hop(rng), reserved, &[])
}

/// Mostly good values; at times other families, another next-hop length than its bytes are, a cut head, or damage anywhere.
fn announced_or_withdrawn(rng: &mut Rng, op: u8, settings: u8) -> Request {
    let (list, count) = list_bytes(rng, settings, true);
    let mut value = [before_list(rng, op), list].concat();
    match rng.under(16) {
        0 => value[rng.under(3)] = rng.pick(&[0, 1, 2, 3, 4, 64, 71, 128, 133, 255]),
        1 if op <= 23 => value[3] = if rng.one_in(2) { rng.pick(&[16, 32]) } else { rng.pick(&OTHER_NEXT_HOPS) },
        2 => value.truncate(rng.under(value.len().min(40))),
        3 => damage(rng, &mut value),
        _ => {}
    }
    let places = room(rng, 6 * count);
    on_bytes(op, settings, (places, 0), &value)
}

fn written_announcement(rng: &mut Rng, settings: u8) -> Request {
    let next_hop = next_hop(rng);
    let (numbers, bytes) = rows(rng, settings, true);
    let places = room(rng, 5 + next_hop.len() + bytes);
    write_announcement(settings, places, &next_hop, &numbers)
}

fn written_withdrawal(rng: &mut Rng, settings: u8) -> Request {
    let (numbers, bytes) = rows(rng, settings, true);
    let places = room(rng, 3 + bytes);
    write_withdrawal(settings, places, &numbers)
}

/// Any word, or one with bits around the mark's.
fn word_near_mark(rng: &mut Rng) -> u32 {
    match rng.under(4) {
        0 => rng.word(),
        1 => rng.pick(&[0, MARK, u32::MAX, u32::MAX - MARK]),
        _ => rng.under(2_048) as u32,
    }
}

/// A store of rows as readers give them, marked and not, and of any words; at times not whole rows. Its rooms, other parts and argument are any,
/// as nothing uses them.
fn marks_taken_off(rng: &mut Rng, settings: u8) -> Request {
    let mut store = vec![];
    for _ in 0..pieces::count(rng) {
        let mut row = pieces::row(rng, settings & ADD_PATH != 0, settings & IPV6 != 0);
        match rng.under(3) {
            0 => row[0] |= MARK,
            1 => row = row.map(|_| word_near_mark(rng)),
            _ => {}
        }
        store.extend(row);
    }
    if rng.one_in(4) {
        store.extend((0..rng.under(6)).map(|_| word_near_mark(rng)).collect::<Vec<_>>());
    }
    let (second, third) = (rng.under(4), rng.under(4));
    let parts = [words(&store), rng.bytes(second), rng.bytes(third)];
    request_on(28, settings, rng.under(9), parts, rng.byte())
}

/// A list of some items, or of about one or two starts more, mostly good.
fn indexed_list(rng: &mut Rng, settings: u8) -> Vec<u8> {
    let (with_id, ipv6) = (settings & ADD_PATH != 0, settings & IPV6 != 0);
    let count = match rng.under(8) {
        0..=4 => rng.under(6),
        5 | 6 => 14 + rng.under(6),
        _ => 30 + rng.under(6),
    };
    let mut bytes = vec![];
    for _ in 0..count {
        if with_id {
            bytes.extend(if rng.one_in(2) { rng.word() } else { rng.under(300) as u32 }.to_be_bytes());
        }
        let lengths = if ipv6 { pieces::IPV6_LENGTHS } else { pieces::IPV4_LENGTHS };
        // mostly short ones
        let most = if rng.one_in(3) { lengths.len() } else { 6 };
        let bits = rng.pick(&lengths[..most]);
        bytes.push(bits);
        bytes.extend(pieces::octets(rng, bits));
    }
    bytes
}

fn built_index(rng: &mut Rng, settings: u8) -> Request {
    let mut list = indexed_list(rng, settings);
    if rng.one_in(4) {
        damage(rng, &mut list);
    }
    let needed = index::own(&list, settings).len();
    let room = if rng.one_in(3) { rng.under(4) } else { room(rng, needed) };
    build(settings, room, &list)
}

/// A question by the list's own index, or by one that was changed, or on a list that was damaged after its index was made.
fn route_by_index(rng: &mut Rng, settings: u8) -> Request {
    let mut list = indexed_list(rng, settings);
    let mut index = index::own(&list, settings);
    let count = index::starts(&list, settings).len();
    if rng.one_in(4) {
        change_index(rng, &mut index, list.len());
    }
    if rng.one_in(6) {
        damage(rng, &mut list);
    }
    let number = match rng.under(12) {
        0 => rng.word(),
        1 => rng.pick(&[15, 16, 17, 31, 32, 33, 48, 65_535, 65_536, u32::MAX]),
        2 => (count + rng.under(STEP)) as u32,
        3 => rng.under(STEP * (index.len() + 1)) as u32,
        4 => count.saturating_sub(1) as u32,
        _ => rng.under(count.max(1)) as u32,
    };
    Request { room_a: rng.under(9), argument: rng.byte(), ..ask(settings, &list, &index, number) }
}

/// One place changed, put in, put at the end or taken out.
fn change_index(rng: &mut Rng, index: &mut Vec<u16>, end: usize) {
    let place = match rng.under(8) {
        0 => end as u16,
        1 => (end as u16).wrapping_sub(1),
        2 => rng.next() as u16,
        3 => rng.pick(&[0, 1, 16, 256, 65_535]),
        4 if !index.is_empty() => rng.pick(index),
        _ => rng.under(end + 1) as u16,
    };
    let at = rng.under(index.len().max(1));
    match rng.under(6) {
        0 => index.push(place),
        1 => index.truncate(at),
        2 if !index.is_empty() => {
            index.remove(at);
        }
        3 if !index.is_empty() => index[at] = index[at].wrapping_add(rng.pick(&[1, 2, 65_535])),
        4 if !index.is_empty() => index[at] = place,
        _ => index.insert(at, place),
    }
}

/// A request near the greatest size of its op.
pub fn large(rng: &mut Rng, op: u8) -> Request {
    let settings = any_settings(rng);
    let size = rng.pick(&[65_514, 65_515, 65_516, 65_517, 65_534, 65_535, 65_536, 65_540]);
    match op {
        13..=17 | 26 | 27 => large_to_write(rng, op, settings, size),
        _ => large_to_read(rng, op, settings, size),
    }
}

fn large_to_read(rng: &mut Rng, op: u8, settings: u8, size: usize) -> Request {
    match op {
        1..=5 => {
            let ipv6 = settings & IPV6 != 0 && op <= 3;
            let bytes = large_list(rng, size, settings & ADD_PATH != 0, ipv6);
            let places = rng.pick(&[400_000, 393_210, 393_209, 90_000, 60]);
            on_bytes(op, settings, (places, 0), &bytes)
        }
        6 | 7 => {
            let bytes = large_path(rng, size, width(settings));
            on_bytes(op, settings, (rng.pick(&[70_000, 600]), rng.pick(&[40_000, 1_000])), &bytes)
        }
        8 => on_bytes(8, settings, (0, 0), &vec![7; size]),
        9 => {
            let (claimed, kind) = (rng.pick(&[4_096, 4_097, 65_534, 65_535]), rng.under(7) as u8);
            let given = rng.pick(&[4_095, 4_096, 4_097, 65_534, 65_535, 65_536, 70_000]);
            on_bytes(9, settings, (0, 0), &pieces::message(0xFF, claimed, kind, given))
        }
        10..=12 => {
            let half = rng.under(size - 4);
            let withdrawn = large_list(rng, half, settings & ADD_PATH != 0, false);
            let announced = large_list(rng, size - 4 - half, settings & ADD_PATH != 0, false);
            on_bytes(op, settings, (400_000, 400_000), &pieces::body(&withdrawn, &[], &announced))
        }
        18 => walk(&large_section(rng, size), rng.pick(&[0, 30_000, 65_000, size as u32 - 3, size as u32, u32::MAX])),
        19 => search(&large_section(rng, size), rng.pick(&[14, 15, 200, 201])),
        20 => standing([&vec![7; size], &[]]),
        21 => large_joined(rng, size),
        28 => {
            let count = rng.pick(&[99_990, 99_995, 99_996, 99_997, 100_000]);
            take_off(&(0..count).map(|_| word_near_mark(rng)).collect::<Vec<_>>())
        }
        29 | 30 => large_indexed(rng, op, settings, size),
        _ => large_announced_or_withdrawn(rng, op, settings, size),
    }
}

/// A long list and its index: the places that it needs or one less, or a route about the last one or anywhere.
fn large_indexed(rng: &mut Rng, op: u8, settings: u8, size: usize) -> Request {
    let list = large_list(rng, size, settings & ADD_PATH != 0, settings & IPV6 != 0);
    let index = index::own(&list, settings);
    if op == 29 {
        return build(settings, rng.pick(&[index.len(), index.len() - 1, 5_000]), &list);
    }
    let count = index::starts(&list, settings).len();
    let number = if rng.one_in(2) { rng.under(count) } else { count - 2 + rng.under(4) };
    ask(settings, &list, &index, number as u32)
}

/// Two paths of which one has this size, and the other at times one near it.
fn large_joined(rng: &mut Rng, size: usize) -> Request {
    let other = if rng.one_in(2) { rng.under(600) } else { rng.pick(&[40_000, 65_534, 65_535, 65_536]) };
    let (old, new) = if rng.one_in(2) { (size, other) } else { (other, size) };
    let paths = [large_path(rng, old, 2), large_path(rng, new, 4)];
    let both = if rng.one_in(2) { aggregators(rng) } else { Default::default() };
    let rooms = (rng.pick(&[140_000, 600]), rng.pick(&[60_000, 1_000]));
    joined([&paths[0], &paths[1]], [&both[0], &both[1]], rooms)
}

fn large_announced_or_withdrawn(rng: &mut Rng, op: u8, settings: u8, size: usize) -> Request {
    let head = before_list(rng, op);
    let list = large_list(rng, size - head.len(), settings & ADD_PATH != 0, true);
    let value = [head, list].concat();
    let places = rng.pick(&[400_000, 393_084, 393_083, 90_000, 60]);
    on_bytes(op, settings, (places, 0), &value)
}

fn large_to_write(rng: &mut Rng, op: u8, settings: u8, size: usize) -> Request {
    match op {
        13 => {
            let numbers = large_rows(rng, settings, settings & IPV6 != 0, size, 16_600);
            request_on(13, settings, rng.pick(&[70_000, 1_000]), [words(&numbers), vec![], vec![]], 0)
        }
        14 => large_written_path(rng, settings),
        15 => write_aggregator(rng, settings),
        16 => {
            let kind = rng.pick(&[1, 2, 2, 3, 5, 5]);
            let size = rng.pick(&[4_076, 4_077, 4_078, 65_515, 65_516, 65_517]);
            let body = if kind == 2 {
                pieces::body(&[], &[], &large_list(rng, size - 4, false, false))
            } else {
                vec![9; size]
            };
            request_on(16, settings, 70_000, [body, vec![], vec![]], kind)
        }
        17 => {
            let attributes = raw_attribute(rng.pick(&[60_000, 65_000, 65_535, 65_536, 4]));
            let rest = rng.pick(&[5_000, 500, 60, 20, 65_516]);
            let withdrawn = large_rows(rng, settings, false, rest, 8_000);
            let announced = large_rows(rng, settings, false, rest, 8_000);
            request_on(17, settings, 70_000, [words(&withdrawn), attributes, words(&announced)], 0)
        }
        26 => {
            let next_hop = next_hop(rng);
            let numbers = large_rows(rng, settings, true, size - 5 - next_hop.len(), 16_600);
            write_announcement(settings, rng.pick(&[70_000, 1_000]), &next_hop, &numbers)
        }
        _ => {
            let numbers = large_rows(rng, settings, true, size - 3, 16_600);
            write_withdrawal(settings, rng.pick(&[70_000, 1_000]), &numbers)
        }
    }
}

/// A section of exactly `size` bytes: two long attributes, or as many of one length as fit, and then zeros.
fn large_section(rng: &mut Rng, size: usize) -> Vec<u8> {
    if rng.one_in(3) {
        return raw_attribute(size);
    }
    let kinds: &[u8] = if rng.one_in(4) { &[14, 15, 200] } else { &[200, 201, 202] };
    let length = rng.pick(&[0, 5, 255, 256, 4_000]);
    let mut section = vec![];
    while section.len() + 4 + length <= size {
        let flags = if length > 255 { 0xD0 } else { rng.byte() };
        section.extend(pieces::with_head(flags, rng.pick(kinds), &vec![9; length]));
    }
    section.resize(size, 0);
    section
}

/// Items of one form up to exactly `size` bytes as far as they go; the last may be cut.
fn large_list(rng: &mut Rng, size: usize, with_id: bool, ipv6: bool) -> Vec<u8> {
    let bits = rng.pick(if ipv6 { pieces::IPV6_LENGTHS } else { pieces::IPV4_LENGTHS });
    let mut bytes = vec![];
    let step = 1 + usize::from(bits).div_ceil(8) + if with_id { 4 } else { 0 };
    while bytes.len() + step <= size {
        if with_id {
            bytes.extend(rng.word().to_be_bytes());
        }
        bytes.push(bits);
        bytes.extend(pieces::octets(rng, bits));
    }
    let form = if with_id { [vec![0; 4], vec![0]].concat() } else { vec![0] };
    while bytes.len() + form.len() <= size {
        bytes.extend(&form);
    }
    bytes.resize(size, 0);
    bytes
}

/// Segments of one count up to `size` bytes, then one of what is left or empty ones; the last may be cut.
fn large_path(rng: &mut Rng, size: usize, width: usize) -> Vec<u8> {
    let mut bytes = vec![];
    let full = if rng.one_in(2) { 255 } else { rng.under(3) };
    while bytes.len() + 2 + full * width <= size {
        bytes.extend([1 + rng.under(4) as u8, full as u8]);
        bytes.extend(rng.bytes(full * width));
    }
    let left = (size - bytes.len()).saturating_sub(2) / width;
    if left > 0 && rng.one_in(2) {
        bytes.extend([2, left as u8]);
        bytes.extend(rng.bytes(left * width));
    }
    while bytes.len() + 2 <= size {
        bytes.extend([2, 0]);
    }
    bytes.resize(size, 2);
    bytes
}

/// Writable rows that come to about `size` bytes, at most `most` of them.
fn large_rows(rng: &mut Rng, settings: u8, ipv6: bool, size: usize, most: usize) -> Vec<u32> {
    let with_id = settings & ADD_PATH != 0;
    let mut numbers = vec![];
    let mut bytes = 0;
    while bytes < size && numbers.len() < 6 * most {
        let longest = if ipv6 { 128 } else { 32 };
        let one = 1 + longest / 8 + if with_id { 4 } else { 0 };
        let bits = if bytes + one <= size { longest } else { 0 };
        bytes += if bits == 0 { one - longest / 8 } else { one };
        let first = bits as u32 + if with_id { 256 } else { 0 };
        let (id, word) = (if with_id { rng.word() } else { 0 }, if bits == 0 { 0 } else { rng.word() });
        let others = if ipv6 { word } else { 0 };
        numbers.extend([first, id, word, others, others, others]);
    }
    numbers
}

fn large_written_path(rng: &mut Rng, settings: u8) -> Request {
    let width = width(settings);
    let segments = 65_535 / (2 + 255 * width);
    let left = 65_535 - segments * (2 + 255 * width);
    let mut pairs = [2u32, 255].repeat(segments);
    let last = (left.saturating_sub(2) / width + rng.under(2)).min(255);
    pairs.extend([2, last as u32]);
    for _ in 0..rng.under(3) {
        pairs.extend([1, 0]);
    }
    let numbers = vec![64_512u32; segments * 255 + last];
    request_on(14, settings, 70_000, [words(&pairs), words(&numbers), vec![]], 0)
}
