//! Made inputs, the same on every machine: route lists, paths, and what is rebuilt from captured messages.

use crate::answers::{aggregators, NEXT_HOP};
use compare::inputs::captures::Capture;
use compare::inputs::examples::{on_bytes, request, words};
use compare::inputs::pieces::message;
use compare::rng::Rng;
use records::{Answer, Lent, Request, ADD_PATH, EXTENDED, FOUR_BYTE_AS, GUESS, IPV6, STRICT};

/// Counting a merged path, which the records have no op for: the same request as op 21 otherwise, and compared as that.
pub const COUNT_MERGED: u8 = 121;

/// Counting an UPDATE's rows with a host bit, the same as op 11 otherwise, and compared as that.
pub const COUNT_HOSTS: u8 = 111;

/// The AS number of two bytes that stands for one of four.
const AS_TRANS: u16 = 23_456;

/// The most bytes of a tenth of a list, so that ten of them are a list of the greatest size.
const TENTH: usize = 6_553;

/// The most bytes of a value.
const MOST_BYTES: usize = 65_535;

/// Words of pairs and AS numbers that are enough for every merged path.
const MOST_PAIRS: usize = 2 * 65_534;
const MOST_NUMBERS: usize = 48_990;

/// The most places of an index.
const MOST_PLACES: usize = 4_096;

/// How the lengths of a list's prefixes are chosen.
#[derive(Clone, Copy)]
pub enum Lengths {
    All24,
    /// About as often as they stand in the routing table of IPv4.
    Table4,
    /// 1 to 32, each as often.
    Alike4,
    /// The same as `Table4`, with a default route now and then where the guess must see that no id follows.
    Defaults4,
    /// About as often as in the routing table of IPv6, with /64 and /128.
    Table6,
    /// The same as `Table4`, about one in eight with a host bit: a third of those whose last octet has room for one.
    Hosts4,
}

/// A length and how often it comes.
type Share = (u8, usize);

const TABLE4: &[Share] = &[
    (24, 60),
    (23, 9),
    (22, 11),
    (21, 5),
    (20, 4),
    (19, 3),
    (18, 1),
    (17, 1),
    (16, 2),
    (14, 1),
    (12, 1),
    (8, 1),
    (32, 1),
];

const TABLE6: &[Share] = &[(48, 47), (32, 20), (44, 9), (40, 7), (36, 4), (29, 4), (64, 6), (128, 3)];

fn share(rng: &mut Rng, shares: &[Share]) -> u8 {
    let mut left = rng.under(shares.iter().map(|(_, often)| often).sum());
    for (length, often) in shares {
        if left < *often {
            return *length;
        }
        left -= often;
    }
    unreachable!("a number under the sum")
}

impl Lengths {
    pub fn is_ipv6(self) -> bool {
        matches!(self, Lengths::Table6)
    }

    fn length(self, rng: &mut Rng) -> u8 {
        match self {
            Lengths::All24 => 24,
            Lengths::Table4 | Lengths::Defaults4 | Lengths::Hosts4 => share(rng, TABLE4),
            Lengths::Alike4 => 1 + rng.under(32) as u8,
            Lengths::Table6 => share(rng, TABLE6),
        }
    }

    /// One item, its bits past the length 0 but for some of `Hosts4`; a small id before it if asked.
    pub fn item(self, rng: &mut Rng, with_id: bool) -> Vec<u8> {
        let mut item = vec![];
        if with_id {
            item.extend(rng.under(1_000).to_be_bytes()[4..].iter());
        } else if matches!(self, Lengths::Defaults4) && rng.one_in(16) {
            // With these bytes after it, the zero would be the start of an id before a length over 32.
            return vec![0, 24, rng.byte(), rng.byte(), 128 | rng.byte()];
        }
        let length = self.length(rng);
        item.push(length);
        item.extend(rng.bytes(usize::from(length).div_ceil(8)));
        if length % 8 != 0 {
            let last = item.last_mut().expect("an octet");
            if matches!(self, Lengths::Hosts4) && rng.one_in(3) {
                *last |= 1;
            } else {
                *last &= 0xFF << (8 - length % 8);
            }
        }
        item
    }

    /// A tenth of the greatest list.
    pub fn tenth(self, rng: &mut Rng, with_id: bool) -> Vec<u8> {
        self.list(rng, with_id, TENTH)
    }

    /// The greatest list, without ids.
    pub fn whole(self, rng: &mut Rng) -> Vec<u8> {
        self.list(rng, false, MOST_BYTES)
    }

    /// As many items as so many bytes have room for.
    fn list(self, rng: &mut Rng, with_id: bool, most: usize) -> Vec<u8> {
        let mut list = vec![];
        loop {
            let item = self.item(rng, with_id);
            if list.len() + item.len() > most {
                return list;
            }
            list.extend(item);
        }
    }
}

/// The greatest announcement, by a global and a link-local next hop, or the greatest withdrawal, as its op says: routes of IPv6
/// about as often as in the routing table.
pub fn large_value(rng: &mut Rng, op: u8, with_id: bool) -> Vec<u8> {
    let mut value = vec![0, 2, 1];
    if op == 22 {
        value.push(32);
        value.extend(rng.bytes(32));
        value.push(0);
    }
    let list = Lengths::Table6.list(rng, with_id, MOST_BYTES - value.len());
    [value, list].concat()
}

/// A tenth of the greatest AS_PATH value.
pub fn path_tenth(rng: &mut Rng, width: usize) -> Vec<u8> {
    let mut value = vec![];
    loop {
        let count = 1 + rng.under(6);
        if value.len() + 2 + width * count > TENTH {
            return value;
        }
        value.extend([rng.pick(&[2, 2, 2, 1, 3, 4]), count as u8]);
        value.extend(rng.bytes(width * count));
    }
}

/// A request to read a list, an announcement or a withdrawal, as the op says, with room for its rows and no more.
pub fn read_rows(op: u8, bytes: &[u8], settings: u8) -> Request {
    let counted = model::answer(&on_bytes(op + 1, settings, (0, 0), bytes));
    assert_eq!(counted.refusal, 0, "a made list is good");
    on_bytes(op, settings, (row_words(op, &counted) as usize, 0), bytes)
}

/// The words of the rows that the reading op, or its counting, found; before them stands what an announcement has besides.
fn row_words(op: u8, answer: &Answer) -> u64 {
    6 * answer.numbers[if op == 22 { 3 } else { 0 }]
}

pub fn read_path(value: &[u8], settings: u8) -> Request {
    let counted = model::answer(&on_bytes(7, settings, (0, 0), value));
    assert_eq!(counted.refusal, 0, "a made path is good");
    let room = (2 * counted.numbers[0] as usize, counted.numbers[1] as usize);
    on_bytes(6, settings, room, value)
}

/// What a reading request puts into its stores, as parts to write.
fn stored(read: &Request) -> Vec<Vec<u8>> {
    let answer = model::answer(read);
    assert_eq!(answer.refusal, 0, "only good inputs are written back");
    let counts = match read.op {
        2 | 22 | 24 => vec![row_words(read.op, &answer)],
        6 => vec![2 * answer.numbers[0], answer.numbers[1]],
        _ => vec![6 * answer.numbers[0], 6 * answer.numbers[2]],
    };
    let parts = answer.lent.iter().zip(counts);
    parts
        .map(|(lent, count)| match lent {
            Lent::Numbers(places) => words(&places[..count as usize]),
            Lent::Bytes(_) => panic!("readers have stores of numbers"),
        })
        .collect()
}

/// The request that writes what this one reads.
pub fn write_back(read: &Request) -> Request {
    let mut parts = stored(read).into_iter();
    let mut next = || parts.next().unwrap_or_default();
    let (first, second, room) = (next(), next(), read.parts[0].len());
    match read.op {
        2 => request(13, read.settings, (room, 0), [first, vec![], vec![]], 0),
        6 => request(14, read.settings, (room, 0), [first, second, vec![]], 0),
        10 => request(17, read.settings, (room, 0), [first, attributes(&read.parts[0]).to_vec(), second], 0),
        22 => request(26, read.settings, (room, 0), [next_hop(&read.parts[0]).to_vec(), first, vec![]], 0),
        24 => request(27, read.settings, (room, 0), [first, vec![], vec![]], 0),
        op => panic!("op {op} has no writer here"),
    }
}

fn two(bytes: &[u8]) -> usize {
    usize::from(bytes[0]) << 8 | usize::from(bytes[1])
}

/// The next hop of a good announcement.
fn next_hop(value: &[u8]) -> &[u8] {
    &value[NEXT_HOP..][..usize::from(value[NEXT_HOP - 1])]
}

/// The attribute section of a good body.
fn attributes(body: &[u8]) -> &[u8] {
    let rest = &body[2 + two(body)..];
    &rest[2..2 + two(rest)]
}

/// The body that withdraws all routes of this one and has no attributes.
pub fn as_withdrawal(read: &Request) -> Request {
    let body = &read.parts[0];
    let announced = 4 + two(body) + attributes(body).len();
    let routes = [&body[2..2 + two(body)], &body[announced..]].concat();
    Request { parts: [withdrawal(&routes), vec![], vec![]], ..read.clone() }
}

/// A body that withdraws a list.
pub fn withdrawal(list: &[u8]) -> Vec<u8> {
    [&(list.len() as u16).to_be_bytes(), list, &[0, 0]].concat()
}

/// A body that announces a list with ORIGIN, an AS_PATH of three numbers of four bytes and NEXT_HOP.
pub fn announcement(rng: &mut Rng, list: &[u8]) -> Vec<u8> {
    let path = [&[0x40, 2, 14, 2, 3], rng.bytes(12).as_slice()].concat();
    let section = [&[0x40, 1, 1, 0], path.as_slice(), &[0x40, 3, 4, 192, 0, 2, 1]].concat();
    [&[0, 0], &(section.len() as u16).to_be_bytes(), section.as_slice(), list].concat()
}

/// The requests of an op on all captured messages, not the strict ones; of those with lists the ones that the crate reads so,
/// which are by the guess where the session has no ids.
pub fn captured(captures: &[Capture], op: u8) -> Vec<Request> {
    let listed = matches!(op, 2 | 10 | 22 | 24);
    let of_message = |capture: &Capture| {
        let asked = capture.requests.iter().filter(|request| request.op == op && !request.has(STRICT));
        let crate_reads_so = if asked.clone().any(|request| request.has(ADD_PATH)) { ADD_PATH } else { GUESS };
        asked.filter(|request| !listed || request.has(crate_reads_so)).cloned().collect::<Vec<_>>()
    };
    captures.iter().flat_map(of_message).collect()
}

/// The attribute sections of the captured UPDATEs, as requests to search one type.
pub fn searches(captures: &[Capture], kind: u8) -> Vec<Request> {
    let section = |body: &Request| [attributes(&body.parts[0]).to_vec(), vec![], vec![]];
    captured(captures, 12).iter().map(|body| request(19, body.settings, (0, 0), section(body), kind)).collect()
}

/// The requests of a walk over the section that is searched: at each attribute of it, and where none is left.
pub fn walk(search: &Request) -> Vec<Request> {
    let mut walk: Vec<Request> = vec![];
    let mut place = Some(0);
    while let Some(at) = place {
        let parts = [search.parts[0].clone(), words(&[at]), vec![]];
        let asked = request(18, search.settings, (0, 0), parts, 0);
        let answer = model::answer(&asked);
        assert_eq!(answer.refusal, 0, "a captured section is good");
        place = (answer.numbers[0] == 1).then_some(answer.numbers[6] as u32);
        walk.push(asked);
    }
    walk
}

/// A request to merge these, with room for the path and no more.
pub fn merge(as_path: Vec<u8>, as4_path: Vec<u8>, aggregator: &[u8], as4_aggregator: &[u8]) -> Request {
    let parts = [as_path, as4_path, [aggregator, as4_aggregator].concat()];
    let most = request(21, 0, (MOST_PAIRS, MOST_NUMBERS), parts, aggregator.len() as u8);
    let made = model::answer(&most);
    assert_eq!(made.refusal, 0, "only good paths are merged");
    Request { room_a: 2 * made.numbers[1] as usize, room_b: made.numbers[2] as usize, ..most }
}

/// The captured paths that an AS4_PATH stands beside.
pub fn captured_merges(captures: &[Capture]) -> Vec<Request> {
    captured(captures, 21).into_iter().filter(|merge| !merge.parts[1].is_empty()).collect()
}

/// From `least` to `most` AS numbers, one in three of which is over two bytes.
fn numbers(rng: &mut Rng, least: usize, most: usize) -> Vec<u32> {
    let count = least + rng.under(most + 1 - least);
    (0..count).map(|_| 1 + rng.under(64_000) as u32 + if rng.one_in(3) { 0x1_0000 } else { 0 }).collect()
}

/// A segment of these numbers, of which two bytes hold AS_TRANS for one that is over them.
fn segment(kind: u8, numbers: &[u32], width: usize) -> Vec<u8> {
    let narrow = |number: u32| u32::from(u16::try_from(number).unwrap_or(AS_TRANS));
    let held = numbers.iter().map(|number| if width == 2 { narrow(*number) } else { *number });
    let bytes = held.flat_map(|number| number.to_be_bytes().into_iter().skip(4 - width));
    [kind, numbers.len() as u8].into_iter().chain(bytes).collect()
}

/// A path about as the routing table has them: a sequence of two to eight numbers, now and then with a confederation
/// sequence before it or a set after it. AS4_PATH has the last of the sequence's numbers, from one of them up to all.
pub fn made_merge(rng: &mut Rng) -> Request {
    let sequence = numbers(rng, 2, 8);
    let last = 1 + rng.under(sequence.len());
    let mut as_path = segment(2, &sequence, 2);
    let mut as4_path = segment(2, &sequence[sequence.len() - last..], 4);
    if rng.one_in(6) {
        as_path = [segment(3, &numbers(rng, 1, 2), 2), as_path].concat();
    }
    if rng.one_in(6) {
        let set = numbers(rng, 2, 3);
        as_path.extend(segment(1, &set, 2));
        as4_path.extend(segment(1, &set, 4));
    }
    let (aggregator, as4_aggregator) = made_aggregators(rng);
    merge(as_path, as4_path, &aggregator, &as4_aggregator)
}

/// The AGGREGATORs of a path, which most have none of: the first alone, and both, of which either stands.
fn made_aggregators(rng: &mut Rng) -> (Vec<u8>, Vec<u8>) {
    let old = |number: u16| [&number.to_be_bytes(), [10, 0, 0, 1].as_slice()].concat();
    let new = [0, 1, 0, 1, 10, 0, 0, 1].to_vec();
    match rng.under(16) {
        0 => (old(65_001), vec![]),
        1 => (old(65_001), new),
        2 => (old(AS_TRANS), new),
        _ => (vec![], vec![]),
    }
}

/// An AS_PATH of the greatest size, and an AS4_PATH that counts about a third of it: six tenths of the greatest one.
pub fn large_merge(rng: &mut Rng) -> Request {
    let mut tenths = |count: usize, width: usize| (0..count).flat_map(|_| path_tenth(rng, width)).collect();
    merge(tenths(10, 2), tenths(6, 4), &[], &[])
}

/// The request for the AGGREGATOR that stands of a path to merge.
pub fn standing(merge: &Request) -> Request {
    let [aggregator, as4_aggregator] = aggregators(merge).map(<[u8]>::to_vec);
    request(20, 0, (0, 0), [aggregator, as4_aggregator, vec![]], 0)
}

/// The types that RFC 8654 made longer, from a byte over the old limit up to the new one.
pub fn long_messages() -> Vec<Request> {
    let lengths = [4_097, 4_098, 5_000, 8_192, 16_384, 32_768, 65_534, 65_535];
    let messages = lengths.iter().flat_map(|length| [2, 3, 5].map(|kind| message(0xFF, *length, kind, *length)));
    messages.map(|message| on_bytes(9, STRICT | EXTENDED, (0, 0), &message)).collect()
}

/// The request that takes the marks off the rows that this one reads, which are its store.
pub fn clearing(read: &Request) -> Request {
    let rows = stored(read).remove(0);
    on_bytes(28, 0, (rows.len() / 4, 0), &rows)
}

/// A request to build the index of a list, with room for its places and no more.
pub fn indexing(list: &[u8], settings: u8) -> Request {
    let built = model::answer(&on_bytes(29, settings, (MOST_PLACES, 0), list));
    assert_eq!(built.refusal, 0, "a made list is good");
    on_bytes(29, settings, (built.numbers[0] as usize, 0), list)
}

/// A request for the route of a number, by the index that this one builds.
pub fn asking(building: &Request, number: usize) -> Request {
    let Lent::Numbers(places) = model::answer(building).lent.remove(0) else { panic!("an index is of numbers") };
    let index = places.iter().flat_map(|place| (*place as u16).to_be_bytes()).collect();
    let parts = [building.parts[0].clone(), index, words(&[number as u32])];
    request(30, building.settings, (6, 0), parts, 0)
}

/// A request for the last route of a list, by its index.
pub fn asking_last(list: &[u8], settings: u8) -> Request {
    let rows = model::answer(&on_bytes(3, settings, (0, 0), list)).numbers[0];
    asking(&indexing(list, settings), rows as usize - 1)
}

/// The same request by the strict rule.
pub fn strict(asked: &Request) -> Request {
    Request { settings: asked.settings | STRICT, ..asked.clone() }
}

/// The request that counts the rows with a host bit of the UPDATE that this one reads.
pub fn counting_hosts(read: &Request) -> Request {
    Request { op: COUNT_HOSTS, ..counting(read) }
}

/// The counting request of a reading one.
pub fn counting(read: &Request) -> Request {
    if read.op == 21 {
        return Request { op: COUNT_MERGED, ..read.clone() };
    }
    Request { op: read.op + 1, room_a: 0, room_b: 0, ..read.clone() }
}

pub fn settings(lengths: Lengths, list_settings: u8) -> u8 {
    list_settings | if lengths.is_ipv6() { IPV6 } else { 0 }
}

pub fn width_setting(width: usize) -> u8 {
    if width == 4 {
        FOUR_BYTE_AS
    } else {
        0
    }
}
