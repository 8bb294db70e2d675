//! A library's answer to a request record of the comparison, so that answers of all sides are compared as one kind.

use crate::library::Library;
use records::{lent_of, numbers_of, sum_bytes, Answer, Lent, Request};
use records::{ADD_PATH, EXTENDED, FOUR_BYTE_AS, GUESS, IPV6, STRICT};

/// The refusal where a store has too few places.
const NO_ROOM: u64 = 11;

/// Where the next hop stands in an announcement.
pub const NEXT_HOP: usize = 4;

/// The four fields of an answer word; the last is the refusal.
pub fn fields(word: u64) -> [u64; 4] {
    [0, 16, 32, 48].map(|shift| word >> shift & 0xFFFF)
}

/// Whether the C boundary has a call for this op.
pub fn has_call(op: u8) -> bool {
    matches!(op, 2 | 3 | 6..=30)
}

pub fn four_bytes(request: &Request) -> u8 {
    u8::from(request.has(FOUR_BYTE_AS))
}

pub fn ipv6(request: &Request) -> u8 {
    u8::from(request.has(IPV6))
}

pub fn add_path(request: &Request) -> u8 {
    u8::from(request.has(ADD_PATH))
}

/// 1 for RFC 8654, and 0 for RFC 4271.
pub fn edition(request: &Request) -> u8 {
    u8::from(request.has(EXTENDED))
}

pub fn list_settings(request: &Request) -> u8 {
    request.settings & (ADD_PATH | GUESS)
}

/// The answer of a library to a request that it has a call for.
pub fn answer<L: Library>(request: &Request) -> Answer {
    let mut lent = lent_of(request);
    let (word, numbers) = match request.op {
        8 => aggregator::<L>(request),
        9 => header::<L>(request),
        10 | 11 => update::<L>(request, &mut lent),
        12 => parts::<L>(request),
        13..=17 | 26 | 27 => written::<L>(request, &mut lent),
        18 | 19 => attribute::<L>(request),
        20 => standing::<L>(&request.parts[0], &request.parts[1]),
        21 => merged::<L>(request, &mut lent),
        22..=25 => mp_value::<L>(request, &mut lent),
        28 => cleared::<L>(&mut lent),
        29 => indexed::<L>(request, store(&mut lent[0])),
        30 => route::<L>(request),
        _ => read::<L>(request, &mut lent),
    };
    let refusal = fields(word)[3] as u32;
    if refusal != 0 {
        assert_eq!(word, u64::from(refusal) << 48, "a refusal has no numbers");
        return Answer { lent, ..Answer::refused(request, refusal) };
    }
    Answer { refusal, numbers, lent }
}

fn store(lent: &mut Lent) -> &mut [u32] {
    match lent {
        Lent::Numbers(places) => places,
        Lent::Bytes(_) => panic!("a store of numbers"),
    }
}

fn output(lent: &mut [Lent]) -> &mut [u8] {
    match &mut lent[0] {
        Lent::Bytes(places) => places,
        Lent::Numbers(_) => panic!("an output of bytes"),
    }
}

fn read<L: Library>(request: &Request, lent: &mut [Lent]) -> (u64, Vec<u64>) {
    let (s, four) = (request.parts[0].as_slice(), four_bytes(request));
    let (v6, settings, strict) = (ipv6(request), list_settings(request), request.has(STRICT));
    let word = match (request.op, lent) {
        (2, [rows]) => L::parse_nlri_list(s, v6, settings, store(rows)),
        (3, _) => L::count_nlri_list(s, v6, settings),
        (6, [pairs, numbers]) if strict => L::parse_as_path_strict(s, four, store(pairs), store(numbers)),
        (6, [pairs, numbers]) => L::parse_as_path(s, four, store(pairs), store(numbers)),
        (7, _) if strict => L::count_as_path_strict(s, four),
        (7, _) => L::count_as_path(s, four),
        (op, _) => panic!("no reader for op {op}"),
    };
    let [a, b, ..] = fields(word);
    (word, vec![a, b])
}

/// The rows with a host bit have a call of their own, which refuses as the others do but for the room.
fn update<L: Library>(request: &Request, lent: &mut [Lent]) -> (u64, Vec<u64>) {
    let (body, settings) = (request.parts[0].as_slice(), list_settings(request));
    let word = match lent {
        [withdrawn, announced] => L::parse_bgp_update_message(body, settings, store(withdrawn), store(announced)),
        _ => L::count_bgp_update_message(body, settings),
    };
    let hosts = L::count_update_hosts(body, settings);
    let ([a, b, c, refusal], [withdrawn_hosts, announced_hosts, ..]) = (fields(word), fields(hosts));
    let refused_alike = if matches!(refusal, 0 | NO_ROOM) { hosts >> 32 == 0 } else { hosts == word };
    assert!(refused_alike, "rows with a host bit are counted where rows are");
    (word, vec![a, c & 0xFF, b, c >> 8, withdrawn_hosts, announced_hosts])
}

/// The words are lent here: a request has no store for them.
fn aggregator<L: Library>(request: &Request) -> (u64, Vec<u64>) {
    let mut words = [0; 2];
    let word = L::parse_aggregator(&request.parts[0], four_bytes(request), &mut words);
    let [_, differs, ..] = fields(word);
    (word, vec![u64::from(words[0]), u64::from(words[1]), differs])
}

/// The strict call is that of RFC 4271 by its edition too.
fn strict_header<L: Library>(s: &[u8], edition: u8) -> u64 {
    let word = L::parse_bgp_message_by_edition(s, edition);
    if edition == 0 {
        assert_eq!(word, L::parse_bgp_message_strict(s), "the strict call is by RFC 4271");
    }
    word
}

fn header<L: Library>(request: &Request) -> (u64, Vec<u64>) {
    let s = request.parts[0].as_slice();
    let word = if request.has(STRICT) { strict_header::<L>(s, edition(request)) } else { L::parse_bgp_message(s) };
    let [claimed, taken, c, refusal] = fields(word);
    if refusal != 0 {
        return (word, vec![]);
    }
    let body = &s[19..taken as usize];
    let flag = |bit: u64| u64::from(c & bit != 0);
    (word, vec![c & 0xFF, claimed, taken, flag(256), flag(512), flag(1024), body.len() as u64, sum_bytes(body)])
}

fn parts<L: Library>(request: &Request) -> (u64, Vec<u64>) {
    let body = request.parts[0].as_slice();
    let mut numbers = vec![];
    for part in [L::withdrawn_part, L::attribute_part, L::announced_part] {
        let word = part(body);
        let [offset, length, _, refusal] = fields(word);
        if refusal != 0 {
            return (word, vec![]);
        }
        let bytes = &body[offset as usize..(offset + length) as usize];
        numbers.extend([length, sum_bytes(bytes)]);
    }
    (0, numbers)
}

/// Where there is none, every number is 0. The word of a search has the type too, which its answer leaves out.
fn attribute<L: Library>(request: &Request) -> (u64, Vec<u64>) {
    let section = request.parts[0].as_slice();
    let is_search = request.op == 19;
    let word = if is_search {
        L::find_attribute(section, request.argument)
    } else {
        L::attribute_at(section, request.numbers(1)[0] as usize)
    };
    let [start, length, c, refusal] = fields(word);
    if start == 0 {
        assert_eq!(word, refusal << 48, "no attribute has no numbers");
        return (word, vec![0; numbers_of(request.op)]);
    }
    let (flags, kind, next) = (c >> 8, c & 0xFF, start + length);
    let sum = sum_bytes(&section[start as usize..next as usize]);
    if is_search {
        assert_eq!(kind, u64::from(request.argument), "the type that is searched");
        return (word, vec![1, flags, start, length, sum]);
    }
    (word, vec![1, flags, kind, start, length, sum, next])
}

/// AGGREGATOR and AS4_AGGREGATOR of a path to merge.
pub fn aggregators(request: &Request) -> [&[u8]; 2] {
    request.parts[2].split_at(usize::from(request.argument)).into()
}

fn standing<L: Library>(aggregator: &[u8], as4_aggregator: &[u8]) -> (u64, Vec<u64>) {
    let word = L::standing_aggregator(aggregator, as4_aggregator);
    let [offset, length, number, _] = fields(word);
    let value = if number == 2 { as4_aggregator } else { aggregator };
    let sum = sum_bytes(&value[offset as usize..(offset + length) as usize]);
    (word, vec![number, length, sum])
}

/// Counting is held to the same request: it answers alike but for the room.
fn merged<L: Library>(request: &Request, lent: &mut [Lent]) -> (u64, Vec<u64>) {
    let ([as_path, as4_path, _], [aggregator, as4_aggregator]) = (&request.parts, aggregators(request));
    let [pairs, numbers] = lent else { panic!("a path has two stores") };
    let counted = L::count_merged_as_path(as_path, as4_path, aggregator, as4_aggregator);
    let word = L::merge_as_path(as_path, as4_path, aggregator, as4_aggregator, store(pairs), store(numbers));
    let [segments, count, _, refusal] = fields(counted);
    let fits = 2 * segments as usize <= request.room_a && count as usize <= request.room_b;
    let wanted = if refusal != 0 || fits { counted } else { NO_ROOM << 48 };
    assert_eq!(word, wanted, "a path is merged as it is counted");
    let [_, _, number, _] = fields(L::standing_aggregator(aggregator, as4_aggregator));
    (word, vec![number, segments, count])
}

/// The next hop of an announcement is a part of its value; a withdrawal has none.
fn mp_value<L: Library>(request: &Request, lent: &mut [Lent]) -> (u64, Vec<u64>) {
    let (value, settings) = (request.parts[0].as_slice(), list_settings(request));
    let word = match (request.op, lent) {
        (22, [rows]) => L::parse_mp_reach_nlri(value, settings, store(rows)),
        (23, _) => L::count_mp_reach_nlri(value, settings),
        (24, [rows]) => L::parse_mp_unreach_nlri(value, settings, store(rows)),
        _ => L::count_mp_unreach_nlri(value, settings),
    };
    let [rows, hosts, c, refusal] = fields(word);
    if refusal != 0 || request.op >= 24 {
        assert_eq!(c, 0, "a withdrawal has no next hop");
        return (word, vec![rows, hosts]);
    }
    let (length, reserved) = (c & 0xFF, c >> 8);
    let next_hop = &value[NEXT_HOP..NEXT_HOP + length as usize];
    (word, vec![length, sum_bytes(next_hop), reserved, rows, hosts])
}

/// The rows are one number in all three fields.
fn cleared<L: Library>(lent: &mut [Lent]) -> (u64, Vec<u64>) {
    let word = L::clear_guessed(store(&mut lent[0]));
    (word, vec![word & 0xFFFF_FFFF_FFFF])
}

/// Counting is held to the same request: it answers alike but for the room. The store's numbers are places here.
fn indexed<L: Library>(request: &Request, store: &mut [u32]) -> (u64, Vec<u64>) {
    let (s, v6, with_id) = (request.parts[0].as_slice(), ipv6(request), add_path(request));
    let mut places: Vec<u16> = store.iter().map(|place| *place as u16).collect();
    let counted = L::count_index(s, v6, with_id);
    let word = L::build_index(s, v6, with_id, &mut places);
    store.iter_mut().zip(places).for_each(|(number, place)| *number = u32::from(place));
    let [count, _, _, refusal] = fields(counted);
    let wanted = if refusal != 0 || count as usize <= request.room_a { counted } else { NO_ROOM << 48 };
    assert_eq!(word, wanted, "an index is built as it is counted");
    (word, vec![count])
}

/// The number of the route that is asked for.
pub fn number(request: &Request) -> usize {
    request.numbers(2)[0] as usize
}

/// The row is lent here: a request has no store for it.
fn route<L: Library>(request: &Request) -> (u64, Vec<u64>) {
    let (list, index) = (request.parts[0].as_slice(), request.places(1));
    let mut row = [0; 6];
    let word = L::route_at(list, &index, number(request), ipv6(request), add_path(request), &mut row);
    let [bytes, host, ..] = fields(word);
    (word, [vec![bytes], row.map(u64::from).to_vec(), vec![host]].concat())
}

fn written<L: Library>(request: &Request, lent: &mut [Lent]) -> (u64, Vec<u64>) {
    let (first, second) = (request.numbers(0), request.numbers(1));
    let (four, with_id, out) = (four_bytes(request), add_path(request), output(lent));
    let word = match request.op {
        13 => L::encode_nlri_prefixes(&first, ipv6(request), with_id, out),
        14 if request.has(STRICT) => L::encode_as_path_strict(&first, &second, four, out),
        14 => L::encode_as_path(&first, &second, four, out),
        15 => L::encode_aggregator(first[0], first[1], four, out),
        16 => L::encode_bgp_message(request.argument, &request.parts[0], out),
        17 => L::encode_bgp_update_message(&first, &request.parts[1], &request.numbers(2), with_id, out),
        26 => L::encode_mp_reach_nlri(&request.parts[0], &second, with_id, out),
        _ => L::encode_mp_unreach_nlri(&first, with_id, out),
    };
    (word, vec![fields(word)[0]])
}
