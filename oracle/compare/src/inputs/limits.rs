//! Requests at each size limit, one under it and one over it. What is over a limit is malformed too, or has no room, so that
//! the order of the two checks is seen.

use super::as4::{joined, standing, ABSENT, FIRST_STANDS};
use super::attributes::{search, walk};
use super::examples::{on_bytes, request, words, HEADER_SETTINGS};
use super::index::{ask, build, own};
use super::marks::take_off;
use super::mp_nlri::{write_announcement, write_withdrawal, NEXT_HOP};
use super::pieces;
use records::{Request, ADD_PATH, EXTENDED, FOUR_BYTE_AS, GUESS, IPV6, STRICT};

pub fn all() -> Vec<Request> {
    [
        lists(),
        host_lists(),
        paths(),
        strict_paths(),
        messages(),
        updates(),
        written_lists(),
        written_paths(),
        written_messages(),
        written_updates(),
        values(),
        sections(),
        over_long_sections(),
        joined_paths(),
        long_joined_paths(),
        announcements_and_withdrawals(),
        written_announcements_and_withdrawals(),
        stores(),
        indexes(),
    ]
    .concat()
}

/// Default routes, without ids or with ids 0; over the limit the first length is out of range.
fn lists() -> Vec<Request> {
    let zeros = |op, settings, room, size| {
        let mut bytes = vec![0; size];
        bytes[0] = if size > 65_535 { 255 } else { 0 };
        on_bytes(op, settings, (room, 0), &bytes)
    };
    vec![
        zeros(3, 0, 0, 65_534),
        zeros(3, 0, 0, 65_535),
        zeros(3, 0, 0, 65_536),
        zeros(2, GUESS, 6 * 13_107, 65_535),
        zeros(2, GUESS, 0, 65_536),
        zeros(4, ADD_PATH, 6 * 13_107, 65_535),
        zeros(4, ADD_PATH, 0, 65_536),
        zeros(5, GUESS, 0, 65_535),
        zeros(5, GUESS, 0, 65_536),
        // a single item has no limit
        on_bytes(1, 0, (0, 0), &vec![0; 65_536]),
    ]
}

/// As many rows with a host bit as there can be, 32,767 in a list and 32,756 in either section of a body; over the limit there is one more.
fn host_lists() -> Vec<Request> {
    let hosts = |size: usize| [1, 0x7F].repeat(size / 2);
    let longest = [hosts(65_534), vec![0]].concat();
    vec![
        on_bytes(3, GUESS, (0, 0), &longest),
        on_bytes(2, GUESS, (6 * 32_768, 0), &longest),
        on_bytes(5, GUESS, (0, 0), &hosts(65_536)),
        on_bytes(11, GUESS, (0, 0), &pieces::body(&hosts(65_512), &[], &[])),
        on_bytes(11, GUESS, (0, 0), &pieces::body(&[], &[], &hosts(65_512))),
    ]
}

/// A path's length is even, so 65,534 is the longest good one; over the limit the first type is none.
fn paths() -> Vec<Request> {
    let empty_segments = |op, settings, room, size| {
        let mut bytes: Vec<u8> = [2, 0].into_iter().cycle().take(size).collect();
        bytes[0] = if size > 65_535 { 5 } else { 2 };
        on_bytes(op, settings, (room, 0), &bytes)
    };
    vec![
        empty_segments(6, 0, 65_534, 65_534),
        empty_segments(6, 0, 65_534, 65_535),
        empty_segments(6, 0, 0, 65_536),
        empty_segments(7, FOUR_BYTE_AS, 0, 65_535),
        empty_segments(7, FOUR_BYTE_AS, 0, 65_536),
        // an AGGREGATOR is never so long: 10, and over the limit 1
        empty_segments(8, 0, 0, 65_534),
        empty_segments(8, 0, 0, 65_535),
        empty_segments(8, 0, 0, 65_536),
    ]
}

/// By the strict rule: at width 2, 127 full segments and one of 254 numbers are the longest path; with a number less and an empty segment, 16
/// at the end. Paths of empty segments alone: 16 before a last byte's 2, and 1 over the limit.
fn strict_paths() -> Vec<Request> {
    let full = [vec![2, 255], vec![1; 510]].concat().repeat(127);
    let longest = [full.as_slice(), &[2, 254], &[1; 508]].concat();
    let empty_at_the_end = [full.as_slice(), &[2, 253], &[1; 506], &[2, 0]].concat();
    let empty = [2, 0].repeat(32_768);
    vec![
        on_bytes(6, STRICT, (256, 32_639), &longest),
        on_bytes(7, STRICT, (0, 0), &empty_at_the_end),
        on_bytes(7, STRICT | FOUR_BYTE_AS, (0, 0), &empty[..65_535]),
        on_bytes(6, STRICT, (0, 0), &empty),
        on_bytes(7, STRICT | FOUR_BYTE_AS, (0, 0), &empty),
    ]
}

/// The most bytes of a message by both editions, and one over the first, of every type: a byte short, whole and a byte over. Numbers that
/// are no type are asked by RFC 8654 alone, by which they are 4 whatever they claim.
fn messages() -> Vec<Request> {
    let types = (1..=5).map(|kind| (kind, HEADER_SETTINGS.to_vec()));
    let others = [0, 6].map(|kind| (kind, vec![STRICT | EXTENDED]));
    let mut requests = vec![];
    for (kind, readings) in types.chain(others) {
        for claimed in [4_096, 4_097, 65_535] {
            for given in [claimed - 1, claimed, claimed + 1] {
                let bytes = pieces::message(0xFF, claimed, kind, given);
                requests.extend(readings.iter().map(|settings| on_bytes(9, *settings, (0, 0), &bytes)));
            }
        }
    }
    requests
}

/// Bodies that are nearly all one section; over the limit a section is not all there.
fn updates() -> Vec<Request> {
    let announced = |size: usize| pieces::body(&[], &[], &vec![0; size - 4]);
    let over = [vec![255, 255], vec![0; 65_515]].concat();
    vec![
        on_bytes(10, GUESS, (0, 6 * 13_103), &announced(65_515)),
        on_bytes(10, GUESS, (0, 6 * 13_104), &announced(65_516)),
        on_bytes(10, GUESS, (0, 0), &over),
        on_bytes(11, GUESS, (0, 0), &pieces::body(&vec![0; 65_512], &[], &[])),
        on_bytes(11, GUESS, (0, 0), &over),
        on_bytes(12, 0, (0, 0), &pieces::body(&[], &raw_attribute(65_512), &[])),
        on_bytes(12, 0, (0, 0), &over),
    ]
}

/// 3,120 rows of 21 bytes and one of 15 are 65,535 bytes.
fn written_lists() -> Vec<Request> {
    let settings = IPV6 | ADD_PATH;
    let write = |last: [u32; 6], room| {
        let mut rows = [256 + 128, 7, 1, 2, 3, 4].repeat(3_120);
        rows.extend(last);
        request(13, settings, (room, 0), [words(&rows), vec![], vec![]], 0)
    };
    vec![
        write([256 + 72, 7, 1, 2, 0, 0], 65_534),
        write([256 + 80, 7, 1, 2, 0, 0], 65_535),
        write([256 + 88, 7, 1, 2, 0, 0], 0),
        write([256 + 129, 7, 1, 2, 3, 4], 0),
    ]
}

/// 64 full segments of width 4 are 65,408 bytes; 31 numbers more are 65,534, and an empty segment more is too many.
/// At width 2, 128 full segments are one too many. By the strict rule 16 comes first.
fn written_paths() -> Vec<Request> {
    let write = |settings, room, (segments, last): (usize, &[u32]), numbers: &[u32]| {
        let pairs = [[2, 255].repeat(segments), last.to_vec()].concat();
        request(14, settings, (room, 0), [words(&pairs), words(numbers), vec![]], 0)
    };
    let numbers = vec![70_000; 64 * 255 + 31];
    let wide = |room, last: &[u32], numbers: &[u32]| write(FOUR_BYTE_AS, room, (64, last), numbers);
    let narrow = [vec![64_512; 128 * 255 - 1], vec![65_536]].concat();
    vec![
        wide(65_534, &[2, 31], &numbers),
        wide(0, &[2, 31, 1, 0], &numbers),
        wide(0, &[2, 31, 1, 0], &numbers[1..]),
        wide(0, &[2, 31, 5, 0], &numbers),
        wide(0, &[2, 256], &vec![70_000; 64 * 255 + 256]),
        write(0, 0, (128, &[]), &narrow),
        write(STRICT | FOUR_BYTE_AS, 65_534, (64, &[2, 31]), &numbers),
        write(STRICT | FOUR_BYTE_AS, 65_600, (64, &[2, 31, 1, 0]), &numbers),
        write(STRICT | FOUR_BYTE_AS, 65_600, (64, &[2, 30, 1, 1]), &numbers),
    ]
}

/// The most bytes of each type but KEEPALIVE; type 6 is none.
fn written_messages() -> Vec<Request> {
    let write = |kind: u8, size: usize, room| request(16, 0, (room, 0), [vec![0; size], vec![], vec![]], kind);
    let mut requests = vec![write(1, 4_076, 4_095), write(1, 4_077, 4_096), write(1, 4_078, 0), write(6, 65_517, 0)];
    for kind in [2, 3, 5] {
        requests.push(write(kind, 4_078, 4_097));
        requests.extend([(65_515, 65_534), (65_516, 65_535), (65_517, 0)].map(|(size, room)| write(kind, size, room)));
    }
    requests
}

/// Attribute bytes and withdrawn rows up to the limits of the body and of their sections, which the body's precedes.
fn written_updates() -> Vec<Request> {
    let attributes =
        |size, room, announced: &[u32]| request(17, 0, (room, 0), [vec![], raw_attribute(size), words(announced)], 0);
    // 7,281 rows of 9 bytes are 65,529
    let withdrawn = |last: [u32; 6]| {
        let mut rows = [256 + 32, 7, 1, 0, 0, 0].repeat(7_281);
        rows.extend(last);
        request(17, ADD_PATH, (0, 0), [words(&rows), vec![], vec![]], 0)
    };
    vec![
        attributes(65_511, 65_515, &[]),
        attributes(65_512, 65_516, &[]),
        attributes(65_513, 0, &[]),
        attributes(65_535, 0, &[]),
        attributes(65_536, 0, &[]),
        attributes(65_536, 0, &[33, 0, 0, 0, 0, 0]),
        withdrawn([256 + 8, 7, 0x0A00_0000, 0, 0, 0]),
        withdrawn([256 + 16, 7, 0x0A00_0000, 0, 0, 0]),
    ]
}

/// Values around the most that one length byte can tell, in both forms, before an ORIGIN; and with the last byte not there.
fn values() -> Vec<Request> {
    let mut requests = vec![];
    for flags in [0xC0, 0xD0] {
        for length in [0, 1, 254, 255, 256, 257] {
            let attribute = pieces::with_head(flags, 200, &vec![0; length]);
            let (last, cut) = (attribute.len() as u32, attribute.len() - 1);
            let section = [attribute, vec![0x40, 1, 1, 2]].concat();
            requests.extend([walk(&section, 0), walk(&section, last), walk(&section[..cut], 0)]);
            requests.extend([search(&section, 200), search(&section, 1), search(&section[..cut], 200)]);
        }
    }
    requests
}

/// Three zeros are an attribute of type 0, and these one of type 14.
const EMPTY_MP_REACH: [u8; 3] = [0, 14, 0];

/// The longest section: one attribute, also without the bit for two length bytes; one that claims a byte more; or 21,845 of them.
fn sections() -> Vec<Request> {
    let longest = pieces::with_head(0xD0, 200, &[0; 65_531]);
    let short = [&[0xC0], &longest[1..]].concat();
    let cut = &pieces::with_head(0xD0, 200, &[0; 65_532])[..65_535];
    let zeros = |count: usize| vec![0; 3 * count];
    let last = [&zeros(21_844)[..], &EMPTY_MP_REACH].concat();
    let second = [&EMPTY_MP_REACH, &zeros(21_843)[..], &EMPTY_MP_REACH].concat();
    let mut requests: Vec<Request> = [0, 65_532, 65_533, 65_535].map(|place| walk(&longest, place)).to_vec();
    requests.extend([search(&longest, 200), walk(&short, 0), walk(cut, 0), search(cut, 200)]);
    requests.extend([search(&last, 14), search(&last, 15), search(&last[..65_534], 0), search(&second, 0)]);
    requests
}

/// One byte over the limit: else all right, at any place; with a last byte that is cut; and with a second MP_REACH_NLRI.
fn over_long_sections() -> Vec<Request> {
    let whole = pieces::with_head(0xD0, 200, &[0; 65_532]);
    let second = [EMPTY_MP_REACH.repeat(2), vec![0; 65_530]].concat();
    let mut requests: Vec<Request> = [0, 65_533, 65_535, 65_536, u32::MAX].map(|place| walk(&whole, place)).to_vec();
    requests.extend([search(&whole, 200), search(&vec![0; 65_536], 0), search(&second, 0)]);
    requests
}

/// AS_PATH and AS4_PATH at 65,535 bytes, below and above; over the limit the first type is none. 10 before 1, and 1 of an AS4_PATH that is
/// ignored. AGGREGATORs have no limit but their lengths.
fn joined_paths() -> Vec<Request> {
    let empty_segments = |size| {
        let mut bytes: Vec<u8> = [2, 0].into_iter().cycle().take(size).collect();
        bytes[0] = if size > 65_535 { 5 } else { 2 };
        bytes
    };
    let old = |size, new: &[u8], aggregators| joined([&empty_segments(size), new], aggregators, (0, 0));
    let new = |size, aggregators| joined([&[2, 0], &empty_segments(size)], aggregators, (65_534, 0));
    vec![
        old(65_534, &[], ABSENT),
        old(65_535, &[5], ABSENT),
        old(65_536, &[5], ABSENT),
        old(65_536, &[5], [&[0; 7], &[]]),
        new(65_534, ABSENT),
        new(65_535, ABSENT),
        new(65_536, ABSENT),
        new(65_536, FIRST_STANDS),
        standing([&vec![7; 65_536], &[]]),
        standing([&[], &vec![7; 65_536]]),
    ]
}

/// The longest paths: of the 32,639 numbers of AS_PATH 16,288 are leading, which are 63 full segments and 223 numbers of one that is split;
/// then come the 16,351 of AS4_PATH in 65 segments. Just enough room, and a number too few.
fn long_joined_paths() -> Vec<Request> {
    let old = [[vec![2, 255], vec![1; 510]].concat().repeat(127), vec![2, 254], vec![1; 508]].concat();
    let new = [[vec![2, 255], vec![3; 1_020]].concat().repeat(64), vec![2, 31], vec![3; 124]].concat();
    let rooms = [(2 * (64 + 65), 32_639), (2 * (64 + 65), 32_638)];
    rooms.map(|rooms| joined([&old, &new], ABSENT, rooms)).to_vec()
}

/// Values of default routes, without ids or with ids 0. What is over the limit is else good, or of other families too.
fn announcements_and_withdrawals() -> Vec<Request> {
    let announcement = |op, settings, room, size: usize| {
        on_bytes(op, settings, (room, 0), &pieces::announcement(&NEXT_HOP[..16], 1, &vec![0; size - 21]))
    };
    let withdrawal =
        |op, settings, size: usize| on_bytes(op, settings, (0, 0), &pieces::withdrawal(&vec![0; size - 3]));
    vec![
        announcement(23, 0, 0, 65_534),
        // 13,102 rows with ids and four zeros more
        announcement(22, GUESS, 6 * 13_106, 65_535),
        announcement(22, GUESS, 0, 65_536),
        on_bytes(23, GUESS, (0, 0), &vec![0; 65_536]),
        withdrawal(25, 0, 65_535),
        withdrawal(24, GUESS, 65_536),
    ]
}

/// Up to 3,120 rows of 21 bytes and a shorter one: 65,514 bytes after the head of an announcement and 65,532 after that of a withdrawal are the
/// most. The list alone is never too long. 18 and 14 come first, and 1 before 11.
fn written_announcements_and_withdrawals() -> Vec<Request> {
    let rows = |size: u32, last_word: u32| {
        let last = [256 + 8 * (size % 21 - 5), 7, 0, 0, 0, last_word];
        [[256 + 128, 7, 1, 2, 3, 4].repeat(size as usize / 21), last.to_vec()].concat()
    };
    let announcement =
        |room, next_hop: usize, rows: &[u32]| write_announcement(ADD_PATH, room, &NEXT_HOP[..next_hop], rows);
    vec![
        announcement(65_535, 16, &rows(65_514, 0)),
        announcement(65_600, 16, &rows(65_515, 0)),
        announcement(0, 17, &rows(65_515, 0)),
        announcement(65_600, 32, &rows(65_515, 1)),
        write_withdrawal(ADD_PATH, 65_534, &rows(65_532, 0)),
        write_withdrawal(ADD_PATH, 0, &rows(65_533, 0)),
        write_withdrawal(ADD_PATH, 0, &rows(65_533, 1)),
    ]
}

/// The most words that a part holds are not whole rows; the most rows are 16,666.
fn stores() -> Vec<Request> {
    [99_996, 100_000].map(|count| take_off(&vec![u32::MAX; count])).to_vec()
}

/// The most items that a list can have, 65,535, and the most places of an index, 4,096; the last route by it; and a store of the most places. Over
/// the limit there is no room, an index is out of order, and the first length out of range.
fn indexes() -> Vec<Request> {
    let longest = vec![0; 65_535];
    let over = [vec![255], vec![0; 65_535]].concat();
    vec![
        build(0, 4_096, &longest),
        build(0, 400_000, &[0; 17]),
        build(0, 0, &over),
        ask(0, &longest, &own(&longest, 0), 65_534),
        ask(0, &over, &[1], 65_536),
    ]
}

/// One or two attributes of a type that the crate keeps raw, so that the section has exactly this size.
pub fn raw_attribute(size: usize) -> Vec<u8> {
    let one = |kind: u8, size: usize| pieces::with_head(0xD0, kind, &vec![5; size - 4]);
    if size < 65_000 {
        one(200, size)
    } else {
        [one(200, 30_000), one(201, size - 30_000)].concat()
    }
}
