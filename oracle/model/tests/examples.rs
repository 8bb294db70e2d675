//! Every example of document 01 and every rule of the requests after it, with the line it comes to.

use records::{Request, ADD_PATH, EXTENDED, FOUR_BYTE_AS, GUESS, IPV6, STRICT};

fn hex(text: &str) -> Vec<u8> {
    text.split_whitespace().map(|byte| u8::from_str_radix(byte, 16).expect("a byte")).collect()
}

fn words(numbers: &[u32]) -> Vec<u8> {
    numbers.iter().flat_map(|number| number.to_be_bytes()).collect()
}

/// Refusal and numbers of a call that is lent nothing, as text.
fn told(op: u8, settings: u8, bytes: Vec<u8>) -> String {
    told_of(Request { op, settings, parts: [bytes, vec![], vec![]], ..Request::default() })
}

fn told_of(request: Request) -> String {
    let line = model::answer(&request).line(1, request.op);
    line.split_once(' ').and_then(|(_, rest)| rest.split_once(' ')).expect("three fields").1.to_string()
}

/// What the attribute at a place of a section comes to.
fn walked(section: &[u8], place: u32) -> String {
    told_of(Request { op: 18, parts: [section.to_vec(), words(&[place]), vec![]], ..Request::default() })
}

/// What a search for a type comes to.
fn searched(section: &[u8], kind: u8) -> String {
    told_of(Request { op: 19, parts: [section.to_vec(), vec![], vec![]], argument: kind, ..Request::default() })
}

/// The rows of a list, or its refusal.
fn rows(op: u8, settings: u8, bytes: &str) -> Result<Vec<[u32; 6]>, u32> {
    let parts = [hex(bytes), vec![], vec![]];
    let request = Request { op, settings, room_a: 60, parts, ..Request::default() };
    let answer = model::answer(&request);
    let records::Lent::Numbers(store) = &answer.lent[0] else { panic!("rows are numbers") };
    match answer.refusal {
        0 => Ok(store.chunks_exact(6).take(answer.numbers[0] as usize).map(|row| row.try_into().unwrap()).collect()),
        refusal => Err(refusal),
    }
}

/// A row without id and with the first address word only.
fn plain(length: u32, address: [u8; 4]) -> [u32; 6] {
    [length, 0, u32::from_be_bytes(address), 0, 0, 0]
}

fn tagged(id: u32, length: u32, address: [u8; 4]) -> [u32; 6] {
    [256 + length, id, u32::from_be_bytes(address), 0, 0, 0]
}

/// The same, with the mark of a guessed id.
fn guessed(id: u32, length: u32, address: [u8; 4]) -> [u32; 6] {
    tagged(id, 512 + length, address)
}

#[test]
fn lists() {
    let default = plain(0, [0; 4]);
    assert_eq!(rows(2, 0, ""), Ok(vec![]));
    assert_eq!(rows(2, 0, "00"), Ok(vec![default]));
    assert_eq!(rows(2, GUESS, "00"), Ok(vec![default]));
    assert_eq!(rows(2, ADD_PATH, "00"), Err(2));
    assert_eq!(rows(4, 0, "08"), Err(8));
    assert_eq!(rows(2, 0, "08"), Err(2));
    assert_eq!(rows(2, 0, "20 0A 00 00 01"), Ok(vec![plain(32, [10, 0, 0, 1])]));
    assert_eq!(rows(2, 0, "21 0A 00 00 00 00"), Err(7));
    assert_eq!(rows(2, 0, "09 0A FF"), Ok(vec![plain(9, [10, 255, 0, 0])]));
    assert_eq!(rows(2, ADD_PATH, "00 00 00 07 08 0A"), Ok(vec![tagged(7, 8, [10, 0, 0, 0])]));
    assert_eq!(rows(2, 0, "00 00 00 07 08 0A"), Err(2));
    assert_eq!(rows(2, 0, "00 00 00 07 08"), Ok(vec![default, default, default, plain(7, [8, 0, 0, 0])]));
    let routes = vec![default, plain(24, [10, 1, 8, 0]), plain(24, [200, 2, 0, 0])];
    assert_eq!(rows(2, 0, "00 18 0A 01 08 18 C8 02 00"), Ok(routes));
    assert_eq!(rows(2, GUESS, "00 18 0A 01 08 18 C8 02 00"), Err(7));
    assert_eq!(rows(2, GUESS, "00 18 0A 01 08 18"), Ok(vec![guessed(1_575_425, 8, [24, 0, 0, 0])]));
    let routes = vec![guessed(0, 8, [10, 0, 0, 0]), plain(8, [11, 0, 0, 0])];
    assert_eq!(rows(2, GUESS, "00 00 00 00 08 0A 08 0B"), Ok(routes));
    let ipv6 = [64, 0, 0x2001_0DB8, 1, 0, 0];
    assert_eq!(rows(2, IPV6, "40 20 01 0D B8 00 00 00 01"), Ok(vec![ipv6]));
    assert_eq!(rows(2, IPV6, "81"), Err(7));
}

/// A length, octets of zeros as many as it needs, and one of their bits set.
fn item_with_bit(length: usize, bit: usize) -> Vec<u8> {
    let mut octets = vec![0; length.div_ceil(8)];
    octets[bit / 8] |= 0x80 >> (bit % 8);
    [vec![length as u8], octets].concat()
}

#[test]
fn host_bits_of_one_route() {
    for (family, most) in [(0, 32), (IPV6, 128)] {
        for length in 0..=most {
            for bit in 0..8 * usize::div_ceil(length, 8) {
                let last = told(1, family, item_with_bit(length, bit)).chars().last();
                assert_eq!(last == Some('1'), bit >= length, "bit {bit} of a length of {length}");
            }
        }
    }
    assert_eq!(told(1, 0, hex("09 0A FF")), "0 3 9 0 184483840 0 0 0 1");
    assert_eq!(told(1, 0, hex("09 0A 80")), "0 3 9 0 176160768 0 0 0 0");
    assert_eq!(told(1, 0, hex("08 0A FF")), "0 2 8 0 167772160 0 0 0 0", "the octet after the item is not its own");
    assert_eq!(told(1, ADD_PATH, hex("00 00 00 07 09 0A FF")), "0 7 265 7 184483840 0 0 0 1");
    assert_eq!(told(1, 0, hex("09 0A")), "2 0 0 0 0 0 0 0 0");
}

#[test]
fn host_bits_of_lists() {
    for op in [3, 5] {
        assert_eq!(told(op, 0, hex("")), "0 0 0");
        assert_eq!(told(op, 0, hex("09 0A FF 09 0A 80 08 FF 1F FF FF FF FF 00")), "0 5 2");
        assert_eq!(told(op, ADD_PATH, hex("00 00 00 07 09 0A FF FF FF FF FF 08 0A")), "0 2 1");
        assert_eq!(told(op, GUESS, hex("00 00 00 07 09 0A FF")), "0 1 1", "the length is the one after the id");
        assert_eq!(told(op, GUESS, hex("00 09 0A FF")), "0 2 1", "or the first byte, where there is no id");
        assert_eq!(told(op, 0, hex("09 0A FF 21")), "7 0 0");
        assert_eq!(told(op, 0, hex("09 0A FF 09 0A")), "2 0 0");
    }
    let stored = |op, room_a| {
        let parts = [hex("09 0A FF 08 0A"), vec![], vec![]];
        let answer = model::answer(&Request { op, room_a, parts, ..Request::default() });
        (answer.refusal, answer.numbers)
    };
    for op in [2, 4] {
        assert_eq!(stored(op, 12), (0, vec![2, 1]));
        assert_eq!(stored(op, 11), (11, vec![0, 0]), "a refused list has none");
    }
}

#[test]
fn host_bits_of_updates() {
    let body = |withdrawn: &str, announced: &str| {
        let withdrawn = hex(withdrawn);
        [vec![0, withdrawn.len() as u8], withdrawn, vec![0, 0], hex(announced)].concat()
    };
    assert_eq!(told(11, 0, body("09 0A FF 09 0B FF", "09 0A FF 08 0A")), "0 2 0 2 0 2 1");
    assert_eq!(told(11, 0, body("08 0A", "09 0A FF")), "0 1 0 1 0 0 1");
    assert_eq!(told(11, 0, body("09 0A FF 21", "09 0A FF")), "0 0 7 1 0 0 1", "a malformed section has none");
    assert_eq!(told(11, 0, body("09 0A FF", "09 0A FF 08")), "0 1 0 0 2 1 0");
    assert_eq!(told(11, 0, hex("00 03 09 0A FF 00")), "2 0 0 0 0 0 0");
    let rooms = |room_a, room_b| {
        let parts = [body("09 0A FF", "09 0A FF"), vec![], vec![]];
        let answer = model::answer(&Request { op: 10, room_a, room_b, parts, ..Request::default() });
        (answer.refusal, answer.numbers)
    };
    assert_eq!(rooms(6, 6), (0, vec![1, 0, 1, 0, 1, 1]));
    assert_eq!(rooms(6, 5), (11, vec![0; 6]));
}

/// The first words of the rows in a store, which this number counts.
fn first_words(answer: &records::Answer, store: usize, count: usize) -> Vec<u32> {
    let records::Lent::Numbers(places) = &answer.lent[store] else { panic!("rows are numbers") };
    places.chunks_exact(6).take(answer.numbers[count] as usize).map(|row| row[0]).collect()
}

/// A request on one part, with room for rows.
fn reading(op: u8, settings: u8, bytes: Vec<u8>) -> Request {
    Request { op, settings, room_a: 60, room_b: 60, parts: [bytes, vec![], vec![]], argument: 0 }
}

#[test]
fn marks_of_guessed_ids() {
    assert_eq!(rows(2, GUESS, "00 00 00 07 08 0A"), Ok(vec![[776, 7, 0x0A00_0000, 0, 0, 0]]));
    // a plain item, two with ids, one that the guess falls back on, and one with an id again
    let list = hex("08 0A 00 00 00 07 08 0B 00 00 00 08 09 0C 80 20 01 02 03 FF 00 00 00 00 00");
    let body = [vec![0, list.len() as u8], list.clone(), vec![0, 0], list.clone()].concat();
    let inputs = [
        (2, list.clone(), [Some(0), None]),
        (4, list.clone(), [Some(0), None]),
        (10, body, [Some(0), Some(2)]),
        (22, [&[0, 2, 1, 16], &[0; 17][..], &list].concat(), [Some(3), None]),
        (24, [&[0, 2, 1][..], &list].concat(), [Some(0), None]),
    ];
    for (op, bytes, counts) in inputs {
        let asked = reading(op, GUESS, bytes);
        let (marked, plain) = (model::answer(&asked), model::answer_without_marks(&asked));
        assert_eq!((marked.refusal, &marked.numbers), (0, &plain.numbers), "op {op}: no number of it changes");
        for (store, count) in counts.into_iter().flatten().enumerate() {
            assert_eq!(first_words(&marked, store, count), [8, 776, 777, 32, 768], "op {op}");
            assert_eq!(first_words(&plain, store, count), [8, 264, 265, 32, 256], "op {op}");
        }
    }
}

#[test]
fn no_marks() {
    let list = hex("00 00 00 07 08 0A 00 00 00 08 08 0B");
    let values = [
        (2, list.clone()),
        (4, list.clone()),
        (10, [vec![0, 12], list.clone(), vec![0, 0], list.clone()].concat()),
        (22, [&[0, 2, 1, 16], &[0; 17][..], &list].concat()),
        (24, [&[0, 2, 1][..], &list].concat()),
    ];
    for (op, bytes) in values {
        let [told, guess] = [ADD_PATH, ADD_PATH | GUESS].map(|settings| reading(op, settings, bytes.clone()));
        assert_eq!(model::answer(&told), model::answer(&guess), "the guess is nothing where ids are told");
        assert_eq!(model::answer(&told), model::answer_without_marks(&told));
        assert!(model::answer(&told).lent[0] != model::answer(&reading(op, GUESS, bytes)).lent[0]);
    }
    assert_eq!(told(1, ADD_PATH, hex("00 00 00 07 08 0A")), "0 6 264 7 167772160 0 0 0 0");
    assert_eq!(told(1, ADD_PATH | GUESS, hex("00 00 00 07 08 0A")), "0 6 264 7 167772160 0 0 0 0");
    assert_eq!(rows(2, GUESS, "00"), Ok(vec![plain(0, [0; 4])]), "looked for, and not found");
}

#[test]
fn marked_rows_are_not_written() {
    let guessed = guessed(7, 8, [10, 0, 0, 0]);
    let good = tagged(7, 8, [10, 0, 0, 0]);
    for row in [guessed, [520, 7, 0x0A00_0000, 0, 0, 0], [520, 0, 0x0A00_0000, 0, 0, 0], [512, 0, 0, 0, 0, 0]] {
        let (alone, after) = (words(&row), words(&[good, row].concat()));
        for settings in [0, ADD_PATH, GUESS, ADD_PATH | GUESS | IPV6] {
            for rows in [&alone, &after] {
                let written = |op, parts| written(op, settings, 99, parts);
                assert_eq!(written(13, [rows.clone(), vec![], vec![]]), Err(14));
                assert_eq!(written(17, [rows.clone(), vec![], vec![]]), Err(14));
                assert_eq!(written(17, [vec![], vec![], rows.clone()]), Err(14));
                assert_eq!(written(26, [NEXT_HOP.to_vec(), rows.clone(), vec![]]), Err(14));
                assert_eq!(written(27, [rows.clone(), vec![], vec![]]), Err(14));
            }
        }
    }
}

/// Refusal, rows and the store after its marks were taken off.
fn cleared(store: &[u32]) -> (u32, u64, Vec<u32>) {
    let asked = Request { op: 28, room_a: 3, parts: [words(store), vec![], vec![]], ..Request::default() };
    let answer = model::answer(&asked);
    let [records::Lent::Numbers(places)] = &answer.lent[..] else { panic!("a store of numbers") };
    (answer.refusal, answer.numbers[0], places.clone())
}

#[test]
fn marks_taken_off() {
    let line = |store: &[u32]| told(28, 0, words(store));
    assert_eq!(line(&[]), "0 0 | 0");
    assert_eq!(line(&[776, 7, 0x0A00_0000, 0, 0, 0]), line(&[264, 7, 0x0A00_0000, 0, 0, 0]));
    assert!(line(&[776, 7, 0x0A00_0000, 0, 0, 0]).ends_with(" 264 7 167772160 0 0 0"));
    assert!(line(&[u32::MAX; 6]).ends_with(" 4294966783 4294967295 4294967295 4294967295 4294967295 4294967295"));
    for bit in 0..32 {
        for place in 0..12 {
            let mut store = vec![0; 12];
            store[place] = 1 << bit;
            let kept = if bit == 9 && place % 6 == 0 { vec![0; 12] } else { store.clone() };
            assert_eq!(cleared(&store), (0, 2, kept));
        }
    }
    for count in (1..=100).filter(|count| count % 6 != 0) {
        let store = vec![u32::MAX; count];
        assert_eq!(cleared(&store), (14, 0, store), "not whole rows: as it was");
    }
}

/// Refusal and places of the index of a list, with room for seven.
fn index_of(settings: u8, list: &[u8]) -> (u32, Vec<u16>) {
    let asked = Request { op: 29, settings, room_a: 7, parts: [list.to_vec(), vec![], vec![]], ..Request::default() };
    let answer = model::answer(&asked);
    let [records::Lent::Numbers(places)] = &answer.lent[..] else { panic!("a store of places") };
    let count = answer.numbers[0] as usize;
    assert!((count..7).all(|at| places[at] == at as u32), "the other places are as they were");
    (answer.refusal, places[..count].iter().map(|place| *place as u16).collect())
}

/// What the route of a number comes to, by an index.
fn asked(settings: u8, list: &[u8], index: &[u16], number: u32) -> String {
    let index = index.iter().flat_map(|place| place.to_be_bytes()).collect();
    told_of(Request { op: 30, settings, parts: [list.to_vec(), index, words(&[number])], ..Request::default() })
}

/// What a question is refused with.
fn asked_refusal(settings: u8, list: &[u8], index: &[u16], number: u32) -> u32 {
    let line = asked(settings, list, index, number);
    let (refusal, numbers) = line.split_once(' ').expect("numbers");
    assert!(refusal == "0" || numbers == "0 0 0 0 0 0 0 0");
    refusal.parse().expect("a refusal")
}

/// This many items without ids, whose lengths change: the first has 1, the second 2 bytes, and so on up to 5.
fn items(count: usize) -> Vec<u8> {
    (0..count).flat_map(|at| [vec![8 * (at % 5) as u8], vec![at as u8 + 1; at % 5]].concat()).collect()
}

#[test]
fn indexes() {
    assert_eq!(index_of(0, &[]), (0, vec![]));
    for count in 1..=100 {
        let starts: Vec<u16> = (0..count as u16).step_by(16).collect();
        assert_eq!(index_of(0, &vec![0; count]), (0, starts.clone()), "default routes");
        assert_eq!(index_of(IPV6, &vec![0; count]), (0, starts.clone()));
        let tagged: Vec<u16> = starts.iter().map(|start| 5 * start).collect();
        assert_eq!(index_of(ADD_PATH | IPV6, &vec![0; 5 * count]), (0, tagged));
    }
    // every five items have 15 bytes
    assert_eq!(index_of(0, &items(49)), (0, vec![0, 46, 93, 141]));
    for settings in [GUESS, FOUR_BYTE_AS, STRICT, EXTENDED, 63 & !ADD_PATH & !IPV6] {
        assert_eq!(index_of(settings, &items(49)), index_of(0, &items(49)), "these are ignored");
    }
    assert_eq!(index_of(GUESS, &hex("00 18 0A 01 08 18 C8 02 00")), (0, vec![0]), "the guess is off");
    assert_eq!(index_of(0, &[8]), (2, vec![]), "a list, and no section");
    assert_eq!(index_of(0, &[33]), (7, vec![]));
    assert_eq!(index_of(0, &[&[0; 16][..], &[33]].concat()), (7, vec![]));
    assert_eq!(index_of(IPV6, &[&[0; 16][..], &[33]].concat()), (2, vec![]));
    let room = |room_a, list: Vec<u8>| {
        told_of(Request { op: 29, room_a, parts: [list, vec![], vec![]], ..Request::default() })
    };
    assert_eq!(room(3, vec![0; 17]), "0 2 | 9376696 0 16 2");
    assert_eq!(room(1, vec![0; 17]), "11 0 | 1 0");
    assert_eq!(room(0, vec![0; 17]), "11 0 | 0");
    assert_eq!(room(0, [vec![0; 16], vec![8]].concat()), "2 0 | 0", "the list's refusal comes first");
    assert_eq!(room(0, vec![]), "0 0 | 0");
    assert_eq!(room(0, vec![33; 65_536]), "1 0 | 0");
    let longest = Request { op: 29, room_a: 4_096, parts: [vec![0; 65_535], vec![], vec![]], ..Request::default() };
    let answer = model::answer(&longest);
    assert_eq!((answer.refusal, &answer.numbers), (0, &vec![4_096]));
    assert_eq!(model::answer(&Request { room_a: 4_095, ..longest }).refusal, 11);
}

#[test]
fn routes_by_their_own_index() {
    for (settings, list) in [(0, items(49)), (ADD_PATH, vec![0, 0, 0, 7, 8, 10].repeat(20)), (IPV6, items(16))] {
        let (_, index) = index_of(settings, &list);
        let mut place = 0;
        let mut number = 0;
        while place < list.len() {
            let line = asked(settings, &list, &index, number);
            assert_eq!(line, told(1, settings, list[place..].to_vec()), "as the item read alone");
            place += line.split(' ').nth(1).and_then(|used| used.parse::<usize>().ok()).expect("used");
            number += 1;
        }
        for past in (number..number + 40).chain([65_535, 65_536, u32::MAX]) {
            assert_eq!(asked_refusal(settings, &list, &index, past), 20);
        }
    }
    assert_eq!(asked(0, &hex("08 0A 09 0A FF"), &[0], 1), "0 3 9 0 184483840 0 0 0 1");
    assert_eq!(asked(ADD_PATH | GUESS, &hex("00 00 00 07 08 0A"), &[0], 0), "0 6 264 7 167772160 0 0 0 0");
    assert_eq!(asked(GUESS, &hex("00 18 0A 01 08 18 C8 02 00"), &[0], 1), "0 4 24 0 167839744 0 0 0 0");
}

#[test]
fn other_indexes() {
    let list = items(33);
    for number in [0, 1, 16, 40, u32::MAX] {
        assert_eq!(asked_refusal(0, &[], &[], number), 20, "an empty list");
        assert_eq!(asked_refusal(0, &[], &[0], number), 19, "0 is its end");
        assert_eq!(asked_refusal(0, &list, &[], number), 20, "an empty index has no start");
        let end = list.len() as u16;
        let out_of_order: [&[u16]; 8] =
            [&[1], &[46, 93], &[0, 0], &[0, 46, 46], &[0, 93, 46], &[0, end], &[0, 46, 65_535], &[256]];
        for index in out_of_order {
            assert_eq!(asked_refusal(0, &list, index, number), 19, "{index:?}");
        }
    }
    assert_eq!(asked_refusal(0, &list, &[0, 46], 31), 0);
    assert_eq!(asked_refusal(0, &list, &[0, 46], 32), 20, "it lacks the start");
    let at = |place: usize, further: usize| told(1, 0, list[place + further..].to_vec());
    assert_eq!(asked(0, &list, &[0, 1], 16), at(1, 0), "item 1");
    assert_eq!(asked(0, &list, &[0, 1], 17), at(1, 2), "item 2");
    assert_eq!(asked(0, &list, &[0, 46, 95], 32), at(95, 0), "the middle of an item");
    assert_eq!(asked_refusal(0, &list, &[0, 46, 93], 33), 20, "the items run out");
    assert_eq!(asked_refusal(0, &list, &[0, 46, 93, 95], 48), 7, "an octet of 33 is no length");
    assert_eq!(asked_refusal(IPV6, &list, &[0, 46, 93, 95], 48), 2);
}

#[test]
fn orders_of_questions() {
    let long = vec![33; 65_536];
    assert_eq!(asked_refusal(0, &long, &[1], 0), 1);
    assert_eq!(asked_refusal(0, &long[1..], &[1], 16), 19);
    assert_eq!(asked_refusal(0, &long[1..], &[0], 16), 20, "before any item");
    assert_eq!(asked_refusal(0, &long[1..], &[0], 15), 7);
    // a default route, 10.0.0.0/8, a length out of range and a default route
    let list = hex("00 08 0A 21 00");
    assert_eq!([0, 1, 2, 3, 4, 15, 16].map(|number| asked_refusal(0, &list, &[0], number)), [0, 0, 7, 7, 7, 7, 20]);
    assert_eq!(asked_refusal(0, &list, &[0, 4], 16), 0, "what stands before the start is not read");
    assert_eq!(asked_refusal(0, &list, &[0, 4], 17), 20);
    let cut = hex("00 00 20 0A");
    assert_eq!([0, 1, 2, 3, 15].map(|number| asked_refusal(0, &cut, &[0], number)), [0, 0, 2, 2, 2]);
    let longest = vec![0; 65_535];
    let index: Vec<u16> = (0..65_535).step_by(16).collect();
    assert_eq!(asked(0, &longest, &index, 65_534), "0 1 0 0 0 0 0 0 0");
    assert_eq!(asked_refusal(0, &longest, &index, 65_535), 20);
    assert_eq!(asked_refusal(0, &longest, &index, 65_536), 20);
}

#[test]
fn paths_and_aggregators() {
    let sequence = hex("02 02 00 00 FD E9 00 00 FD EA");
    assert_eq!(told(7, FOUR_BYTE_AS, sequence.clone()), "0 1 2");
    assert_eq!(told(7, 0, sequence), "9 0 0");
    assert_eq!(told(7, 0, hex("02 00")), "0 1 0");
    assert_eq!(told(7, 0, hex("05 01")), "2 0 0");
    assert_eq!(told(7, 0, hex("05 00")), "9 0 0");
    assert_eq!(told(8, 0, hex("FD E9 0A 00 00 01")), "0 65001 167772161 0");
    assert_eq!(told(8, FOUR_BYTE_AS, hex("FD E9 0A 00 00 01")), "0 65001 167772161 1");
    assert_eq!(told(8, 0, hex("00 FD E9 0A 00 00 01")), "10 0 0 0");
}

#[test]
fn strict_paths() {
    let refusals = |text: &str, rooms: (usize, usize)| {
        [0, STRICT].map(|settings| {
            let parts = [hex(text), vec![], vec![]];
            let read = Request { op: 6, settings, room_a: rooms.0, room_b: rooms.1, parts, ..Request::default() };
            let refusal = model::answer(&read).refusal;
            let counted = model::answer(&Request { op: 7, ..read }).refusal;
            assert!(counted == refusal || (refusal, counted) == (11, 0), "counting has no room to run out of");
            refusal
        })
    };
    let enough = (8, 8);
    assert_eq!(told(7, STRICT | FOUR_BYTE_AS, hex("02 02 00 00 FD E9 00 00 FD EA")), "0 1 2");
    assert_eq!(told(7, STRICT, hex("02 00")), "16 0 0");
    assert_eq!(refusals("", (0, 0)), [0, 0], "an empty path has no empty segment");
    for kind in ["01", "02", "03", "04"] {
        assert_eq!(refusals(&format!("{kind} 00"), enough), [0, 16]);
        assert_eq!(refusals(kind, enough), [2, 2], "a cut segment is not an empty one");
    }
    for other in ["00 00", "05 00", "05 00 02 00"] {
        assert_eq!(refusals(other, enough), [9, 9], "9 before 16");
    }
    for later in ["02 01 00 07 02 00", "02 00 02 01 00 07", "02 01 00 07 01 00 02 01 00 08"] {
        assert_eq!(refusals(later, enough), [0, 16]);
    }
    assert_eq!(refusals("02 00 05 00", enough), [9, 16], "segments in their order");
    assert_eq!(refusals("02 00 02 01 00", enough), [2, 16]);
    assert_eq!(refusals("02 01 02 00 02 00", enough), [0, 16], "the first number is 02 00");
    assert_eq!(refusals("02 02 02 00", enough), [2, 2]);
    assert_eq!(refusals("02 00", (0, 0)), [11, 16], "16 before 11");
    assert_eq!(refusals(&"02 00 ".repeat(32_768), enough), [1, 1]);
}

/// The refusal of a path to write.
fn write(settings: u8, pairs: &[u32], numbers: &[u32], room_a: usize) -> u32 {
    let parts = [words(pairs), words(numbers), vec![]];
    model::answer(&Request { op: 14, settings, room_a, parts, ..Request::default() }).refusal
}

#[test]
fn written_strict_paths() {
    let refusals = |pairs: &[u32], numbers: &[u32], room| [0, STRICT].map(|rule| write(rule, pairs, numbers, room));
    assert_eq!(refusals(&[2, 1], &[7], 4), [0, 0]);
    assert_eq!(refusals(&[], &[], 0), [0, 0]);
    assert_eq!(refusals(&[2, 0], &[], 2), [0, 16]);
    assert_eq!(refusals(&[2, 1, 1, 0], &[7], 6), [0, 16]);
    assert_eq!(refusals(&[2, 0, 2], &[], 9), [14, 14], "14 before 16");
    assert_eq!(refusals(&[2, 0], &[7], 9), [14, 14]);
    assert_eq!(refusals(&[5, 0], &[], 9), [9, 9], "9 before 16");
    assert_eq!(refusals(&[5, 1, 2, 0], &[7], 9), [9, 9], "segments in their order");
    assert_eq!(refusals(&[2, 0, 5, 1], &[7], 9), [9, 16]);
    assert_eq!(refusals(&[2, 0, 2, 256], &[7; 256], 999), [12, 16]);
    assert_eq!(refusals(&[2, 256, 2, 0], &[7; 256], 999), [12, 12]);
    assert_eq!(refusals(&[2, 0, 2, 1], &[65_536], 9), [13, 16]);
    assert_eq!(refusals(&[2, 1, 2, 0], &[65_536], 9), [13, 13]);
    assert_eq!(refusals(&[2, 0], &[], 1), [11, 16], "16 before 11");
    assert_eq!(refusals(&[2, 0].repeat(32_768), &[], 70_000), [1, 16], "16 before 1");
}

#[test]
fn written_paths() {
    let write = |settings, pairs: &[u32], numbers: &[u32]| write(settings, pairs, numbers, 2_000);
    assert_eq!(write(0, &[2, 1], &[65_536]), 13);
    assert_eq!(write(FOUR_BYTE_AS, &[2, 1], &[65_536]), 0);
    assert_eq!(write(0, &[2, 255], &[1; 255]), 0);
    assert_eq!(write(0, &[2, 256], &[1; 256]), 12);
    assert_eq!(write(0, &[2], &[]), 14);
    assert_eq!(write(0, &[5, 2], &[1]), 14);
}

#[test]
fn headers() {
    let message = |rest: &str| [vec![0xFF; 16], hex(rest)].concat();
    assert_eq!(told(9, 0, message("00 13 04")), "0 4 19 19 0 0 0 0 0");
    assert_eq!(told(9, STRICT, message("00 13 04")), "0 4 19 19 0 0 0 0 0");
    assert_eq!(told(9, 0, message("00 12 09")), "3 0 0 0 0 0 0 0 0");
    assert_eq!(told(9, 0, message("10 01 01")), "3 0 0 0 0 0 0 0 0");
}

/// The first bytes of a message of zeros.
fn message(claimed: u16, kind: u8, given: usize) -> Vec<u8> {
    let mut bytes = [&[0xFF; 16], claimed.to_be_bytes().as_slice(), &[kind]].concat();
    bytes.resize(given, 0);
    bytes
}

/// What the crate's reading refuses a message with, and the strict one by RFC 4271 and by RFC 8654.
fn header_refusals(bytes: Vec<u8>) -> [u32; 3] {
    let asked = |settings| Request { op: 9, settings, parts: [bytes.clone(), vec![], vec![]], ..Request::default() };
    let refusal = |settings| model::answer(&asked(settings)).refusal;
    assert_eq!(model::answer(&asked(EXTENDED)), model::answer(&asked(0)), "32 alone is nothing");
    [0, STRICT, STRICT | EXTENDED].map(refusal)
}

#[test]
fn long_messages() {
    for kind in [2, 3, 5] {
        assert_eq!(header_refusals(message(4_096, kind, 4_096)), [0, 0, 0]);
        for claimed in [4_097, 65_535] {
            let whole = usize::from(claimed);
            assert_eq!(header_refusals(message(claimed, kind, whole)), [0, 3, 0]);
            assert_eq!(header_refusals(message(claimed, kind, whole + 1)), [0, 3, 0]);
            assert_eq!(header_refusals(message(claimed, kind, whole - 1)), [0, 3, 2]);
            assert_eq!(header_refusals(message(claimed, kind, 19)), [0, 3, 2]);
        }
    }
    for claimed in [4_097, 65_535] {
        for given in [19, usize::from(claimed), 65_536] {
            assert_eq!(header_refusals(message(claimed, 1, given)), [3, 3, 3], "an OPEN is never long");
            assert_eq!(header_refusals(message(claimed, 4, given)), [3, 3, 3], "nor a KEEPALIVE");
        }
    }
    assert_eq!(told(9, STRICT | EXTENDED, message(4_097, 3, 4_097)), "0 3 4097 4097 0 0 0 4078 6600853");
    let trailing = told(9, STRICT | EXTENDED, message(65_535, 5, 65_536));
    assert!(trailing.starts_with("0 5 65535 65535 0 0 1 65516 "), "the byte after it is not taken: {trailing}");
}

#[test]
fn orders_by_edition() {
    for kind in [0, 6, 255] {
        assert_eq!(header_refusals(message(18, kind, 19)), [3, 3, 3], "3 before 4");
        assert_eq!(header_refusals(message(19, kind, 19)), [4, 4, 4]);
        assert_eq!(header_refusals(message(4_096, kind, 19)), [4, 4, 4], "4 before 2");
        for claimed in [4_097, 65_535] {
            assert_eq!(header_refusals(message(claimed, kind, 19)), [4, 3, 4], "no type has a length of its own");
        }
    }
    for (kind, least) in [(1, 29), (2, 23), (3, 21), (5, 23)] {
        assert_eq!(header_refusals(message(least, kind, usize::from(least))), [0, 0, 0]);
        assert_eq!(header_refusals(message(least - 1, kind, 19)), [0, 3, 3], "3 before 2");
    }
    assert_eq!(header_refusals(message(4_096, 1, 4_096)), [0, 0, 0]);
    assert_eq!(header_refusals(message(20, 4, 20)), [0, 3, 3]);
    for claimed in [18, 4_097] {
        let marked = [&[0xFE], &message(claimed, 2, 19)[1..]].concat();
        assert_eq!(header_refusals(marked)[1..], [6, 6], "6 before 3");
    }
    assert_eq!(header_refusals(message(65_535, 2, 18)), [2, 2, 2]);
}

const NONE_LEFT: &str = "0 0 0 0 0 0 0 0";
const ABSENT: &str = "0 0 0 0 0 0";

#[test]
fn attributes_one_by_one() {
    let section = hex("40 01 01 02 D0 08 00 02 00 01 40 01 00");
    assert_eq!(walked(&section, 0), "0 1 64 1 3 1 3 4");
    assert_eq!(walked(&section, 4), "0 1 208 8 8 2 65601 10");
    assert_eq!(walked(&section, 10), "0 1 64 1 13 0 0 13", "a repeat is listed");
    assert_eq!(walked(&section, 1), "0 1 1 1 4 2 13710200 6", "any byte is a place");
    for place in [13, 14, u32::MAX] {
        assert_eq!(walked(&section, place), NONE_LEFT);
    }
    assert_eq!(walked(&section, 11), "2 0 0 0 0 0 0 0");
    assert_eq!(walked(&hex("10 01 00"), 0), "2 0 0 0 0 0 0 0");
    assert_eq!(walked(&[0; 65_535], 65_535), NONE_LEFT);
    assert_eq!(walked(&[0; 65_536], 65_536), "1 0 0 0 0 0 0 0");
}

#[test]
fn attributes_by_type() {
    let found = |text: &str, kind| searched(&hex(text), kind);
    assert_eq!(
        found("40 01 01 02 80 04 01 05 40 01 01 07", 1),
        "0 1 64 3 1 3",
        "the first, and no refusal for the other"
    );
    assert_eq!(found("40 01 01 02 80 04 01 05 40 01 01 07", 4), "0 1 128 7 1 6");
    assert_eq!(found("40 01 01 02", 4), ABSENT);
    assert_eq!(found("", 0), ABSENT);
    assert_eq!(found("80 0E 00 80 0F 00", 15), "0 1 128 6 0 0", "one of each");
    for second in ["80 0E 00 80 0E 00", "80 0F 00 40 01 00 90 0F 00 00", "80 0E 00 80 0E 00 40"] {
        assert_eq!(found(second, 1), "15 0 0 0 0 0");
    }
    for cut in ["40 01 01 02 40", "80 0E 00 80 0E 01", "40 01 07 80 0E 00 80 0E 00"] {
        assert_eq!(found(cut, 1), "2 0 0 0 0 0");
    }
    assert_eq!(searched(&[hex("80 0E 00 80 0E 00"), vec![0; 65_530]].concat(), 0), "1 0 0 0 0 0");
}

/// What two AGGREGATORs come to.
fn standing(old: &str, new: &str) -> String {
    told_of(Request { op: 20, parts: [hex(old), hex(new), vec![]], ..Request::default() })
}

#[test]
fn aggregators_side_by_side() {
    let (trans, other, new) = ("5B A0 00 00 00 00", "FD E9 00 00 00 00", "00 01 11 70 00 00 00 00");
    assert_eq!(standing("", ""), "0 1 0 0");
    for old in [trans, other] {
        assert!(standing(old, "").starts_with("0 1 6 "), "the second is absent");
    }
    assert_eq!(standing("", new), "0 1 0 0", "the first is absent, and handed back");
    assert!(standing(trans, new).starts_with("0 2 8 "));
    assert!(standing(other, new).starts_with("0 1 6 "));
    assert!(standing(other, "00 00 5B A0 00 00 00 00").starts_with("0 1 6 "), "the second's number is not looked at");
    for (old, new) in [("5B", ""), (new, ""), ("", trans), (trans, "00"), (other, other), (new, new)] {
        assert_eq!(standing(old, new), "10 0 0 0");
    }
}

/// AGGREGATORs of which the first stands.
const FIRST_STANDS: &str = "FD E9 00 00 00 00 00 01 11 70 00 00 00 00";

/// Refusal and segments of the path of two, with so many places of each store. Of the AGGREGATORs the first has six bytes at most.
fn joined_in(old: &str, new: &str, aggregators: &str, rooms: (usize, usize)) -> (u32, Vec<(u32, Vec<u32>)>) {
    let parts = [hex(old), hex(new), hex(aggregators)];
    let argument = parts[2].len().min(6) as u8;
    let asked = Request { op: 21, room_a: rooms.0, room_b: rooms.1, parts, argument, ..Request::default() };
    let answer = model::answer(&asked);
    let [records::Lent::Numbers(pairs), records::Lent::Numbers(numbers)] = &answer.lent[..] else { panic!("stores") };
    let mut numbers = numbers.iter().copied();
    let pairs = pairs.chunks_exact(2).take(answer.numbers[1] as usize);
    (answer.refusal, pairs.map(|pair| (pair[0], numbers.by_ref().take(pair[1] as usize).collect())).collect())
}

/// The path of two, with room and without AGGREGATORs.
fn joined(old: &str, new: &str) -> Vec<(u32, Vec<u32>)> {
    let (refusal, path) = joined_in(old, new, "", (40, 40));
    assert_eq!(refusal, 0);
    path
}

#[test]
fn paths_side_by_side() {
    let example = ("02 03 FD E9 5B A0 5B A0", "02 02 00 01 11 70 00 01 11 71");
    assert_eq!(joined(example.0, example.1), [(2, vec![65_001]), (2, vec![70_000, 70_001])]);
    let ignored = joined_in(example.0, example.1, FIRST_STANDS, (2, 3));
    assert_eq!(ignored, (0, vec![(2, vec![65_001, 23_456, 23_456])]));
    let seven = "02 01 00 00 00 07";
    let path = |old| joined(old, seven);
    assert_eq!(path("02 01 00 01"), [(2, vec![7])], "as many");
    assert_eq!(path(""), [], "one fewer");
    assert_eq!(path("01 00"), [(2, vec![7])], "an empty set counts one");
    assert_eq!(path("03 00 02 01 00 01"), [(3, vec![]), (2, vec![7])], "nothing to make up");
    assert_eq!(path("02 01 00 01 04 00 02 01 00 02"), [(2, vec![1]), (4, vec![]), (2, vec![7])], "nothing left");
    assert_eq!(path("02 02 00 01 00 02 03 00"), [(2, vec![1]), (2, vec![7])], "after a split");
    assert_eq!(path("02 00 02 01 00 01"), [(2, vec![7])], "an empty sequence is another segment");
    assert_eq!(path("02 00 02 02 00 01 00 02"), [(2, vec![]), (2, vec![1]), (2, vec![7])], "or on the way");
    assert_eq!(path("01 02 00 01 00 02 02 01 00 03"), [(1, vec![1, 2]), (2, vec![7])], "a set is never split");
    assert_eq!(joined("02 00", ""), [(2, vec![])], "AS4_PATH is empty");
    assert_eq!(joined("02 00", "03 00"), [(2, vec![])], "or nothing is left of it");
    assert_eq!(joined("02 00", "02 00 02 00"), [(2, vec![]), (2, vec![])], "an empty sequence is something");
}

#[test]
fn orders_side_by_side() {
    let (old, new) = ("02 02 00 01 00 02", "02 01 00 01 11 70");
    let refusal =
        |old: &str, new: &str, aggregators: &str, rooms: (usize, usize)| joined_in(old, new, aggregators, rooms).0;
    assert_eq!(refusal("05", "05 00", "FD E9", (0, 0)), 10);
    assert_eq!(refusal("05 00", "05", "", (0, 0)), 9, "AS_PATH first");
    assert_eq!(refusal("05", "05 00", "", (0, 0)), 2);
    for aggregators in ["", FIRST_STANDS] {
        assert_eq!(refusal(old, "05 00", aggregators, (0, 0)), 9, "then AS4_PATH, ignored or not");
        assert_eq!(refusal(old, "05", aggregators, (0, 0)), 2);
        assert_eq!(refusal(old, &"02 00 ".repeat(32_768), aggregators, (0, 0)), 1);
    }
    assert_eq!([(4, 2), (3, 2), (4, 1)].map(|rooms| refusal(old, new, "", rooms)), [0, 11, 11]);
    assert_eq!([(2, 2), (1, 2), (2, 1)].map(|rooms| refusal(old, new, FIRST_STANDS, rooms)), [0, 11, 11]);
}

/// The value of an announcement: IPv6 unicast, a next hop that claims as many bytes as it has, the reserved byte and a list.
fn announcement(next_hop: &[u8], reserved: u8, list: &str) -> Vec<u8> {
    [&[0, 2, 1, next_hop.len() as u8], next_hop, &[reserved], &hex(list)].concat()
}

fn withdrawal(list: &str) -> Vec<u8> {
    [vec![0, 2, 1], hex(list)].concat()
}

/// A global address, and a link-local one after it.
const NEXT_HOP: [u8; 32] =
    [0x20, 1, 0x0D, 0xB8, 0, 0, 0, 0, 0, 0, 0, 0, 0, 0, 0, 1, 0xFE, 0x80, 0, 0, 0, 0, 0, 0, 0, 0, 0, 0, 0, 0, 0, 1];

#[test]
fn announcements() {
    for length in [16, 32] {
        let next_hop = &NEXT_HOP[..length];
        let read = |settings, reserved, list| told(23, settings, announcement(next_hop, reserved, list));
        let good = |rest: &str| format!("0 {length} {} {rest}", records::sum_bytes(next_hop));
        assert_eq!(read(0, 0, ""), good("0 0 0"));
        assert_eq!(read(0, 0, "20 20 01 0D B8 21 20 01 0D B8 40"), good("0 2 1"));
        assert_eq!(read(IPV6, 255, "00"), good("1 1 0"), "the family is the value's own");
        assert_eq!(read(ADD_PATH, 1, "00 00 00 07 80 20 01 0D B8 00 00 00 00 00 00 00 00 00 00 00 01"), good("1 1 0"));
        assert_eq!(read(GUESS, 0, "00 00 00 07 09 20 FF"), good("0 1 1"));
        assert_eq!(read(0, 1, "08"), REFUSED_ANNOUNCEMENT[0], "one byte, and not 8");
        assert_eq!(read(0, 1, "00 81"), REFUSED_ANNOUNCEMENT[1]);
    }
}

/// 2, 7, 17 and 18 of an announcement.
const REFUSED_ANNOUNCEMENT: [&str; 4] = ["2 0 0 0 0 0", "7 0 0 0 0 0", "17 0 0 0 0 0", "18 0 0 0 0 0"];

#[test]
fn refused_announcements() {
    let [cut, _, families, next_hop] = REFUSED_ANNOUNCEMENT;
    let read = |text: &str| told(23, 0, hex(text));
    for text in ["", "00", "FF FF", "00 02", "00 02 01"] {
        assert_eq!(read(text), cut);
    }
    for text in ["00 01 01", "00 02 02", "01 02 01", "00 02 80 11 00", "02 00 01 10", "00 01 01 10 00"] {
        assert_eq!(read(text), families, "before anything after them");
    }
    for length in (0..=255).filter(|length| ![16, 32].contains(length)) {
        assert_eq!(told(23, 0, vec![0, 2, 1, length]), next_hop, "before its bytes");
        assert_eq!(told(23, 0, announcement(&vec![0; length.into()], 0, "81")), next_hop);
    }
    for length in [16, 32] {
        let whole = announcement(&NEXT_HOP[..length], 1, "");
        for end in 3..whole.len() {
            assert_eq!(told(23, 0, whole[..end].to_vec()), cut);
        }
    }
    let zeros = |size: usize| [announcement(&[0; 16], 0, ""), vec![0; size - 21]].concat();
    assert!(told(23, 0, zeros(65_535)).ends_with(" 0 65514 0"));
    assert_eq!(told(23, 0, zeros(65_536)), "1 0 0 0 0 0");
    assert_eq!(told(23, 0, vec![0; 65_536]), "1 0 0 0 0 0");
}

#[test]
fn withdrawals() {
    assert_eq!(told(25, 0, withdrawal("")), "0 0 0");
    assert_eq!(told(25, 0, withdrawal("00 21 20 01 0D B8 40")), "0 2 1");
    assert_eq!(told(25, ADD_PATH, withdrawal("00 00 00 07 08 20")), "0 1 0");
    assert_eq!(told(25, 0, withdrawal("08")), "2 0 0", "one byte, and not 8");
    assert_eq!(told(25, 0, withdrawal("81")), "7 0 0");
    for text in ["", "00", "FF FF"] {
        assert_eq!(told(25, 0, hex(text)), "2 0 0");
    }
    for text in ["00 01 01", "00 02 02 81", "01 02 01"] {
        assert_eq!(told(25, 0, hex(text)), "17 0 0");
    }
    assert_eq!(told(25, 0, [withdrawal(""), vec![0; 65_532]].concat()), "0 65532 0");
    assert_eq!(told(25, 0, vec![0; 65_536]), "1 0 0");
}

#[test]
fn rows_of_announcements_and_withdrawals() {
    let list = "20 20 01 0D B8 00";
    let values = [(22, announcement(&NEXT_HOP, 1, list)), (24, withdrawal(list))];
    for (op, value) in values {
        let asked = |room_a| {
            let request = Request { op, room_a, parts: [value.clone(), vec![], vec![]], ..Request::default() };
            model::answer(&request)
        };
        let mut store = records::Lent::numbers(13);
        store.put_numbers(&[32, 0, 0x2001_0DB8, 0, 0, 0, 0, 0, 0, 0, 0, 0]);
        assert_eq!(asked(13).lent, [store]);
        assert_eq!([asked(12).refusal, asked(11).refusal], [0, 11]);
        assert!(asked(11).numbers.iter().all(|number| *number == 0), "no flag either");
    }
}

/// What is written of a next hop and rows, or of rows alone, with so much room; or the refusal.
fn written(op: u8, settings: u8, room_a: usize, parts: [Vec<u8>; 3]) -> Result<Vec<u8>, u32> {
    let answer = model::answer(&Request { op, settings, room_a, parts, ..Request::default() });
    let records::Lent::Bytes(output) = &answer.lent[0] else { panic!("an output of bytes") };
    match answer.refusal {
        0 => Ok(output[..answer.numbers[0] as usize].to_vec()),
        refusal => Err(refusal),
    }
}

/// Rows that are written as a list of this size, and the last word of the last row's address, of which nothing is written.
fn rows_of(size: usize, last_word: u32) -> Vec<u32> {
    let left = size as u32 % 9;
    let last = [8 * left.checked_sub(1).expect("a last row"), 0, 0, 0, 0, last_word];
    [[64, 0, 1, 2, 0, 0].repeat(size / 9), last.to_vec()].concat()
}

#[test]
fn written_announcements() {
    let write = |next_hop: &[u8], rows: &[u32], room| written(26, 0, room, [next_hop.to_vec(), words(rows), vec![]]);
    let row = [32, 0, 0x2001_0DB8, 0, 0, 0];
    for length in [16, 32] {
        let value = announcement(&NEXT_HOP[..length], 0, "20 20 01 0D B8");
        assert_eq!(write(&NEXT_HOP[..length], &row, value.len()), Ok(value.clone()));
        assert_eq!(write(&NEXT_HOP[..length], &row, value.len() - 1), Err(11));
    }
    for length in [0, 4, 15, 17, 24, 31, 33, 48, 256, 272] {
        assert_eq!(write(&vec![0; length], &row, 400), Err(18));
        assert_eq!(write(&vec![0; length], &[129, 0, 0, 0, 0, 0], 0), Err(18), "before the rows");
    }
    assert_eq!(write(&NEXT_HOP, &row[..5], 0), Err(14));
    assert_eq!(write(&NEXT_HOP, &rows_of(65_515, 0), 65_600), Err(1), "the whole value, and not the list");
    assert_eq!(write(&NEXT_HOP[..16], &rows_of(65_515, 0), 0), Err(1));
    assert_eq!(write(&NEXT_HOP[..16], &rows_of(65_514, 0), 65_535).map(|value| value.len()), Ok(65_535));
    assert_eq!(write(&[0; 17], &rows_of(65_515, 0), 0), Err(18));
}

#[test]
fn written_withdrawals() {
    let write = |settings, rows: &[u32], room| written(27, settings, room, [words(rows), vec![], vec![]]);
    assert_eq!(write(0, &[], 3), Ok(withdrawal("")));
    assert_eq!(write(0, &[], 2), Err(11));
    assert_eq!(write(ADD_PATH, &[256 + 8, 7, 0x2000_0000, 0, 0, 0], 9), Ok(withdrawal("00 00 00 07 08 20")));
    assert_eq!(write(0, &[129, 0, 0, 0, 0, 0], 0), Err(14));
    assert_eq!(write(ADD_PATH, &[8, 0, 0, 0, 0, 0], 64), Err(14));
    assert_eq!(write(0, &rows_of(65_532, 0), 65_535).map(|value| value.len()), Ok(65_535));
    assert_eq!(write(0, &rows_of(65_533, 0), 65_600), Err(1));
    assert_eq!(write(0, &rows_of(65_533, 1), 65_600), Err(14));
}

#[test]
fn the_format_page() {
    let request = Request { op: 3, parts: [hex("20 0A 00 00 01"), vec![], vec![]], ..Request::default() };
    assert_eq!(model::answer(&request).line(1, 3), "1 3 0 1 0");
}
