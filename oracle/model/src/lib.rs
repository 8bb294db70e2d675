//! A model of every call, written from document 01, the requests after it and the RFCs they name, and from no other code.
//! Each function follows the order of checks of its section.

mod as4;
mod attributes;
mod headers;
mod index;
mod mp_nlri;
mod paths;
mod routes;
mod updates;

use records::{lent_of, numbers_of, sum_bytes, Answer, Lent, Request};
use records::{ADD_PATH, EXTENDED, FOUR_BYTE_AS, GUESS, IPV6, STRICT};

/// A number of the table "Refusal numbers".
pub type Refusal = u32;

/// The most bytes of a list, an attribute value or an attribute section.
const MOST_BYTES: usize = 65_535;

/// The answer to a request.
pub fn answer(request: &Request) -> Answer {
    match call(request) {
        Ok((numbers, lent)) => Answer { refusal: 0, numbers, lent },
        Err(refusal) => Answer::refused(request, refusal),
    }
}

/// The same answer, with the marks of guessed ids taken off the rows that were put: the crate knows none.
pub fn answer_without_marks(request: &Request) -> Answer {
    let mut answer = answer(request);
    // which numbers count the rows of each store
    let counts: &[usize] = match request.op {
        2 | 4 | 24 => &[0],
        10 => &[0, 2],
        22 => &[3],
        _ => &[],
    };
    for (count, store) in counts.iter().zip(&mut answer.lent) {
        if let Lent::Numbers(places) = store {
            let rows = &places[..6 * answer.numbers[*count] as usize];
            let cleared = routes::without_marks(rows).expect("whole rows");
            store.put_numbers(&cleared);
        }
    }
    answer
}

type Done = Result<(Vec<u64>, Vec<Lent>), Refusal>;

fn call(request: &Request) -> Done {
    let bytes = request.parts[0].as_slice();
    match request.op {
        1 => one_route(request, bytes),
        2 => stored_rows(request, routes::list(bytes, reading(request), family(request))?),
        3 => Ok((counts(&routes::list(bytes, reading(request), family(request))?), vec![])),
        4 => stored_rows(request, routes::section(bytes, reading(request))?),
        5 => Ok((counts(&routes::section(bytes, reading(request))?), vec![])),
        6 => stored_path(request, paths::read(bytes, width(request), rule(request))?),
        7 => path_counts(&paths::read(bytes, width(request), rule(request))?),
        8 => aggregator(request, bytes),
        9 => header(request, bytes),
        10 => stored_update(request, bytes),
        11 => Ok((updates::read(bytes, reading(request))?.numbers(), vec![])),
        12 => update_parts(bytes),
        13 => written(request, routes::write(&request.numbers(0), request.has(ADD_PATH), family(request))?, true),
        14 => {
            let (pairs, numbers) = (request.numbers(0), request.numbers(1));
            written(request, paths::write(&pairs, &numbers, width(request), rule(request))?, true)
        }
        15 => {
            let values = request.numbers(0);
            written(request, paths::write_aggregator(values[0], values[1], width(request))?, true)
        }
        16 => written(request, headers::write(request.argument, bytes)?, false),
        17 => written_update(request),
        18 => attribute_at(request, bytes),
        19 => first_attribute(request, bytes),
        20 => standing_aggregator(bytes, &request.parts[1]),
        21 => joined_path(request),
        22 | 23 => announcement(request, bytes),
        24 => stored_rows(request, mp_nlri::read_unreach(bytes, reading(request))?),
        25 => Ok((counts(&mp_nlri::read_unreach(bytes, reading(request))?), vec![])),
        26 => written(request, mp_nlri::write_reach(bytes, &request.numbers(1), request.has(ADD_PATH))?, true),
        27 => written(request, mp_nlri::write_unreach(&request.numbers(0), request.has(ADD_PATH))?, true),
        28 => cleared(request),
        29 => built_index(request),
        30 => route_by_index(request),
        _ => unreachable!("records gives the ops up to LAST_OP"),
    }
}

fn family(request: &Request) -> routes::Family {
    if request.has(IPV6) {
        routes::Family::Ipv6
    } else {
        routes::Family::Ipv4
    }
}

fn reading(request: &Request) -> routes::Reading {
    match (request.has(ADD_PATH), request.has(GUESS)) {
        (true, _) => routes::Reading::WithIds,
        (false, false) => routes::Reading::WithoutIds,
        (false, true) => routes::Reading::Guess,
    }
}

fn width(request: &Request) -> usize {
    if request.has(FOUR_BYTE_AS) {
        4
    } else {
        2
    }
}

fn rule(request: &Request) -> paths::Rule {
    if request.has(STRICT) {
        paths::Rule::Strict
    } else {
        paths::Rule::Crate
    }
}

fn edition(request: &Request) -> headers::Edition {
    if request.has(EXTENDED) {
        headers::Edition::Rfc8654
    } else {
        headers::Edition::Rfc4271
    }
}

fn one_route(request: &Request, bytes: &[u8]) -> Done {
    let (used, row) = routes::item(bytes, request.has(ADD_PATH), family(request))?;
    Ok((route_numbers(used, row), vec![]))
}

/// How many bytes an item used, its row, and 1 where it has a host bit.
fn route_numbers(used: usize, row: routes::ReadRow) -> Vec<u64> {
    let mut numbers = vec![used as u64];
    numbers.extend(row.words.map(u64::from));
    numbers.push(u64::from(row.has_host_bit));
    numbers
}

/// How many rows, and how many of them have a host bit.
fn counts(rows: &[routes::ReadRow]) -> Vec<u64> {
    vec![rows.len() as u64, routes::host_rows(rows)]
}

/// Rows into the first store, six places each.
fn stored_rows(request: &Request, rows: Vec<routes::ReadRow>) -> Done {
    let mut lent = lent_of(request);
    if request.room_a / 6 < rows.len() {
        return Err(11);
    }
    lent[0].put_numbers(&routes::words(&rows));
    Ok((counts(&rows), lent))
}

fn path_counts(path: &[paths::Segment]) -> Done {
    let numbers: usize = path.iter().map(|segment| segment.numbers.len()).sum();
    Ok((vec![path.len() as u64, numbers as u64], vec![]))
}

/// Pairs into the first store, numbers back to back into the second.
fn stored_path(request: &Request, path: Vec<paths::Segment>) -> Done {
    let pairs: Vec<u32> = path.iter().flat_map(|segment| [segment.kind, segment.numbers.len() as u32]).collect();
    let numbers: Vec<u32> = path.iter().flat_map(|segment| segment.numbers.iter().copied()).collect();
    if request.room_a < pairs.len() || request.room_b < numbers.len() {
        return Err(11);
    }
    let mut lent = lent_of(request);
    lent[0].put_numbers(&pairs);
    lent[1].put_numbers(&numbers);
    let (counts, _) = path_counts(&path)?;
    Ok((counts, lent))
}

fn aggregator(request: &Request, bytes: &[u8]) -> Done {
    let (number, identifier, found) = paths::read_aggregator(bytes)?;
    let differs = found != width(request);
    Ok((vec![u64::from(number), u64::from(identifier), u64::from(differs)], vec![]))
}

fn header(request: &Request, bytes: &[u8]) -> Done {
    let header =
        if request.has(STRICT) { headers::strict(bytes, edition(request))? } else { headers::crate_reading(bytes)? };
    let body = &bytes[19..header.taken];
    Ok((
        vec![
            u64::from(header.kind),
            header.claimed as u64,
            header.taken as u64,
            u64::from(header.marker),
            u64::from(header.cut),
            u64::from(header.trailing),
            body.len() as u64,
            sum_bytes(body),
        ],
        vec![],
    ))
}

/// Both lists into their stores, or a refusal with both unchanged.
fn stored_update(request: &Request, bytes: &[u8]) -> Done {
    let update = updates::read(bytes, reading(request))?;
    let numbers = update.numbers();
    let mut lent = lent_of(request);
    let lists = [(update.withdrawn, request.room_a), (update.announced, request.room_b)];
    for (list, room) in &lists {
        if list.as_ref().is_ok_and(|rows| room / 6 < rows.len()) {
            return Err(11);
        }
    }
    for ((list, _), store) in lists.iter().zip(&mut lent) {
        if let Ok(rows) = list {
            store.put_numbers(&routes::words(rows));
        }
    }
    Ok((numbers, lent))
}

fn update_parts(bytes: &[u8]) -> Done {
    let parts = updates::parts(bytes)?;
    let numbers = [parts.withdrawn, parts.attributes, parts.announced]
        .iter()
        .flat_map(|part| [part.len() as u64, sum_bytes(part)])
        .collect();
    Ok((numbers, vec![]))
}

/// 1, flags, type, where the value starts, its length and sum, the next place; all 0 where none is left.
fn attribute_at(request: &Request, section: &[u8]) -> Done {
    let place = request.numbers(1)[0] as usize;
    let numbers = attributes::at(section, place)?.map(|found| {
        let value = found.value(section);
        let (flags, kind) = (u64::from(found.flags), u64::from(found.kind));
        vec![1, flags, kind, found.start as u64, value.len() as u64, sum_bytes(value), found.next() as u64]
    });
    found_or_zeros(request, numbers)
}

/// 1, flags, where the value starts, its length and sum; all 0 where the type is absent.
fn first_attribute(request: &Request, section: &[u8]) -> Done {
    let numbers = attributes::first_of(section, request.argument)?.map(|found| {
        let value = found.value(section);
        vec![1, u64::from(found.flags), found.start as u64, value.len() as u64, sum_bytes(value)]
    });
    found_or_zeros(request, numbers)
}

fn found_or_zeros(request: &Request, numbers: Option<Vec<u64>>) -> Done {
    Ok((numbers.unwrap_or_else(|| vec![0; numbers_of(request.op)]), vec![]))
}

/// 1 or 2, the AGGREGATOR that stands, and its length and sum.
fn standing_aggregator(aggregator: &[u8], as4_aggregator: &[u8]) -> Done {
    let standing = as4::standing(aggregator, as4_aggregator)?.number();
    let value = if standing == 1 { aggregator } else { as4_aggregator };
    Ok((vec![standing, value.len() as u64, sum_bytes(value)], vec![]))
}

/// The path of two into the stores, after which AGGREGATOR stands. Part 3 is both of them, the first as long as the argument says.
fn joined_path(request: &Request) -> Done {
    let (aggregator, as4_aggregator) = request.parts[2].split_at(usize::from(request.argument));
    let standing = as4::standing(aggregator, as4_aggregator)?;
    let path = as4::path(&request.parts[0], &request.parts[1], standing)?;
    let (counts, lent) = stored_path(request, path)?;
    Ok(([vec![standing.number()], counts].concat(), lent))
}

/// The next hop's length and sum, 1 where the reserved byte is not 0, and the counts of the rows, which op 22 stores.
fn announcement(request: &Request, value: &[u8]) -> Done {
    let reach = mp_nlri::read_reach(value, reading(request))?;
    let head = [reach.next_hop.len() as u64, sum_bytes(reach.next_hop), u64::from(reach.reserved != 0)];
    let (counts, lent) =
        if request.op == 22 { stored_rows(request, reach.rows)? } else { (counts(&reach.rows), vec![]) };
    Ok(([&head[..], &counts].concat(), lent))
}

/// The store that part 1 is, without its rows' marks.
fn cleared(request: &Request) -> Done {
    let words = routes::without_marks(&request.numbers(0))?;
    Ok((vec![words.len() as u64 / 6], vec![Lent::Numbers(words)]))
}

/// Part 1 as a list that an index is of; the guess is off whatever the settings say.
fn indexed_list(request: &Request) -> index::List<'_> {
    index::List { bytes: &request.parts[0], with_id: request.has(ADD_PATH), family: family(request) }
}

/// The index of a list into the store.
fn built_index(request: &Request) -> Done {
    let places = index::build(indexed_list(request))?;
    if request.room_a < places.len() {
        return Err(11);
    }
    let mut lent = lent_of(request);
    lent[0].put_numbers(&places);
    Ok((vec![places.len() as u64], lent))
}

/// The route of a number, by the index that part 2 is.
fn route_by_index(request: &Request) -> Done {
    let (used, row) = index::route(indexed_list(request), &request.places(1), request.numbers(2)[0])?;
    Ok((route_numbers(used, row), vec![]))
}

/// An UPDATE body into the output; its limits are its own.
fn written_update(request: &Request) -> Done {
    let (withdrawn, announced) = (request.numbers(0), request.numbers(2));
    let body = updates::write(&withdrawn, &request.parts[1], &announced, request.has(ADD_PATH))?;
    written(request, body, false)
}

/// Bytes into the output: for a list or a value 1 first if they are too many, then 11 if there is no room.
fn written(request: &Request, bytes: Vec<u8>, is_list_or_value: bool) -> Done {
    if is_list_or_value && bytes.len() > MOST_BYTES {
        return Err(1);
    }
    if request.room_a < bytes.len() {
        return Err(11);
    }
    let mut lent = lent_of(request);
    lent[0].put_bytes(&bytes);
    Ok((vec![bytes.len() as u64], lent))
}
