//! The index of a list and a route by it, which the crate has no calls for: the list is read by the crate's list reader, and a route by its reader
//! of one item. Which items an index names is ours.

use super::routes::{family, item_by_item, item_by_item_is_asked, list, route_numbers};
use super::{reader_refusal, Contents, Outcome};
use crate::models::NetworkPrefix;
use crate::parser::utils::ReadUtils;
use bytes::{Buf, Bytes};
use records::{Request, ADD_PATH};

/// An index has the start of every sixteenth item.
const STEP: usize = 16;

/// Op 29. The guess is off, whatever the settings say, and with it off the crate reads lists with ids alone.
pub fn build(request: &Request) -> Outcome {
    let read = match request.has(ADD_PATH) {
        true => list(request),
        false if item_by_item_is_asked() => item_by_item(&request.parts[0], &family(request)),
        false => return Outcome::NoCounterpart,
    };
    match read {
        Ok(prefixes) => {
            let places: Vec<u32> = starts(&prefixes).into_iter().step_by(STEP).collect();
            Outcome::Done(vec![places.len() as u64], vec![Contents::Numbers(places)])
        }
        Err(refusal) => Outcome::Refused(refusal),
    }
}

/// Where each prefix starts in the bytes that the crate read them from, by its id and length.
fn starts(prefixes: &[NetworkPrefix]) -> Vec<u32> {
    let mut starts = vec![];
    let mut place = 0;
    for prefix in prefixes {
        starts.push(place);
        let id = if prefix.path_id.is_some() { 4 } else { 0 };
        place += id + 1 + u32::from(prefix.prefix.prefix_len()).div_ceil(8);
    }
    starts
}

/// Op 30: from the place that the index names item after item, up to the one that is asked for. The crate is not asked where the index is not
/// in order or names no place.
pub fn route(request: &Request) -> Outcome {
    let (index, number) = (request.places(1), request.numbers(2)[0] as usize);
    let list = request.parts[0].as_slice();
    let start = match index.get(number / STEP) {
        Some(start) if is_in_order(&index, list.len()) => usize::from(*start),
        _ => return Outcome::NoCounterpart,
    };
    let mut bytes = Bytes::copy_from_slice(&list[start..]);
    let mut read = next(&mut bytes, request);
    for _ in 0..number % STEP {
        read = read.and_then(|_| next(&mut bytes, request));
    }
    match read {
        Ok((used, prefix)) => Outcome::Done(route_numbers(used, &prefix), vec![]),
        Err(refusal) => Outcome::Refused(refusal),
    }
}

/// Whether an index rises strictly from 0 and has its places before the end.
fn is_in_order(index: &[u16], end: usize) -> bool {
    let is_rising = index[0] == 0 && index.windows(2).all(|two| two[0] < two[1]);
    is_rising && index.iter().all(|place| usize::from(*place) < end)
}

/// The next item and how many bytes it used; 20 where no byte is left, which the crate is not asked about.
fn next(bytes: &mut Bytes, request: &Request) -> Result<(usize, NetworkPrefix), u32> {
    let before = bytes.remaining();
    if before == 0 {
        return Err(20);
    }
    let prefix = bytes.read_nlri_prefix(&family(request), request.has(ADD_PATH));
    let prefix = prefix.map_err(|error| reader_refusal(&error))?;
    Ok((before - bytes.remaining(), prefix))
}
