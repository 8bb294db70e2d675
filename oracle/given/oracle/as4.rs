//! Old and new AS numbers side by side: Attributes::aggregator and Attributes::effective_as_path. Both go by another rule than the request
//! here and there, as docs/DIFFERENCES.md lists, and are not asked there.

use super::paths::{contents, segment};
use super::{reader_refusal, text_refusal, warnings, Outcome, MOST_BYTES};
use crate::error::BgpValidationWarning;
use crate::models::{AsPath, AsPathSegment, AsnLength, AttrFlags, AttrType, AttributeValue, Attributes};
use crate::parser::bgp::attributes::{parse_as_path, parse_attributes};
use bytes::Bytes;
use records::{sum_bytes, Request};

/// The number that stands for one of four bytes.
const AS_TRANS: u32 = 23_456;

const CONFEDERATION_SET: u32 = 4;

/// The AGGREGATOR that stands: which it is, and its bytes.
struct Standing {
    part: u64,
    bytes: Vec<u8>,
}

/// An attribute with a length of two bytes, or nothing for an empty value, which is an absent one.
fn attribute(kind: AttrType, value: &[u8]) -> Vec<u8> {
    if value.is_empty() {
        return vec![];
    }
    let flags = AttrFlags::OPTIONAL | AttrFlags::TRANSITIVE | AttrFlags::EXTENDED;
    let length = (value.len() as u16).to_be_bytes();
    [&[flags.bits(), u8::from(kind)], &length[..], value].concat()
}

/// The AGGREGATOR of a section with AGGREGATOR and then AS4_AGGREGATOR; 10 where the crate refuses one of them, and no counterpart where it
/// takes one of the other's length. Where both are there the crate hands back the second, whatever the first says, and the second too where
/// it is alone: `None` where that is not the request's rule.
fn standing(old: &[u8], new: &[u8]) -> Result<Option<Standing>, Outcome> {
    if old.len() > MOST_BYTES || new.len() > MOST_BYTES {
        return Err(Outcome::NoCounterpart);
    }
    let section = [attribute(AttrType::AGGREGATOR, old), attribute(AttrType::AS4_AGGREGATOR, new)].concat();
    let (read, warned) =
        warnings::during(|| parse_attributes(Bytes::from(section), &AsnLength::Bits16, false, None, None, None));
    let attributes = read.expect("whole attributes");
    for warning in attributes.validation_warnings() {
        if let BgpValidationWarning::OptionalAttributeError { reason, .. } = warning {
            return Err(Outcome::Refused(text_refusal(reason.strip_prefix("Error: ").expect("a ParserError"))));
        }
    }
    if warnings::any_begins(&warned, "Aggregator attribute with ASN length set to") {
        return Err(Outcome::NoCounterpart);
    }
    let first = attributes.iter().find_map(|value| match value {
        AttributeValue::Aggregator { asn, .. } => Some(asn.to_u32()),
        _ => None,
    });
    if !new.is_empty() && first != Some(AS_TRANS) {
        return Ok(None);
    }
    Ok(Some(handed_back(&attributes)))
}

/// What the crate hands back; the number's width tells which it is.
fn handed_back(attributes: &Attributes) -> Standing {
    match attributes.aggregator() {
        None => Standing { part: 1, bytes: vec![] },
        Some((asn, identifier)) => {
            let (part, width) = if asn.is_four_byte() { (2, 4) } else { (1, 2) };
            let bytes = [&asn.to_u32().to_be_bytes()[4 - width..], &identifier.octets()].concat();
            Standing { part, bytes }
        }
    }
}

/// Op 20.
pub fn aggregator(request: &Request) -> Outcome {
    match standing(&request.parts[0], &request.parts[1]) {
        Ok(Some(Standing { part, bytes })) => Outcome::Done(vec![part, bytes.len() as u64, sum_bytes(&bytes)], vec![]),
        Ok(None) => Outcome::NoCounterpart,
        Err(outcome) => outcome,
    }
}

/// Op 21.
pub fn path(request: &Request) -> Outcome {
    joined(request).unwrap_or_else(|outcome| outcome)
}

fn joined(request: &Request) -> Result<Outcome, Outcome> {
    let (old, new) = request.parts[2].split_at(usize::from(request.argument));
    let standing = standing(old, new)?;
    let old = read(&request.parts[0], AsnLength::Bits16)?;
    let new = read(&request.parts[1], AsnLength::Bits32)?;
    let standing = standing.ok_or(Outcome::NoCounterpart)?;
    let path = path_of(&old, &new).ok_or(Outcome::NoCounterpart)?;
    let (counts, stores) = contents(&path);
    Ok(Outcome::Done([vec![standing.part], counts].concat(), stores))
}

fn read(value: &[u8], width: AsnLength) -> Result<AsPath, Outcome> {
    if value.len() > MOST_BYTES {
        return Err(Outcome::Refused(1));
    }
    parse_as_path(Bytes::copy_from_slice(value), &width).map_err(|error| Outcome::Refused(reader_refusal(&error)))
}

/// The crate's path of AS_PATH and AS4_PATH. An AS4_PATH without segments is an absent one.
fn effective(old: &AsPath, new: &AsPath) -> AsPath {
    let mut values = vec![AttributeValue::AsPath(old.clone())];
    if !new.is_empty() {
        values.push(AttributeValue::As4Path(new.clone()));
    }
    values.into_iter().collect::<Attributes>().effective_as_path().expect("an AS_PATH")
}

/// The segments of the crate's path before it coalesces them; none where its rule for confederation segments is another.
fn path_of(old: &AsPath, new: &AsPath) -> Option<AsPath> {
    if new.segments.iter().any(AsPathSegment::is_confed) {
        return None;
    }
    let given = [&old.segments[..], &new.segments].concat();
    let merged = effective(&marked(old, 0), &marked(new, old.len()));
    let taken = unmarked(&merged, &given);
    let path = AsPath::from_segments(taken.iter().map(|(_, segment)| segment.clone()).collect::<Vec<_>>());
    assert_eq!(coalesced(&path), coalesced(&effective(old, new)), "the marks change nothing else");
    (!leaves_confederation(old, &taken)).then_some(path)
}

fn coalesced(path: &AsPath) -> AsPath {
    let mut path = path.clone();
    path.coalesce();
    path
}

/// A path with a mark before each segment, a confederation set of its place. It counts nothing, is taken where the segment is, and is never
/// coalesced; so the crate's path tells its segments apart.
fn marked(path: &AsPath, from: usize) -> AsPath {
    let mut marked = AsPath::new();
    for (at, own) in path.segments.iter().enumerate() {
        marked.append_segment(segment(CONFEDERATION_SET, &[(from + at) as u32]).expect("a type"));
        marked.append_segment(own.clone());
    }
    marked
}

/// The segments of a path without their marks, each with its place; an empty sequence, which coalescing drops, is put back.
fn unmarked(path: &AsPath, given: &[AsPathSegment]) -> Vec<(usize, AsPathSegment)> {
    let mut taken = vec![];
    let mut rest = path.segments.iter().peekable();
    while let Some(mark) = rest.next() {
        let place = mark.iter().next().expect("a mark").to_u32() as usize;
        let own = &given[place];
        let found = if own.is_empty() { rest.next_if(|next| next.is_empty()) } else { rest.next() };
        taken.push((place, found.unwrap_or(own).clone()));
    }
    taken
}

/// Whether the crate leaves a confederation segment of AS_PATH that stands right after what it took, and after no split.
fn leaves_confederation(old: &AsPath, taken: &[(usize, AsPathSegment)]) -> bool {
    let leading: Vec<_> = taken.iter().filter(|(place, _)| *place < old.len()).collect();
    let is_split = leading.last().is_some_and(|(place, own)| own.len() < old.segments[*place].len());
    !is_split && old.segments.get(leading.len()).is_some_and(AsPathSegment::is_confed)
}
