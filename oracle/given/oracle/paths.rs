//! AS_PATH and AGGREGATOR. The crate's readers and writers of one attribute are private but for parse_as_path:
//! the others are reached through an attribute of their own.

use super::{reader_refusal, text_refusal, warnings, width, writer_refusal, written, Contents, Outcome, MOST_BYTES};
use crate::error::{BgpValidationWarning, EncodingError};
use crate::models::{AsPath, AsPathSegment, Asn, AttrFlags, AttrType, Attribute, AttributeValue};
use crate::parser::bgp::attributes::{parse_as_path, parse_attributes};
use bytes::Bytes;
use records::Request;
use std::net::Ipv4Addr;

/// Flags, type and a length of two bytes before an attribute's value.
const ATTRIBUTE_HEAD: usize = 4;

/// Types are document 01's numbers, which are the crate's constants.
pub fn segment_type(segment: &AsPathSegment) -> u32 {
    match segment {
        AsPathSegment::AsSet(_) => 1,
        AsPathSegment::AsSequence(_) => 2,
        AsPathSegment::ConfedSequence(_) => 3,
        AsPathSegment::ConfedSet(_) => 4,
    }
}

pub fn segment(kind: u32, numbers: &[u32]) -> Option<AsPathSegment> {
    let asns = numbers.iter().map(|number| Asn::new_32bit(*number)).collect();
    match kind {
        1 => Some(AsPathSegment::AsSet(asns)),
        2 => Some(AsPathSegment::AsSequence(asns)),
        3 => Some(AsPathSegment::ConfedSequence(asns)),
        4 => Some(AsPathSegment::ConfedSet(asns)),
        _ => None,
    }
}

/// Ops 6 and 7.
pub fn as_path(request: &Request) -> Outcome {
    let path = match parse_as_path(Bytes::copy_from_slice(&request.parts[0]), &width(request)) {
        Ok(path) => path,
        Err(error) => return Outcome::Refused(reader_refusal(&error)),
    };
    let (counts, stores) = contents(&path);
    Outcome::Done(counts, if request.op == 6 { stores } else { vec![] })
}

/// How many segments and numbers a path has, and its pairs and numbers.
pub fn contents(path: &AsPath) -> (Vec<u64>, Vec<Contents>) {
    let mut pairs = vec![];
    let mut numbers = vec![];
    for segment in &path.segments {
        pairs.extend([segment_type(segment), segment.len() as u32]);
        numbers.extend(segment.iter().map(|asn| asn.to_u32()));
    }
    let counts = vec![path.segments.len() as u64, numbers.len() as u64];
    (counts, vec![Contents::Numbers(pairs), Contents::Numbers(numbers)])
}

/// Op 8: the value as the only attribute of a section.
pub fn aggregator(request: &Request) -> Outcome {
    let value = request.parts[0].as_slice();
    let flags = AttrFlags::OPTIONAL | AttrFlags::TRANSITIVE | AttrFlags::EXTENDED;
    let length = (value.len() as u16).to_be_bytes();
    let section = [&[flags.bits(), u8::from(AttrType::AGGREGATOR)], &length[..], value].concat();
    let (read, warned) =
        warnings::during(|| parse_attributes(Bytes::from(section), &width(request), false, None, None, None));
    let attributes = read.expect("one whole attribute");
    if let Some((asn, identifier)) = attributes.aggregator() {
        let differs = warnings::any_begins(&warned, "Aggregator attribute with ASN length set to");
        let numbers = vec![u64::from(asn.to_u32()), u64::from(u32::from(identifier)), u64::from(differs)];
        return Outcome::Done(numbers, vec![]);
    }
    for warning in attributes.validation_warnings() {
        if let BgpValidationWarning::OptionalAttributeError { attr_type: AttrType::AGGREGATOR, reason } = warning {
            return Outcome::Refused(text_refusal(reason.strip_prefix("Error: ").expect("a ParserError")));
        }
    }
    panic!("an AGGREGATOR that is neither read nor refused");
}

/// The value's bytes as the crate writes them into an attribute with a length of two bytes.
fn encoded(value: AttributeValue, request: &Request) -> Result<Vec<u8>, EncodingError> {
    let attribute = Attribute { value, flag: AttrFlags::EXTENDED };
    let bytes = attribute.encode(width(request))?;
    Ok(bytes[ATTRIBUTE_HEAD..].to_vec())
}

pub fn written_value(value: AttributeValue, request: &Request) -> Outcome {
    match encoded(value, request) {
        Ok(bytes) => written(bytes, MOST_BYTES),
        Err(error) => Outcome::Refused(writer_refusal(&error)),
    }
}

/// Pairs and numbers as the crate's path; none where document 01 says 14 or 9, which the crate cannot be asked.
pub fn path(pairs: &[u32], numbers: &[u32]) -> Option<AsPath> {
    let counted: u64 = pairs.iter().skip(1).step_by(2).map(|count| u64::from(*count)).sum();
    if pairs.len() % 2 != 0 || counted != numbers.len() as u64 {
        return None;
    }
    let mut path = AsPath::new();
    let mut rest = numbers;
    for pair in pairs.chunks_exact(2) {
        let (own, others) = rest.split_at(pair[1] as usize);
        path.append_segment(segment(pair[0], own)?);
        rest = others;
    }
    Some(path)
}

pub fn write(request: &Request) -> Outcome {
    match path(&request.numbers(0), &request.numbers(1)) {
        Some(path) => written_value(AttributeValue::AsPath(path), request),
        None => Outcome::NoCounterpart,
    }
}

pub fn write_aggregator(request: &Request) -> Outcome {
    let values = request.numbers(0);
    let value = AttributeValue::Aggregator { asn: Asn::new_32bit(values[0]), id: Ipv4Addr::from(values[1]) };
    written_value(value, request)
}
