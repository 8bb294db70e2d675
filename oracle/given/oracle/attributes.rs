//! The walk and the search over an attribute section, by parse_attributes. What an attribute is, its flags, type and value and
//! whether it is all there are the crate's; that none is left, 1, and which refusal a repeat or a cut one comes to, are added.
//! The crate gives no places: its own encoder writes what it keeps, which is laid end to end as far as it is the section again.

use super::{reader_refusal, warnings, width, Outcome};
use crate::error::{BgpValidationWarning, ParserError};
use crate::models::{AttrType, Attribute, Attributes};
use crate::parser::bgp::attributes::parse_attributes;
use bytes::Bytes;
use records::{numbers_of, sum_bytes, Request, ADD_PATH};

/// The types that may stand once.
const ONCE: [AttrType; 2] = [AttrType::MP_REACHABLE_NLRI, AttrType::MP_UNREACHABLE_NLRI];

/// What the crate keeps of a section.
struct Kept {
    attributes: Attributes,
    /// Whether it says that the attribute after these is cut; of one or two last bytes it says nothing.
    cut: bool,
}

fn ask(section: &[u8], request: &Request) -> (Result<Attributes, ParserError>, Vec<String>) {
    let bytes = Bytes::copy_from_slice(section);
    warnings::during(|| parse_attributes(bytes, &width(request), request.has(ADD_PATH), None, None, None))
}

/// The crate keeps nothing of a section with three last bytes that begin a long attribute: it is asked again without the last
/// of them, and then passes over the other two.
fn kept(section: &[u8], request: &Request) -> Kept {
    match ask(section, request) {
        (Ok(attributes), warned) => {
            let cut = warned.iter().any(|text| text.contains(" attribute encodes a length "));
            Kept { attributes, cut }
        }
        (Err(error), _) => {
            assert_eq!(reader_refusal(&error), 2, "the one refusal of a section");
            let attributes = ask(&section[..section.len() - 1], request).0.expect("a section without its last byte");
            Kept { attributes, cut: true }
        }
    }
}

impl Kept {
    /// Whether two of the type are kept. The crate warns of a repeat, and also of one that is cut, which it does not keep.
    fn has_two(&self, kind: AttrType) -> bool {
        let repeat = BgpValidationWarning::DuplicateAttribute { attr_type: kind };
        let two = self.attributes.inner.iter().filter(|attribute| attribute.value.attr_type() == kind).count() > 1;
        assert!(!two || self.attributes.validation_warnings().contains(&repeat), "a repeat is warned of");
        two
    }
}

/// Where an attribute's value stands in its section.
struct Place {
    start: usize,
    end: usize,
}

/// The places of the attributes from the first on, up to one that the crate does not write as it stands there.
fn places(attributes: &[Attribute], section: &[u8], request: &Request) -> Vec<Place> {
    let mut places: Vec<Place> = vec![];
    for attribute in attributes {
        let from = places.last().map_or(0, |before| before.end);
        let Ok(written) = attribute.encode(width(request)) else { break };
        if !section[from..].starts_with(&written) {
            break;
        }
        let head = if attribute.is_extended() { 4 } else { 3 };
        places.push(Place { start: from + head, end: from + written.len() });
    }
    places
}

fn none_found(request: &Request) -> Outcome {
    Outcome::Done(vec![0; numbers_of(request.op)], vec![])
}

/// Op 18: the first attribute that the crate keeps of what stands from the place on.
pub fn at(request: &Request) -> Outcome {
    let place = request.numbers(1)[0] as usize;
    let rest = match request.parts[0].get(place..) {
        None | Some([]) => return none_found(request),
        Some(rest) => rest,
    };
    let kept = kept(rest, request);
    let Some(first) = kept.attributes.inner.first() else {
        return Outcome::Refused(2);
    };
    let Some(Place { start, end }) = places(std::slice::from_ref(first), rest, request).pop() else {
        return Outcome::NoCounterpart;
    };
    let (flags, kind) = (u64::from(first.flag.bits()), u64::from(first.value.attr_code()));
    let (length, sum) = ((end - start) as u64, sum_bytes(&rest[start..end]));
    Outcome::Done(vec![1, flags, kind, (place + start) as u64, length, sum, (place + end) as u64], vec![])
}

/// Op 19: the crate's own search, once it is known that it keeps the whole section, and no type twice that may stand once. What is
/// cut comes after all that is kept.
pub fn first_of(request: &Request) -> Outcome {
    let section = request.parts[0].as_slice();
    let kept = kept(section, request);
    if ONCE.iter().any(|kind| kept.has_two(*kind)) {
        return Outcome::Refused(15);
    }
    if kept.cut {
        return Outcome::Refused(2);
    }
    let all = kept.attributes.inner.as_slice();
    let places = places(all, section, request);
    if places.len() < all.len() {
        return Outcome::NoCounterpart;
    }
    if places.last().map_or(0, |last| last.end) < section.len() {
        return Outcome::Refused(2);
    }
    let Some(found) = kept.attributes.get_attr(AttrType::from(request.argument)) else {
        return none_found(request);
    };
    let at = all.iter().position(|attribute| *attribute == found).expect("one of those kept");
    let Place { start, end } = places[at];
    let numbers =
        vec![1, u64::from(found.flag.bits()), start as u64, (end - start) as u64, sum_bytes(&section[start..end])];
    Outcome::Done(numbers, vec![])
}
