//! MP_REACH_NLRI and MP_UNREACH_NLRI: parse_nlri as the UPDATE reader calls it, and the encoder of their attribute. The crate takes other
//! families and next hops, and judges them at other places, as docs/DIFFERENCES.md lists; it is not asked there.

use super::paths::written_value;
use super::private::{Inside, PrivateCalls};
use super::routes::{counted_rows, item_by_item, item_by_item_is_asked, prefixes};
use super::{crate_reads_so, reader_refusal, warnings, Outcome};
use crate::error::ParserError;
use crate::models::{Afi, AttributeValue, NetworkPrefix, NextHopAddress, Nlri, Safi};
use crate::parser::bgp::attributes::parse_nlri;
use bytes::Bytes;
use records::{sum_bytes, Request, ADD_PATH};

const IPV6_UNICAST: [u8; 3] = [0, 2, 1];

/// Ops 22 to 25.
pub fn read(request: &Request) -> Outcome {
    let is_reach = request.op <= 23;
    let (head, list) = split(request, is_reach);
    let (nlri, warned) = match ask(head, is_reach, request.has(ADD_PATH)) {
        Ok(read) => read,
        Err(outcome) => return outcome,
    };
    let routes = match list {
        None => nlri.prefixes,
        Some(list) if item_by_item_is_asked() => match item_by_item(list, &Afi::Ipv6) {
            Ok(routes) => routes,
            Err(refusal) => return Outcome::Refused(refusal),
        },
        Some(_) => return Outcome::NoCounterpart,
    };
    let (counts, rows) = counted_rows(&routes);
    let numbers = match nlri.next_hop.map(octets) {
        Some(next_hop) => [vec![next_hop.len() as u64, sum_bytes(&next_hop), u64::from(warned)], counts].concat(),
        None => counts,
    };
    Outcome::Done(numbers, if request.op % 2 == 0 { vec![rows] } else { vec![] })
}

/// The value as the crate is asked about it; with neither Add-Path nor the guess only what comes before its list, and the list, which the
/// crate reads otherwise.
fn split(request: &Request, is_reach: bool) -> (&[u8], Option<&[u8]>) {
    let value = request.parts[0].as_slice();
    if crate_reads_so(request) {
        return (value, None);
    }
    let next_hop = value.get(IPV6_UNICAST.len()).map_or(0, |length| usize::from(*length));
    let start = IPV6_UNICAST.len() + if is_reach { 1 + next_hop + 1 } else { 0 };
    let (head, list) = value.split_at(start.min(value.len()));
    (head, Some(list))
}

/// A value as the UPDATE reader has it read.
pub fn parse(value: Bytes, is_reach: bool, add_path: bool) -> Result<AttributeValue, ParserError> {
    parse_nlri(value, &None, &None, &None, is_reach, add_path)
}

/// What the crate reads in a value, and whether it warns of the reserved byte.
fn ask(value: &[u8], is_reach: bool, add_path: bool) -> Result<(Nlri, bool), Outcome> {
    let bytes = Bytes::copy_from_slice(value);
    let (read, warned) = warnings::during(|| parse(bytes, is_reach, add_path));
    if let Err(ParserError::ParseError(text)) = &read {
        if let Some(refusal) = refusal_of_head(text, value) {
            return Err(refusal);
        }
    }
    if is_read_otherwise(value, is_reach) {
        return Err(Outcome::NoCounterpart);
    }
    match read {
        Ok(AttributeValue::MpReachNlri(nlri) | AttributeValue::MpUnreachNlri(nlri)) => {
            Ok((nlri, warnings::any_begins(&warned, "NLRI reserved byte not 0")))
        }
        Ok(other) => panic!("a value of another attribute: {other:?}"),
        Err(error) => Err(Outcome::Refused(reader_refusal(&error))),
    }
}

/// 17 for an address family that the crate does not know, and 18 for a next hop that it refuses. It judges the family before it looks for the
/// third byte, where the request says 2.
fn refusal_of_head(text: &str, value: &[u8]) -> Option<Outcome> {
    let is_whole_pair = value.len() >= IPV6_UNICAST.len();
    if text.starts_with("Unknown AFI type") {
        return Some(if is_whole_pair { Outcome::Refused(17) } else { Outcome::NoCounterpart });
    }
    let is_next_hop = text.starts_with("Invalid next hop length") && value.starts_with(&IPV6_UNICAST);
    is_next_hop.then_some(Outcome::Refused(18))
}

/// Whether the crate reads on, or looks for a next hop that is cut, where the request says 17 or 18. Which subfamilies the crate knows is not
/// in the files given.
fn is_read_otherwise(value: &[u8], is_reach: bool) -> bool {
    match value {
        [0, 2, 1, length, ..] => is_reach && ![16, 32].contains(length),
        [0, 2, 1] => false,
        _ => value.len() >= IPV6_UNICAST.len(),
    }
}

/// The bytes of a next hop of the two kinds that the request has.
fn octets(next_hop: NextHopAddress) -> Vec<u8> {
    match next_hop {
        NextHopAddress::Ipv6(address) => address.octets().to_vec(),
        NextHopAddress::Ipv6LinkLocal(global, link_local) => [global.octets(), link_local.octets()].concat(),
        other => panic!("a next hop that the crate is not asked about: {other:?}"),
    }
}

/// Ops 26 and 27: the attribute with a length of two bytes, whose limit is the whole value's.
pub fn write(request: &Request) -> Outcome {
    let is_reach = request.op == 26;
    let next_hop = match is_reach.then(|| next_hop(&request.parts[0])).transpose() {
        Ok(next_hop) => next_hop,
        Err(outcome) => return outcome,
    };
    let rows = request.numbers(usize::from(is_reach));
    let Some(prefixes) = prefixes(&rows, request.has(ADD_PATH), Afi::Ipv6) else {
        return Outcome::NoCounterpart;
    };
    let nlri = of_ipv6(next_hop, prefixes);
    let value = if is_reach { AttributeValue::MpReachNlri(nlri) } else { AttributeValue::MpUnreachNlri(nlri) };
    written_value(value, request)
}

/// A next hop to write, by the crate's own reader of one: 18 where it refuses the length, and none where it takes one that the request does not.
fn next_hop(bytes: &[u8]) -> Result<NextHopAddress, Outcome> {
    match Inside::parse_mp_next_hop(Bytes::copy_from_slice(bytes)) {
        Ok(Some(next_hop @ (NextHopAddress::Ipv6(_) | NextHopAddress::Ipv6LinkLocal(..)))) => Ok(next_hop),
        Ok(_) => Err(Outcome::NoCounterpart),
        Err(_) => Err(Outcome::Refused(18)),
    }
}

/// The routes of IPv6 unicast.
pub fn of_ipv6(next_hop: Option<NextHopAddress>, prefixes: Vec<NetworkPrefix>) -> Nlri {
    Nlri {
        afi: Afi::Ipv6,
        safi: Safi::Unicast,
        next_hop,
        prefixes,
        labeled_prefixes: None,
        link_state_nlris: None,
        flowspec_nlris: None,
    }
}
