//! Routes: read_nlri_prefix, parse_nlri_list, the sections of an UPDATE, encode_nlri_prefixes.

use super::{crate_reads_so, reader_refusal, width, written, Contents, Outcome, MOST_BYTES};
use crate::error::{BgpValidationWarning, ParserError};
use crate::models::{Afi, BgpUpdateMessage, NetworkPrefix};
use crate::parser::bgp::messages::parse_bgp_update_message;
use crate::parser::utils::{encode_nlri_prefixes, parse_nlri_list, ReadUtils};
use bytes::{Buf, Bytes};
use ipnet::IpNet;
use records::{Request, ADD_PATH, IPV6};
use std::net::{IpAddr, Ipv4Addr, Ipv6Addr};
use std::sync::OnceLock;

const HAS_ID: u32 = 256;

pub fn family(request: &Request) -> Afi {
    if request.has(IPV6) {
        Afi::Ipv6
    } else {
        Afi::Ipv4
    }
}

/// A prefix of the crate as a row.
fn row(prefix: &NetworkPrefix) -> [u32; 6] {
    let address: u128 = match prefix.prefix.addr() {
        IpAddr::V4(address) => u128::from(u32::from(address)) << 96,
        IpAddr::V6(address) => u128::from(address),
    };
    let word = |at: u32| (address >> (96 - 32 * at)) as u32;
    let length = u32::from(prefix.prefix.prefix_len());
    let first = length + if prefix.path_id.is_some() { HAS_ID } else { 0 };
    [first, prefix.path_id.unwrap_or(0), word(0), word(1), word(2), word(3)]
}

pub fn rows(prefixes: &[NetworkPrefix]) -> Vec<[u32; 6]> {
    prefixes.iter().map(row).collect()
}

/// Whether a bit past the length is set: the crate keeps it in its address, and the network's address has none.
fn has_host_bit(prefix: &NetworkPrefix) -> bool {
    prefix.prefix.addr() != prefix.prefix.network()
}

pub fn host_rows(prefixes: &[NetworkPrefix]) -> u64 {
    prefixes.iter().filter(|prefix| has_host_bit(prefix)).count() as u64
}

pub fn one_route(request: &Request) -> Outcome {
    let mut bytes = Bytes::copy_from_slice(&request.parts[0]);
    let given = bytes.remaining();
    match bytes.read_nlri_prefix(&family(request), request.has(ADD_PATH)) {
        Ok(prefix) => Outcome::Done(route_numbers(given - bytes.remaining(), &prefix), vec![]),
        Err(error) => Outcome::Refused(reader_refusal(&error)),
    }
}

/// How many bytes an item used, its row, and 1 where it has a host bit.
pub fn route_numbers(used: usize, prefix: &NetworkPrefix) -> Vec<u64> {
    let mut numbers = vec![used as u64];
    numbers.extend(row(prefix).map(u64::from));
    numbers.push(u64::from(has_host_bit(prefix)));
    numbers
}

/// How many rows, and how many of them have a host bit; and the rows.
pub fn counted_rows(prefixes: &[NetworkPrefix]) -> (Vec<u64>, Contents) {
    (vec![prefixes.len() as u64, host_rows(prefixes)], Contents::Rows(rows(prefixes)))
}

/// Ops 2 to 5: a list or a section, stored or counted.
pub fn list_or_section(request: &Request) -> Outcome {
    let read = match (crate_reads_so(request), request.op) {
        (true, 2 | 3) => list(request),
        (true, _) => section(request),
        (false, 2 | 3) if item_by_item_is_asked() => item_by_item(&request.parts[0], &family(request)),
        (false, _) => return Outcome::NoCounterpart,
    };
    match read {
        Ok(prefixes) => {
            let (counts, rows) = counted_rows(&prefixes);
            Outcome::Done(counts, if request.op % 2 == 0 { vec![rows] } else { vec![] })
        }
        Err(refusal) => Outcome::Refused(refusal),
    }
}

/// The crate's list reader.
pub fn list(request: &Request) -> Result<Vec<NetworkPrefix>, u32> {
    let bytes = Bytes::copy_from_slice(&request.parts[0]);
    parse_nlri_list(bytes, request.has(ADD_PATH), &family(request)).map_err(|error| reader_refusal(&error))
}

/// Whether lists with neither Add-Path nor the guess are read item by item; it is not the crate's list reader.
pub fn item_by_item_is_asked() -> bool {
    static ASKED: OnceLock<bool> = OnceLock::new();
    *ASKED.get_or_init(|| std::env::var_os("CRATE_ITEM_BY_ITEM").is_some())
}

/// The crate's reader of one item, again and again.
pub fn item_by_item(list: &[u8], afi: &Afi) -> Result<Vec<NetworkPrefix>, u32> {
    let mut bytes = Bytes::copy_from_slice(list);
    let mut prefixes = vec![];
    while bytes.has_remaining() {
        let item = bytes.read_nlri_prefix(afi, false);
        prefixes.push(item.map_err(|error| reader_refusal(&error))?);
    }
    Ok(prefixes)
}

/// The crate's section reader is private: the section is put into an UPDATE, once as the withdrawn routes and
/// once as the announced ones, and both must come to the same.
fn section(request: &Request) -> Result<Vec<NetworkPrefix>, u32> {
    let section = request.parts[0].as_slice();
    let length = (section.len() as u16).to_be_bytes();
    let withdrawn = [&length, section, &[0, 0]].concat();
    let announced = [&[0, 0, 0, 0], section].concat();
    let first = read_update(request, withdrawn).withdrawn();
    let second = read_update(request, announced).announced();
    assert_eq!(first, second, "the crate reads its two sections differently");
    first
}

fn read_update(request: &Request, body: Vec<u8>) -> ReadUpdate {
    let update = parse_bgp_update_message(Bytes::from(body), request.has(ADD_PATH), &width(request));
    ReadUpdate(update.expect("an UPDATE whose lengths are right and that has no attributes"))
}

/// An UPDATE that the crate accepted.
pub struct ReadUpdate(pub BgpUpdateMessage);

impl ReadUpdate {
    pub fn withdrawn(&self) -> Result<Vec<NetworkPrefix>, u32> {
        self.list(&self.0.withdrawn_prefixes, "withdrawn").map_err(|(refusal, _)| refusal)
    }

    pub fn announced(&self) -> Result<Vec<NetworkPrefix>, u32> {
        self.list(&self.0.announced_prefixes, "announced").map_err(|(refusal, _)| refusal)
    }

    /// The bytes of the withdrawn section: as the crate keeps a malformed one, or as it writes its routes.
    pub fn withdrawn_bytes(&self) -> Vec<u8> {
        Self::bytes(self.list(&self.0.withdrawn_prefixes, "withdrawn"))
    }

    pub fn announced_bytes(&self) -> Vec<u8> {
        Self::bytes(self.list(&self.0.announced_prefixes, "announced"))
    }

    fn bytes(list: Result<Vec<NetworkPrefix>, (u32, Vec<u8>)>) -> Vec<u8> {
        match list {
            Ok(prefixes) => encode_nlri_prefixes(&prefixes).to_vec(),
            Err((_, kept)) => kept,
        }
    }

    /// The routes, or the refusal of the crate's warning about this section with the bytes it kept.
    fn list(&self, prefixes: &[NetworkPrefix], section: &str) -> Result<Vec<NetworkPrefix>, (u32, Vec<u8>)> {
        for warning in self.0.attributes.validation_warnings() {
            if let BgpValidationWarning::MalformedNlri { nlri_type, reason, raw_bytes } = warning {
                if *nlri_type == section {
                    assert!(prefixes.is_empty(), "a malformed section has no routes");
                    return Err((reason_refusal(reason), raw_bytes.clone()));
                }
            }
        }
        Ok(prefixes.to_vec())
    }
}

/// The refusal of a reason: the text that `ParserError` shows.
fn reason_refusal(reason: &str) -> u32 {
    let text = reason.strip_prefix("Error: ").expect("the text of a ParserError");
    let error = if text.starts_with("truncated ") {
        ParserError::TruncatedMsg(text.to_string())
    } else {
        ParserError::ParseError(text.to_string())
    };
    reader_refusal(&error)
}

/// A row as a prefix of the crate; none where document 01 says 14, which the crate has no counterpart for.
fn prefix(row: &[u32], with_id: bool, afi: Afi) -> Option<NetworkPrefix> {
    let length = if with_id { row[0].checked_sub(HAS_ID)? } else { row[0] };
    let address = row[2..6].iter().fold(0u128, |address, word| address << 32 | u128::from(*word));
    let (ip, most) = match afi {
        Afi::Ipv4 => (IpAddr::V4(Ipv4Addr::from((address >> 96) as u32)), 32),
        _ => (IpAddr::V6(Ipv6Addr::from(address)), 128),
    };
    let octets = length.div_ceil(8);
    let past_is_zero = octets >= 16 || address << (8 * octets) == 0;
    if length > most || !past_is_zero || (!with_id && row[1] != 0) {
        return None;
    }
    let net = IpNet::new(ip, length as u8).ok()?;
    Some(NetworkPrefix::new(net, with_id.then_some(row[1])))
}

/// Rows as prefixes of the crate; none where a row is not writable.
pub fn prefixes(words: &[u32], with_id: bool, afi: Afi) -> Option<Vec<NetworkPrefix>> {
    if words.len() % 6 != 0 {
        return None;
    }
    words.chunks_exact(6).map(|row| prefix(row, with_id, afi)).collect()
}

pub fn write(request: &Request) -> Outcome {
    match prefixes(&request.numbers(0), request.has(ADD_PATH), family(request)) {
        Some(prefixes) => written(encode_nlri_prefixes(&prefixes).to_vec(), MOST_BYTES),
        None => Outcome::NoCounterpart,
    }
}
