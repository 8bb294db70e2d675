//! The message header and the UPDATE body: parse_bgp_message, parse_bgp_update_message and the two encoders.

use super::routes::{host_rows, prefixes, rows, ReadUpdate};
use super::{crate_reads_so, reader_refusal, warnings, width, writer_refusal, written, Contents, Outcome};
use super::{MOST_BODY, MOST_BYTES};
use crate::error::{EncodingError, ParserError};
use crate::models::{Afi, Attributes, BgpMessage, BgpUpdateMessage};
use crate::parser::bgp::attributes::parse_attributes;
use crate::parser::bgp::messages::{
    parse_bgp_message, parse_bgp_notification_message, parse_bgp_open_message, parse_bgp_route_refresh_message,
    parse_bgp_update_message,
};
use bytes::{Buf, Bytes};
use records::{sum_bytes, Request, ADD_PATH, STRICT};

const HEADER: usize = 19;

/// Where the crate stopped reading a message.
enum Stop {
    /// Before the body was taken: a refusal of the header.
    Header(u32),
    /// In the body, which document 01 does not judge; the header was accepted.
    Body,
}

/// The crate gives one error for header and body. The header's texts are its own; but for the first check a
/// truncation can only be the body's, since the crate measures the body by what is given.
fn stop(error: &ParserError, given: usize) -> Stop {
    match error {
        ParserError::TruncatedMsg(_) if given < HEADER => Stop::Header(2),
        ParserError::TruncatedMsg(_) => Stop::Body,
        ParserError::ParseError(text) if text.starts_with("RFC 9072 violation") => Stop::Body,
        other => Stop::Header(reader_refusal(other)),
    }
}

/// Op 9. The crate hands back a parsed body; how much it took is seen by what it left. A body that the crate's
/// parser refuses comes after the header was accepted, so the header is answered all the same.
pub fn header(request: &Request) -> Outcome {
    if request.has(STRICT) {
        return Outcome::NoCounterpart;
    }
    let given = request.parts[0].as_slice();
    let mut data = Bytes::copy_from_slice(given);
    let (read, warned) = warnings::during(|| parse_bgp_message(&mut data, request.has(ADD_PATH), &width(request)));
    let kind = match read {
        Ok(message) => message.msg_type() as u8,
        Err(error) => match stop(&error, given.len()) {
            Stop::Header(refusal) => return Outcome::Refused(refusal),
            Stop::Body => given[18],
        },
    };
    let claimed = usize::from(given[16]) << 8 | usize::from(given[17]);
    let taken = given.len() - data.remaining();
    let marker = warnings::any_begins(&warned, "BGP message marker is not all 0xFF");
    let trailing = warnings::any_begins(&warned, "BGP message length ");
    let cut = claimed > taken;
    let body = &given[HEADER..taken];
    Outcome::Done(
        vec![
            u64::from(kind),
            claimed as u64,
            taken as u64,
            u64::from(marker),
            u64::from(cut),
            u64::from(trailing),
            body.len() as u64,
            sum_bytes(body),
        ],
        vec![],
    )
}

/// The attribute section of a body whose lengths are right.
fn attribute_section(body: &[u8]) -> Option<&[u8]> {
    let two = |bytes: &[u8]| Some(usize::from(*bytes.first()?) << 8 | usize::from(*bytes.get(1)?));
    let rest = body.get(2 + two(body)?..)?;
    rest.get(2..2 + two(rest)?)
}

/// The crate's UPDATE; a refusal 2, or none where it is the attributes that the crate refuses.
fn read_update(request: &Request, add_path: bool) -> Result<ReadUpdate, Outcome> {
    let body = request.parts[0].as_slice();
    match parse_bgp_update_message(Bytes::copy_from_slice(body), add_path, &width(request)) {
        Ok(update) => Ok(ReadUpdate(update)),
        Err(error) => match attribute_section(body) {
            Some(section) if refuses_attributes(section, request) => Err(Outcome::NoCounterpart),
            _ => Err(Outcome::Refused(reader_refusal(&error))),
        },
    }
}

fn refuses_attributes(section: &[u8], request: &Request) -> bool {
    let bytes = Bytes::copy_from_slice(section);
    parse_attributes(bytes, &width(request), request.has(ADD_PATH), None, None, None).is_err()
}

/// Ops 10 and 11.
pub fn update(request: &Request) -> Outcome {
    if !crate_reads_so(request) {
        return Outcome::NoCounterpart;
    }
    let update = match read_update(request, request.has(ADD_PATH)) {
        Ok(update) => update,
        Err(outcome) => return outcome,
    };
    let (mut counts, mut hosts, mut stores) = (vec![], vec![], vec![]);
    for list in [update.withdrawn(), update.announced()] {
        let (routes, verdict) = match list {
            Ok(routes) => (routes, 0),
            Err(verdict) => (vec![], verdict),
        };
        counts.extend([routes.len() as u64, u64::from(verdict)]);
        hosts.push(host_rows(&routes));
        stores.push(Contents::Rows(rows(&routes)));
    }
    Outcome::Done([counts, hosts].concat(), if request.op == 10 { stores } else { vec![] })
}

/// Op 12. The crate hands back no parts, but it keeps a malformed section's bytes and writes a good one's routes
/// back exactly; what is left between them and the four length bytes is the attribute section.
pub fn update_parts(request: &Request) -> Outcome {
    let body = request.parts[0].as_slice();
    let update = match read_update(request, false) {
        Ok(update) => update,
        Err(outcome) => return outcome,
    };
    let (withdrawn, announced) = (update.withdrawn_bytes(), update.announced_bytes());
    let attributes = &body[4 + withdrawn.len()..body.len() - announced.len()];
    let numbers = [withdrawn.as_slice(), attributes, announced.as_slice()]
        .iter()
        .flat_map(|part| [part.len() as u64, sum_bytes(part)])
        .collect();
    Outcome::Done(numbers, vec![])
}

/// A message of the crate whose body is exactly these bytes, if there is one.
pub fn message(kind: u8, body: &[u8], request: &Request) -> Option<BgpMessage> {
    let mut bytes = Bytes::copy_from_slice(body);
    let message = match kind {
        1 => BgpMessage::Open(parse_bgp_open_message(&mut bytes).ok()?),
        2 => BgpMessage::Update(parse_bgp_update_message(bytes, false, &width(request)).ok()?),
        3 => BgpMessage::Notification(parse_bgp_notification_message(bytes).ok()?),
        4 => BgpMessage::KeepAlive,
        5 => BgpMessage::RouteRefresh(parse_bgp_route_refresh_message(&mut bytes).ok()?),
        _ => return None,
    };
    let written = match &message {
        BgpMessage::Open(open) => open.encode().ok()?,
        BgpMessage::Update(update) => update.encode(width(request)).ok()?,
        BgpMessage::Notification(notification) => notification.encode(),
        BgpMessage::KeepAlive => Bytes::new(),
        BgpMessage::RouteRefresh(refresh) => refresh.encode(),
    };
    (written == body).then_some(message)
}

/// The total that the crate refuses is 3 for a message.
fn is_total(error: &EncodingError) -> bool {
    matches!(error, EncodingError::ValueTooLarge { field: "BGP message total length", .. })
}

/// Op 16. The limit of an OPEN is document 01's, not the crate's writer's.
pub fn write(request: &Request) -> Outcome {
    let body = request.parts[0].as_slice();
    if request.argument == 1 && HEADER + body.len() > 4_096 {
        return Outcome::NoCounterpart;
    }
    let Some(message) = message(request.argument, body, request) else {
        return Outcome::NoCounterpart;
    };
    match message.encode(width(request)) {
        Ok(bytes) => written(bytes.to_vec(), MOST_BYTES),
        Err(error) if is_total(&error) => Outcome::Refused(3),
        Err(error) => panic!("a body that the crate wrote alone: {error}"),
    }
}

/// Attributes of the crate that are written as exactly these bytes, if there are.
fn attributes(bytes: &[u8], request: &Request) -> Option<Attributes> {
    let read = parse_attributes(Bytes::copy_from_slice(bytes), &width(request), false, None, None, None).ok()?;
    (read.encode(width(request)).ok()? == bytes).then_some(read)
}

/// The UPDATE of op 17, if the crate has one that is written so.
pub fn update_to_write(request: &Request) -> Option<BgpUpdateMessage> {
    let list = |part| prefixes(&request.numbers(part), request.has(ADD_PATH), Afi::Ipv4);
    Some(BgpUpdateMessage {
        withdrawn_prefixes: list(0)?,
        attributes: attributes(&request.parts[1], request)?,
        announced_prefixes: list(2)?,
    })
}

/// Op 17. The UPDATE is written as a message, so that the crate's own limit of a message stands for 65,516.
pub fn write_update(request: &Request) -> Outcome {
    let Some(update) = update_to_write(request) else {
        return Outcome::NoCounterpart;
    };
    match BgpMessage::Update(update).encode(width(request)) {
        Ok(bytes) => written(bytes[HEADER..].to_vec(), MOST_BODY),
        Err(error) if is_total(&error) => Outcome::Refused(1),
        Err(error) => Outcome::Refused(writer_refusal(&error)),
    }
}
