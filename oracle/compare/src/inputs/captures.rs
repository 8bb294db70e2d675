//! Captured messages and the requests on them, each with its session's settings.

use super::as4::{joined, standing};
use super::attributes::{search, walk};
use super::examples::{headers, on_bytes};
use super::index::{ask, build, own, starts};
use super::marks::{marked, take_off};
use super::mp_nlri::{announced, withdrawn, write_announcement, write_withdrawal};
use super::pieces::{EXTENDED_LENGTH, FAMILIES};
use records::ending::about;
use records::{Request, ADD_PATH, FOUR_BYTE_AS, GUESS, IPV6, STRICT};
use std::collections::BTreeSet;
use std::io;
use std::path::Path;

/// The bytes of a message's header, the last of which is its type.
const HEADER: usize = 19;

const UPDATE: u8 = 2;

const ATTRIBUTE_AS_PATH: u8 = 2;
const ATTRIBUTE_AGGREGATOR: u8 = 7;
const ATTRIBUTE_MP_REACH: u8 = 14;
const ATTRIBUTE_MP_UNREACH: u8 = 15;
const ATTRIBUTE_AS4_PATH: u8 = 17;
const ATTRIBUTE_AS4_AGGREGATOR: u8 = 18;

/// Room for every row of a captured message.
const ROWS: usize = 6 * 400;

/// A captured message, its session's settings, and every request on it.
pub struct Capture {
    pub bytes: Vec<u8>,
    pub requests: Vec<Request>,
    add_path_ipv4: bool,
    add_path_ipv6: bool,
    as_width: u8,
}

/// The captures of a file of messages, a line each.
pub fn load(path: &Path) -> io::Result<Vec<Capture>> {
    let text = std::fs::read_to_string(path).map_err(|error| about(path.display(), error))?;
    let wrong = |number, why| io::Error::other(format!("{}, line {number}: {why}", path.display()));
    let captures =
        (1..).zip(text.lines()).map(|(number, line)| Capture::from_line(line).map_err(|why| wrong(number, why)));
    let captures = captures.collect::<io::Result<Vec<_>>>()?;
    if captures.is_empty() {
        return Err(io::Error::other(format!("{} has no captured messages", path.display())));
    }
    Ok(captures)
}

/// The value of a key in a line of JSON whose values hold no commas or braces, as messages.jsonl's.
fn value<'a>(line: &'a str, key: &str) -> Result<&'a str, String> {
    let rest = line.split_once(&format!("\"{key}\":")).map(|(_, rest)| rest);
    let value = rest.and_then(|rest| rest.split_once([',', '}'])).map(|(value, _)| value.trim().trim_matches('"'));
    value.ok_or_else(|| format!("this is no captured message, a line of JSON that has \"{key}\""))
}

fn yes_or_no(line: &str, key: &str) -> Result<bool, String> {
    match value(line, key)? {
        "true" => Ok(true),
        "false" => Ok(false),
        other => Err(format!("\"{key}\" is true or false, and not {other:.40}")),
    }
}

/// The bytes of a message in hexadecimal digits.
fn message(digits: &str) -> Option<Vec<u8>> {
    let digit = |byte: u8| char::from(byte).to_digit(16).map(|value| value as u8);
    let bytes = digits.as_bytes().chunks(2).map(|pair| match pair {
        [high, low] => Some(digit(*high)? << 4 | digit(*low)?),
        _ => None,
    });
    bytes.collect()
}

/// An attribute of a section, and where it stands.
struct Attribute<'a> {
    place: usize,
    kind: u8,
    value: &'a [u8],
}

/// The part that a length of two bytes goes before, and what comes after it.
fn counted(bytes: &[u8]) -> Option<(&[u8], &[u8])> {
    let (length, rest) = bytes.split_at_checked(2)?;
    rest.split_at_checked(usize::from(length[0]) << 8 | usize::from(length[1]))
}

/// The attributes of a section, if it is whole.
fn attributes(section: &[u8]) -> Option<Vec<Attribute<'_>>> {
    let mut found = vec![];
    let mut left = section;
    while let [flags, kind, rest @ ..] = left {
        let extended = flags & EXTENDED_LENGTH != 0;
        let (length, rest) = rest.split_at_checked(if extended { 2 } else { 1 })?;
        let length = length.iter().fold(0, |length, byte| length << 8 | usize::from(*byte));
        let (value, rest) = rest.split_at_checked(length)?;
        found.push(Attribute { place: section.len() - left.len(), kind: *kind, value });
        left = rest;
    }
    left.is_empty().then_some(found)
}

/// The rows of a list of IPv6 routes, if it is whole.
fn rows(mut list: &[u8], with_id: bool) -> Option<Vec<u32>> {
    let mut rows = vec![];
    while !list.is_empty() {
        let (id, rest) = list.split_at_checked(if with_id { 4 } else { 0 })?;
        let (length, rest) = rest.split_first()?;
        let (octets, rest) = rest.split_at_checked(usize::from(*length).div_ceil(8))?;
        let mut words = [0; 20];
        words[4 - id.len()..4].copy_from_slice(id);
        words.get_mut(4..4 + octets.len())?.copy_from_slice(octets);
        rows.push(u32::from(*length) + if with_id { 256 } else { 0 });
        rows.extend(words.chunks_exact(4).map(|four| u32::from_be_bytes([four[0], four[1], four[2], four[3]])));
        list = rest;
    }
    Some(rows)
}

/// The index of a list that has more starts than one, and by it the list's last route.
fn index_requests(list: &[u8], settings: u8) -> Vec<Request> {
    let index = own(list, settings);
    if index.len() < 2 {
        return vec![];
    }
    let last = starts(list, settings).len() as u32 - 1;
    vec![build(settings, index.len(), list), ask(settings, list, &index, last)]
}

/// Types that are asked for in every section, whether they are there or not.
const ALWAYS: [u8; 4] = [0, ATTRIBUTE_MP_REACH, ATTRIBUTE_MP_UNREACH, 255];

impl Capture {
    fn from_line(line: &str) -> Result<Capture, String> {
        let mut capture = Capture {
            bytes: message(value(line, "hex")?).ok_or("\"hex\" has no hexadecimal digits in pairs")?,
            requests: vec![],
            add_path_ipv4: yes_or_no(line, "addpath4")?,
            add_path_ipv6: yes_or_no(line, "addpath6")?,
            as_width: match value(line, "aswidth")? {
                "2" => 2,
                "4" => 4,
                other => return Err(format!("\"aswidth\" is 2 or 4, and not {other:.40}")),
            },
        };
        capture.requests = capture.all_requests().ok_or("\"hex\" is no whole BGP message")?;
        Ok(capture)
    }

    fn width_setting(&self) -> u8 {
        if self.as_width == 4 {
            FOUR_BYTE_AS
        } else {
            0
        }
    }

    /// The settings of the session, guess off. The crate's reading has the guess on where Add-Path is off.
    pub fn settings(&self) -> u8 {
        self.width_setting() | if self.add_path_ipv4 { ADD_PATH } else { 0 }
    }

    /// Every request on this message, if it is whole.
    fn all_requests(&self) -> Option<Vec<Request>> {
        let (header, body) = self.bytes.split_at_checked(HEADER)?;
        let of_session = |asked: Request| Request { settings: asked.settings | self.settings(), ..asked };
        let mut requests = headers(&self.bytes).map(of_session).to_vec();
        if header[HEADER - 1] == UPDATE {
            requests.extend(self.update_requests(body)?);
        }
        Some(requests)
    }

    fn update_requests(&self, body: &[u8]) -> Option<Vec<Request>> {
        let mut requests = vec![];
        requests.push(on_bytes(10, self.settings(), (ROWS, ROWS), body));
        requests.push(on_bytes(10, self.width_setting() | GUESS, (ROWS, ROWS), body));
        requests.push(on_bytes(11, self.settings() | GUESS, (0, 0), body));
        requests.push(on_bytes(12, self.settings(), (0, 0), body));
        let (withdrawn, rest) = counted(body)?;
        let (section, announced) = counted(rest)?;
        let ids = self.settings() & ADD_PATH;
        requests.extend([withdrawn, announced].into_iter().flat_map(|list| index_requests(list, ids)));
        let attributes = attributes(section)?;
        for attribute in &attributes {
            requests.extend(self.attribute_requests(attribute)?);
        }
        requests.extend(self.section_requests(section, &attributes));
        if self.as_width == 2 {
            requests.extend(self.old_and_new(&attributes));
        }
        Some(requests)
    }

    /// A walk over a section, at its end and past it, and a search for every type of it and for some others.
    fn section_requests(&self, section: &[u8], attributes: &[Attribute]) -> Vec<Request> {
        let places = attributes.iter().map(|attribute| attribute.place).chain([section.len(), section.len() + 1]);
        let kinds: BTreeSet<u8> = attributes.iter().map(|attribute| attribute.kind).chain(ALWAYS).collect();
        let walks = places.map(|place| walk(section, place as u32));
        let searches = kinds.into_iter().map(|kind| search(section, kind));
        walks.chain(searches).map(|request| Request { settings: self.settings(), ..request }).collect()
    }

    /// The AGGREGATOR that stands, and the path of AS_PATH and AS4_PATH; an attribute that is absent is empty. Nothing is asked about an
    /// AGGREGATOR whose length is no argument.
    fn old_and_new(&self, attributes: &[Attribute]) -> Vec<Request> {
        let value =
            |kind| attributes.iter().find(|attribute| attribute.kind == kind).map_or(&[][..], |found| found.value);
        let paths = [ATTRIBUTE_AS_PATH, ATTRIBUTE_AS4_PATH].map(value);
        let aggregators = [ATTRIBUTE_AGGREGATOR, ATTRIBUTE_AS4_AGGREGATOR].map(value);
        if aggregators[0].len() > usize::from(u8::MAX) {
            return vec![];
        }
        let asked = [standing(aggregators), joined(paths, aggregators, (64, 1_024))];
        asked.map(|request| Request { settings: self.settings(), ..request }).to_vec()
    }

    fn attribute_requests(&self, attribute: &Attribute) -> Option<Vec<Request>> {
        let path = |width| {
            let both =
                |op| [width, width | STRICT].map(|settings| on_bytes(op, settings, (64, 1_024), attribute.value));
            [both(6), both(7)].concat()
        };
        Some(match attribute.kind {
            ATTRIBUTE_AS_PATH => path(self.width_setting()),
            ATTRIBUTE_AS4_PATH => path(FOUR_BYTE_AS),
            ATTRIBUTE_AGGREGATOR => vec![on_bytes(8, self.width_setting(), (0, 0), attribute.value)],
            ATTRIBUTE_AS4_AGGREGATOR => vec![on_bytes(8, FOUR_BYTE_AS, (0, 0), attribute.value)],
            ATTRIBUTE_MP_REACH => self.announcement_requests(attribute.value)?,
            ATTRIBUTE_MP_UNREACH => self.withdrawal_requests(attribute.value),
            _ => vec![],
        })
    }

    /// Add-Path where routes of IPv6 have ids.
    fn ipv6_setting(&self) -> u8 {
        if self.add_path_ipv6 {
            ADD_PATH
        } else {
            0
        }
    }

    /// The value of MP_REACH_NLRI as the session was and by the guess; of IPv6 unicast also its list, and its routes to be written back, which
    /// they are not with the marks of the guess until these are taken off.
    fn announcement_requests(&self, value: &[u8]) -> Option<Vec<Request>> {
        let mut requests = [self.ipv6_setting(), GUESS].map(|settings| announced(settings, ROWS, value)).concat();
        if value.starts_with(&FAMILIES) {
            let (next_hop, rest) = value.get(4..)?.split_at_checked(usize::from(value[3]))?;
            let list = rest.get(1..)?;
            requests.extend(self.list_requests(list));
            let write = |rows: &[u32]| write_announcement(self.ipv6_setting(), value.len(), next_hop, rows);
            requests.extend(self.row_requests(list, write));
        }
        Some(requests)
    }

    /// The value of MP_UNREACH_NLRI, likewise.
    fn withdrawal_requests(&self, value: &[u8]) -> Vec<Request> {
        let mut requests = [self.ipv6_setting(), GUESS].map(|settings| withdrawn(settings, ROWS, value)).concat();
        if let Some(list) = value.strip_prefix(&FAMILIES) {
            requests.extend(self.list_requests(list));
            let write = |rows: &[u32]| write_withdrawal(self.ipv6_setting(), value.len(), rows);
            requests.extend(self.row_requests(list, write));
        }
        requests
    }

    /// The rows of a list to write; and where they have ids, the same with marks to write and to take these off.
    fn row_requests(&self, list: &[u8], write: impl Fn(&[u32]) -> Request) -> Vec<Request> {
        let Some(rows) = rows(list, self.add_path_ipv6) else { return vec![] };
        let marked = marked(&rows);
        if marked == rows {
            return vec![write(&rows)];
        }
        vec![write(&rows), write(&marked), take_off(&marked)]
    }

    fn list_requests(&self, list: &[u8]) -> Vec<Request> {
        let settings: &[u8] = if self.add_path_ipv6 { &[ADD_PATH] } else { &[0, GUESS] };
        let read = settings.iter().map(|setting| on_bytes(2, IPV6 | setting, (ROWS, 0), list));
        read.chain(index_requests(list, IPV6 | self.ipv6_setting())).collect()
    }
}
