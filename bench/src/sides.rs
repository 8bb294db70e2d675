//! The sides of a case as batches to time: the same calls by a library that is lent its stores, and by the crate.
//! Not timed: making the requests, and the handles (`Bytes`) that the crate's readers take and drop. Timed: the calls,
//! and giving back what the crate's calls hand out.

use crate::answers::{add_path, aggregators, edition, fields, four_bytes, ipv6, list_settings, number};
use crate::inputs::{COUNT_HOSTS, COUNT_MERGED};
use crate::library::Library;
use crate::measure::{timed, Side};
use bytes::{Bytes, BytesMut};
use crate_oracle::error::ParserError;
use crate_oracle::models::{Afi, AsPath, Asn, AsnLength, BgpMessage, BgpUpdateMessage, NetworkPrefix, Nlri};
use crate_oracle::oracle::private::{Inside, PrivateCalls};
use crate_oracle::oracle::{messages, mp_nlri, paths, routes};
use crate_oracle::parser::bgp::attributes::parse_attributes;
use crate_oracle::parser::bgp::messages::{parse_bgp_message, parse_bgp_update_message};
use crate_oracle::parser::utils::{encode_nlri_prefixes, parse_nlri_list};
use records::{Request, ADD_PATH, EXTENDED, FOUR_BYTE_AS, IPV6, STRICT};
use std::cell::RefCell;
use std::hint::black_box;
use std::net::{IpAddr, Ipv4Addr};
use std::ops::Range;
use std::rc::Rc;

/// A request as the calls take it, and its own part of each store.
pub struct Call {
    request: Request,
    words: [Vec<u32>; 3],
    ipv6: u8,
    settings: u8,
    add_path: u8,
    four_bytes: u8,
    edition: u8,
    aggregators: [Vec<u8>; 2],
    index: Vec<u16>,
    number: usize,
    first: Range<usize>,
    second: Range<usize>,
}

impl Call {
    fn new(request: &Request, first: usize, second: usize) -> Call {
        Call {
            words: [0, 1, 2].map(|part| request.numbers(part)),
            ipv6: ipv6(request),
            settings: list_settings(request),
            add_path: add_path(request),
            four_bytes: four_bytes(request),
            edition: edition(request),
            aggregators: if merges(request.op) { aggregators(request).map(<[u8]>::to_vec) } else { Default::default() },
            index: if request.op == 30 { request.places(1) } else { vec![] },
            number: if request.op == 30 { number(request) } else { 0 },
            first: first..first + request.room_a,
            second: second..second + request.room_b,
            request: request.clone(),
        }
    }

    fn s(&self) -> &[u8] {
        &self.request.parts[0]
    }
}

fn merges(op: u8) -> bool {
    matches!(op, 21 | COUNT_MERGED)
}

/// What is lent to a library, the same places to both.
struct Stores {
    first: Vec<u32>,
    second: Vec<u32>,
    output: Vec<u8>,
    places: Vec<u16>,
}

impl Stores {
    fn two(&mut self, call: &Call) -> (&mut [u32], &mut [u32]) {
        (&mut self.first[call.first.clone()], &mut self.second[call.second.clone()])
    }

    fn output(&mut self, call: &Call) -> &mut [u8] {
        &mut self.output[call.first.clone()]
    }

    fn places(&mut self, call: &Call) -> &mut [u16] {
        &mut self.places[call.first.clone()]
    }
}

/// The calls of a case, and how often a batch of a library goes through them.
#[derive(Clone)]
pub struct Calls {
    calls: Rc<Vec<Call>>,
    stores: Rc<RefCell<Stores>>,
    turns: usize,
}

/// Whether each call has its own part of the stores, or all the same.
#[derive(Clone, Copy, PartialEq)]
pub enum Lending {
    Same,
    Apart,
}

impl Calls {
    pub fn new(requests: &[Request], lending: Lending) -> Calls {
        let (mut first, mut second) = (0, 0);
        let mut calls = vec![];
        for request in requests {
            calls.push(Call::new(request, first, second));
            if lending == Lending::Apart {
                first += request.room_a;
                second += request.room_b;
            }
        }
        let end = |range: fn(&Call) -> usize| calls.iter().map(range).max().expect("a call");
        let (first, second) = (end(|call| call.first.end), end(|call| call.second.end));
        let (output, places) = (vec![1; first], vec![1; first]);
        let stores = Stores { first: vec![1; first], second: vec![1; second], output, places };
        Calls { calls: Rc::new(calls), stores: Rc::new(RefCell::new(stores)), turns: 1 }
    }

    /// The same calls, each made so often in a batch on the same bytes.
    pub fn in_turns(self, turns: usize) -> Calls {
        Calls { turns, ..self }
    }

    /// The calls of a batch.
    pub fn count(&self) -> usize {
        self.turns * self.calls.len()
    }

    fn op(&self) -> u8 {
        self.calls[0].request.op
    }

    /// A batch: the call on each request in turn, as often as there are turns.
    fn batch(&self, call: impl Fn(&Call, &mut Stores) -> u64 + 'static) -> Side {
        let own = self.clone();
        Box::new(move || {
            let stores = &mut *own.stores.borrow_mut();
            timed(|| {
                for _ in 0..own.turns {
                    for each in own.calls.iter() {
                        black_box(call(black_box(each), stores));
                    }
                }
            })
        })
    }

    /// The side of a library.
    pub fn library<L: Library>(&self) -> Side {
        match self.op() {
            2 | 3 => self.lists::<L>(),
            6..=8 => self.values::<L>(),
            9 => self.headers::<L>(),
            10 | 11 | COUNT_HOSTS => self.updates::<L>(),
            18 | 19 => self.attributes::<L>(),
            20 | 21 | COUNT_MERGED => self.side_by_side::<L>(),
            22..=25 => self.mp_values::<L>(),
            28 => self.clearing::<L>(),
            29 | 30 => self.indexes::<L>(),
            _ => self.writers::<L>(),
        }
    }

    fn lists<L: Library>(&self) -> Side {
        if self.op() == 2 {
            self.batch(|call, to| L::parse_nlri_list(call.s(), call.ipv6, call.settings, to.two(call).0))
        } else {
            self.batch(|call, _| L::count_nlri_list(call.s(), call.ipv6, call.settings))
        }
    }

    fn values<L: Library>(&self) -> Side {
        match (self.op(), self.has(STRICT)) {
            (6, false) => self.batch(|call, to| {
                let (pairs, numbers) = to.two(call);
                L::parse_as_path(call.s(), call.four_bytes, pairs, numbers)
            }),
            (6, true) => self.batch(|call, to| {
                let (pairs, numbers) = to.two(call);
                L::parse_as_path_strict(call.s(), call.four_bytes, pairs, numbers)
            }),
            (7, false) => self.batch(|call, _| L::count_as_path(call.s(), call.four_bytes)),
            (7, true) => self.batch(|call, _| L::count_as_path_strict(call.s(), call.four_bytes)),
            _ => self.batch(|call, to| L::parse_aggregator(call.s(), call.four_bytes, to.two(call).0)),
        }
    }

    fn headers<L: Library>(&self) -> Side {
        match (self.has(STRICT), self.has(EXTENDED)) {
            (false, _) => self.batch(|call, _| L::parse_bgp_message(call.s())),
            (true, false) => self.batch(|call, _| L::parse_bgp_message_strict(call.s())),
            (true, true) => self.batch(|call, _| L::parse_bgp_message_by_edition(call.s(), call.edition)),
        }
    }

    fn updates<L: Library>(&self) -> Side {
        match self.op() {
            10 => self.batch(|call, to| {
                let (withdrawn, announced) = to.two(call);
                L::parse_bgp_update_message(call.s(), call.settings, withdrawn, announced)
            }),
            11 => self.batch(|call, _| L::count_bgp_update_message(call.s(), call.settings)),
            _ => self.batch(|call, _| L::count_update_hosts(call.s(), call.settings)),
        }
    }

    fn attributes<L: Library>(&self) -> Side {
        if self.op() == 18 {
            self.batch(|call, _| walk::<L>(call.s()))
        } else {
            self.batch(|call, _| L::find_attribute(call.s(), call.request.argument))
        }
    }

    /// The calls on old and new AS numbers side by side.
    fn side_by_side<L: Library>(&self) -> Side {
        match self.op() {
            20 => self.batch(|call, _| L::standing_aggregator(call.s(), &call.request.parts[1])),
            21 => self.batch(|call, to| {
                let ([as_path, as4_path, _], [aggregator, as4_aggregator]) = (&call.request.parts, &call.aggregators);
                let (pairs, numbers) = to.two(call);
                L::merge_as_path(as_path, as4_path, aggregator, as4_aggregator, pairs, numbers)
            }),
            _ => self.batch(|call, _| {
                let ([as_path, as4_path, _], [aggregator, as4_aggregator]) = (&call.request.parts, &call.aggregators);
                L::count_merged_as_path(as_path, as4_path, aggregator, as4_aggregator)
            }),
        }
    }

    /// Announcements and withdrawals.
    fn mp_values<L: Library>(&self) -> Side {
        match self.op() {
            22 => self.batch(|call, to| L::parse_mp_reach_nlri(call.s(), call.settings, to.two(call).0)),
            23 => self.batch(|call, _| L::count_mp_reach_nlri(call.s(), call.settings)),
            24 => self.batch(|call, to| L::parse_mp_unreach_nlri(call.s(), call.settings, to.two(call).0)),
            _ => self.batch(|call, _| L::count_mp_unreach_nlri(call.s(), call.settings)),
        }
    }

    /// Indexes built, and routes by them.
    fn indexes<L: Library>(&self) -> Side {
        if self.op() == 29 {
            self.batch(|call, to| L::build_index(call.s(), call.ipv6, call.add_path, to.places(call)))
        } else {
            self.batch(|call, to| {
                L::route_at(call.s(), &call.index, call.number, call.ipv6, call.add_path, to.two(call).0)
            })
        }
    }

    /// Marks taken off stores, which have them again before the clock starts.
    fn clearing<L: Library>(&self) -> Side {
        let own = self.clone();
        Box::new(move || {
            let stores = &mut *own.stores.borrow_mut();
            for each in own.calls.iter() {
                stores.two(each).0.copy_from_slice(&each.words[0]);
            }
            timed(|| {
                for each in own.calls.iter() {
                    black_box(L::clear_guessed(black_box(stores.two(each).0)));
                }
            })
        })
    }

    fn writers<L: Library>(&self) -> Side {
        match self.op() {
            13 => self
                .batch(|call, to| L::encode_nlri_prefixes(&call.words[0], call.ipv6, call.add_path, to.output(call))),
            14 if self.has(STRICT) => self.batch(|call, to| {
                L::encode_as_path_strict(&call.words[0], &call.words[1], call.four_bytes, to.output(call))
            }),
            14 => self
                .batch(|call, to| L::encode_as_path(&call.words[0], &call.words[1], call.four_bytes, to.output(call))),
            15 => self.batch(|call, to| {
                L::encode_aggregator(call.words[0][0], call.words[0][1], call.four_bytes, to.output(call))
            }),
            16 => self.batch(|call, to| L::encode_bgp_message(call.request.argument, call.s(), to.output(call))),
            17 => self.batch(|call, to| {
                let [withdrawn, _, announced] = &call.words;
                let attributes = &call.request.parts[1];
                L::encode_bgp_update_message(withdrawn, attributes, announced, call.add_path, to.output(call))
            }),
            26 => {
                self.batch(|call, to| L::encode_mp_reach_nlri(call.s(), &call.words[1], call.add_path, to.output(call)))
            }
            27 => self.batch(|call, to| L::encode_mp_unreach_nlri(&call.words[0], call.add_path, to.output(call))),
            op => panic!("no writer for op {op}"),
        }
    }

    /// Whether the calls have a setting: all or none of them.
    fn has(&self, setting: u8) -> bool {
        self.calls[0].request.has(setting)
    }

    /// The side of the crate.
    pub fn by_crate(&self) -> Side {
        assert_eq!(self.turns, 1, "the crate's batch goes through its calls once");
        let afi = family(&self.calls[0].request);
        match self.op() {
            2 | 3 => self.owning(move |bytes, call| parse_nlri_list(bytes, call.has(ADD_PATH), &afi)),
            6 | 7 => self.owning(|bytes, call| Inside::parse_as_path(bytes, &width(call))),
            8 => self.owning(|bytes, call| Inside::parse_aggregator(bytes, &width(call))),
            9 => self.owning(|mut bytes, call| parse_bgp_message(&mut bytes, call.has(ADD_PATH), &width(call))),
            10 | 11 | COUNT_HOSTS => {
                self.owning(|bytes, call| parse_bgp_update_message(bytes, call.has(ADD_PATH), &width(call)))
            }
            18 | 19 => {
                self.owning(|bytes, call| parse_attributes(bytes, &width(call), call.has(ADD_PATH), None, None, None))
            }
            21 | COUNT_MERGED => self.owning_of(both_paths, |paths, _| merged_by_crate(paths)),
            22..=25 => self.owning(|bytes, call| mp_nlri::parse(bytes, call.op <= 23, call.has(ADD_PATH))),
            _ => self.crate_writers(),
        }
    }

    /// A batch of a reader of the crate, which owns the handle of its bytes.
    fn owning<T>(&self, call: impl Fn(Bytes, &Request) -> T + 'static) -> Side {
        self.owning_of(|request| Bytes::from(request.parts[0].clone()), call)
    }

    /// The same of a reader that owns these handles. They are made before the clock starts.
    fn owning_of<H: Clone + 'static, T>(
        &self,
        handles: impl Fn(&Request) -> H,
        call: impl Fn(H, &Request) -> T + 'static,
    ) -> Side {
        let own = self.clone();
        let given: Vec<H> = own.calls.iter().map(|call| handles(&call.request)).collect();
        let mut handles = Vec::with_capacity(given.len());
        Box::new(move || {
            handles.extend(given.iter().cloned());
            timed(|| {
                for (bytes, each) in handles.drain(..).zip(own.calls.iter()) {
                    drop(black_box(call(black_box(bytes), &each.request)));
                }
            })
        })
    }

    fn crate_writers(&self) -> Side {
        match self.op() {
            13 => writing(self.values_of(prefixes), |prefixes, _| encode_nlri_prefixes(prefixes)),
            14 => writing(self.values_of(path), |path, width| {
                let mut output = BytesMut::new();
                Inside::encode_as_path(path, width, &mut output).map(|()| output)
            }),
            15 => writing(self.values_of(aggregator), |(asn, address), width| {
                Inside::encode_aggregator(asn, address, width)
            }),
            16 => writing(self.values_of(message), |message, width| message.encode(width)),
            17 => writing(self.values_of(update), |update, width| update.encode(width)),
            op => writing(self.values_of(nlri), move |(nlri, add_path), _| {
                let mut output = BytesMut::new();
                Inside::encode_nlri(nlri, op == 26, *add_path, &mut output).map(|()| output)
            }),
        }
    }

    /// Each request's value as the crate has it, with the width of its AS numbers.
    fn values_of<T>(&self, value: impl Fn(&Call) -> T) -> Vec<(T, AsnLength)> {
        self.calls.iter().map(|call| (value(call), width(&call.request))).collect()
    }
}

/// Visits each attribute of a section, as its callers do: the next one stands where the value before it ends.
fn walk<L: Library>(section: &[u8]) -> u64 {
    let (mut place, mut visited) = (0, 0);
    loop {
        let [start, length, ..] = fields(L::attribute_at(section, place));
        if start == 0 {
            return visited;
        }
        place = (start + length) as usize;
        visited += 1;
    }
}

/// The handles of AS_PATH and AS4_PATH.
fn both_paths(request: &Request) -> [Bytes; 2] {
    [0, 1].map(|part| Bytes::from(request.parts[part].clone()))
}

/// What the crate makes of AS_PATH and AS4_PATH, once it has read both.
fn merged_by_crate([as_path, as4_path]: [Bytes; 2]) -> Result<AsPath, ParserError> {
    let old = Inside::parse_as_path(as_path, &AsnLength::Bits16)?;
    let new = Inside::parse_as_path(as4_path, &AsnLength::Bits32)?;
    Ok(AsPath::merge_aspath_as4path(&old, &new))
}

/// A batch of a writer of the crate.
fn writing<T: 'static, R>(values: Vec<(T, AsnLength)>, call: impl Fn(&T, AsnLength) -> R + 'static) -> Side {
    Box::new(move || {
        timed(|| {
            for (value, width) in &values {
                drop(black_box(call(black_box(value), *width)));
            }
        })
    })
}

fn width(request: &Request) -> AsnLength {
    if request.has(FOUR_BYTE_AS) {
        AsnLength::Bits32
    } else {
        AsnLength::Bits16
    }
}

fn family(request: &Request) -> Afi {
    if request.has(IPV6) {
        Afi::Ipv6
    } else {
        Afi::Ipv4
    }
}

fn prefixes(call: &Call) -> Vec<NetworkPrefix> {
    let request = &call.request;
    routes::prefixes(&call.words[0], request.has(ADD_PATH), family(request)).expect("writable rows")
}

/// The routes of an announcement or a withdrawal to write, and whether they have ids.
fn nlri(call: &Call) -> (Nlri, bool) {
    let (is_reach, add_path) = (call.request.op == 26, call.request.has(ADD_PATH));
    let rows = &call.words[usize::from(is_reach)];
    let prefixes = routes::prefixes(rows, add_path, Afi::Ipv6).expect("writable rows");
    let read = || Inside::parse_mp_next_hop(Bytes::from(call.request.parts[0].clone())).expect("a next hop");
    (mp_nlri::of_ipv6(if is_reach { read() } else { None }, prefixes), add_path)
}

fn path(call: &Call) -> AsPath {
    paths::path(&call.words[0], &call.words[1]).expect("a writable path")
}

fn aggregator(call: &Call) -> (Asn, IpAddr) {
    (Asn::new_32bit(call.words[0][0]), IpAddr::V4(Ipv4Addr::from(call.words[0][1])))
}

fn message(call: &Call) -> BgpMessage {
    messages::message(call.request.argument, call.s(), &call.request).expect("a body that the crate writes so")
}

fn update(call: &Call) -> BgpUpdateMessage {
    messages::update_to_write(&call.request).expect("an UPDATE that the crate writes so")
}
