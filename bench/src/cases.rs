//! What is measured. A case is made only after every side answered each of its requests alike.

use crate::answers;
use crate::inputs::{self, Lengths};
use crate::library::{Ours, Plain};
use crate::sides::{Calls, Lending};
use compare::inputs::captures::Capture;
use compare::inputs::examples::{on_bytes, request, words};
use compare::rng::Rng;
use records::ending::say;
use records::{Request, ADD_PATH, EXTENDED, FOUR_BYTE_AS, GUESS, STRICT};
use std::io;

/// Small lists in a batch, so that no list is learnt by heart.
const SMALL_LISTS: usize = 256;

/// Paths of 64 KB in a batch, for the same reason: the counts of their segments are guessed by a processor.
const LARGE_PATHS: usize = 4;

/// Lists of 64 KB in a batch of which each is asked for one route, for the same reason.
const ASKED_LISTS: usize = 64;

/// What building an index, and asking for the last route, may take of counting the same list, of /24s and 64 KB.
const BUILD_OF_COUNT: f64 = 1.15;
const ASK_OF_COUNT: f64 = 0.03;

/// Calls in a batch of those that take a few nanoseconds, so that reading the clock does not count.
const TINY_CALLS: usize = 2_048;

/// What a case is, which says how much of the crate's time it may take.
#[derive(Clone, Copy)]
pub enum Kind {
    Read,
    ReadTen,
    Count,
    Path,
    Attributes,
    Write,
    /// The request names no share of the crate's time for it.
    Other,
    /// The crate has no call that does the same work.
    WithoutCrate,
}

impl Kind {
    pub fn of_crate(self) -> Option<f64> {
        match self {
            Kind::Read => Some(0.40),
            Kind::ReadTen => Some(0.20),
            Kind::Count => Some(0.15),
            Kind::Attributes => Some(0.10),
            Kind::Path | Kind::Write => Some(0.33),
            Kind::Other | Kind::WithoutCrate => None,
        }
    }
}

/// A list to measure: its name, how long its prefixes are, whether they have ids, and the settings to read it with.
type ListKind = (&'static str, Lengths, bool, u8);

pub struct Case {
    pub name: String,
    pub kind: Kind,
    pub calls: Calls,
}

/// The same work in calls of 64 KB and in ten times as many of 6.4 KB.
pub struct Growth {
    pub name: String,
    pub large: Calls,
    pub small: Calls,
}

/// What calls on some lists may take of others on the same lists.
pub struct Share {
    pub name: String,
    pub part: Calls,
    pub whole: Calls,
    pub most: f64,
}

pub struct Cases<'a> {
    wanted: &'a [&'a str],
    captures: &'a [Capture],
    pub cases: Vec<Case>,
    pub growths: Vec<Growth>,
    pub shares: Vec<Share>,
}

/// Compares the answers of all sides to a request; a difference is trouble, and ends the run. The crate is asked by a request of
/// its own, and is left out where it has no answer; it knows no marks, so that its rows are the model's without them. Whether it
/// had one.
pub fn compare(name: &str, asked: &Request, of_crate: &Request) -> io::Result<bool> {
    let ours = answers::answer::<Ours>(asked);
    let by_crate = crate_oracle::oracle::answer(of_crate);
    let alike = [
        ("plain C", answers::answer::<Plain>(asked) == ours),
        ("model", model::answer(asked) == ours),
        ("crate", by_crate.as_ref().is_none_or(|answer| *answer == model::answer_without_marks(asked))),
    ];
    for (other, is_alike) in alike {
        if !is_alike {
            let bytes: String = asked.parts[0].iter().take(80).map(|byte| format!("{byte:02X}")).collect();
            let (op, settings) = (asked.op, asked.settings);
            return Err(io::Error::other(format!(
                "{name}: ours and {other} differ on op {op} settings {settings} {bytes}"
            )));
        }
    }
    Ok(by_crate.is_some())
}

/// Compares a request to be timed. The crate has one reading without Add-Path, that with the guess: it is what is
/// timed, so it must come to the same here. Whether the crate answered.
fn compare_timed(name: &str, asked: &Request) -> io::Result<bool> {
    let compared_as = match asked.op {
        inputs::COUNT_MERGED => 21,
        inputs::COUNT_HOSTS => 11,
        op => op,
    };
    let asked = &Request { op: compared_as, ..asked.clone() };
    let list = matches!(asked.op, 2 | 3 | 10 | 11 | 22..=25) && !asked.has(ADD_PATH);
    let settings = asked.settings | if list { GUESS } else { 0 };
    compare(name, asked, &Request { settings, ..asked.clone() })
}

impl<'a> Cases<'a> {
    pub fn new(wanted: &'a [&'a str], captures: &'a [Capture]) -> io::Result<Cases<'a>> {
        let mut made = Cases { wanted, captures, cases: vec![], growths: vec![], shares: vec![] };
        made.lists()?;
        made.ten()?;
        made.host_lists()?;
        made.captured_lists()?;
        made.marks()?;
        made.indexes()?;
        made.asked_routes()?;
        made.index_shares()?;
        made.mp_values("MP_REACH_NLRI", 22)?;
        made.mp_values("MP_UNREACH_NLRI", 24)?;
        made.updates()?;
        made.attributes()?;
        made.paths()?;
        made.merged_paths()?;
        made.headers()?;
        made.other_writers()?;
        match made.count() {
            0 => Err(io::Error::other(format!("no case has a name with {}", wanted.join(" or ")))),
            _ => Ok(made),
        }
    }

    pub fn count(&self) -> usize {
        self.cases.len() + self.growths.len() + self.shares.len()
    }

    fn wants(&self, name: &str) -> bool {
        self.wanted.is_empty() || self.wanted.iter().any(|part| name.contains(part))
    }

    /// Adds a case of which every request is timed.
    fn add(&mut self, name: &str, kind: Kind, requests: &[Request]) -> io::Result<()> {
        self.add_of(name, kind, requests, requests)
    }

    /// Adds a case that is wanted, once all sides answered all requests alike that the timed ones stand for. Captured
    /// messages may have nothing for it.
    fn add_of(&mut self, name: &str, kind: Kind, all: &[Request], timed: &[Request]) -> io::Result<()> {
        if !self.wants(name) {
            return Ok(());
        }
        if timed.is_empty() {
            say(&crate::me(), format!("{name}: left out, since no captured message has any"));
            return Ok(());
        }
        for asked in all {
            if !compare_timed(name, asked)? && crate_must_answer(kind, asked) {
                return Err(io::Error::other(format!("{name}: the crate has no answer")));
            }
        }
        let often = often_enough(timed);
        // A store whose marks are taken off is each call's own, so that each has marks to take off.
        let lending = if often[0].op == 28 { Lending::Apart } else { Lending::Same };
        let calls = Calls::new(&often, lending).in_turns(turns(kind, &often));
        self.cases.push(Case { name: name.to_string(), kind, calls });
        Ok(())
    }

    fn add_growth(&mut self, name: &str, large: &[Request], small: &[Request]) -> io::Result<()> {
        let name = format!("growth: {name}");
        if self.wants(&name) {
            for asked in small.iter().chain(large) {
                compare_timed(&name, asked)?;
            }
            let [large, small] = [large, small].map(|requests| Calls::new(requests, Lending::Apart));
            self.growths.push(Growth { name, large, small });
        }
        Ok(())
    }

    fn add_share(&mut self, name: &str, part: &[Request], whole: &[Request], most: f64) -> io::Result<()> {
        let name = format!("share: {name}");
        if self.wants(&name) {
            for asked in part.iter().chain(whole) {
                compare_timed(&name, asked)?;
            }
            let part = Calls::new(part, Lending::Same).in_turns(turns(Kind::WithoutCrate, part));
            self.shares.push(Share { name, part, whole: Calls::new(whole, Lending::Same), most });
        }
        Ok(())
    }

    /// Reading, counting and maybe writing of lists or paths at both sizes, and their growth.
    fn sizes(&mut self, what: &str, read: Kind, write: bool, [large, small]: [Vec<Request>; 2]) -> io::Result<()> {
        let thing = if large[0].op == 2 { "list" } else { "path" };
        let mut verbs: Vec<(&str, Kind, fn(&Request) -> Request)> =
            vec![("read", read, Request::clone), ("count", Kind::Count, inputs::counting)];
        if write {
            verbs.push(("write", Kind::Write, inputs::write_back));
        }
        for (verb, kind, asked) in verbs {
            let [large, small] = [&large, &small].map(|reads| reads.iter().map(asked).collect::<Vec<_>>());
            self.add(&format!("{verb} {thing}: {what}, 64 KB"), kind, &large)?;
            self.add(&format!("{verb} {thing}: {what}, 6.4 KB"), kind, &small)?;
            self.add_growth(&format!("{verb} {thing}: {what}"), &large, &small)?;
        }
        Ok(())
    }

    fn lists(&mut self) -> io::Result<()> {
        let kinds: [ListKind; 11] = [
            ("/24s", Lengths::All24, false, 0),
            ("mixed lengths", Lengths::Table4, false, 0),
            ("lengths 1 to 32 alike", Lengths::Alike4, false, 0),
            ("IPv6", Lengths::Table6, false, 0),
            ("Add-Path /24s", Lengths::All24, true, ADD_PATH),
            ("Add-Path IPv6", Lengths::Table6, true, ADD_PATH),
            ("guess, /24s", Lengths::All24, false, GUESS),
            ("guess, /24s with ids", Lengths::All24, true, GUESS),
            ("guess, mixed lengths and defaults", Lengths::Defaults4, false, GUESS),
            ("guess, IPv6", Lengths::Table6, false, GUESS),
            ("guess, IPv6 with ids", Lengths::Table6, true, GUESS),
        ];
        for (seed, (what, lengths, with_id, list_settings)) in kinds.into_iter().enumerate() {
            let mut rng = Rng::new(seed as u64);
            let settings = inputs::settings(lengths, list_settings);
            let tenths: Vec<Vec<u8>> = (0..10).map(|_| lengths.tenth(&mut rng, with_id)).collect();
            let reads = both_sizes(&tenths, |list| inputs::read_rows(2, list, settings));
            self.sizes(what, Kind::Read, list_settings != GUESS, reads)?;
        }
        Ok(())
    }

    /// Lists of ten prefixes.
    fn ten(&mut self) -> io::Result<()> {
        let kinds: [ListKind; 7] = [
            ("/24s", Lengths::All24, false, 0),
            ("mixed lengths", Lengths::Table4, false, 0),
            ("IPv6", Lengths::Table6, false, 0),
            ("Add-Path mixed lengths", Lengths::Table4, true, ADD_PATH),
            ("Add-Path IPv6", Lengths::Table6, true, ADD_PATH),
            ("guess, mixed lengths", Lengths::Table4, false, GUESS),
            ("guess, mixed lengths with ids", Lengths::Table4, true, GUESS),
        ];
        for (seed, (what, lengths, with_id, list_settings)) in kinds.into_iter().enumerate() {
            let mut rng = Rng::new(100 + seed as u64);
            let settings = inputs::settings(lengths, list_settings);
            let lists = ten_lists(&mut rng, lengths, with_id);
            let reads: Vec<Request> = lists.iter().map(|list| inputs::read_rows(2, list, settings)).collect();
            self.add(&format!("read list: ten {what}"), Kind::ReadTen, &reads)?;
            let counts: Vec<Request> = reads.iter().map(inputs::counting).collect();
            self.add(&format!("count list: ten {what}"), Kind::Count, &counts)?;
            if list_settings != GUESS {
                self.add_writes(&format!("list: ten {what}"), &reads)?;
            }
        }
        Ok(())
    }

    /// Lists in which it cannot be guessed whether an item has a host bit.
    fn host_lists(&mut self) -> io::Result<()> {
        let mut rng = Rng::new(500);
        let tenths: Vec<Vec<u8>> = (0..10).map(|_| Lengths::Hosts4.tenth(&mut rng, false)).collect();
        let [large, _] = both_sizes(&tenths, |list| inputs::read_rows(2, list, 0));
        self.read_and_count("list: mixed lengths, one in eight with host bits, 64 KB", Kind::Read, &large)
    }

    fn captured_lists(&mut self) -> io::Result<()> {
        let reads = inputs::captured(self.captures, 2);
        self.read_and_count("list: IPv6 of the captures", Kind::Read, &reads)
    }

    /// The guess's marks taken off the rows of lists, for which the crate has no call.
    fn marks(&mut self) -> io::Result<()> {
        let mut rng = Rng::new(700);
        let clearing = |list: &[u8]| inputs::clearing(&inputs::read_rows(2, list, GUESS));
        let tenths: Vec<Vec<u8>> = (0..10).map(|_| Lengths::All24.tenth(&mut rng, true)).collect();
        let [large, _] = both_sizes(&tenths, clearing);
        self.add("clear marks: guess, /24s with ids, 64 KB", Kind::WithoutCrate, &large)?;
        let ten: Vec<Request> = ten_lists(&mut rng, Lengths::All24, true).iter().map(|list| clearing(list)).collect();
        self.add("clear marks: guess, ten /24s with ids", Kind::WithoutCrate, &ten)
    }

    /// The index of a list, for which the crate has no call.
    fn indexes(&mut self) -> io::Result<()> {
        let kinds: [ListKind; 5] = [
            ("/24s", Lengths::All24, false, 0),
            ("mixed lengths", Lengths::Table4, false, 0),
            ("lengths 1 to 32 alike", Lengths::Alike4, false, 0),
            ("IPv6", Lengths::Table6, false, 0),
            ("Add-Path /24s", Lengths::All24, true, ADD_PATH),
        ];
        for (seed, (what, lengths, with_id, list_settings)) in kinds.into_iter().enumerate() {
            let mut rng = Rng::new(800 + seed as u64);
            let settings = inputs::settings(lengths, list_settings);
            let tenths: Vec<Vec<u8>> = (0..10).map(|_| lengths.tenth(&mut rng, with_id)).collect();
            let [large, small] = both_sizes(&tenths, |list| inputs::indexing(list, settings));
            self.add(&format!("build index: {what}, 64 KB"), Kind::WithoutCrate, &large)?;
            if seed == 0 {
                self.add(&format!("build index: {what}, 6.4 KB"), Kind::WithoutCrate, &small)?;
            }
        }
        let ten = ten_lists(&mut Rng::new(810), Lengths::All24, false);
        let built: Vec<Request> = ten.iter().map(|list| inputs::indexing(list, 0)).collect();
        self.add("build index: ten /24s", Kind::WithoutCrate, &built)
    }

    /// A route by the index of its list: the last one of long lists, and any of short ones.
    fn asked_routes(&mut self) -> io::Result<()> {
        for (seed, what, lengths) in [(820, "/24s", Lengths::All24), (821, "mixed lengths", Lengths::Table4)] {
            let name = format!("route by index: the last of {what}, 64 KB");
            if self.wants(&name) {
                let mut rng = Rng::new(seed);
                let lists = (0..ASKED_LISTS).map(|_| lengths.whole(&mut rng));
                let asked: Vec<Request> = lists.map(|list| inputs::asking_last(&list, 0)).collect();
                self.add(&name, Kind::WithoutCrate, &asked)?;
            }
        }
        let mut rng = Rng::new(830);
        let ten = ten_lists(&mut rng, Lengths::All24, false);
        let asked: Vec<Request> =
            ten.iter().map(|list| inputs::asking(&inputs::indexing(list, 0), rng.under(10))).collect();
        self.add("route by index: one of ten /24s", Kind::WithoutCrate, &asked)
    }

    /// Building an index and asking for the last route, against counting the same lists.
    fn index_shares(&mut self) -> io::Result<()> {
        let list = Lengths::All24.whole(&mut Rng::new(840));
        let count = [on_bytes(3, 0, (0, 0), &list)];
        let (build, ask) = (inputs::indexing(&list, 0), inputs::asking_last(&list, 0));
        self.add_share("build index of counting: /24s, 64 KB", &[build], &count, BUILD_OF_COUNT)?;
        self.add_share("last route by index of counting: /24s, 64 KB", &[ask], &count, ASK_OF_COUNT)
    }

    /// The values of an attribute, captured ones and some of the greatest size.
    fn mp_values(&mut self, attribute: &str, op: u8) -> io::Result<()> {
        let captured = inputs::captured(self.captures, op);
        self.read_and_count(&format!("{attribute}: captures"), Kind::Read, &captured)?;
        self.add_writes(&format!("{attribute}: captures"), &captured)?;
        let kinds = [
            ("64 KB", false, 0),
            ("Add-Path, 64 KB", true, ADD_PATH),
            ("guess, 64 KB", false, GUESS),
            ("guess, with ids, 64 KB", true, GUESS),
        ];
        for (seed, (what, with_id, settings)) in kinds.into_iter().enumerate() {
            let mut rng = Rng::new(600 + 10 * u64::from(op) + seed as u64);
            let reads = [inputs::read_rows(op, &inputs::large_value(&mut rng, op, with_id), settings)];
            self.read_and_count(&format!("{attribute}: {what}"), Kind::Read, &reads)?;
            if settings != GUESS {
                self.add_writes(&format!("{attribute}: {what}"), &reads)?;
            }
        }
        Ok(())
    }

    /// Adds a case that writes what these requests read.
    fn add_writes(&mut self, what: &str, reads: &[Request]) -> io::Result<()> {
        let writes: Vec<Request> = reads.iter().map(inputs::write_back).collect();
        self.add(&format!("write {what}"), Kind::Write, &writes)
    }

    /// Adds a case for the reading requests and one for their counting.
    fn read_and_count(&mut self, what: &str, kind: Kind, reads: &[Request]) -> io::Result<()> {
        self.add(&format!("read {what}"), kind, reads)?;
        let counts: Vec<Request> = reads.iter().map(inputs::counting).collect();
        self.add(&format!("count {what}"), Kind::Count, &counts)
    }

    fn updates(&mut self) -> io::Result<()> {
        let whole = inputs::captured(self.captures, 10);
        let withdrawals: Vec<Request> = whole.iter().map(inputs::as_withdrawal).collect();
        let hosts: Vec<Request> = whole.iter().map(inputs::counting_hosts).collect();
        let mut rng = Rng::new(200);
        let ten = ten_lists(&mut rng, Lengths::Table4, false);
        let body = |body: Vec<u8>| on_bytes(10, GUESS | FOUR_BYTE_AS, (60, 60), &body);
        let withdrawn: Vec<Request> = ten.iter().map(|list| body(inputs::withdrawal(list))).collect();
        let announced: Vec<Request> = ten.iter().map(|list| body(inputs::announcement(&mut rng, list))).collect();
        let sets = [
            ("UPDATE: captures", Kind::Read, whole),
            ("UPDATE: captures as withdrawals", Kind::Read, withdrawals),
            ("UPDATE: ten withdrawn", Kind::ReadTen, withdrawn),
            ("UPDATE: ten announced", Kind::ReadTen, announced),
        ];
        for (what, kind, reads) in sets {
            self.read_and_count(what, kind, &reads)?;
            let writes: Vec<Request> = reads.iter().filter(|read| is_good(read)).map(inputs::write_back).collect();
            let writes: Vec<Request> = writes.into_iter().filter(crate_writes_so).collect();
            self.add(&format!("write {what}"), Kind::Write, &writes)?;
        }
        self.add("count UPDATE hosts: captures", Kind::Count, &hosts)
    }

    /// A walk is timed as a whole, from its first place on. The types that are searched stand in most of the sections, in
    /// some, and in none.
    fn attributes(&mut self) -> io::Result<()> {
        let walks: Vec<Vec<Request>> = inputs::searches(self.captures, 0).iter().map(inputs::walk).collect();
        let starts: Vec<Request> = walks.iter().map(|walk| walk[0].clone()).collect();
        self.add_of("walk attributes: captures", Kind::Attributes, &walks.concat(), &starts)?;
        for (what, kind) in [("AS_PATH", 2), ("MP_REACH_NLRI", 14), ("EXTENDED COMMUNITIES, absent", 16)] {
            let searches = inputs::searches(self.captures, kind);
            self.add(&format!("find attribute: captures, {what}"), Kind::Attributes, &searches)?;
        }
        Ok(())
    }

    fn paths(&mut self) -> io::Result<()> {
        let reads = inputs::captured(self.captures, 6);
        self.read_and_count("path: captures", Kind::Path, &reads)?;
        self.add_writes("path: captures", &reads)?;
        self.strict_paths("captures", &reads)?;
        for width in [4, 2] {
            let mut rng = Rng::new(300 + width as u64);
            let settings = inputs::width_setting(width);
            let tenths: Vec<Vec<u8>> = (0..10 * LARGE_PATHS).map(|_| inputs::path_tenth(&mut rng, width)).collect();
            let reads = both_sizes(&tenths, |value| inputs::read_path(value, settings));
            let large = reads[0].clone();
            self.sizes(&format!("{width} bytes"), Kind::Path, true, reads)?;
            self.strict_paths(&format!("{width} bytes, 64 KB"), &large)?;
        }
        let aggregators = inputs::captured(self.captures, 8);
        let lent: Vec<Request> = aggregators.iter().map(|read| Request { room_a: 2, ..read.clone() }).collect();
        self.add("read AGGREGATOR: captures", Kind::Other, &lent)
    }

    /// The same paths by the strict rule, which the crate has no call for.
    fn strict_paths(&mut self, what: &str, reads: &[Request]) -> io::Result<()> {
        let reads: Vec<Request> = reads.iter().map(inputs::strict).collect();
        let verbs: [(&str, fn(&Request) -> Request); 3] =
            [("read", Request::clone), ("count", inputs::counting), ("write", inputs::write_back)];
        for (verb, asked) in verbs {
            let requests: Vec<Request> = reads.iter().map(asked).collect();
            self.add(&format!("{verb} path: {what}, strict"), Kind::WithoutCrate, &requests)?;
        }
        Ok(())
    }

    /// AS_PATH and AS4_PATH merged, and the AGGREGATOR that stands beside them.
    fn merged_paths(&mut self) -> io::Result<()> {
        let mut rng = Rng::new(400);
        let made: Vec<Request> = (0..SMALL_LISTS).map(|_| inputs::made_merge(&mut rng)).collect();
        let large: Vec<Request> = (0..LARGE_PATHS).map(|_| inputs::large_merge(&mut rng)).collect();
        let captured = inputs::captured_merges(self.captures);
        for (what, merges) in [("captures", &captured), ("made", &made), ("64 KB", &large)] {
            self.add(&format!("merge AS_PATH: {what}"), Kind::Path, merges)?;
            let counts: Vec<Request> = merges.iter().map(inputs::counting).collect();
            self.add(&format!("count merged AS_PATH: {what}"), Kind::Count, &counts)?;
        }
        for (what, merges) in [("captures", &captured), ("made", &made)] {
            let asked: Vec<Request> = merges.iter().map(inputs::standing).collect();
            self.add(&format!("standing AGGREGATOR: {what}"), Kind::WithoutCrate, &asked)?;
        }
        Ok(())
    }

    /// The crate's reader of a message reads its body too. A KEEPALIVE has none to read, whatever its length: so the
    /// frames of the captured messages, as KEEPALIVEs, are what the crate can be asked.
    fn headers(&mut self) -> io::Result<()> {
        let messages: Vec<&[u8]> = self.captures.iter().map(|capture| capture.bytes.as_slice()).collect();
        let reads = |settings| messages.iter().map(|message| on_bytes(9, settings, (0, 0), message)).collect();
        let (crate_reading, strict): (Vec<Request>, Vec<Request>) = (reads(0), reads(STRICT));
        let mut keepalives = crate_reading.clone();
        keepalives.retain(|read| read.parts[0].len() <= 4_096);
        keepalives.iter_mut().for_each(|read| read.parts[0][18] = 4);
        self.add("header: captures as KEEPALIVEs", Kind::Other, &keepalives)?;
        self.add("header: captures", Kind::WithoutCrate, &crate_reading)?;
        self.add("header: captures, strict", Kind::WithoutCrate, &strict)?;
        self.add("header: captures, strict, RFC 8654", Kind::WithoutCrate, &reads(STRICT | EXTENDED))?;
        self.add("header: long, strict, RFC 8654", Kind::WithoutCrate, &inputs::long_messages())
    }

    fn other_writers(&mut self) -> io::Result<()> {
        let aggregators: Vec<Request> = inputs::captured(self.captures, 8).iter().map(write_aggregator).collect();
        self.add("write AGGREGATOR: captures", Kind::Write, &aggregators)?;
        let keepalive = request(16, 0, (19, 0), Default::default(), 4);
        self.add("write message: KEEPALIVE", Kind::Write, &vec![keepalive; SMALL_LISTS])?;
        let notifications: Vec<Request> = self.captures.iter().map(notification).collect();
        self.add("write message: NOTIFICATIONs as long as the captures", Kind::Write, &notifications)
    }
}

/// The request that writes the AGGREGATOR that this one reads.
fn write_aggregator(read: &Request) -> Request {
    let found = model::answer(read).numbers;
    let settings = inputs::width_setting(read.parts[0].len() - 4);
    let value = words(&[found[0] as u32, found[1] as u32]);
    request(15, settings, (8, 0), [value, vec![], vec![]], 0)
}

/// Whether the crate has to answer as the others do. It merges some paths by another rule, and is not asked for those;
/// its time is still that of the same work.
fn crate_must_answer(kind: Kind, asked: &Request) -> bool {
    !matches!(kind, Kind::WithoutCrate) && !matches!(asked.op, 21 | inputs::COUNT_MERGED)
}

/// Requests of tiny calls again and again.
fn often_enough(requests: &[Request]) -> Vec<Request> {
    let bytes: usize = requests.iter().flat_map(|asked| &asked.parts).map(Vec::len).sum();
    let tiny_op = matches!(requests[0].op, 7..=9 | 15 | 16 | 18..=27 | 30 | inputs::COUNT_MERGED);
    let is_tiny = tiny_op && bytes / requests.len() < 1_000;
    let times = if is_tiny { TINY_CALLS.div_ceil(requests.len()) } else { 1 };
    requests.iter().cycle().take(times * requests.len()).cloned().collect()
}

/// How often a batch goes through its calls. A header's call is tiny however long the message is, and so is one for a route by
/// an index; long ones are not copied.
fn turns(kind: Kind, requests: &[Request]) -> usize {
    match (requests[0].op, kind) {
        (9 | 30, Kind::WithoutCrate) => TINY_CALLS.div_ceil(requests.len()),
        _ => 1,
    }
}

/// Requests to read ten tenths at a time as a whole, and each alone.
fn both_sizes(tenths: &[Vec<u8>], read: impl Fn(&[u8]) -> Request) -> [Vec<Request>; 2] {
    let large = tenths.chunks(10).map(|ten| read(&ten.concat())).collect();
    [large, tenths.iter().map(|tenth| read(tenth)).collect()]
}

fn ten_lists(rng: &mut Rng, lengths: Lengths, with_id: bool) -> Vec<Vec<u8>> {
    (0..SMALL_LISTS).map(|_| (0..10).flat_map(|_| lengths.item(rng, with_id)).collect()).collect()
}

/// Whether an UPDATE's two lists are good.
fn is_good(read: &Request) -> bool {
    let answer = model::answer(read);
    answer.refusal == 0 && answer.numbers[1] == 0 && answer.numbers[3] == 0
}

fn crate_writes_so(write: &Request) -> bool {
    crate_oracle::oracle::answer(write).is_some()
}

/// A NOTIFICATION (cease) whose message is as long as the captured one.
fn notification(capture: &Capture) -> Request {
    let data = capture.bytes.len().saturating_sub(21);
    let body = [&[6, 2], capture.bytes[..data].as_ref()].concat();
    let total = 19 + body.len();
    request(16, 0, (total, 0), [body, vec![], vec![]], 3)
}
