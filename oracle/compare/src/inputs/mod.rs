//! The inputs: examples of document 01, every least length, limit and order of two checks, every host bit, mark and start of an index,
//! captured messages, all short inputs, random ones around every boundary, damaged copies of good ones, and a few of the largest sizes.

pub mod as4;
pub mod as4_pairs;
pub mod attributes;
pub mod captures;
pub mod checks;
pub mod examples;
pub mod exhaustive;
pub mod hosts;
pub mod index;
pub mod limits;
pub mod marks;
pub mod mp_nlri;
pub mod pieces;
pub mod random;

use crate::rng::Rng;
use captures::Capture;
use records::Request;

/// Document 01's examples, and the numbers and orders of checks of it and of the requests: these stand in the sample too.
pub fn numbers() -> Vec<Request> {
    let checks =
        [checks::all(), attributes::all(), as4::all(), hosts::all(), mp_nlri::all(), marks::all(), index::all()];
    [examples::all(), checks.concat(), limits::all()].concat()
}

/// An endless source of requests, the same for the same seed and captures.
pub struct Inputs {
    rng: Rng,
    first: std::vec::IntoIter<Request>,
    short: exhaustive::Short,
    captures: Vec<Capture>,
}

impl Inputs {
    pub fn new(seed: u64, captures: Vec<Capture>) -> Inputs {
        let mut first = numbers();
        first.extend(captures.iter().flat_map(|capture| capture.requests.clone()));
        Inputs { rng: Rng::new(seed), first: first.into_iter(), short: exhaustive::Short::new(), captures }
    }

    pub fn next(&mut self) -> Request {
        if let Some(request) = self.first.next() {
            return request;
        }
        match self.rng.under(16) {
            0..=3 => self.short.next().unwrap_or_else(|| random::request(&mut self.rng)),
            4 if !self.captures.is_empty() => self.damaged_capture(),
            _ => random::request(&mut self.rng),
        }
    }

    /// A request on a captured message, its bytes damaged; rows that are lent stay whole numbers.
    fn damaged_capture(&mut self) -> Request {
        let at = self.rng.under(self.captures.len());
        let requests = &self.captures[at].requests;
        let mut request = requests[self.rng.under(requests.len())].clone();
        let part = &mut request.parts[0];
        pieces::damage(&mut self.rng, part);
        if matches!(request.op, 27 | 28) {
            part.truncate(part.len() / 4 * 4);
        }
        request
    }
}
