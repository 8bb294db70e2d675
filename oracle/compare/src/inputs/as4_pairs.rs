//! Random AS_PATHs with AS4_PATHs that belong to them: a path of real numbers, what a router of two-byte numbers shows of it, and the
//! part of it from some number on.

use super::as4::bytes;
use crate::rng::Rng;

/// The number that stands for one of four bytes.
pub const AS_TRANS: u16 = 23_456;

const SET: u8 = 1;
const SEQUENCE: u8 = 2;

type Segment = (u8, Vec<u32>);

/// Both paths as bytes, and about how many segments and numbers the path of them has.
pub struct Pair {
    pub old: Vec<u8>,
    pub new: Vec<u8>,
    pub segments: usize,
    pub numbers: usize,
}

fn is_confederation(segment: &Segment) -> bool {
    segment.0 > SEQUENCE
}

fn number(rng: &mut Rng) -> u32 {
    if rng.one_in(2) {
        rng.word()
    } else {
        rng.under(65_536) as u32
    }
}

/// A segment of any type: mostly a short sequence, now and then empty or full.
fn segment(rng: &mut Rng) -> Segment {
    let kind = rng.pick(&[SEQUENCE, SEQUENCE, SEQUENCE, SET, SET, 3, 4]);
    let count = match rng.under(40) {
        0 => 254 + rng.under(2),
        1..=5 => 0,
        _ => 1 + rng.under(4),
    };
    (kind, (0..count).map(|_| number(rng)).collect())
}

fn counted(segment: &Segment) -> usize {
    match segment.0 {
        SET => 1,
        SEQUENCE => segment.1.len(),
        _ => 0,
    }
}

/// A path in two at a count: up to it, with a sequence split there, and from it on. Confederation segments between go to either.
fn split(rng: &mut Rng, path: &[Segment], mut count: usize) -> (Vec<Segment>, Vec<Segment>) {
    let (mut first, mut second) = (vec![], vec![]);
    for segment in path {
        let counts = counted(segment);
        let is_before = second.is_empty() && (count > 0 || (is_confederation(segment) && !rng.one_in(3)));
        if !is_before {
            second.push(segment.clone());
        } else if counts <= count {
            count -= counts;
            first.push(segment.clone());
        } else {
            first.push((segment.0, segment.1[..count].to_vec()));
            second.push((segment.0, segment.1[count..].to_vec()));
            count = 0;
        }
    }
    (first, second)
}

/// A segment more, of few numbers, at any place.
fn insert(rng: &mut Rng, path: &mut Vec<Segment>, kinds: &[u8]) {
    let numbers = (0..rng.under(2)).map(|_| number(rng)).collect();
    let at = rng.under(path.len() + 1);
    path.insert(at, (rng.pick(kinds), numbers));
}

/// The same path in two-byte numbers, as RFC 6793 puts it.
fn narrow(path: &[Segment]) -> Vec<u8> {
    let shown = |number: &u32| u16::try_from(*number).unwrap_or(AS_TRANS).into();
    let path: Vec<Segment> = path.iter().map(|(kind, numbers)| (*kind, numbers.iter().map(shown).collect())).collect();
    bytes(&path, 2)
}

/// A pair of paths, of which AS4_PATH is mostly a part of the other, and at times has a segment more or counts one more or less.
pub fn pair(rng: &mut Rng) -> Pair {
    let path: Vec<Segment> = (0..rng.under(6)).map(|_| segment(rng)).collect();
    let counts: usize = path.iter().map(counted).sum();
    let count = if rng.one_in(3) { rng.under(2) } else { rng.under(counts + 1) };
    let (first, mut new) = split(rng, &path, count);
    match rng.under(8) {
        0 => insert(rng, &mut new, &[3, 4]),
        1 => insert(rng, &mut new, &[SET, SEQUENCE]),
        2 => new.insert(0, (SEQUENCE, vec![number(rng)])),
        3 => new = [first.clone(), new].concat(),
        _ => {}
    }
    if rng.one_in(2) {
        new.retain(|segment| !is_confederation(segment));
    }
    let all = || first.iter().chain(&new);
    let (segments, numbers) = (all().count(), all().map(|(_, numbers)| numbers.len()).sum());
    Pair { old: narrow(&path), new: bytes(&new, 4), segments, numbers }
}
