//! Old and new AS numbers side by side: RFC 6793 section 4.2.3 as the request spells it out.

use crate::paths::{self, Rule, Segment};
use crate::Refusal;

/// The number that stands for one of four bytes in an attribute of two-byte numbers.
const AS_TRANS: [u8; 2] = 23_456u16.to_be_bytes();

const SET: u32 = 1;
const SEQUENCE: u32 = 2;

/// What two AGGREGATORs come to.
#[derive(Debug, Clone, Copy, PartialEq, Eq)]
pub enum Standing {
    /// One is absent: the first is handed back, and the path is built.
    OneAbsent,
    /// Both are there and the first stands: AS4_PATH is ignored too.
    First,
    Second,
}

impl Standing {
    pub fn number(self) -> u64 {
        match self {
            Standing::OneAbsent | Standing::First => 1,
            Standing::Second => 2,
        }
    }
}

/// Which of AGGREGATOR and AS4_AGGREGATOR stands, or 10 for a wrong length of either. An empty value is an absent one.
pub fn standing(aggregator: &[u8], as4_aggregator: &[u8]) -> Result<Standing, Refusal> {
    if ![0, 6].contains(&aggregator.len()) || ![0, 8].contains(&as4_aggregator.len()) {
        return Err(10);
    }
    if aggregator.is_empty() || as4_aggregator.is_empty() {
        return Ok(Standing::OneAbsent);
    }
    Ok(if aggregator[..2] == AS_TRANS { Standing::Second } else { Standing::First })
}

fn is_confederation(segment: &Segment) -> bool {
    ![SET, SEQUENCE].contains(&segment.kind)
}

/// What a segment counts: a set one, a sequence its numbers, and one of a confederation nothing.
fn count(segment: &Segment) -> usize {
    match segment.kind {
        SET => 1,
        SEQUENCE => segment.numbers.len(),
        _ => 0,
    }
}

fn count_all(path: &[Segment]) -> usize {
    path.iter().map(count).sum()
}

/// The path of AS_PATH and AS4_PATH, each read by the crate's rule, the second also where it is ignored.
pub fn path(as_path: &[u8], as4_path: &[u8], standing: Standing) -> Result<Vec<Segment>, Refusal> {
    let old = paths::read(as_path, 2, Rule::Crate)?;
    let mut new = paths::read(as4_path, 4, Rule::Crate)?;
    new.retain(|segment| !is_confederation(segment));
    if standing == Standing::First || new.is_empty() || count_all(&old) < count_all(&new) {
        return Ok(old);
    }
    Ok([leading(&old, count_all(&old) - count_all(&new)), new].concat())
}

/// The segments with which a path begins that count `left`, the last one split where it counts more; and the confederation segments on
/// the way, up to a split or, with nothing left, another segment.
fn leading(path: &[Segment], mut left: usize) -> Vec<Segment> {
    let mut taken = vec![];
    for segment in path {
        if left == 0 && !is_confederation(segment) {
            break;
        }
        if count(segment) > left {
            taken.push(Segment { kind: segment.kind, numbers: segment.numbers[..left].to_vec() });
            break;
        }
        left -= count(segment);
        taken.push(segment.clone());
    }
    taken
}
