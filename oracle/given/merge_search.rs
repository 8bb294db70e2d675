//! Searches for the smallest AS_PATH and AS4_PATH of which the crate makes another path than document 02's K5.
//!
//! K5's rule stands here with each way in which the crate parts from it as a switch. All pairs of AS_PATHs of up to three segments and
//! AS4_PATHs of up to two are tried, each segment of any type and up to two numbers. With every switch on, the rule must be the crate's; and
//! of each way the smallest pair is told that it alone makes the crate's path of.

use crate_oracle::models::AsPath;
use crate_oracle::oracle::paths;
use std::io::{self, Write};
use std::process::ExitCode;

const SET: u32 = 1;
const SEQUENCE: u32 = 2;

type Segment = (u32, Vec<u32>);

#[derive(Debug, Clone, Copy, PartialEq)]
enum Way {
    JoinsSequences,
    DropsEmptySequences,
    KeepsConfederationsOfAs4Path,
    LeavesLeadingConfederations,
    LeavesLaterConfederations,
    BuildsOnAnEmptyAs4Path,
}

const WAYS: [Way; 6] = [
    Way::JoinsSequences,
    Way::DropsEmptySequences,
    Way::KeepsConfederationsOfAs4Path,
    Way::LeavesLeadingConfederations,
    Way::LeavesLaterConfederations,
    Way::BuildsOnAnEmptyAs4Path,
];

fn is_confederation(segment: &Segment) -> bool {
    segment.0 > SEQUENCE
}

fn is_sequence(segment: &Segment) -> bool {
    [SEQUENCE, 3].contains(&segment.0)
}

fn count(segment: &Segment) -> usize {
    match segment.0 {
        SET => 1,
        SEQUENCE => segment.1.len(),
        _ => 0,
    }
}

fn count_all(path: &[Segment]) -> usize {
    path.iter().map(count).sum()
}

/// K5's path, changed in some ways.
fn rule(old: &[Segment], new: &[Segment], ways: &[Way]) -> Vec<Segment> {
    let mut new = new.to_vec();
    let is_empty = new.iter().all(is_confederation) && !ways.contains(&Way::BuildsOnAnEmptyAs4Path);
    if is_empty || count_all(old) < count_all(&new) {
        return old.to_vec();
    }
    if !ways.contains(&Way::KeepsConfederationsOfAs4Path) {
        new.retain(|segment| !is_confederation(segment));
    }
    let path = [leading(old, count_all(old) - count_all(&new), ways), new].concat();
    coalesced(path, ways)
}

fn leading(path: &[Segment], mut left: usize, ways: &[Way]) -> Vec<Segment> {
    let way = if left == 0 { Way::LeavesLeadingConfederations } else { Way::LeavesLaterConfederations };
    let mut taken = vec![];
    for segment in path {
        if left == 0 && (!is_confederation(segment) || ways.contains(&way)) {
            break;
        }
        if count(segment) > left {
            taken.push((segment.0, segment.1[..left].to_vec()));
            break;
        }
        left -= count(segment);
        taken.push(segment.clone());
    }
    taken
}

fn coalesced(mut path: Vec<Segment>, ways: &[Way]) -> Vec<Segment> {
    if ways.contains(&Way::DropsEmptySequences) {
        let last = path.last().cloned();
        path.retain(|segment| !is_sequence(segment) || !segment.1.is_empty());
        if path.is_empty() {
            path.extend(last);
        }
    }
    let mut joined: Vec<Segment> = vec![];
    for segment in path {
        match joined.last_mut() {
            Some(before) if ways.contains(&Way::JoinsSequences) && may_be_joined(before, &segment) => {
                before.1.extend(segment.1);
            }
            _ => joined.push(segment),
        }
    }
    joined
}

fn may_be_joined(before: &Segment, after: &Segment) -> bool {
    is_sequence(before) && before.0 == after.0 && !before.1.is_empty() && !after.1.is_empty()
}

fn of_crate(path: &[Segment]) -> AsPath {
    let pairs: Vec<u32> = path.iter().flat_map(|(kind, numbers)| [*kind, numbers.len() as u32]).collect();
    let numbers: Vec<u32> = path.iter().flat_map(|(_, numbers)| numbers.clone()).collect();
    paths::path(&pairs, &numbers).expect("types and counts")
}

fn by_crate(old: &[Segment], new: &[Segment]) -> Vec<Segment> {
    let path = AsPath::merge_aspath_as4path(&of_crate(old), &of_crate(new));
    let numbers = |segment: &crate_oracle::models::AsPathSegment| segment.iter().map(|asn| asn.to_u32()).collect();
    path.segments.iter().map(|segment| (paths::segment_type(segment), numbers(segment))).collect()
}

/// Every path of up to so many segments; its numbers rise from one that is given.
fn all_paths(most: usize, from: u32) -> Vec<Vec<Segment>> {
    let mut all = vec![vec![]];
    let mut last = all.clone();
    for _ in 0..most {
        let mut longer = vec![];
        for path in &last {
            let next = from + path.iter().map(|(_, numbers): &Segment| numbers.len() as u32).sum::<u32>();
            for (kind, count) in (1..=4).flat_map(|kind| (0..=2).map(move |count| (kind, count))) {
                longer.push([path.as_slice(), &[(kind, (next..next + count).collect())]].concat());
            }
        }
        all.extend(longer.clone());
        last = longer;
    }
    all
}

fn bytes(path: &[Segment], width: usize) -> usize {
    path.iter().map(|(_, numbers)| 2 + width * numbers.len()).sum()
}

fn search() -> io::Result<bool> {
    let mut out = io::stdout().lock();
    let (olds, news) = (all_paths(3, 1), all_paths(2, 70_000));
    let mut pairs: Vec<_> = olds.iter().flat_map(|old| news.iter().map(move |new| (old, new))).collect();
    pairs.sort_by_key(|(old, new)| bytes(old, 2) + bytes(new, 4));
    let mut first = [None; WAYS.len()];
    let (mut parting, mut unexplained) = (0, 0);
    for &(old, new) in &pairs {
        let (ours, theirs) = (rule(old, new, &[]), by_crate(old, new));
        unexplained += u64::from(rule(old, new, &WAYS) != theirs);
        if ours == theirs {
            continue;
        }
        parting += 1;
        for (place, way) in first.iter_mut().zip(WAYS) {
            if place.is_none() && rule(old, new, &[way]) == theirs {
                *place = Some((old, new));
            }
        }
    }
    writeln!(
        out,
        "{} pairs, the crate parts on {parting}, {unexplained} of them by no way that is known",
        pairs.len()
    )?;
    for (pair, way) in first.into_iter().zip(WAYS) {
        if let Some((old, new)) = pair {
            let (size, ours, theirs) = (bytes(old, 2) + bytes(new, 4), rule(old, new, &[]), by_crate(old, new));
            writeln!(out, "{way:?}, {size} bytes: {old:?} and {new:?}: crate {theirs:?}, K5 {ours:?}")?;
        }
    }
    Ok(unexplained == 0)
}

fn main() -> ExitCode {
    records::ending::end("merge-search", search())
}
