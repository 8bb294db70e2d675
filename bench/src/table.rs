//! Measures the cases and prints a line for each.

use crate::cases::{Case, Cases, Growth, Kind, Share};
use crate::library::{Ours, Plain};
use crate::measure::{alternate, Effort, Spread};
use compare::progress::Progress;
use std::io::{self, Write};

/// The most that any case may take of the hand-written C's time.
const OF_PLAIN: f64 = 1.10;

/// Growth of the time where the work grows ten times.
const TENFOLD: std::ops::RangeInclusive<f64> = 9.5..=10.5;

const OURS: usize = 0;
const PLAIN: usize = 1;
const CRATE: usize = 2;

/// Prints the tables; whether every case is within its target.
pub fn measure(made: Cases, effort: Effort, out: &mut impl Write) -> io::Result<bool> {
    let mut over = 0;
    let mut measured = 0;
    let count = made.count();
    let me = crate::me();
    let mut progress = Progress::new(&me, "cases measured", count as u64);
    let mut tell = |good: bool| {
        over += usize::from(!good);
        measured += 1;
        progress.tell(measured, "");
    };
    if !made.cases.is_empty() {
        writeln!(out, "| case | ours ns | crate ns | C ns | ours/crate | at most | ours/C | at most | |")?;
        writeln!(out, "|---|--:|--:|--:|--:|--:|--:|--:|---|")?;
    }
    for case in made.cases {
        tell(case_line(case, effort, out)?);
    }
    if !made.growths.is_empty() {
        writeln!(out, "\n| 64 KB in one call to 6.4 KB | ours | C | ours within | |")?;
        writeln!(out, "|---|--:|--:|--:|---|")?;
    }
    for growth in made.growths {
        tell(growth_line(growth, effort, out)?);
    }
    if !made.shares.is_empty() {
        writeln!(out, "\n| a call to counting the same list | ours | C | ours at most | |")?;
        writeln!(out, "|---|--:|--:|--:|---|")?;
    }
    for share in made.shares {
        tell(share_line(share, effort, out)?);
    }
    writeln!(out, "\n{over} of {count} over")?;
    Ok(over == 0)
}

fn shown(spread: Spread) -> String {
    format!("{:.3} ({:.3} to {:.3})", spread.median, spread.low, spread.high)
}

fn verdict(good: bool) -> &'static str {
    if good {
        "ok"
    } else {
        "over"
    }
}

/// Measures a case and prints its line; whether it is within its targets.
fn case_line(case: Case, effort: Effort, out: &mut impl Write) -> io::Result<bool> {
    let mut sides = vec![case.calls.library::<Ours>(), case.calls.library::<Plain>()];
    let has_crate = !matches!(case.kind, Kind::WithoutCrate);
    if has_crate {
        sides.push(case.calls.by_crate());
    }
    let times = alternate(&mut sides, effort);
    let ns = |side| format!("{:.1}", times.of(side).median * 1e9 / case.calls.count() as f64);
    let of_plain = times.ratio(OURS, PLAIN);
    let of_crate = has_crate.then(|| times.ratio(OURS, CRATE));
    let most = case.kind.of_crate();
    let crate_good = of_crate.zip(most).is_none_or(|(ratio, most)| ratio.median <= most);
    let good = crate_good && of_plain.median <= OF_PLAIN;
    let dash = || "-".to_string();
    writeln!(
        out,
        "| {} | {} | {} | {} | {} | {} | {} | {OF_PLAIN:.2} | {} |",
        case.name,
        ns(OURS),
        if has_crate { ns(CRATE) } else { dash() },
        ns(PLAIN),
        of_crate.map_or_else(dash, shown),
        most.map_or_else(dash, |most| format!("{most:.2}")),
        shown(of_plain),
        verdict(good)
    )?;
    Ok(good)
}

/// Measures how time grows from a tenth of a list to the whole, and prints its line; whether it is tenfold.
fn growth_line(growth: Growth, effort: Effort, out: &mut impl Write) -> io::Result<bool> {
    let Growth { name, large, small } = growth;
    let mut sides =
        [large.library::<Ours>(), small.library::<Ours>(), large.library::<Plain>(), small.library::<Plain>()];
    let times = alternate(&mut sides, effort);
    let tenths = small.count() as f64 / large.count() as f64;
    let (ours, plain) = (times.ratio(0, 1).times(tenths), times.ratio(2, 3).times(tenths));
    let good = TENFOLD.contains(&ours.median);
    writeln!(
        out,
        "| {name} | {} | {} | {} to {} | {} |",
        shown(ours),
        shown(plain),
        TENFOLD.start(),
        TENFOLD.end(),
        verdict(good)
    )?;
    Ok(good)
}

/// Measures what share of one call's time another takes, and prints its line; whether it is no more than it may be.
fn share_line(share: Share, effort: Effort, out: &mut impl Write) -> io::Result<bool> {
    let Share { name, part, whole, most } = share;
    let mut sides =
        [part.library::<Ours>(), whole.library::<Ours>(), part.library::<Plain>(), whole.library::<Plain>()];
    let times = alternate(&mut sides, effort);
    let a_call = whole.count() as f64 / part.count() as f64;
    let (ours, plain) = (times.ratio(0, 1).times(a_call), times.ratio(2, 3).times(a_call));
    let good = ours.median <= most;
    writeln!(out, "| {name} | {} | {} | {most:.2} | {} |", shown(ours), shown(plain), verdict(good))?;
    Ok(good)
}
