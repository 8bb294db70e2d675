//! Times the sides of a case in turns and takes medians of the ratios of each turn.

use std::time::{Duration, Instant};

/// Runs one batch of calls and says how long the calls took.
pub type Side = Box<dyn FnMut() -> Duration>;

pub fn timed(batch: impl FnOnce()) -> Duration {
    let start = Instant::now();
    batch();
    start.elapsed()
}

/// How many turns, and how long each side is run in one.
#[derive(Clone, Copy)]
pub struct Effort {
    pub rounds: usize,
    pub turn: Duration,
}

impl Effort {
    pub const FULL: Effort = Effort { rounds: 151, turn: Duration::from_micros(1_500) };
    pub const QUICK: Effort = Effort { rounds: 25, turn: Duration::from_micros(500) };
}

/// The seconds of a batch of each side, a row for each round.
pub struct Times(Vec<Vec<f64>>);

/// Median and quartiles.
#[derive(Clone, Copy)]
pub struct Spread {
    pub low: f64,
    pub median: f64,
    pub high: f64,
}

impl Spread {
    /// All of it so many times.
    pub fn times(self, factor: f64) -> Spread {
        Spread { low: self.low * factor, median: self.median * factor, high: self.high * factor }
    }
}

fn spread(mut values: Vec<f64>) -> Spread {
    values.sort_by(f64::total_cmp);
    let at = |quarter: usize| values[(values.len() - 1) * quarter / 4];
    Spread { low: at(1), median: at(2), high: at(3) }
}

impl Times {
    /// The seconds of a side's batch.
    pub fn of(&self, side: usize) -> Spread {
        spread(self.0.iter().map(|round| round[side]).collect())
    }

    /// The ratio of two sides, taken within each round.
    pub fn ratio(&self, side: usize, to: usize) -> Spread {
        spread(self.0.iter().map(|round| round[side] / round[to]).collect())
    }
}

/// Runs a side's turn, after a batch that is not counted; the seconds of its median batch.
fn turn(side: &mut Side, batches: usize) -> f64 {
    side();
    spread((0..batches).map(|_| side().as_secs_f64()).collect()).median
}

/// Warms a side up for a turn or more; the batches that fill a turn.
fn batches(side: &mut Side, length: Duration) -> usize {
    let mut total = Duration::ZERO;
    let mut done = 0;
    while total < length {
        total += side();
        done += 1;
    }
    done
}

/// Alternates the sides; who begins changes with each round.
pub fn alternate(sides: &mut [Side], effort: Effort) -> Times {
    let sizes: Vec<usize> = sides.iter_mut().map(|side| batches(side, effort.turn)).collect();
    let mut times = vec![];
    for round in 0..effort.rounds {
        let mut seconds = vec![0.0; sides.len()];
        for place in 0..sides.len() {
            let side = (round + place) % sides.len();
            seconds[side] = turn(&mut sides[side], sizes[side]);
        }
        times.push(seconds);
    }
    Times(times)
}
