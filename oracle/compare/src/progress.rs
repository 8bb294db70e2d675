//! How far a long run is: a line on standard error every few seconds.

use records::ending::say;
use std::time::{Duration, Instant};

const EVERY: Duration = Duration::from_secs(5);

pub struct Progress<'a> {
    me: &'a str,
    what: &'a str,
    all: u64,
    last: Instant,
}

impl<'a> Progress<'a> {
    pub fn new(me: &'a str, what: &'a str, all: u64) -> Progress<'a> {
        Progress { me, what, all, last: Instant::now() }
    }

    /// Says how many are done, if nothing was said for a while.
    pub fn tell(&mut self, done: u64, more: &str) {
        if self.last.elapsed() >= EVERY {
            say(self.me, format!("{} of {} {}{more}", grouped(done), grouped(self.all), self.what));
            self.last = Instant::now();
        }
    }
}

/// A number with a comma before every three digits.
fn grouped(number: u64) -> String {
    let digits = number.to_string();
    let mut text = String::new();
    for (at, digit) in digits.char_indices() {
        if at > 0 && (digits.len() - at) % 3 == 0 {
            text.push(',');
        }
        text.push(digit);
    }
    text
}

#[cfg(test)]
mod tests {
    use super::grouped;

    #[test]
    fn commas_stand_before_every_three_digits() {
        assert_eq!([0, 999, 1_000, 10_000_000].map(grouped), ["0", "999", "1,000", "10,000,000"]);
    }
}
