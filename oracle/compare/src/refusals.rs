//! The refusal numbers that an answer may have, and when each is given.

/// Refusal numbers are below this one.
pub const PAST_ALL: usize = 32;

/// Each number with its sentence, in order.
pub fn all() -> impl Iterator<Item = (usize, &'static str)> {
    include_str!("refusals.txt").lines().filter(|line| !line.starts_with('#')).map(|line| {
        let (number, sentence) = line.split_once(' ').expect("a number and a sentence");
        (number.parse().expect("a number"), sentence)
    })
}

/// For each number whether an answer may have it: it is one of them and no `never given`, or 0, which is none.
pub fn known() -> [bool; PAST_ALL] {
    let mut known = [false; PAST_ALL];
    known[0] = true;
    for (number, sentence) in all() {
        known[number] = !sentence.starts_with("never given");
    }
    known
}
