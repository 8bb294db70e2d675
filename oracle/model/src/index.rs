//! "The thousandth route at once": the index of a list, and one route by an index.

use crate::routes::{item, Family, ReadRow};
use crate::{Refusal, MOST_BYTES};

/// An index has the start of every sixteenth item.
const STEP: usize = 16;

/// The bytes of a list, and the form and family of its items.
#[derive(Debug, Clone, Copy)]
pub struct List<'a> {
    pub bytes: &'a [u8],
    pub with_id: bool,
    pub family: Family,
}

impl List<'_> {
    fn judge_size(&self) -> Result<(), Refusal> {
        if self.bytes.len() > MOST_BYTES {
            return Err(1);
        }
        Ok(())
    }

    /// The item at a place: how many bytes it used, and its row. At the end the items have run out.
    fn item_at(&self, place: usize) -> Result<(usize, ReadRow), Refusal> {
        if place == self.bytes.len() {
            return Err(20);
        }
        item(&self.bytes[place..], self.with_id, self.family)
    }
}

/// The starts of items 0, 16, 32, .. of a list, or its refusal.
pub fn build(list: List) -> Result<Vec<u32>, Refusal> {
    list.judge_size()?;
    let mut starts = vec![];
    let mut place = 0;
    while place < list.bytes.len() {
        starts.push(place as u32);
        place += list.item_at(place)?.0;
    }
    Ok(starts.into_iter().step_by(STEP).collect())
}

/// 19 where an index is not strictly rising from 0, or has a place at or past the end.
fn judge_index(index: &[u16], end: usize) -> Result<(), Refusal> {
    let from_0 = index.iter().take(1).all(|first| *first == 0);
    let rises = index.windows(2).all(|two| two[0] < two[1]);
    let inside = index.iter().all(|place| usize::from(*place) < end);
    if from_0 && rises && inside {
        Ok(())
    } else {
        Err(19)
    }
}

/// The route of a number, counted from 0, read from the start before it that the index names; 20 where it names none.
pub fn route(list: List, index: &[u16], number: u32) -> Result<(usize, ReadRow), Refusal> {
    list.judge_size()?;
    judge_index(index, list.bytes.len())?;
    let number = number as usize;
    let start = index.get(number / STEP).ok_or(20u32)?;
    let mut place = usize::from(*start);
    for _ in 0..number % STEP {
        place += list.item_at(place)?.0;
    }
    list.item_at(place)
}
