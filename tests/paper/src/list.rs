//! The store's nightly list, from document 02, request 2026-14. Entries and their keys are document 01's.
//!
//! "After the last ship the store puts out all entries joined."

use crate::answer::Stretch;
use crate::entry;
use crate::refusal::Refusal;
use std::ops::Range;

/// "thirty bytes, the key".
pub const KEY: usize = 30;

/// An entry of a list: its house, and where it stands.
#[derive(Clone, Debug, PartialEq, Eq)]
pub struct Line {
    pub house: u32,
    pub whole: Range<usize>,
}

/// "Accept the list exactly when it is a run of entries and each key is below the next, compared as unsigned bytes from the
/// first." Refusals: "per entry from the left, 18, then 23 (order) at the entry whose key is not above the one before".
pub fn read(list: &[u8]) -> Result<Vec<Line>, Refusal> {
    let key = |place: usize| &list[place..place + KEY];
    let mut lines: Vec<Line> = Vec::new();
    let mut place = 0;
    while place < list.len() {
        let (house, _, length) = entry::read(&list[place..]).ok_or(Refusal::at(18, place))?;
        if lines.last().map_or(false, |before| key(before.whole.start) >= key(place)) {
            return Err(Refusal::at(23, place));
        }
        lines.push(Line { house, whole: place..place + length });
        place += length;
    }
    Ok(lines)
}

/// "For a house, hand back the stretch of the list that holds its entries: all of them, no other house's, and empty where it
/// has none or the list is refused."
pub fn house_entries(list: &[u8], house: u32) -> Stretch {
    let lines = read(list).unwrap_or_default();
    let own: Vec<&Line> = lines.iter().filter(|line| line.house == house).collect();
    match (own.first(), own.last()) {
        (Some(first), Some(last)) => {
            let whole = first.whole.start..last.whole.end;
            Stretch { start: whole.start as u64, length: whole.len() as u64 }
        }
        _ => Stretch::EMPTY,
    }
}

#[cfg(test)]
mod tests;
