//! The store's list of a night: entries of six houses whose keys rise.

use crate::records;
use crate::seeds::Seeds;
use paper::entry;
use paper::list::KEY;
use paper::record::Record;

/// The least and the greatest that can be, two between which the key's first octet becomes greater than 127, and two more.
pub const HOUSES: [u32; 6] = [1, 2, 300, 16_383, 16_384, 32_767];

/// How many entries a long list has.
pub const LONG: usize = 100_000;

/// How many records a list's are made of: to draw each anew takes longer than to read it.
const DRAWN: usize = 200;

/// So many entries of the six houses. The number in each record, of nine digits, is no other's.
pub fn entries(seeds: &mut Seeds, count: usize) -> Vec<Vec<u8>> {
    let drawn: Vec<Record> = (0..DRAWN.min(count)).map(|_| records::sound(seeds)).collect();
    let entry = |at: usize| {
        let number = format!("{at:09}").into_bytes();
        entry::write(HOUSES[at % HOUSES.len()], &Record { number, ..drawn[seeds.below(drawn.len())].clone() })
    };
    let mut entries: Vec<Vec<u8>> = (0..count).map(entry).collect();
    entries.sort_by(|a, b| a[..KEY].cmp(&b[..KEY]));
    entries
}

#[cfg(test)]
mod tests {
    use super::*;
    use paper::list::read;

    #[test]
    fn they_are_accepted() {
        for count in [0, 1, 2, 6, 1_000] {
            let list = entries(&mut Seeds::new(1), count).concat();
            let houses: Vec<u32> = read(&list).unwrap().iter().map(|line| line.house).collect();
            assert_eq!(houses.len(), count);
            assert!(HOUSES[..count.min(6)].iter().all(|house| houses.contains(house)));
        }
    }
}
