//! Records with the issuer's data, sound and unsound, drawn from a seed.

use paper::data::longest;
use paper::entry;
use paper::field::FILLER;
use paper::form::Form;
use paper::record::Record;
use shared::records::{self, data_of, ALPHABET};
use shared::seeds::Seeds;
use std::ops::RangeInclusive;

/// Where an entry has the length of its data, behind key, code, nationality and sex, and where its data, 6 bits a character.
pub const LENGTH: usize = 272;
pub const DATA: usize = LENGTH + 5;
/// Codes of 6 bits that are no character's.
const FOREIGN: RangeInclusive<u8> = 37..=63;
/// What 5 bits can say.
const LENGTHS: RangeInclusive<usize> = 0..=31;

/// Of every form, with a number of every length from 9 on, and data of every length that there is room for: drawn, with a
/// filler for its first character, and with fillers for all but its last.
pub fn of_every_length(seeds: &mut Seeds) -> Vec<Record> {
    let mut records = Vec::new();
    for record in with_every_number(seeds) {
        for length in 0..=longest(record.form, record.number.len()) {
            records.extend(filled(seeds, length).map(|data| Record { data, ..record.clone() }));
        }
    }
    records
}

/// A record of every form with a number of every length from 9 on.
fn with_every_number(seeds: &mut Seeds) -> Vec<Record> {
    let numbers = Form::ALL.into_iter().flat_map(|form| (9..=form.longest_number()).map(move |number| (form, number)));
    let record = |(form, number): (Form, usize)| {
        let number = (0..number).map(|_| seeds.pick(&ALPHABET[1..])).collect();
        Record { number, ..records::bare_of(seeds, form) }
    };
    numbers.map(record).collect()
}

/// Data of so many characters with none or some fillers, with one before, and with as many as there can be.
fn filled(seeds: &mut Seeds, length: usize) -> [Vec<u8>; 3] {
    let (drawn, mut before) = (data_of(seeds, length), data_of(seeds, length));
    let mut most = vec![FILLER; length];
    if let [first, _, ..] = &mut before[..] {
        *first = FILLER;
    }
    if let Some(last) = most.last_mut() {
        *last = seeds.pick(&ALPHABET[1..]);
    }
    [drawn, before, most]
}

/// Entries with data of every length that the bits can say, also where there is no room for it, and the same with a filler at
/// its end.
pub fn entries_of_every_length(seeds: &mut Seeds) -> Vec<Vec<u8>> {
    let mut entries = Vec::new();
    for (record, length) in
        with_every_number(seeds).iter().flat_map(|record| LENGTHS.map(move |length| (record, length)))
    {
        let data = data_of(seeds, length);
        let mut ended = data.clone();
        ended.iter_mut().rev().take(1 + seeds.below(2)).for_each(|last| *last = FILLER);
        entries.extend([data, ended].map(|data| entry::write(1, &Record { data, ..record.clone() })));
    }
    entries
}

/// Entries with a code that is no character's at each place of their data, and at the first of their name.
pub fn with_foreign_codes(seeds: &mut Seeds) -> Vec<Vec<u8>> {
    let mut entries = Vec::new();
    for form in Form::ALL {
        let record = Record { data: data_of(seeds, 7), ..records::bare_of(seeds, form) };
        let record = Record { number: b"K7".to_vec(), ..record };
        let entry = entry::write(1, &record);
        let places = (0..7).map(|at| DATA + 6 * at).chain([DATA + 6 * 7 + 6]);
        entries.extend(
            places.flat_map(|at| FOREIGN.map(move |code| (at, code))).map(|(at, code)| with_bits(&entry, at, code)),
        );
    }
    entries
}

/// The octets with another code in the 6 bits from one on.
fn with_bits(octets: &[u8], at: usize, code: u8) -> Vec<u8> {
    let mut other = octets.to_vec();
    for bit in 0..6 {
        let (place, one) = ((at + bit) / 8, 0x80 >> ((at + bit) % 8));
        other[place] = if code >> (5 - bit) & 1 == 1 { other[place] | one } else { other[place] & !one };
    }
    other
}

#[cfg(test)]
mod tests {
    use super::*;
    use paper::specimens::ERIKSSON_TD3;
    use paper::text;
    use std::collections::BTreeSet;

    #[test]
    fn they_are_sound() {
        let drawn = of_every_length(&mut Seeds::new(1));
        assert!(drawn.iter().all(Record::is_sound));
        // A form with long numbers has them of every length: 14 in TD1, where all have room for 11; 6 in TD2, for 7 and then
        // 4 to 0; and one in each other form. Three for each length of data.
        assert_eq!(drawn.len(), 3 * (14 * 12 + 8 + 5 + 4 + 3 + 2 + 1 + 15 + 17 + 9));
        let firsts = drawn.iter().filter(|record| record.data.len() > 1 && record.data[0] == FILLER).count();
        assert!(firsts > drawn.len() / 2, "{firsts}");
    }

    /// What has room and no filler at its end is read, and nothing else.
    #[test]
    fn which_entries_are_read() {
        let mut seeds = Seeds::new(1);
        let entries = entries_of_every_length(&mut seeds);
        let read: Vec<Record> =
            entries.iter().filter_map(|entry| entry::read(entry)).map(|(_, record, _)| record).collect();
        let kinds = |records: &[Record]| -> BTreeSet<(u8, usize, usize)> {
            records.iter().map(|record| (record.form as u8, record.number.len(), record.data.len())).collect()
        };
        assert_eq!(kinds(&read), kinds(&of_every_length(&mut seeds)));
        assert_eq!(entries.len(), 2 * 32 * (14 + 6 + 3));
        assert!(with_foreign_codes(&mut seeds).iter().all(|entry| entry::read(entry).is_none()));
    }

    /// The bits are where they are said to be.
    #[test]
    fn other_codes() {
        let record = text::read(ERIKSSON_TD3.as_bytes()).unwrap();
        let entry = entry::write(1, &record);
        for (at, code, data) in [(0, 1, b"0E184226B"), (1, 36, b"ZZ184226B"), (8, 11, b"ZE184226A")] {
            let other = Record { data: data.to_vec(), ..record.clone() };
            assert_eq!(with_bits(&entry, DATA + 6 * at, code), entry::write(1, &other));
        }
    }
}
