//! Entries as they were before request 2026-06, which had no data: "Old entries need no reading." To the reader they are octets
//! like any others, so that most are refused and some are read as other records.

use crate::cases::data::{DATA, LENGTH};
use paper::form::Form;
use paper::record::Record;
use paper::{entry, specimens, text};
use shared::records;
use shared::seeds::Seeds;

/// The old entry of a record: the new one of the same without data, less the five bits that say so.
pub fn entry(house: u32, record: &Record) -> Vec<u8> {
    let now = entry::write(house, &Record { data: Vec::new(), ..record.clone() });
    let bits = (0..8 * now.len()).filter(|bit| !(LENGTH..DATA).contains(bit));
    let bits = bits.map(|bit| now[bit / 8] >> (7 - bit % 8) & 1).take(278 + 6 * record.name.len());
    let bits: Vec<u8> = bits.collect();
    let octet = |eight: &[u8]| eight.iter().enumerate().fold(0, |octet, (at, bit)| octet | bit << (7 - at));
    bits.chunks(8).map(octet).collect()
}

/// Of T3 with house 1 and the name BDFHJLNBLNPRTV: read now, its data is 56789AB and its name ABCDEF.
pub fn that_is_read() -> Vec<u8> {
    let t3 = text::read(specimens::T3.as_bytes()).expect("a text of the papers is accepted");
    entry(1, &Record { name: b"BDFHJLNBLNPRTV".to_vec(), ..t3 })
}

/// That one, those of the specimens, and many of any record.
pub fn entries(seeds: &mut Seeds) -> Vec<Vec<u8>> {
    let record = |text: &&str| text::read(text.as_bytes()).expect("a text of the papers is accepted");
    let specimens = specimens::ALL.iter().map(record).map(|record| entry(1, &record));
    let mut entries: Vec<Vec<u8>> = specimens.chain([that_is_read()]).collect();
    entries.resize_with(1_000, || entry(1, &records::bare_among(seeds, &Form::ALL)));
    entries
}

#[cfg(test)]
mod tests {
    use super::*;

    /// T3's was 43 octets as well, with the name's length, 001010, behind the sex.
    #[test]
    fn as_they_were() {
        let t3 = text::read(specimens::T3.as_bytes()).unwrap();
        let (before, now) = (entry(1, &t3), entry::write(1, &t3));
        assert_eq!((before.len(), &before[..34]), (43, &now[..34]));
        // 001010, then N, 011000, and O, 011001.
        assert_eq!(before[34..36], [0b001010_01, 0b1000_0110]);
        let name = |length: usize| entry(1, &Record { name: vec![b'N'; length], ..t3.clone() }).len();
        assert_eq!((name(1), name(39)), (36, 64));
    }

    #[test]
    fn one_that_is_read() {
        let t3 = text::read(specimens::T3.as_bytes()).unwrap();
        let (data, name) = (b"56789AB".to_vec(), b"ABCDEF".to_vec());
        let octets = that_is_read();
        assert_eq!(octets[34..], [0x38, 0xc3, 0x90, 0x49, 0x45, 0x98, 0x31, 0x66, 0x1a, 0x71, 0xe8, 0x00]);
        assert_eq!(entry::read(&octets), Some((1, Record { data, name, ..t3 }, octets.len())));
    }

    /// Nearly all are refused.
    #[test]
    fn how_many_are_read() {
        let entries = entries(&mut Seeds::new(1));
        let read = entries.iter().filter(|octets| entry::read(octets).is_some()).count();
        assert!((1..50).contains(&read), "{read}");
    }
}
