//! Sound seals made from a seed.

use crate::records::{self, sound_of, until};
use crate::seeds::Seeds;
use paper::day::Day;
use paper::form::Form;
use paper::record::Record;
use paper::seal::header::{Header, CATEGORY, DEFINITION};
use paper::seal::{self, Feature, MARKER, TEXT};
use paper::text;

pub const VERSIONS: [u8; 2] = [0x02, 0x03];
/// Of features and signatures: empty, small, around the text's, and where another form of length begins.
const LENGTHS: [usize; 14] = [0, 1, 2, 47, 48, 49, 64, 0x7e, 0x7f, 0x80, 200, 0xff, 0x100, 300];
const LETTERS: &[u8; 26] = b"ABCDEFGHIJKLMNOPQRSTUVWXYZ";
const HEX: &[u8; 16] = b"0123456789ABCDEF";

/// What a sound seal is made of. The record is that of the text in one of the features.
#[derive(Clone)]
pub struct Sound {
    pub header: Header,
    pub features: Vec<Feature>,
    pub signature: Vec<u8>,
    pub record: Record,
}

impl Sound {
    pub fn octets(&self) -> Vec<u8> {
        seal::write(&self.header, &self.features, &self.signature)
    }
}

/// In either version, with up to three other features before the text's and as many behind it.
pub fn sound(seeds: &mut Seeds) -> Sound {
    let version = seeds.pick(&VERSIONS);
    let reference = reference_length(seeds, version);
    sound_of_kind(seeds, version, reference)
}

/// In one version, with a reference of so many characters: five in version octet 02.
pub fn sound_of_kind(seeds: &mut Seeds, version: u8, reference: usize) -> Sound {
    let header = header(seeds, version, reference);
    let record = sound_of(seeds, Form::Td2);
    let mut features = others(seeds);
    features.push(Feature::of_text(&text::write(&record)));
    features.extend(others(seeds));
    let length = seeds.pick(&LENGTHS);
    Sound { header, features, signature: seeds.octets(length), record }
}

fn reference_length(seeds: &mut Seeds, version: u8) -> usize {
    let any = seeds.below(256);
    match version {
        0x02 => 5,
        _ => seeds.pick(&[0, 1, 2, 3, 4, 5, 9, 10, 15, 16, 254, 255, any, any]),
    }
}

fn header(seeds: &mut Seeds, version: u8, reference: usize) -> Header {
    Header {
        version,
        country: records::state(seeds),
        signer: signer(seeds),
        reference: (0..reference).map(|_| seeds.pick(HEX)).collect(),
        issued: day(seeds),
        signed_on: day(seeds),
        definition: DEFINITION,
        category: CATEGORY,
    }
}

fn signer(seeds: &mut Seeds) -> [u8; 4] {
    let alphanumeric = &records::ALPHABET[1..];
    [seeds.pick(LETTERS), seeds.pick(LETTERS), seeds.pick(alphanumeric), seeds.pick(alphanumeric)]
}

/// Any day, the last ones of a month and the years that are and are not leap among them.
pub fn day(seeds: &mut Seeds) -> Day {
    let draw = |seeds: &mut Seeds| {
        let any = 1 + seeds.below(9_999) as u16;
        let year = seeds.pick(&[1, 4, 1900, 1957, 2000, 2016, 2100, 9999, any, any]);
        let month = seeds.pick(&[1, 2, 2, 3, 4, 5, 6, 7, 8, 9, 10, 11, 12]);
        let last = 1 + seeds.below(31) as u8;
        Day { year, month, day: seeds.pick(&[1, 28, 29, 30, 31, last]) }
    };
    until(seeds, draw, |day| day.is_one())
}

/// Features that are not the text's: unknown ones, some of them empty, some long.
fn others(seeds: &mut Seeds) -> Vec<Feature> {
    let count = seeds.pick(&[0, 0, 1, 1, 2, 3]);
    (0..count).map(|_| other(seeds)).collect()
}

/// Of any tag but those of the text and the signature.
pub fn other(seeds: &mut Seeds) -> Feature {
    let draw = |seeds: &mut Seeds| {
        let any = seeds.number() as u8;
        seeds.pick(&[0x00, 0x01, 0x03, 0x30, 0x80, 0x82, 0xdc, 0xfe, any, any])
    };
    let tag = until(seeds, draw, |tag| ![TEXT, MARKER].contains(tag));
    let length = seeds.pick(&LENGTHS);
    Feature { tag, value: seeds.octets(length) }
}

#[cfg(test)]
mod tests {
    use super::*;
    use paper::seal::Seal;
    use std::collections::BTreeSet;

    fn comes_back(sound: &Sound) {
        let lent = sound.octets();
        let signature = lent.len() - sound.signature.len()..lent.len();
        let (header, record) = (sound.header.clone(), sound.record.clone());
        assert_eq!(lent[signature.clone()], sound.signature);
        assert_eq!(seal::read(&lent), Ok(Seal { header, record, signature }));
    }

    #[test]
    fn they_come_back_from_their_octets() {
        let mut seeds = Seeds::new(1);
        (0..2_000).for_each(|_| comes_back(&sound(&mut seeds)));
        (0..=255).for_each(|length| comes_back(&sound_of_kind(&mut seeds, 0x03, length)));
    }

    /// What is drawn is of all the kinds that are wanted.
    #[test]
    fn every_kind_is_drawn() {
        let mut seeds = Seeds::new(1);
        let drawn: Vec<Sound> = (0..2_000).map(|_| sound(&mut seeds)).collect();
        let place = |sound: &Sound| sound.features.iter().position(|feature| feature.tag == TEXT).unwrap();
        let places =
            drawn.iter().map(|sound| (sound.header.version, place(sound), sound.features.len() - place(sound)));
        assert_eq!(places.collect::<BTreeSet<_>>().len(), 2 * 4 * 4);
        let others = drawn.iter().flat_map(|sound| &sound.features).filter(|feature| feature.tag != TEXT);
        let lengths = others.map(|feature| feature.value.len()).collect::<BTreeSet<_>>();
        let signatures = drawn.iter().map(|sound| sound.signature.len()).collect::<BTreeSet<_>>();
        assert_eq!((lengths, signatures), (BTreeSet::from(LENGTHS), BTreeSet::from(LENGTHS)));
    }
}
