//! Damage to the fields of a seal's header.

use crate::cases::seals::damage::{with_bad_pairs, Damage};
use crate::cases::seals::Pieces;
use paper::day::Day;
use paper::{c40, day};
use shared::seals::Sound;

/// Every kind of damage to a field of this seal's header.
pub fn all(sound: &Sound) -> Vec<Damage> {
    [replaced(&Pieces::of(sound)), reference(sound)].concat()
}

/// Fields of one octet, countries, days, and the C40 of country and reference.
fn replaced(pieces: &Pieces) -> Vec<Damage> {
    let octets: [(usize, &[u8]); 4] = [
        (0, &[0x00, 0xdb, 0xdd, 0xff]),
        (1, &[0x00, 0x01, 0x04, 0x12, 0xff]),
        (6, &[0x00, 0x5d, 0x5f, 0xfb, 0xff]),
        (7, &[0x00, 0x01, 0x02, 0x04, 0xfd, 0xff]),
    ];
    let octets = octets.iter().flat_map(|(field, octets)| octets.iter().map(|octet| (*field, vec![*octet])));
    let countries: [&[u8]; 7] = [b"   ", b" UT", b"D D", b"UT0", b"0  ", b"UT", b"D"];
    let countries = countries.iter().map(|text| (2, c40::write(text)));
    let days = [4, 5].into_iter().flat_map(|field| no_days().into_iter().map(move |day| (field, day)));
    let pairs = [2, 3].into_iter().flat_map(|field| {
        let image = &pieces.pieces[field];
        let bad = (0..image.len() / 2).flat_map(|pair| with_bad_pairs(image, pair));
        bad.map(move |octets| (field, octets))
    });
    octets.chain(countries).chain(days).chain(pairs).map(|(field, octets)| Damage::new(field, octets, 24)).collect()
}

/// Three octets that are no day of the calendar.
fn no_days() -> Vec<Vec<u8>> {
    let leap = [(1900, 2, 29), (2100, 2, 29), (2001, 2, 29), (2000, 2, 30)];
    let edges = [(0, 1, 1), (0, 2, 29), (2000, 13, 1), (2000, 0, 1), (2000, 1, 0), (2000, 1, 32), (2000, 4, 31)];
    let day = |(year, month, day)| day::write(Day { year, month, day }).to_vec();
    leap.into_iter().chain(edges).map(day).chain([vec![0x00; 3], vec![0xff; 3]]).collect()
}

/// A reference with a character that its place does not allow, and one whose count is another than it has.
fn reference(sound: &Sound) -> Vec<Damage> {
    let image = Pieces::of(sound).pieces[3].clone();
    let sound_text = c40::read(&image).expect("the reference of a sound seal");
    let mut all = Vec::new();
    for place in 0..sound_text.len() {
        let others: &[u8] = match place {
            0 | 1 => b" 09",
            2 | 3 => b" ",
            _ => b" GZ",
        };
        all.extend(others.iter().map(|character| {
            let mut text = sound_text.clone();
            text[place] = *character;
            text
        }));
    }
    if sound.header.version == 0x03 {
        all.extend(miscounted(sound.header.reference.len()).map(|count| {
            let count = format!("{count:02X}");
            [&sound_text[..4], count.as_bytes(), &sound_text[6..]].concat()
        }));
    }
    let images = all.iter().map(|text| c40::write(text)).chain(regrouped(&sound_text));
    images.map(|image| Damage::new(3, image, 24)).collect()
}

/// As many characters in as many octets, but with what is left over by three in a pair before the last.
fn regrouped(text: &[u8]) -> Vec<Vec<u8>> {
    let (pairs, left) = (text.len() / 3, text.len() % 3);
    let parts = |pair: usize| [&text[..3 * pair], &text[3 * pair..3 * pair + left], &text[3 * pair + left..]];
    let image = |pair| parts(pair).map(c40::write).concat();
    (0..pairs).filter(|_| left > 0).map(image).collect()
}

/// Counts of one more and one less than there are characters. Where one more has two octets more, these are the issue
/// date's and begin with no FE; where one less has two octets less, the date would be told and not the reference.
fn miscounted(length: usize) -> impl Iterator<Item = usize> {
    let more = Some(length + 1).filter(|count| *count <= 255);
    let less = length.checked_sub(1).filter(|_| length % 3 != 1);
    more.into_iter().chain(less)
}
