//! Refusal 26, the C40 of feature 02; and those of the text, each at the feature's first octet.

use crate::lines::{other, printed, text, text_of, zone, Element, Lines};
use crate::{sample, Sample};
use paper::specimens::{ERIKSSON_MRV_B, ERIKSSON_TD2, LONG_TD2};

/// The last of its 24 pairs.
const LAST: usize = 23;

/// Feature 02 with one of its pairs replaced.
fn with_pair(pair: usize, octets: [u8; 2]) -> Lines {
    let mut value = text().value;
    value[2 * pair..2 * pair + 2].copy_from_slice(&octets);
    Lines::of(&printed(), &[Element::new(0x02, &value), zone()])
}

/// Three values in two octets.
fn joined(a: u16, b: u16, c: u16) -> [u8; 2] {
    (1600 * a + 40 * b + c + 1).to_be_bytes()
}

pub fn c40() -> Vec<Sample> {
    [left_over(), values()].into_iter().flatten().collect()
}

/// Pairs of one character and of two, which may stand last only, and then are not of 72.
fn left_over() -> Vec<Sample> {
    vec![
        sample(
            "26-fe",
            "26 at 18: FE and A as the second pair. FE may stand in the last pair only.",
            with_pair(1, [0xfe, b'A' + 1]),
        ),
        sample(
            "26-fe-last",
            "26 at 18: FE and 6 as the last pair. That is C40, but of 70 characters and not of 72.",
            with_pair(LAST, [0xfe, b'6' + 1]),
        ),
        sample(
            "26-fe-00",
            "26 at 18: FE and 00 as the last pair, which is no character's code plus one.",
            with_pair(LAST, [0xfe, 0x00]),
        ),
        sample(
            "26-fe-filler",
            "26 at 18: FE and < as the last pair. C40 has no <; a space stands for it.",
            with_pair(LAST, [0xfe, b'<' + 1]),
        ),
        sample(
            "26-third",
            "26 at 18: 0 as the third value of the second pair, which may be so in the last one only.",
            with_pair(1, joined(14, 14, 0)),
        ),
        sample(
            "26-third-last",
            "26 at 18: 0 as the third value of the last pair. That is C40, but of 71 characters and not of 72.",
            with_pair(LAST, joined(3, 3, 0)),
        ),
    ]
}

/// Pairs whose values are none of characters.
fn values() -> Vec<Sample> {
    let mut behind = text().value;
    behind[..2].copy_from_slice(&[0xff; 2]);
    vec![
        sample(
            "26-value-0",
            "26 at 18: value 0 as the first of the first pair. Values are 3 to 39.",
            with_pair(0, joined(0, 14, 14)),
        ),
        sample(
            "26-value-1",
            "26 at 18: value 1 as the second of a pair in the middle.",
            with_pair(12, joined(14, 1, 14)),
        ),
        sample("26-value-2", "26 at 18: value 2 as the third of the last pair.", with_pair(LAST, joined(14, 14, 2))),
        sample(
            "26-value-40",
            "26 at 18: FA 01 is 64,001, and so value 40 as the first of its pair.",
            with_pair(12, joined(40, 0, 0)),
        ),
        sample("26-zero", "26 at 18: 00 00 is less than any three values have.", with_pair(0, [0x00, 0x00])),
        sample(
            "26-behind",
            "26 at 22: FF FF as the first pair of feature 02, which stands behind a feature of 4 octets: 18 + 4.",
            Lines::of(&printed(), &[other(), Element::new(0x02, &behind), zone()]),
        ),
    ]
}

/// The specimen with other characters at a place of its text.
fn with(place: usize, characters: &str) -> Element {
    let text = [&ERIKSSON_TD2[..place], characters, &ERIKSSON_TD2[place + characters.len()..]].concat();
    text_of(&text)
}

/// The printed seal with the specimen so spoilt.
fn spoilt(name: &'static str, remark: &'static str, place: usize, characters: &str) -> Sample {
    sample(name, remark, Lines::of(&printed(), &[with(place, characters), zone()]))
}

pub fn fields() -> Vec<Sample> {
    vec![
        spoilt("3-visa", "3 at 18: the text begins with V. It is told where feature 02 begins.", 0, "V"),
        sample(
            "3-visa-alone",
            "3 at 18: the visa MRV-B that Doc 9303-7 prints, which is accepted as a text alone and not in a seal.",
            Lines::of(&printed(), &[text_of(ERIKSSON_MRV_B), zone()]),
        ),
        spoilt("3-passport", "3 at 18: the text begins with P, as only TD3 does.", 0, "P"),
        spoilt("4-state", "4 at 18: the issuing state is U O, with a space between.", 2, "U<O"),
        spoilt("4-nationality", "4 at 18: the nationality has a digit.", 46, "UT0"),
        spoilt("5-number", "5 at 18: the number begins with a space.", 36, "<"),
        spoilt("6-birth", "6 at 18: born on 30 February.", 49, "740230"),
        spoilt("6-expiry", "6 at 18: expired in month 13.", 57, "121315"),
        spoilt("7-sex", "7 at 18: the sex is X.", 56, "X"),
        spoilt("8-name", "8 at 18: the name begins with a digit.", 5, "0"),
    ]
}

/// The specimen with its own digits but for one, and the one with a long number.
pub fn digits() -> Vec<Sample> {
    let long = [&LONG_TD2[..67], "A", &LONG_TD2[68..]].concat();
    let behind = Lines::of(&printed(), &[other(), with(71, "5"), zone()]);
    vec![
        spoilt("9-number", "9 at 18, expected 7: the number's check digit is 0.", 45, "0"),
        sample(
            "9-number-long",
            "9 at 18, expected 9: behind the further characters of a long number stands A, which is no digit.",
            Lines::of(&printed(), &[text_of(&long), zone()]),
        ),
        spoilt("9-birth", "9 at 18, expected 2: the birth's check digit is 3.", 55, "3"),
        spoilt("9-expiry", "9 at 18, expected 9: a space stands for the expiry's check digit.", 63, "<"),
        sample(
            "9-composite",
            "9 at 22, expected 6: the last check digit is 5, in a feature 02 behind one of 4 octets: 18 + 4.",
            behind,
        ),
    ]
}
