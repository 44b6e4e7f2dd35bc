//! The cases of whole seals; those of a header stand with it.

use super::*;
use crate::day::Day;
use crate::specimens::{ERIKSSON_MRV_B, ERIKSSON_TD2};
use crate::tlv::WRONG_LENGTHS;

/// Section 8's header and message, with a version octet: 68 octets, the text's feature at 18.
fn printed(version: u8) -> Vec<u8> {
    printed::octets(printed::EMERGENCY, version)
}

/// FF 40 and 64 octets.
fn zone() -> Vec<u8> {
    tlv(&[MARKER], &[7; 64])
}

fn refused(lent: &[u8]) -> (u32, usize) {
    let refusal = read(lent).unwrap_err();
    (refusal.number, refusal.place)
}

/// A sound header of 18 octets, then these.
fn behind(octets: &[&[u8]]) -> Vec<u8> {
    [&printed(0x02)[..18], &octets.concat()].concat()
}

/// Feature 02 as it is printed.
fn text_feature_octets() -> Vec<u8> {
    printed(0x02)[18..].to_vec()
}

/// The printed seal with other octets in its text's value.
fn with_value(place: usize, octets: &[u8]) -> Vec<u8> {
    let mut lent = printed::signed();
    lent[20 + place..20 + place + octets.len()].copy_from_slice(octets);
    lent
}

/// The printed seal with another text.
fn with_text(text: &str) -> Vec<u8> {
    behind(&[&Feature::of_text(text.as_bytes()).written(), &zone()])
}

fn record() -> Record {
    text::read(ERIKSSON_TD2.as_bytes()).unwrap()
}

#[test]
fn the_seal_of_the_papers() {
    assert_eq!(printed(0x03).len(), 68);
    assert_eq!(refused(&printed(0x03)), (24, 4));
    assert_eq!(refused(&[printed(0x03), zone()].concat()), (24, 4));
    assert_eq!(refused(&printed(0x02)), (27, 68));
    assert_eq!(printed::signed().len(), 134);
    let seal = read(&printed::signed()).unwrap();
    assert_eq!((seal.record, seal.signature), (record(), 70..134));
    let Header { version, country, signer, reference, issued, signed_on, definition, category } = seal.header;
    assert_eq!((version, definition, category), (0x02, 0x5e, 0x03));
    assert_eq!((&country, &signer, &reference[..]), (b"UTO", b"UT01", &b"FFAFF"[..]));
    assert_eq!(issued, Day { year: 2016, month: 8, day: 8 });
    assert_eq!(signed_on, Day { year: 2007, month: 8, day: 9 });
    // A visa is no emergency document.
    assert_eq!(refused(&printed::octets(printed::VISA, 0x03)), (24, 4));
    assert_eq!(refused(&printed::octets(printed::VISA, 0x02)), (24, 16));
}

#[test]
fn it_is_written_as_it_is_printed() {
    let header = read(&printed::signed()).unwrap().header;
    let features = [Feature::of_text(ERIKSSON_TD2.as_bytes())];
    assert_eq!(write(&header, &features, &[7; 64]), printed::signed());
    // In version octet 03 the reference is UT0, 105, FFA, FF: it says its length, and has two octets more.
    let later = Header { version: 0x03, ..header };
    let lent = write(&later, &features, &[7; 64]);
    assert_eq!(lent[..12], [0xdc, 0x03, 0xd9, 0xc5, 0xd9, 0xad, 0x1f, 0xea, 0x79, 0xc7, 0x79, 0xb9]);
    assert_eq!(read(&lent), Ok(Seal { header: later, record: record(), signature: 72..136 }));
}

/// Every prefix: the header's fields, then the feature, then the signature zone.
#[test]
fn cut_off() {
    let sample = printed::signed();
    for length in 0..134 {
        let expected = match length {
            0..=17 => (24, [0, 1, 2, 2, 4, 4, 4, 4, 4, 4, 10, 10, 10, 13, 13, 13, 16, 17][length]),
            // No feature yet, and so none at the end.
            18..=67 => (25, 18),
            _ => (27, 68),
        };
        assert_eq!(refused(&sample[..length]), expected);
    }
}

#[test]
fn features_that_are_passed_over() {
    let text = text_feature_octets();
    let others = [
        tlv(&[0x00], &[]),
        tlv(&[0x01], b"K7"),
        tlv(&[0xfe], &[0xff; 0x7f]),
        tlv(&[0xdc], &[0x02; 0x80]),
        tlv(&[0x03], &[0x02; 0xff]),
        tlv(&[0x82], &[0x00; 0x100]),
    ];
    assert_eq!((&others[3][..3], &others[5][..4]), (&[0xdc, 0x81, 0x80][..], &[0x82, 0x82, 0x01, 0x00][..]));
    let all = others.concat();
    let lengths = [(0, 0), (0, all.len()), (all.len(), 0), (all.len(), all.len())];
    for (before, after) in lengths {
        let lent = behind(&[&all[..before], &text, &all[..after], &zone()]);
        let seal = read(&lent).unwrap();
        assert_eq!((seal.record, seal.signature), (record(), lent.len() - 64..lent.len()));
        // The same other feature twice does no harm; the text's place is its own tag.
        let mut spoilt = lent.clone();
        spoilt[18 + before + 2] = 0xff;
        assert_eq!(refused(&spoilt), (26, 18 + before));
    }
}

#[test]
fn features_that_are_wrongly_coded() {
    let text = text_feature_octets();
    for length in WRONG_LENGTHS {
        let bad = [&[0x05], length, &[0x00; 300][..]].concat();
        assert_eq!(refused(&behind(&[&bad, &text, &zone()])), (25, 18));
        assert_eq!(refused(&behind(&[&text, &bad, &zone()])), (25, 68));
        assert_eq!(refused(&behind(&[&[0x02], length, &text[2..], &zone()])), (25, 18));
    }
    // Cut off: without a length, in it, and in the value.
    let cut: [&[u8]; 6] = [&[0x05], &[0x05, 0x81], &[0x05, 0x82, 0x01], &[0x05, 0x01], &[0x02], &[0x02, 0x30]];
    for end in cut {
        assert_eq!(refused(&behind(&[end])), (25, 18));
        assert_eq!(refused(&behind(&[&text, end])), (25, 68));
    }
}

#[test]
fn feature_02_of_another_length_twice_or_absent() {
    let text = text_feature_octets();
    for length in [0, 47, 49, 0x80, 0x100] {
        let other = tlv(&[0x02], &vec![0x13; length]);
        assert_eq!(refused(&behind(&[&other, &zone()])), (25, 18));
        assert_eq!(refused(&behind(&[&[0x05, 0x00], &other, &text, &zone()])), (25, 20));
        assert_eq!(refused(&behind(&[&text, &[0x05, 0x00], &other])), (25, 70));
    }
    assert_eq!(refused(&behind(&[&text, &text, &zone()])), (25, 68));
    assert_eq!(refused(&behind(&[&text, &[0x05, 0x00], &text, &zone()])), (25, 70));
    assert_eq!(refused(&behind(&[&zone()])), (25, 18));
    assert_eq!(refused(&behind(&[])), (25, 18));
    assert_eq!(refused(&behind(&[&[0x05, 0x01, 0x02], &zone()])), (25, 21));
    assert_eq!(refused(&behind(&[&[0x05, 0x01, 0x02]])), (25, 21));
}

#[test]
fn c40_of_feature_02() {
    let joined = |a: u16, b: u16, c: u16| (1600 * a + 40 * b + c + 1).to_be_bytes();
    for place in [0, 2, 24, 44, 46] {
        for value in [0, 1, 2] {
            assert_eq!(refused(&with_value(place, &joined(value, 14, 14))), (26, 18));
            assert_eq!(refused(&with_value(place, &joined(14, value, 14))), (26, 18));
            // 0 as the third value of the last pair leaves 71 characters.
            assert_eq!(refused(&with_value(place, &joined(14, 14, value))), (26, 18));
        }
        let pairs = [[0x00, 0x00], [0xfa, 0x01], [0xff, 0xff], [0xfe, 0x00], [0xfe, b'<' + 1], [0xfe, b'A' + 1]];
        assert!(pairs.iter().all(|pair| refused(&with_value(place, pair)) == (26, 18)));
    }
}

#[test]
fn signature_zones() {
    let zoned = |zone: &[u8]| behind(&[&text_feature_octets(), zone]);
    for length in [0, 1, 0x7f, 0x80, 0xff, 0x100, 300] {
        let lent = zoned(&tlv(&[MARKER], &vec![0xff; length]));
        assert_eq!(read(&lent).unwrap().signature, lent.len() - length..lent.len());
    }
    let bad: [&[u8]; 9] = [
        &[0xff],
        &[0xff, 0x80],
        &[0xff, 0x80, 0x00, 0x00],
        &[0xff, 0x81, 0x7f],
        &[0xff, 0x82, 0x00, 0x80],
        &[0xff, 0x83, 0x00, 0x01, 0x00],
        &[0xff, 0x02, 0x07],
        &[0xff, 0x02, 0x07, 0x07, 0x00],
        &[0xff, 0x00, 0xff, 0x00],
    ];
    assert!(bad.iter().all(|zone| refused(&zoned(zone)) == (27, 68)));
    assert_eq!(refused(&zoned(&[])), (27, 68));
}

#[test]
fn texts_are_refused_at_the_feature() {
    let spoilt = |place: usize, characters: &str| {
        with_text(&[&ERIKSSON_TD2[..place], characters, &ERIKSSON_TD2[place + characters.len()..]].concat())
    };
    let with = |place: usize, characters: &str| refused(&spoilt(place, characters));
    assert_eq!((with(0, "V"), with(0, "VC"), with(0, "P"), with(0, "IV")), ((3, 18), (3, 18), (3, 18), (3, 18)));
    assert_eq!((with(2, "U<O"), with(46, "<<<")), ((4, 18), (4, 18)));
    assert_eq!((with(36, "<"), with(49, "740230"), with(57, "<<")), ((5, 18), (6, 18), (6, 18)));
    assert_eq!((with(56, "X"), with(5, "0")), ((7, 18), (8, 18)));
    for (place, digit) in [(45, 7), (55, 2), (63, 9), (71, 6)] {
        assert_eq!(read(&spoilt(place, "Z")), Err(Refusal::digit(digit, 18)));
    }
}

/// "a leading V being 3": also of a visa that is accepted where it stands alone, and of one that is wrong elsewhere too.
#[test]
fn visas_are_refused_at_the_feature() {
    let visa = ERIKSSON_MRV_B;
    assert!(text::read(visa.as_bytes()).is_ok());
    assert_eq!(refused(&with_text(visa)), (3, 18));
    for (place, character) in [(1, "0"), (1, "C"), (5, "0"), (45, "<"), (55, "0"), (71, "7")] {
        let other = [&visa[..place], character, &visa[place + 1..]].concat();
        assert_eq!(refused(&with_text(&other)), (3, 18));
    }
}

/// Each is wrong in all that comes behind it too.
#[test]
fn in_their_order() {
    let bad_text = Feature::of_text(&[b'V'; 72]).written();
    let bad_c40 = tlv(&[0x02], &[0xff; 48]);
    assert_eq!(refused(&vec![0x00; 65_536]), (1, 0));
    assert_eq!(refused(&[&[0xdc, 0x00, 0x00][..], &bad_c40].concat()), (24, 1));
    assert_eq!(refused(&behind(&[&bad_c40, &[0x05, 0x80, 0xff, 0x80]])), (25, 68));
    assert_eq!(refused(&behind(&[&bad_c40, &[0xff, 0x80]])), (26, 18));
    assert_eq!(refused(&behind(&[&bad_c40])), (26, 18));
    assert_eq!(refused(&behind(&[&bad_text, &[0xff, 0x80]])), (27, 68));
    assert_eq!(refused(&behind(&[&bad_text])), (27, 68));
    assert_eq!(refused(&behind(&[&bad_text, &zone()])), (3, 18));
}

#[test]
fn the_longest_seal() {
    let text = text_feature_octets();
    let over = Err(Refusal::at(1, 0));
    for (size, expected) in [(65_534, Ok(record())), (65_535, Ok(record())), (65_536, over)] {
        // With a long feature, and with a long signature.
        let rest = size - 18 - text.len() - 4;
        let featured = behind(&[&text, &tlv(&[0x05], &vec![7; rest - 2]), &[0xff, 0x00]]);
        let signed = behind(&[&text, &tlv(&[MARKER], &vec![7; rest])]);
        for lent in [featured, signed] {
            assert_eq!(lent.len(), size);
            assert_eq!(read(&lent).map(|seal| seal.record), expected);
        }
    }
}
