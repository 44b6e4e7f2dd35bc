//! Seals that are written: as the papers print them, and read back; what cannot be carried, field by field.

use super::*;
use crate::day::Day;
use crate::seal::header::Header;
use crate::seal::{printed, Seal, MARKER};
use crate::specimens::{ERIKSSON_MRV_B, ERIKSSON_TD2, ERIKSSON_TD3};
use crate::tlv::tlv;

fn record() -> Record {
    text::read(ERIKSSON_TD2.as_bytes()).unwrap()
}

/// The header of the papers, in version 03 and with a reference of so many characters.
fn with_reference(length: usize) -> HeaderInC {
    let printed = seal::read(&printed::signed()).unwrap().header;
    let reference = b"FFAFF0123456789ABCDE".iter().copied().cycle().take(length).collect();
    HeaderInC::of(&Header { version: 0x03, reference, ..printed })
}

fn header() -> HeaderInC {
    with_reference(5)
}

fn refused(record: &Record, header: &HeaderInC, signature: &[u8]) -> (u32, usize) {
    let refusal = write(record, header, signature).unwrap_err();
    (refusal.number, refusal.place)
}

fn cannot_carry(change: impl Fn(&mut HeaderInC)) {
    let mut other = header();
    change(&mut other);
    assert_eq!(refused(&record(), &other, &[]), (28, 0));
}

/// The message zone is printed so; UT0, 105, FFA, FF is the reference in version 03.
#[test]
fn as_it_is_printed() {
    let octets = write(&record(), &header(), &[7; 64]).unwrap();
    let front = [0xdc, 0x03, 0xd9, 0xc5, 0xd9, 0xad, 0x1f, 0xea, 0x79, 0xc7, 0x79, 0xb9];
    assert_eq!((octets.len(), &octets[..12], &octets[12..]), (136, &front[..], &printed::signed()[10..]));
}

#[test]
fn read_back_as_given() {
    for reference in 0..=255 {
        for length in [0, 1, 64, 127, 128, 255, 256, 600] {
            let (given, signature) = (with_reference(reference), vec![reference as u8; length]);
            let octets = write(&record(), &given, &signature).unwrap();
            let Seal { header, record: read, signature: place } = seal::read(&octets).unwrap();
            assert_eq!((HeaderInC::of(&header), read, &octets[place]), (given, record(), &signature[..]));
        }
    }
}

/// What is signed does not depend on the signature: an empty one leaves two octets behind it.
#[test]
fn the_signed_octets_stay() {
    let unsigned = write(&record(), &header(), &[]).unwrap();
    let (before, zone) = unsigned.split_at(unsigned.len() - 2);
    assert_eq!(zone, [MARKER, 0]);
    for signature in [vec![1; 64], vec![0xff; 200], vec![0; 300]] {
        let expected = [before, &tlv(&[MARKER], &signature)].concat();
        assert_eq!(write(&record(), &header(), &signature), Ok(expected));
    }
}

#[test]
fn header_fields_that_cannot_be_carried() {
    for version in (0..=255).filter(|version| *version != 0x03) {
        cannot_carry(|header| header.version = version);
    }
    cannot_carry(|header| header.definition = 0x5d);
    cannot_carry(|header| header.category = 0x01);
    for country in [*b"UT ", *b"U<O", *b"<<<", *b"UT0", *b"uto", *b"   "] {
        cannot_carry(|header| header.country = country);
    }
    for signer in [*b"UT<1", *b"U101", *b"0T01", *b"UT 1", *b"UT0<", *b"ut01"] {
        cannot_carry(|header| header.signer = signer);
    }
    for place in 0..5 {
        for character in *b"G /:@`af<" {
            cannot_carry(|header| header.reference[place] = character);
        }
    }
    for none in [Day::NONE, Day { year: 2023, month: 2, day: 29 }, Day { year: 10_000, month: 1, day: 1 }] {
        cannot_carry(|header| header.issued = none);
        cannot_carry(|header| header.signed_on = none);
    }
}

/// A count that is too small leaves characters behind it, one that is too great takes fillers in.
#[test]
fn references_and_their_lengths() {
    for length in (0..=255).filter(|length| *length != 5) {
        cannot_carry(|header| header.reference_len = length);
    }
    cannot_carry(|header| header.reference[5] = b' ');
    cannot_carry(|header| header.reference[254] = b'0');
}

#[test]
fn countries_of_one_to_three_letters() {
    for country in [*b"D<<", *b"UT<", *b"UTO"] {
        let octets = write(&record(), &HeaderInC { country, ..header() }, &[]).unwrap();
        assert_eq!(seal::read(&octets).unwrap().header.country, country);
    }
}

/// The seal around the signature has 74 octets with a reference of five characters and a length of three octets.
#[test]
fn the_longest_seal() {
    for (length, size) in
        [(65_460, Some(65_534)), (65_461, Some(65_535)), (65_462, None), (65_536, None), (70_000, None)]
    {
        let octets = write(&record(), &header(), &vec![7; length]);
        assert_eq!(octets.ok().map(|octets| octets.len()), size);
    }
    assert_eq!(refused(&record(), &header(), &vec![7; 65_536]), (28, 0));
}

#[test]
fn records_that_no_seal_holds() {
    for text in [ERIKSSON_TD3, ERIKSSON_MRV_B] {
        let other = text::read(text.as_bytes()).unwrap();
        assert_eq!(refused(&other, &header(), &[]), (17, 0));
        // 17 goes before 28.
        assert_eq!(refused(&other, &HeaderInC::BLANK, &vec![7; 65_536]), (17, 0));
    }
    let mut unsound = record();
    unsound.name.clear();
    assert_eq!(refused(&unsound, &header(), &[]), (17, 0));
}
