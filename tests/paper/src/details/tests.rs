//! Files by hand, each with the answer that the request's sentences give it.

use super::*;
use crate::answer::Name;
use crate::calls::full_name;
use crate::specimens::{ERIKSSON_MRV_A, ERIKSSON_TD1, ERIKSSON_TD3};
use crate::tlv::tlv;

/// A file whose list has these octets, then these elements.
fn file(list: &[u8], elements: &[&[u8]]) -> Vec<u8> {
    tlv(&FILE, &[tlv(&LIST, list), elements.concat()].concat())
}

fn refused(file: &[u8]) -> Option<(u32, usize)> {
    read(file).err().map(|refusal| (refusal.number, refusal.place))
}

/// Doc 9303-10, A.5, with this telephone number and this length of the file.
fn printed(length: u8, telephone: &[u8]) -> Vec<u8> {
    let elements = [
        &b"\x5f\x0e\x0dSMITH<<JOHN<J\x5f\x11\x0aANYTOWN<MN\x5f\x42\x17123 MAPLE RD<ANYTOWN<MN\x5f\x12\x0e"[..],
        telephone,
        b"\x5f\x13\x0cTRAVEL<AGENT",
    ];
    [&[0x6b, length][..], b"\x5c\x0a\x5f\x0e\x5f\x11\x5f\x42\x5f\x12\x5f\x13", &elements.concat()].concat()
}

/// "as printed (it says 99 octets and has 96: 10 at 0) and with the telephone as its text has it".
#[test]
fn the_printed_file() {
    let as_printed = printed(0x63, b"16125551212");
    assert_eq!((as_printed.len() - 2, refused(&as_printed)), (96, Some((10, 0))));
    let mended = printed(0x63, b"1-612-555-1212");
    let details = read(&mended).unwrap();
    let value = |tag| details.value(tag).map(|stretch| &mended[stretch]);
    assert_eq!(value(0x5f0e), Some(&b"SMITH<<JOHN<J"[..]));
    assert_eq!(value(0x5f11), Some(&b"ANYTOWN<MN"[..]));
    assert_eq!(value(0x5f42), Some(&b"123 MAPLE RD<ANYTOWN<MN"[..]));
    assert_eq!(value(0x5f12), Some(&b"1-612-555-1212"[..]));
    assert_eq!(value(0x5f13), Some(&b"TRAVEL<AGENT"[..]));
    for tag in [0x5f0f, 0x5f10, 0x5f2b, 0xa0, 0x5c, 0x6b, 0, 0x1_5f0e, u32::MAX] {
        assert_eq!(value(tag), None);
    }
}

#[test]
fn nothing_named_and_nothing_there() {
    assert_eq!(read(&file(&[], &[])), Ok(Details(Vec::new())));
    assert_eq!(read(&[0x6b, 2, 0x5c, 0]), Ok(Details(Vec::new())));
    // One that is there and empty is told by its start.
    let empty = [0x6b, 0x07, 0x5c, 0x02, 0x5f, 0x0e, 0x5f, 0x0e, 0x00];
    assert_eq!(read(&empty).unwrap().value(0x5f0e), Some(9..9));
    assert_eq!(read(&empty).unwrap().value(0x5f10), None);
}

#[test]
fn other_names_stand_whole() {
    let template = [0xa0, 6, 0x02, 1, 1, 0x5f, 0x0f, 0];
    let lent = file(&[0x5f, 0x10, 0x5f, 0x0f], &[&[0x5f, 0x10, 1, b'7'], &template]);
    let details = read(&lent).unwrap();
    assert_eq!(&lent[details.value(0x5f0f).unwrap()], template);
    assert_eq!((details.value(0xa0), details.value(0x5f10)), (None, Some(11..12)));
    // Its inside is not walked.
    assert_eq!(refused(&file(&[0x5f, 0x0f], &[&[0xa0, 2, 0xff, 0xff]])), None);
    // 5F0F itself, and A0 where another is named, differ.
    assert_eq!(refused(&file(&[0x5f, 0x0f], &[&[0x5f, 0x0f, 0]])), Some((20, 6)));
    assert_eq!(refused(&file(&[0x5f, 0x0e], &[&[0xa0, 0]])), Some((20, 6)));
}

#[test]
fn wrongly_coded() {
    for (lent, place) in [
        (&[][..], 0),
        (&[0x6b], 0),
        (&[0x6c, 2, 0x5c, 0], 0),
        (&[0x6b, 3, 0x5c, 0], 0),
        (&[0x6b, 0], 2),
        (&[0x6b, 2, 0x5d, 0], 2),
        (&[0x6b, 2, 0x5c, 1], 2),
        // Behind the file, at the first octet left over.
        (&[0x6b, 2, 0x5c, 0, 0], 4),
        // A tag that is none of these: a second list, one that stands for no detail, half of one.
        (&[0x6b, 4, 0x5c, 0, 0x5c, 0], 4),
        (&[0x6b, 5, 0x5c, 0, 0x5f, 0x19, 0], 4),
        (&[0x6b, 3, 0x5c, 0, 0x5f], 4),
        (&[0x6b, 5, 0x5c, 0, 0x5f, 0x0e, 1], 4),
        (&[0x6b, 4, 0x5c, 0, 0xa0, 0x80], 4),
    ] {
        assert_eq!(refused(lent), Some((10, place)), "{lent:02x?}");
    }
}

/// "20, after 10 for the whole group: a list not as said, at 5C".
#[test]
fn lists_that_are_none() {
    for list in
        [&[0x5f][..], &[0x5f, 0x0e, 0x5f], &[0x5f, 0x19], &[0x5f, 0x0d], &[0xa0, 0x00], &[0x5f, 0x0e, 0x5f, 0x0e]]
    {
        assert_eq!(refused(&file(list, &[])), Some((20, 2)));
        assert_eq!(refused(&file(list, &[&[0x5f, 0x0e, 0], &[0x5f, 0x0e, 1]])).map(|(number, _)| number), Some(10));
    }
    let all: Vec<u8> = NAMED.iter().flat_map(|tag| tag.to_be_bytes()).collect();
    let elements: Vec<Vec<u8>> = NAMED.iter().map(|tag| tlv(&stands_for(*tag), b"x")).collect();
    let lent = file(&all, &elements.iter().map(Vec::as_slice).collect::<Vec<_>>());
    assert_eq!(read(&lent).unwrap().0.len(), 13);
}

/// "then elements that differ from it, at the first, or at the file's end if one is missing".
#[test]
fn elements_that_differ() {
    let (name, number): (&[u8], &[u8]) = (&[0x5f, 0x0e, 0], &[0x5f, 0x10, 0]);
    let list = [0x5f, 0x0e, 0x5f, 0x10];
    // The elements stand from 8 on, of three octets each.
    assert_eq!(refused(&file(&list, &[name, number])), None);
    assert_eq!(refused(&file(&list, &[number, name])), Some((20, 8)));
    assert_eq!(refused(&file(&list, &[name, name])), Some((20, 11)));
    assert_eq!(refused(&file(&list, &[name])), Some((20, 11)));
    assert_eq!(refused(&file(&list, &[])), Some((20, 8)));
    assert_eq!(refused(&file(&list, &[name, number, number])), Some((20, 14)));
    // A 10 that stands further right goes first.
    assert_eq!(refused(&file(&list, &[number, name, &[0x5f]])), Some((10, 14)));
    assert_eq!(refused(&[&file(&list, &[number])[..], &[0]].concat()), Some((10, 11)));
}

#[test]
fn the_full_name() {
    let named = file(&[0x5f, 0x0e], &[b"\x5f\x0e\x04\xce\x91\xce\x92"]);
    let empty = file(&[0x5f, 0x0e], &[&[0x5f, 0x0e, 0]]);
    let without = file(&[], &[]);
    let differs = file(&[], &[b"\x5f\x0e\x02AB"]);
    let text = ERIKSSON_TD3.as_bytes();
    assert_eq!(full_name(&named, text), Name::in_file(9..13));
    assert_eq!(full_name(&named, b""), Name::in_file(9..13));
    for lent in [&empty, &without, &differs, &Vec::new()] {
        assert_eq!(full_name(lent, text), Name::in_text(5..25));
        assert_eq!(&text[5..25], b"ERIKSSON<<ANNA<MARIA");
        assert_eq!(full_name(lent, b""), Name::NONE);
        assert_eq!(full_name(lent, &text[1..]), Name::NONE);
    }
    assert_eq!(full_name(b"", ERIKSSON_TD1.as_bytes()), Name::in_text(60..80));
    // A text alone: visas too.
    assert_eq!(full_name(b"", ERIKSSON_MRV_A.as_bytes()), Name::in_text(5..25));
}
