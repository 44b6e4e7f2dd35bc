//! The content of the security object, from document 01, "Stages of a presentation", stage 4, and document 02, request 2026-04;
//! source document 000, 5.2.3 and 5.2.4.

use crate::refusal::Refusal;
use crate::tlv::{tlv, Element, Walk};

const SEQUENCE: [u8; 1] = [0x30];
const INTEGER: [u8; 1] = [0x02];
const OCTET_STRING: [u8; 1] = [0x04];
const PRINTABLE_STRING: [u8; 1] = [0x13];
/// The inside of SHA-256's AlgorithmIdentifier, in its two spellings.
const SHA_256: [u8; 11] = [0x06, 0x09, 0x60, 0x86, 0x48, 0x01, 0x65, 0x03, 0x04, 0x02, 0x01];
const NULL: [u8; 2] = [0x05, 0x00];
/// The bounds of the list of entries. No list of differing numbers from 1 to 16 has more than sixteen.
const FEWEST: usize = 2;
const MOST: usize = 16;

/// A group's number and the digest that its file should have.
#[derive(Clone, Debug, PartialEq, Eq)]
pub struct Entry {
    pub number: u8,
    pub digest: [u8; 32],
}

/// What an object says.
#[derive(Clone, Debug, PartialEq, Eq)]
pub struct Object {
    pub entries: Vec<Entry>,
    /// Of version 1, which ends with them; version 0 has none.
    pub strings: Option<Strings>,
}

/// The two printable strings: the version of the LDS, and that of Unicode. What stands in them is not asked here.
#[derive(Clone, Debug, PartialEq, Eq)]
pub struct Strings {
    pub lds: Vec<u8>,
    pub unicode: Vec<u8>,
}

/// The object whose outer element was found.
pub fn read(lent: &[u8], object: &Element) -> Result<Object, Refusal> {
    let mut walk = Walk::inside(lent, object);
    let version = walk.take(&INTEGER)?;
    let has_strings = match lent[version.content] {
        [0] => false,
        [1] => true,
        _ => return Err(Refusal::at(12, version.whole.start)),
    };
    let algorithm = walk.take(&SEQUENCE)?;
    if !is_sha_256(&lent[algorithm.content]) {
        return Err(Refusal::at(13, algorithm.whole.start));
    }
    let list = walk.take(&SEQUENCE)?;
    let entries = entries(lent, &list)?;
    let strings = if has_strings { Some(strings(lent, &walk.take(&SEQUENCE)?)?) } else { None };
    walk.close()?;
    Ok(Object { entries, strings })
}

/// Exactly two, filling the sequence.
fn strings(lent: &[u8], holder: &Element) -> Result<Strings, Refusal> {
    let mut walk = Walk::inside(lent, holder);
    let lds = walk.take(&PRINTABLE_STRING)?;
    let unicode = walk.take(&PRINTABLE_STRING)?;
    walk.close()?;
    Ok(Strings { lds: lent[lds.content].to_vec(), unicode: lent[unicode.content].to_vec() })
}

fn is_sha_256(inside: &[u8]) -> bool {
    inside == SHA_256 || inside == [&SHA_256[..], &NULL].concat()
}

/// Each entry from left to right, and when all were read the tests on all of them.
fn entries(lent: &[u8], list: &Element) -> Result<Vec<Entry>, Refusal> {
    let mut walk = Walk::inside(lent, list);
    let mut found: Vec<Entry> = Vec::new();
    let mut repeated = None;
    while !walk.left().is_empty() {
        let (entry, place) = entry(lent, &walk.take(&SEQUENCE)?)?;
        if found.iter().any(|before| before.number == entry.number) {
            repeated = repeated.or(Some(place));
        }
        found.push(entry);
    }
    if let Some(place) = repeated {
        return Err(Refusal::at(12, place));
    }
    if found.len() < FEWEST || found.len() > MOST {
        return Err(Refusal::at(12, list.whole.start));
    }
    Ok(found)
}

/// One entry, and the place of its integer.
fn entry(lent: &[u8], holder: &Element) -> Result<(Entry, usize), Refusal> {
    let mut walk = Walk::inside(lent, holder);
    let integer = walk.take(&INTEGER)?;
    let place = integer.whole.start;
    let number = match lent[integer.content] {
        [number @ 1..=16] => number,
        _ => return Err(Refusal::at(12, place)),
    };
    let octets = walk.take(&OCTET_STRING)?;
    let digest = lent[octets.content].try_into().map_err(|_| Refusal::at(12, octets.whole.start))?;
    walk.close()?;
    Ok((Entry { number, digest }, place))
}

/// The object that says this; `null` says which of the two spellings its AlgorithmIdentifier has.
pub fn write(object: &Object, null: bool) -> Vec<u8> {
    let version = u8::from(object.strings.is_some());
    let algorithm = if null { [&SHA_256[..], &NULL].concat() } else { SHA_256.to_vec() };
    let list: Vec<u8> = object.entries.iter().flat_map(write_entry).collect();
    let strings = object.strings.as_ref().map_or(Vec::new(), write_strings);
    let held = [tlv(&INTEGER, &[version]), tlv(&SEQUENCE, &algorithm), tlv(&SEQUENCE, &list), strings];
    tlv(&SEQUENCE, &held.concat())
}

fn write_strings(strings: &Strings) -> Vec<u8> {
    let held = [tlv(&PRINTABLE_STRING, &strings.lds), tlv(&PRINTABLE_STRING, &strings.unicode)];
    tlv(&SEQUENCE, &held.concat())
}

fn write_entry(entry: &Entry) -> Vec<u8> {
    let held = [tlv(&INTEGER, &[entry.number]), tlv(&OCTET_STRING, &entry.digest)];
    tlv(&SEQUENCE, &held.concat())
}

#[cfg(test)]
mod tests {
    use super::*;

    fn answer(object: &[u8]) -> Result<Object, (u32, usize)> {
        let element = Walk::over(object).take(&SEQUENCE).unwrap();
        read(object, &element).map_err(|refusal| (refusal.number, refusal.place))
    }

    fn of(numbers: &[u8]) -> Object {
        let entry = |number: &u8| Entry { number: *number, digest: [*number; 32] };
        Object { entries: numbers.iter().map(entry).collect(), strings: None }
    }

    fn newer(numbers: &[u8], lds: &[u8], unicode: &[u8]) -> Object {
        Object { strings: Some(Strings { lds: lds.to_vec(), unicode: unicode.to_vec() }), ..of(numbers) }
    }

    /// Worked out by hand: at 2 the version, at 5 the algorithm, at 20 the list, at 22 and 61 the entries, whose integers
    /// are at 24 and 63 and whose digests at 27 and 66. 100 octets in all.
    fn by_hand() -> Vec<u8> {
        let mut object = vec![0x30, 0x62, 0x02, 0x01, 0x00, 0x30, 0x0d];
        object.extend([0x06, 0x09, 0x60, 0x86, 0x48, 0x01, 0x65, 0x03, 0x04, 0x02, 0x01, 0x05, 0x00]);
        object.extend([0x30, 0x4e]);
        for number in [1, 2] {
            object.extend([0x30, 0x25, 0x02, 0x01, number, 0x04, 0x20]);
            object.extend([number; 32]);
        }
        object
    }

    fn with(place: usize, octets: &[u8]) -> Result<Object, (u32, usize)> {
        let mut object = by_hand();
        object[place..place + octets.len()].copy_from_slice(octets);
        answer(&object)
    }

    #[test]
    fn one_by_hand() {
        assert_eq!(by_hand().len(), 100);
        assert_eq!(write(&of(&[1, 2]), true), by_hand());
        assert_eq!(answer(&by_hand()), Ok(of(&[1, 2])));
        assert_eq!(answer(&write(&of(&[1, 2]), false)), Ok(of(&[1, 2])));
        let all: Vec<u8> = (1..=16).collect();
        assert_eq!(answer(&write(&of(&all), true)), Ok(of(&all)));
    }

    #[test]
    fn the_version_and_the_algorithm() {
        assert_eq!(with(2, &[0x01]), Err((10, 2)));
        assert_eq!(with(3, &[0x61]), Err((10, 2)));
        assert_eq!(with(4, &[0x02]), Err((12, 2)));
        assert_eq!(with(4, &[0xff]), Err((12, 2)));
        // Version 1, and no sequence behind the list.
        assert_eq!(with(4, &[0x01]), Err((10, 100)));
        // An integer of no octets, and then one of the nineteen that follow: well coded, and not the length named.
        assert_eq!(with(3, &[0x00]), Err((12, 2)));
        assert_eq!(with(3, &[0x13]), Err((12, 2)));
        assert_eq!(with(5, &[0x31]), Err((10, 5)));
        assert_eq!(with(6, &[0x5e]), Err((10, 5)));
        assert_eq!(with(15, &[0x01]), Err((13, 5)));
        assert_eq!(with(18, &[0x04]), Err((13, 5)));
        // Shorter by the NULL, which then stands where the list should: the algorithm is right, the list's tag is not.
        assert_eq!(with(6, &[0x0b]), Err((10, 18)));
        assert_eq!(with(6, &[0x0c]), Err((13, 5)));
        // The algorithm takes the list into it.
        assert_eq!(with(6, &[0x5d]), Err((13, 5)));
    }

    #[test]
    fn entries_that_fail() {
        assert_eq!(with(20, &[0x31]), Err((10, 20)));
        assert_eq!(with(21, &[0x4f]), Err((10, 20)));
        assert_eq!(with(22, &[0x31]), Err((10, 22)));
        assert_eq!(with(61, &[0x04]), Err((10, 61)));
        assert_eq!(with(62, &[0x26]), Err((10, 61)));
        assert_eq!(with(63, &[0x04]), Err((10, 63)));
        assert_eq!(with(65, &[0x00]), Err((12, 63)));
        assert_eq!(with(65, &[0x11]), Err((12, 63)));
        let mut sixteen = of(&[1, 2]);
        sixteen.entries[1].number = 16;
        assert_eq!(with(65, &[0x10]), Ok(sixteen));
        assert_eq!(with(66, &[0x05]), Err((10, 66)));
        assert_eq!(with(67, &[0x21]), Err((10, 66)));
        // A digest of 31 octets is told before the octet left over behind it.
        assert_eq!(with(67, &[0x1f]), Err((12, 66)));
        // 02 02 01 04: a well coded integer of two octets.
        assert_eq!(with(64, &[0x02]), Err((12, 63)));
    }

    #[test]
    fn octets_left_over() {
        let held = |list: &[u8]| [&by_hand()[2..20], &tlv(&SEQUENCE, list)[..]].concat();
        let entries = &by_hand()[22..];
        // In the second entry, which is one octet longer.
        let longer = [&entries[..39], &[0x30, 0x26], &entries[41..], &[0x00]].concat();
        assert_eq!(answer(&tlv(&SEQUENCE, &held(&longer))), Err((10, 100)));
        // In the list: it should be an entry.
        assert_eq!(answer(&tlv(&SEQUENCE, &held(&[entries, &[0x00]].concat()))), Err((10, 100)));
        // In the object.
        let more = [&held(entries)[..], &[0x30, 0x00]].concat();
        assert_eq!(answer(&tlv(&SEQUENCE, &more)), Err((10, 100)));
        // Only one entry, then an octet: the list is told first.
        let one = [&held(&entries[..39])[..], &[0x00]].concat();
        assert_eq!(answer(&tlv(&SEQUENCE, &one)), Err((12, 20)));
    }

    #[test]
    fn elements_that_are_missing() {
        assert_eq!(answer(&[0x30, 0x00]), Err((10, 2)));
        assert_eq!(answer(&tlv(&SEQUENCE, &by_hand()[2..5])), Err((10, 5)));
        assert_eq!(answer(&tlv(&SEQUENCE, &by_hand()[2..20])), Err((10, 20)));
        let held = |entry: &[u8]| [&by_hand()[2..20], &tlv(&SEQUENCE, &tlv(&SEQUENCE, entry))[..]].concat();
        assert_eq!(answer(&tlv(&SEQUENCE, &held(&[]))), Err((10, 24)));
        assert_eq!(answer(&tlv(&SEQUENCE, &held(&[0x02, 0x01, 0x01]))), Err((10, 27)));
    }

    #[test]
    fn tests_on_all_the_entries() {
        let refused = |numbers: &[u8]| answer(&write(&of(numbers), true)).err();
        assert_eq!(refused(&[]), Some((12, 20)));
        assert_eq!(refused(&[1]), Some((12, 20)));
        assert_eq!(refused(&[1, 1]), Some((12, 63)));
        // From three entries on the object's length has two octets: all stands one further.
        assert_eq!(refused(&[1, 2, 2]), Some((12, 103)));
        // From four on the list's has two as well. The first repeat is that of 2, although 1 was the first to come.
        assert_eq!(refused(&[1, 2, 2, 1]), Some((12, 104)));
        // Seventeen have a repeat among them, which is looked for first; lengths of three octets each.
        let mut seventeen: Vec<u8> = (1..=16).collect();
        seventeen.push(16);
        assert_eq!(refused(&seventeen), Some((12, 26 + 39 * 16 + 2)));
        // A bad entry behind a repeated one: the repeat waits until all were read.
        assert_eq!(refused(&[1, 1, 17]), Some((12, 103)));
    }

    /// Worked out by hand: 30 0E behind the list, at 100; at 102 the LDS version, at 108 the Unicode version. 116 octets in all.
    fn newer_by_hand() -> Vec<u8> {
        let mut object = by_hand();
        (object[1], object[4]) = (0x72, 0x01);
        object.extend([0x30, 0x0e, 0x13, 0x04, 0x30, 0x31, 0x30, 0x38, 0x13, 0x06]);
        object.extend(b"040000");
        object
    }

    #[test]
    fn version_1_by_hand() {
        assert_eq!(newer_by_hand().len(), 116);
        assert_eq!(write(&newer(&[1, 2], b"0108", b"040000"), true), newer_by_hand());
        assert_eq!(answer(&newer_by_hand()), Ok(newer(&[1, 2], b"0108", b"040000")));
        // What stands in the strings, and how long they are, is not asked here.
        for (lds, unicode) in [(&b""[..], &b""[..]), (b"0107", b"04000"), (b"a&\xff\0", b"0400001"), (b"", &[7; 200])] {
            let object = newer(&[2, 1], lds, unicode);
            assert_eq!(answer(&write(&object, false)), Ok(object));
        }
    }

    fn newer_with(place: usize, octets: &[u8]) -> Result<Object, (u32, usize)> {
        let mut object = newer_by_hand();
        object[place..place + octets.len()].copy_from_slice(octets);
        answer(&object)
    }

    #[test]
    fn strings_that_fail() {
        // "version 0 has no such sequence (else 10)": at the first octet left over.
        assert_eq!(newer_with(4, &[0x00]), Err((10, 100)));
        assert_eq!(newer_with(100, &[0x31]), Err((10, 100)));
        assert_eq!(newer_with(101, &[0x0f]), Err((10, 100)));
        assert_eq!(newer_with(102, &[0x0c]), Err((10, 102)));
        assert_eq!(newer_with(103, &[0x0d]), Err((10, 102)));
        assert_eq!(newer_with(108, &[0x0c]), Err((10, 108)));
        assert_eq!(newer_with(109, &[0x07]), Err((10, 108)));
        // The second string ends before the sequence does.
        assert_eq!(newer_with(109, &[0x05]), Err((10, 115)));
        // The sequence ends within the second string, before it, within the first, and before that.
        assert_eq!(newer_with(101, &[0x0d]), Err((10, 108)));
        assert_eq!(newer_with(101, &[0x06]), Err((10, 108)));
        assert_eq!(newer_with(101, &[0x05]), Err((10, 102)));
        assert_eq!(newer_with(101, &[0x00]), Err((10, 102)));
        // An octet behind the sequence.
        let longer = [&[0x30, 0x73], &newer_by_hand()[2..], &[0x00]].concat();
        assert_eq!(answer(&longer), Err((10, 116)));
    }

    #[test]
    fn strings_stand_behind_the_tests_on_all_entries() {
        let refused = |object: &Object| answer(&write(object, true)).err();
        assert_eq!(refused(&newer(&[1, 1], b"0108", b"040000")), Some((12, 63)));
        assert_eq!(refused(&newer(&[1], b"", b"")), Some((12, 20)));
        // A repeated number and no sequence: 12.
        let mut repeated = write(&of(&[1, 1]), true);
        repeated[4] = 1;
        assert_eq!(answer(&repeated), Err((12, 63)));
    }
}
