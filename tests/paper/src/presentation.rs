//! A presentation and the file of a group, from document 01, "What the server lends and gets" and "Stages of a
//! presentation", and document 02, requests 2026-04 and 2026-05.

use crate::answer::Stretch;
use crate::com::Common;
use crate::form::Form;
use crate::lds::Lds;
use crate::object::{Entry, Object, Strings};
use crate::record::Record;
use crate::refusal::{Refusal, LONGEST};
use crate::sha256::sha256;
use crate::tlv::{tlv, Element, Walk};
use crate::{com, group, object, text};

/// The parts that the outer walk finds.
struct Parts {
    com: Element,
    object: Element,
    files: Vec<File>,
}

/// A group file: the group whose tag it has, and where it stands.
struct File {
    group: u8,
    element: Element,
}

/// The record of a presentation, or the first refusal of the stages in number order.
pub fn read(lent: &[u8]) -> Result<Record, Refusal> {
    let parts = parts(lent)?;
    let common = com::read(lent, &parts.com)?;
    let object = object::read(lent, &parts.object)?;
    if !agree(&common, &object) {
        return Err(Refusal::at(19, parts.object.whole.start));
    }
    for (at, file) in parts.files.iter().enumerate() {
        allowed(lent, file, &parts.files[..at], common.tags, &object.entries)?;
    }
    let first = parts.files.iter().find(|file| file.group == 1);
    let first = first.ok_or(Refusal::at(14, lent.len()))?;
    record(lent, &first.element)
}

/// Stages 1 and 2.
fn parts(lent: &[u8]) -> Result<Parts, Refusal> {
    if lent.len() > LONGEST {
        return Err(Refusal::at(1, 0));
    }
    let mut walk = Walk::over(lent);
    let com = walk.take(&[0x60])?;
    let object = walk.take(&[0x30])?;
    let mut files = Vec::new();
    while let Some(tag) = walk.left().first() {
        match group::of_tag(*tag) {
            Some(group) => files.push(File { group, element: walk.take(&[*tag])? }),
            // An octet that is no group's tag: left over.
            None => walk.close()?,
        }
    }
    Ok(Parts { com, object, files })
}

/// "`0107` goes with object version 0, `0108` with version 1 and strings equal to EF.COM's."
fn agree(common: &Common, object: &Object) -> bool {
    match (common.lds, &object.strings) {
        (Lds::V17, None) => true,
        (Lds::V18, Some(strings)) => strings.lds == Lds::V18.told() && strings.unicode == common.unicode,
        _ => false,
    }
}

/// Stage 5 for one file and those lent before it.
fn allowed(lent: &[u8], file: &File, before: &[File], listed: &[u8], entries: &[Entry]) -> Result<(), Refusal> {
    let place = file.element.whole.start;
    let is_listed = listed.contains(&lent[place]);
    let is_new = before.iter().all(|other| other.group != file.group);
    let entry = entries.iter().find(|entry| entry.number == file.group);
    let entry = entry.filter(|_| is_listed && is_new).ok_or(Refusal::at(14, place))?;
    if sha256(&lent[file.element.whole.clone()]) != entry.digest {
        return Err(Refusal::at(15, place));
    }
    Ok(())
}

/// Stage 6, inside group 1. The text's places are counted from the text's start, so they are moved to where that stands.
fn record(lent: &[u8], file: &Element) -> Result<Record, Refusal> {
    let mut walk = Walk::inside(lent, file);
    let text = walk.take(&[0x5f, 0x1f])?.content;
    walk.close()?;
    let start = text.start;
    text::read_among(&lent[text], &Form::IN_GROUP_1)
        .map_err(|refusal| Refusal { place: start + refusal.place, ..refusal })
}

/// The first file with the group's tag, as a stretch of what was lent.
pub fn group_file(lent: &[u8], group: u32) -> Stretch {
    let parts = match parts(lent) {
        Ok(parts) => parts,
        Err(_) => return Stretch::EMPTY,
    };
    let found = parts.files.iter().find(|file| u32::from(file.group) == group);
    found.map_or(Stretch::EMPTY, |file| {
        let whole = &file.element.whole;
        Stretch { start: whole.start as u64, length: whole.len() as u64 }
    })
}

/// The file of a group that has a tag.
pub fn write_file(group: u8, content: &[u8]) -> Vec<u8> {
    let tag = group::tag_of(u32::from(group)).expect("a group that has a tag");
    tlv(&[tag], content)
}

/// Group 1's content with a text.
pub fn write_text_element(text: &[u8]) -> Vec<u8> {
    tlv(&[0x5f, 0x1f], text)
}

/// A presentation of LDS 1.7.
pub fn write(files: &[(u8, Vec<u8>)]) -> Vec<u8> {
    write_as(Lds::V17, files)
}

/// A presentation that lists and has entries for just the groups whose files these are, and for group 2 where it would
/// have one entry only, which are too few.
pub fn write_as(lds: Lds, files: &[(u8, Vec<u8>)]) -> Vec<u8> {
    let octets: Vec<Vec<u8>> = files.iter().map(|(group, content)| write_file(*group, content)).collect();
    let tags: Vec<u8> = octets.iter().map(|file| file[0]).collect();
    let entry = |(group, file): (u8, &Vec<u8>)| Entry { number: group, digest: sha256(file) };
    let mut entries: Vec<Entry> = files.iter().map(|file| file.0).zip(&octets).map(entry).collect();
    if let [only] = &entries[..] {
        let other = if only.number == 2 { 1 } else { 2 };
        entries.push(Entry { number: other, digest: [0; 32] });
    }
    let strings = Strings { lds: lds.told().to_vec(), unicode: b"040000".to_vec() };
    let object = Object { entries, strings: Some(strings).filter(|_| lds == Lds::V18) };
    [com::write(lds, b"040000", &tags), object::write(&object, true), octets.concat()].concat()
}

#[cfg(test)]
mod tests {
    use super::*;
    use crate::specimens;

    fn first() -> (u8, Vec<u8>) {
        (1, write_text_element(specimens::T3.as_bytes()))
    }

    /// EF.COM of 22 octets, the object of 100 at 22, group 1 of 93 at 122 with its text at 127, group 2 of 5 at 215.
    fn sample() -> Vec<u8> {
        write(&[first(), (2, b"abc".to_vec())])
    }

    fn refused(lent: &[u8]) -> (u32, usize) {
        let refusal = read(lent).unwrap_err();
        (refusal.number, refusal.place)
    }

    fn t3() -> Record {
        text::read(specimens::T3.as_bytes()).unwrap()
    }

    /// The lent octets with the digest of the file at a place put into the entry at another.
    fn sealed(mut lent: Vec<u8>, file: std::ops::Range<usize>, entry: usize) -> Vec<u8> {
        let digest = sha256(&lent[file]);
        lent[entry..entry + 32].copy_from_slice(&digest);
        lent
    }

    #[test]
    fn where_all_stands() {
        let sample = sample();
        assert_eq!(sample.len(), 220);
        assert_eq!(sample[..2], [0x60, 0x14]);
        assert_eq!(sample[22..24], [0x30, 0x62]);
        assert_eq!(sample[122..127], [0x61, 0x5b, 0x5f, 0x1f, 0x58]);
        assert_eq!(sample[127..215], *specimens::T3.as_bytes());
        assert_eq!(sample[215..], [0x75, 0x03, b'a', b'b', b'c']);
        assert_eq!(read(&sample), Ok(t3()));
    }

    #[test]
    fn the_size_goes_first() {
        assert_eq!(refused(&vec![0x60; 65_536]), (1, 0));
        assert_eq!(refused(&vec![0x00; 65_536]), (1, 0));
        // 65,535 octets in all: one file more, with a length of three octets.
        let rest = |size| write(&[first(), (2, vec![7; size])]);
        let around = rest(1_000).len() - 1_000;
        assert_eq!(read(&rest(65_535 - around)), Ok(t3()));
        assert_eq!(refused(&rest(65_536 - around)), (1, 0));
    }

    #[test]
    fn the_outer_walk() {
        assert_eq!(refused(&[]), (10, 0));
        assert_eq!(refused(&[0x60]), (10, 0));
        assert_eq!(refused(&[0x60, 0x00]), (10, 2));
        assert_eq!(refused(&[0x61, 0x00]), (10, 0));
        assert_eq!(refused(&[0x60, 0x00, 0x30, 0x00, 0x66, 0x00]), (10, 4));
        assert_eq!(refused(&[0x60, 0x00, 0x30, 0x00, 0x75]), (10, 4));
        assert_eq!(refused(&[0x60, 0x00, 0x30, 0x00, 0x75, 0x00, 0x70, 0x01]), (10, 6));
        assert_eq!(refused(&[0x60, 0x00, 0x30, 0x00, 0x75, 0x81, 0x00]), (10, 4));
        // All well outside: then EF.COM is looked into.
        assert_eq!(refused(&[0x60, 0x00, 0x30, 0x00, 0x75, 0x00]), (10, 2));
    }

    #[test]
    fn files_that_are_not_allowed() {
        let sample = sample();
        let again = [&sample[..], &sample[215..]].concat();
        assert_eq!(refused(&again), (14, 220));
        // 70 is neither listed nor has it an entry; 63 neither.
        for tag in [0x70, 0x63] {
            assert_eq!(refused(&[&sample[..], &[tag, 0x00]].concat()), (14, 220));
        }
        // Only one of the two.
        let mut unlisted = sample.clone();
        unlisted[21] = 0x63;
        assert_eq!(refused(&unlisted), (14, 215));
        let mut without = sample.clone();
        without[22 + 65] = 3;
        assert_eq!(refused(&without), (14, 215));
        // Every octet of both digests, and one of each file.
        for place in (51..83).chain(127..128) {
            let mut other = sample.clone();
            other[place] ^= 0x80;
            assert_eq!(refused(&other), (15, 122));
        }
        for place in (90..122).chain(217..220) {
            let mut other = sample.clone();
            other[place] ^= 0x01;
            assert_eq!(refused(&other), (15, 215));
        }
    }

    #[test]
    fn no_group_1() {
        let sample = sample();
        assert_eq!(refused(&sample[..122]), (14, 122));
        assert_eq!(refused(&[&sample[..122], &sample[215..]].concat()), (14, 127));
        // A file that is not allowed is told before.
        let mut other = [&sample[..122], &sample[215..]].concat();
        other[126] ^= 1;
        assert_eq!(refused(&other), (15, 122));
    }

    #[test]
    fn inside_group_1() {
        let with = |content: &[u8]| refused(&write(&[(1, content.to_vec()), (2, Vec::new())]));
        assert_eq!(with(&[]), (10, 124));
        assert_eq!(with(&[0x5f]), (10, 124));
        assert_eq!(with(&[0x5f, 0x1f]), (10, 124));
        assert_eq!(with(&[0x5f, 0x1f, 0x01]), (10, 124));
        assert_eq!(with(&[0x5f, 0x1e, 0x00]), (10, 124));
        assert_eq!(with(&[0x5f, 0x1f, 0x00]), (1, 127));
        // What is left over goes before what is wrong with the text.
        assert_eq!(with(&[0x5f, 0x1f, 0x00, 0x00]), (10, 127));
        assert_eq!(with(&[&first().1[..], &[0x00]].concat()), (10, 215));
    }

    #[test]
    fn a_text_is_refused_where_it_stands() {
        for (place, character, number) in [(130, b'a', 2), (127, b'V', 3), (191, b'X', 7), (214, b'1', 9)] {
            let mut other = sample();
            other[place] = character;
            let other = sealed(other, 122..215, 51);
            assert_eq!(refused(&other), (number, place));
            assert_eq!(read(&other).unwrap_err().expected, Some(0).filter(|_| number == 9));
        }
    }

    /// "Inside group 1 such a text stays refusal 3", but where a character is none of the alphabet.
    #[test]
    fn visas_in_group_1() {
        for text in [specimens::ERIKSSON_MRV_A, specimens::ERIKSSON_MRV_B].map(str::as_bytes) {
            let with = |text: &[u8]| refused(&write(&[(1, write_text_element(text)), (2, Vec::new())]));
            assert_eq!(with(text), (3, 127));
            for place in 1..text.len() {
                let other = |character: u8| [&text[..place], &[character], &text[place + 1..]].concat();
                assert_eq!(with(&other(b'a')), (2, 127 + place));
                assert_eq!(with(&other(b'0')), (3, 127));
            }
        }
    }

    #[test]
    fn stages_in_number_order() {
        // A bad list, a bad version, an unknown algorithm, a group lent twice: told one after another as each is mended.
        let mut lent = [&sample()[..], &[0x75, 0x00]].concat();
        (lent[20], lent[26], lent[40]) = (0x66, 0x02, 0x06);
        assert_eq!(refused(&lent), (11, 20));
        lent[20] = 0x61;
        assert_eq!(refused(&lent), (12, 24));
        lent[26] = 0x00;
        assert_eq!(refused(&lent), (13, 27));
        lent[40] = 0x05;
        assert_eq!(refused(&lent), (14, 220));
    }

    /// EF.COM of 22 octets, the object of 116 at 22, whose version is the octet at 26 and whose strings stand at 126 and at 132,
    /// group 1 of 93 at 138.
    fn newer() -> Vec<u8> {
        write_as(Lds::V18, &[first(), (2, b"abc".to_vec())])
    }

    #[test]
    fn a_newer_one() {
        let newer = newer();
        assert_eq!(newer.len(), 236);
        assert_eq!(newer[5..9], *b"0108");
        assert_eq!(newer[22..27], [0x30, 0x72, 0x02, 0x01, 0x01]);
        assert_eq!(newer[122..132], [0x30, 0x0e, 0x13, 0x04, b'0', b'1', b'0', b'8', 0x13, 0x06]);
        assert_eq!(newer[132..143], *b"040000\x61\x5b\x5f\x1f\x58");
        assert_eq!(read(&newer), Ok(t3()));
    }

    #[test]
    fn versions_that_disagree() {
        // `0107` with version 1, and `0108` with version 0: at the object's start.
        let mut older = newer();
        older[8] = b'7';
        assert_eq!(refused(&older), (19, 22));
        let mut plain = sample();
        plain[8] = b'8';
        assert_eq!(refused(&plain), (19, 22));
        // Every octet of both strings, and of EF.COM's Unicode version.
        for place in (126..130).chain(132..138).chain(12..18) {
            let mut other = newer();
            other[place] ^= 0x01;
            assert_eq!(refused(&other), (19, 22));
        }
        // "0107" in the string of a version 1 that EF.COM calls 0107 too.
        older[129] = b'7';
        assert_eq!(refused(&older), (19, 22));
    }

    #[test]
    fn strings_of_another_length_disagree() {
        let entries = vec![Entry { number: 1, digest: [1; 32] }, Entry { number: 2, digest: [2; 32] }];
        let with = |lds: &[u8], unicode: &[u8]| {
            let strings = Strings { lds: lds.to_vec(), unicode: unicode.to_vec() };
            let object = Object { entries: entries.clone(), strings: Some(strings) };
            refused(&[com::write(Lds::V18, b"040000", &[0x61, 0x75]), object::write(&object, false)].concat())
        };
        // No file is lent, so what agrees is refused in stage 6.
        assert_eq!(with(b"0108", b"040000").0, 14);
        let others: [(&[u8], &[u8]); 8] = [
            (b"", b"040000"),
            (b"0108", b""),
            (b"010", b"040000"),
            (b"01080", b"040000"),
            (b"0108", b"04000"),
            (b"0108", b"0400000"),
            // In each other's place, and both in one.
            (b"040000", b"0108"),
            (b"0108040000", b""),
        ];
        for (lds, unicode) in others {
            assert_eq!(with(lds, unicode), (19, 22));
        }
    }

    #[test]
    fn agreement_stands_behind_stage_4_and_before_stage_5() {
        // 0107, version 1, a repeated number, a digest that differs.
        let mut lent = newer();
        (lent[8], lent[87], lent[200]) = (b'7', 1, 0x00);
        assert_eq!(refused(&lent), (12, 85));
        lent[87] = 2;
        assert_eq!(refused(&lent), (19, 22));
        lent[8] = b'8';
        assert_eq!(refused(&lent), (15, 138));
        // `0107` with version 1 and no sequence: 10 at the list's end.
        let mut without = sample();
        without[26] = 1;
        assert_eq!(refused(&without), (10, 122));
        // `0108` with version 0 and the sequence: 10 where it stands.
        let mut plain = newer();
        plain[26] = 0;
        assert_eq!(refused(&plain), (10, 122));
    }

    #[test]
    fn files_of_groups() {
        let sample = [&sample()[..], &[0x61, 0x00]].concat();
        let file = |group| (group_file(&sample, group).start, group_file(&sample, group).length);
        assert_eq!((file(1), file(2)), ((122, 93), (215, 5)));
        for group in [0, 3, 6, 16, 17, 97, 257, u32::MAX] {
            assert_eq!(file(group), (0, 0));
        }
        // The outer walk alone decides: nothing inside is looked at.
        let bare = [0x60, 0x00, 0x30, 0x00, 0x70, 0x00, 0x61, 0x00];
        assert_eq!(group_file(&bare, 16), Stretch { start: 4, length: 2 });
        assert_eq!(group_file(&bare[..7], 16), Stretch::EMPTY);
        assert_eq!(group_file(&vec![0; 65_536], 1), Stretch::EMPTY);
    }
}
