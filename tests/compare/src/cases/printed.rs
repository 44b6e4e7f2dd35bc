//! The examples that Doc 9303-10 prints of EF.COM and of group 1's file (source document 000, appendix A.1 and A.2), each in a
//! presentation that is sound but for it, with the answer that document 01 gives it. `vectors/source-000/` has their octets
//! as they are printed.
//!
//! EF.COM is always the appendix's, of 24 octets. It lists groups 1, 2, 4 and 12.

use crate::cases::vector::{octets, refused, Vector};
use paper::object::{self, Entry, Object};
use paper::presentation::{write_file, write_text_element};
use paper::refusal::Refusal;
use paper::sha256::sha256;
use paper::{group, specimens};

/// Where group 1's file stands: behind EF.COM, and an object with two entries, of 100 octets.
const FILE: usize = 24 + 100;
/// Where its text stands: behind 61, 5F1F and their lengths.
const TEXT: usize = FILE + 5;

macro_rules! example {
    ($name:literal) => {
        octets(include_str!(concat!("../../vectors/source-000/", $name, ".hex")))
    };
}

pub fn all() -> Vec<Vector> {
    coms().into_iter().chain(texts_of_td1()).chain(texts_of_td2()).collect()
}

/// A.1.
fn coms() -> Vec<Vector> {
    let others = [(2, b"face"), (4, b"iris"), (12, b"more")].map(|(group, content)| write_file(group, content));
    let files = [vec![write_file(1, &write_text_element(specimens::T3.as_bytes()))], others.to_vec()].concat();
    vec![
        // "5F01 of length 4, `0107`; 5F36 of length 6, six digits; 5C, the tag list": every stage passes.
        Vector { name: "A.1, 0107", octets: around(&example!("com"), &files), refusal: None },
        // "a version of another value, is 11 .. at that element".
        Vector { name: "A.1, 1599", octets: around(&example!("com-1599"), &files), refusal: refused(11, 2) },
    ]
}

/// A.2.1. Its characters are two more than the 90 that its lengths say.
fn texts_of_td1() -> Vec<Vector> {
    let printed = example!("group1-td1");
    let text = &printed[5..];
    let fewer = [&text[..30], &text[31..49], &text[50..]].concat();
    vec![
        // 61 5D is a file of 95 octets. Behind it stands S, no group's tag: 10 at the first octet left over.
        with_first("A.2.1, as it is printed", &printed, refused(10, FILE + 95)),
        // "text not 72, 88 or 90", at its start.
        with_text("A.2.1, all its characters", text, refused(1, TEXT)),
        // Of the first 90 the birth, behind line 1's 30, is <72081: a year of a filler and a digit.
        with_text("A.2.1, as many characters as its lengths say", &text[..90], refused(6, TEXT + 30)),
        // Without one of the fillers that end line 1's optional data and one of line 2's, the lines are whole, and the check
        // digits 6, 8 and 8 right. The composite, line 2's last, is 4, and by the weights it is 9.
        with_text("A.2.1, a filler less in each line", &fewer, Some(Refusal::digit(9, TEXT + 59))),
    ]
}

/// A.2.2. Its characters are 34 more than the 72 that its lengths say.
fn texts_of_td2() -> Vec<Vector> {
    let printed = example!("group1-td2");
    let text = &printed[5..];
    vec![
        // 61 4B is a file of 77 octets. Behind it stands 4, no group's tag.
        with_first("A.2.2, as it is printed", &printed, refused(10, FILE + 77)),
        with_text("A.2.2, all its characters", text, refused(1, TEXT)),
        // Of the first 72 the number, behind line 1's 36, begins with a filler.
        with_text("A.2.2, as many characters as its lengths say", &text[..72], refused(5, TEXT + 36)),
    ]
}

fn with_text(name: &'static str, text: &[u8], refusal: Option<Refusal>) -> Vector {
    with_first(name, &write_file(1, &write_text_element(text)), refusal)
}

/// With this file of group 1, and one of group 2 behind it.
fn with_first(name: &'static str, first: &[u8], refusal: Option<Refusal>) -> Vector {
    let files = [first.to_vec(), write_file(2, b"face")];
    Vector { name, octets: around(&example!("com"), &files), refusal }
}

/// EF.COM, an object with an entry for each of the files, and these.
fn around(com: &[u8], files: &[Vec<u8>]) -> Vec<u8> {
    let number = |file: &Vec<u8>| group::of_tag(file[0]).expect("the tag of a group");
    let entries: Vec<Entry> = files.iter().map(|file| Entry { number: number(file), digest: sha256(file) }).collect();
    [com, &object::write(&Object { entries, strings: None }, true), &files.concat()].concat()
}

#[cfg(test)]
mod tests {
    use super::*;
    use paper::com;
    use paper::lds::Lds;

    #[test]
    fn the_encoder_writes_what_is_printed() {
        assert_eq!(com::write(Lds::V17, b"040000", &[0x61, 0x75, 0x76, 0x6c]), example!("com"));
    }

    /// How many characters are printed, and where the files stand that they are counted from.
    #[test]
    fn the_characters_that_are_printed() {
        assert_eq!((example!("group1-td1").len(), example!("group1-td2").len()), (5 + 92, 5 + 106));
        for vector in texts_of_td1().iter().chain(&texts_of_td2()) {
            assert_eq!((vector.octets[24], vector.octets[FILE]), (0x30, 0x61), "{}", vector.name);
            assert_eq!(vector.octets[FILE + 2..FILE + 4], [0x5f, 0x1f], "{}", vector.name);
        }
    }
}
