//! The files of groups that Doc 9303-10 prints (source document 000, appendix A.2 to A.7, and 6.3.2.2 for a count of 0), as they
//! are printed and mended, each with the answer that request 2026-10 gives it. `vectors/source-000/` has their octets.
//!
//! A.3 and A.4 leave out the biometric data and the image, and say how long they are.

use crate::cases::vector::octets;
use paper::answer::Answer;
use paper::refusal::Refusal;
use paper::tlv::tlv;

pub struct Printed {
    pub name: &'static str,
    pub octets: Vec<u8>,
    pub answer: Answer,
}

macro_rules! example {
    ($name:literal) => {
        octets(include_str!(concat!("../../../vectors/source-000/", $name, ".hex")))
    };
}

pub fn all() -> Vec<Printed> {
    [texts(), faces(), images(), details(), documents(), persons(), none()].into_iter().flatten().collect()
}

fn whole(name: &'static str, octets: Vec<u8>, elements: u64) -> Printed {
    Printed { name, octets, answer: Answer::not_refused(elements) }
}

fn refused(name: &'static str, octets: Vec<u8>, number: u32, place: usize) -> Printed {
    Printed { name, octets, answer: Answer::refused(Refusal::at(number, place)) }
}

/// The octets with one of them another, which was as told.
fn mended(mut octets: Vec<u8>, place: usize, was: u8, is: u8) -> Vec<u8> {
    assert_eq!(octets[place], was, "the octet that is printed");
    octets[place] = is;
    octets
}

/// A.2. Of the texts as they are printed two and 34 characters stand behind the file.
fn texts() -> Vec<Printed> {
    let (first, second) = (example!("group1-td1"), example!("group1-td2"));
    vec![
        refused("A.2.1", first.clone(), 10, 95),
        whole("A.2.1, as many characters as its lengths say", first[..95].to_vec(), 2),
        refused("A.2.2", second.clone(), 10, 77),
        whole("A.2.2, as many characters as its lengths say", second[..77].to_vec(), 2),
    ]
}

/// A.3: 75, 7F61, 02, 7F60, A1 and the seven in it, 5F2E.
fn faces() -> Vec<Printed> {
    let face = [example!("group2"), vec![0x3c; 12_642]].concat();
    let count = 9;
    vec![
        // The digits as they are printed, 9EC and all, in octets: behind 75 82319E stands C7, and F6 is no length.
        refused("A.3, its digits as they are printed", digits_as_printed(&face), 10, 4),
        // A1 26 ends two octets before the last of what it holds does: at 88, behind 36 octets.
        refused("A.3 with 75 82319E alone", mended(face.clone(), 18, 0x28, 0x26), 10, 19 + 36),
        whole("A.3 with 75 82319E and A1 28", face.clone(), 13),
        // A count that is wrong, at 7F61; and one octet more, or less, than the file says.
        refused("A.3 with a count of 2", mended(face.clone(), count + 2, 1, 2), 22, 4),
        refused("A.3 with a count of 0", mended(face.clone(), count + 2, 1, 0), 22, 4),
        refused("A.3 with 7F62 for 7F61", mended(face.clone(), 5, 0x61, 0x62), 22, 0),
        refused("A.3 and one octet more", [&face[..], &[0]].concat(), 10, 12_706),
        refused("A.3 and one octet less", face[..12_705].to_vec(), 10, 0),
    ]
}

/// The face's digits with A1 26, and a C behind its own length, which moves all digits behind it by one.
fn digits_as_printed(face: &[u8]) -> Vec<u8> {
    let printed = mended(face.to_vec(), 18, 0x28, 0x26);
    let mut octets = printed[..4].to_vec();
    let digits: Vec<u8> = printed[4..].iter().flat_map(|octet| [octet >> 4, octet & 15]).collect();
    octets.extend([&[0xc], &digits[..]].concat().chunks_exact(2).map(|pair| pair[0] << 4 | pair[1]));
    octets
}

/// A.4: 65, 02, 5F40.
fn images() -> Vec<Printed> {
    let image = [example!("group5"), vec![0xff; 2_000]].concat();
    vec![
        whole("A.4", image.clone(), 3),
        refused("A.4 with its image cut off", image[..image.len() - 1].to_vec(), 10, 0),
        // As if the image were constructed: FF is the first octet of a tag, and no second one.
        refused("A.4 with 7F40 for 5F40", mended(image, 7, 0x5f, 0x7f), 10, 12),
    ]
}

/// A.5: 6B, 5C and five elements, once the telephone is as the text above it has it.
fn details() -> Vec<Printed> {
    let printed = example!("group11");
    let (before, behind) = (&printed[..72], &printed[83..]);
    let telephone = [before, b"1-612-555-1212", behind].concat();
    vec![
        refused("A.5", printed.clone(), 10, 0),
        whole("A.5 with the telephone as its text has it", telephone, 7),
        // As long as it is, and the telephone then takes three octets of the element behind it.
        refused("A.5 with 6B 60", mended(printed.clone(), 1, 0x63, 0x60), 10, 86),
        whole("A.5 with 6B 60 and 5F12 0B", mended(mended(printed.clone(), 1, 0x63, 0x60), 71, 0x0e, 0x0b), 7),
    ]
}

/// A.6: 6C, 5C, 5F19, 5F26 and 0A, which is primitive; with A0 for it also the two that stand in it.
fn documents() -> Vec<Printed> {
    let printed = example!("group12");
    vec![
        whole("A.6", printed.clone(), 5),
        whole("A.6 with A0 for 0A", mended(printed.clone(), 48, 0x0a, 0xa0), 7),
        // 64, as the text above it says.
        refused("A.6 with 6C 40", mended(printed, 1, 0x45, 0x40), 10, 48),
    ]
}

/// A.7: 70, 02, A1 and A2 with four each.
fn persons() -> Vec<Printed> {
    let printed = example!("group16");
    vec![whole("A.7", printed.clone(), 12), refused("A.7 with A2 50", mended(printed, 85, 0x4f, 0x50), 10, 84)]
}

/// Table 29: "an empty Biometric Information Group Template", and 53 with issuer defined content; in group 2 there is none.
fn none() -> Vec<Printed> {
    let held = [tlv(&[0x7f, 0x61], &[0x02, 0x01, 0x00]), tlv(&[0x53], b"a random number")].concat();
    vec![
        whole("table 29", tlv(&[0x63], &held), 4),
        whole("table 29 in group 4", tlv(&[0x76], &held), 4),
        refused("table 29 in group 2", tlv(&[0x75], &held), 22, 2),
    ]
}

#[cfg(test)]
mod tests {
    use super::*;
    use paper::calls;

    #[test]
    fn the_reader_answers_as_argued() {
        for printed in all() {
            assert_eq!(calls::look_inside(&printed.octets), printed.answer, "{}", printed.name);
        }
    }

    /// What the pages say of their lengths.
    #[test]
    fn as_long_as_they_say() {
        let lengths =
            [example!("group2"), example!("group5"), example!("group12"), example!("group16")].map(|file| file.len());
        assert_eq!(lengths, [4 + 12_702 - 12_642, 4 + 2_008 - 2_000, 2 + 69, 3 + 162]);
        assert_eq!(example!("group11").len(), 2 + 96);
    }
}
