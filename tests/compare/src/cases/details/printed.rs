//! Group 11's file as Doc 9303-10 prints it (source document 000, appendix A.5), as it is printed and mended, each with the
//! answers that request 2026-01 gives it.

use crate::cases::vector::octets;
use paper::answer::Detail;
use paper::refusal::Refusal;

pub struct Printed {
    pub name: &'static str,
    pub octets: Vec<u8>,
    read: Result<Values, Refusal>,
}

type Values = [(u32, &'static [u8]); 5];

impl Printed {
    /// What is found of a tag: the value, which stands once in the file.
    pub fn detail(&self, tag: u32) -> Detail {
        let values = match &self.read {
            Ok(values) => values,
            Err(refusal) => return Detail::refused(*refusal),
        };
        let value = values.iter().find(|(named, _)| *named == tag).map(|(_, value)| value);
        Detail::found(value.map(|value| {
            let start =
                self.octets.windows(value.len()).position(|window| window == *value).expect("a value of the file");
            start..start + value.len()
        }))
    }
}

fn values(telephone: &'static [u8]) -> Values {
    [
        (0x5f0e, b"SMITH<<JOHN<J"),
        (0x5f11, b"ANYTOWN<MN"),
        (0x5f42, b"123 MAPLE RD<ANYTOWN<MN"),
        (0x5f12, telephone),
        (0x5f13, b"TRAVEL<AGENT"),
    ]
}

pub fn all() -> Vec<Printed> {
    let printed = octets(include_str!("../../../vectors/source-000/group11.hex"));
    let telephone = [&printed[..72], b"1-612-555-1212", &printed[83..]].concat();
    let with = |changes: &[(usize, u8)]| {
        let mut octets = printed.clone();
        changes.iter().for_each(|(place, octet)| octets[*place] = *octet);
        octets
    };
    let refused = |number, place| Err(Refusal::at(number, place));
    let read = values(b"1-612-555-1212");
    vec![
        // It says 99 octets and has 96.
        Printed { name: "A.5", octets: printed.clone(), read: refused(10, 0) },
        Printed { name: "A.5 with the telephone as its text has it", octets: telephone.clone(), read: Ok(read) },
        // As long as it is, and the telephone then takes three octets of the element behind it.
        Printed { name: "A.5 with 6B 60", octets: with(&[(1, 0x60)]), read: refused(10, 86) },
        Printed {
            name: "A.5 with 6B 60 and 5F12 0B",
            octets: with(&[(1, 0x60), (71, 0x0b)]),
            read: Ok(values(b"16125551212")),
        },
        Printed {
            name: "A.5 mended, and one octet more",
            octets: [&telephone[..], &[0]].concat(),
            read: refused(10, 101),
        },
        Printed { name: "A.5 mended, and one octet less", octets: telephone[..100].to_vec(), read: refused(10, 0) },
    ]
}

#[cfg(test)]
mod tests {
    use super::*;
    use crate::cases::details::asked;
    use paper::calls;

    #[test]
    fn the_reader_answers_as_argued() {
        for (printed, tag) in all().iter().flat_map(|printed| asked().map(move |tag| (printed, tag))) {
            assert_eq!(calls::read_detail(&printed.octets, tag), printed.detail(tag), "{}, {tag:x}", printed.name);
        }
    }
}
