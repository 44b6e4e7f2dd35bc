//! A seal's header, from document 02, requests 2026-08 and 2026-13, and source document 002, table 1: version octet 02 has a
//! reference of nine characters, 03 one that says how many follow.

use crate::day::Day;
use crate::field::{is_digit, is_letter, is_state};
use crate::refusal::Refusal;
use crate::seal::fillers::{with_fillers, with_spaces};
use crate::{c40, day};

/// What every seal begins with.
pub const MAGIC: u8 = 0xdc;
/// Of emergency documents: the feature definition reference and the type category.
pub const DEFINITION: u8 = 0x5e;
pub const CATEGORY: u8 = 0x03;

/// The header's fields. The country has fillers; the reference is that of the certificate, without signer and count.
#[derive(Clone, Debug, PartialEq, Eq)]
pub struct Header {
    pub version: u8,
    pub country: [u8; 3],
    pub signer: [u8; 4],
    pub reference: Vec<u8>,
    pub issued: Day,
    pub signed_on: Day,
    pub definition: u8,
    pub category: u8,
}

/// The fields from left to right.
struct Fields<'a> {
    lent: &'a [u8],
    at: usize,
}

impl<'a> Fields<'a> {
    /// What the next field says, which has so many octets; 24 at its first where the seal ends before its last, or
    /// where it says nothing.
    fn take<T>(&mut self, width: Option<usize>, says: impl Fn(&'a [u8]) -> Option<T>) -> Result<T, Refusal> {
        let field = width.and_then(|width| self.left().get(..width));
        let said = field.and_then(|field| Some((says(field)?, field.len())));
        let (said, width) = said.ok_or(Refusal::at(24, self.at))?;
        self.at += width;
        Ok(said)
    }

    /// A field of one octet, which must be one of these.
    fn octet(&mut self, of: &[u8]) -> Result<u8, Refusal> {
        self.take(Some(1), |field| of.contains(&field[0]).then_some(field[0]))
    }

    fn left(&self) -> &'a [u8] {
        &self.lent[self.at..]
    }
}

/// The header, and where it ends; or 24 at the first field from the left that is wrong, cut off or not there.
pub fn read(lent: &[u8]) -> Result<(Header, usize), Refusal> {
    let mut fields = Fields { lent, at: 0 };
    fields.octet(&[MAGIC])?;
    let version = fields.octet(&[0x02, 0x03])?;
    let country = fields.take(Some(2), country)?;
    let width = reference_width(version, fields.left());
    let (signer, reference) = fields.take(width, |field| reference(version, field))?;
    let issued = fields.take(Some(3), day::read)?;
    let signed_on = fields.take(Some(3), day::read)?;
    let definition = fields.octet(&[DEFINITION])?;
    let category = fields.octet(&[CATEGORY])?;
    Ok((Header { version, country, signer, reference, issued, signed_on, definition, category }, fields.at))
}

/// Three characters that keep the rule for a state.
fn country(field: &[u8]) -> Option<[u8; 3]> {
    let country = <[u8; 3]>::try_from(with_fillers(&c40::read(field)?)).ok()?;
    is_state(&country).then_some(country)
}

/// In version octet 03 the first six characters say how many follow. None where they do not.
fn reference_width(version: u8, left: &[u8]) -> Option<usize> {
    if version == 0x02 {
        return Some(c40::octets_of(9));
    }
    let first = c40::read(left.get(..c40::octets_of(6))?)?;
    Some(c40::octets_of(6) + c40::octets_of(count(first.get(4..6)?)?))
}

/// Two of 0-9 and A-F.
fn count(digits: &[u8]) -> Option<usize> {
    let value = |digit: u8| HEX.iter().position(|other| *other == digit);
    Some(16 * value(digits[0])? + value(digits[1])?)
}

const HEX: &[u8; 16] = b"0123456789ABCDEF";

/// The signer's four characters, and those of the certificate reference.
fn reference(version: u8, field: &[u8]) -> Option<([u8; 4], Vec<u8>)> {
    let text = c40::read(field)?;
    let signer = <[u8; 4]>::try_from(text.get(..4)?).ok()?;
    let (said, reference) = match version {
        0x02 => (5, text.get(4..)?),
        _ => (count(text.get(4..6)?)?, text.get(6..)?),
    };
    let kept = is_signer(signer) && is_certificate(reference) && reference.len() == said;
    kept.then(|| (signer, reference.to_vec()))
}

/// Two letters, then two letters or digits.
fn is_signer(signer: [u8; 4]) -> bool {
    let letters = signer[..2].iter().all(|character| is_letter(*character));
    letters && signer[2..].iter().all(|character| is_letter(*character) || is_digit(*character))
}

fn is_certificate(reference: &[u8]) -> bool {
    reference.iter().all(|character| HEX.contains(character))
}

impl Header {
    /// Whether version 03 can carry every field: "28 for a header field that version 03 cannot carry" (2026-13). What a
    /// reader would not give back as it was given cannot be carried.
    pub fn is_carried(&self) -> bool {
        let emergency = (self.version, self.definition, self.category) == (0x03, DEFINITION, CATEGORY);
        emergency
            && is_state(&self.country)
            && is_signer(self.signer)
            && is_certificate(&self.reference)
            && self.reference.len() <= 255
            && self.issued.is_one()
            && self.signed_on.is_one()
    }
}

/// The octets of each field, in their order. What a rule would refuse is written all the same, where it has octets.
pub fn fields(header: &Header) -> [Vec<u8>; 8] {
    [
        vec![MAGIC],
        vec![header.version],
        c40::write(&with_spaces(&header.country)),
        c40::write(&reference_text(header)),
        day::write(header.issued).to_vec(),
        day::write(header.signed_on).to_vec(),
        vec![header.definition],
        vec![header.category],
    ]
}

fn reference_text(header: &Header) -> Vec<u8> {
    let length = header.reference.len();
    let said = match header.version {
        0x02 => Vec::new(),
        _ => vec![HEX[length / 16], HEX[length % 16]],
    };
    [&header.signer[..], &said, &header.reference].concat()
}

#[cfg(test)]
mod tests {
    use super::*;

    fn header(version: u8, reference: &[u8]) -> Header {
        let (issued, signed_on) = (Day { year: 2016, month: 8, day: 8 }, Day { year: 2007, month: 8, day: 9 });
        let (definition, category) = (DEFINITION, CATEGORY);
        let (country, signer, reference) = (*b"UTO", *b"UT01", reference.to_vec());
        Header { version, country, signer, reference, issued, signed_on, definition, category }
    }

    fn written(header: &Header) -> Vec<u8> {
        fields(header).concat()
    }

    /// The place of refusal 24.
    fn refused(lent: &[u8]) -> usize {
        let refusal = read(lent).unwrap_err();
        assert_eq!(refusal.number, 24);
        refusal.place
    }

    /// The header with one field's octets replaced. That field's place is given where it is refused.
    fn with(header: &Header, field: usize, octets: &[u8]) -> Option<usize> {
        let mut all = fields(header);
        let place: usize = all[..field].iter().map(Vec::len).sum();
        all[field] = octets.to_vec();
        // Enough behind it that nothing is cut off.
        match read(&[&all.concat()[..], &[0x13; 200]].concat()) {
            Ok(_) => None,
            Err(refusal) => {
                assert_eq!(refusal, Refusal::at(24, place));
                Some(place)
            }
        }
    }

    fn c40_with(header: &Header, field: usize, text: &[u8]) -> Option<usize> {
        with(header, field, &c40::write(text))
    }

    #[test]
    fn the_header_of_the_papers_in_version_octet_02() {
        let octets = [
            0xdc, 0x02, 0xd9, 0xc5, 0xd9, 0xad, 0x22, 0x4c, 0x5a, 0x8c, 0x7b, 0x52, 0x60, 0x7b, 0x79, 0x67, 0x5e, 0x03,
        ];
        assert_eq!(written(&header(0x02, b"FFAFF")), octets);
        assert_eq!(read(&octets), Ok((header(0x02, b"FFAFF"), 18)));
    }

    #[test]
    fn references_of_every_length() {
        for length in 0..=255 {
            let reference: Vec<u8> = HEX.iter().copied().cycle().skip(length % 16).take(length).collect();
            let header = header(0x03, &reference);
            let octets = written(&header);
            assert_eq!(octets.len(), 12 + 4 + 2 * ((length + 2) / 3));
            assert_eq!(read(&[&octets[..], &[0x00]].concat()), Ok((header, octets.len())));
        }
        for version in [0x02, 0x03] {
            let zeros = header(version, b"00000");
            assert_eq!(read(&written(&zeros)).map(|(header, _)| header), Ok(zeros));
        }
    }

    /// Every prefix is refused at the field that it ends in, or that should begin there.
    #[test]
    fn headers_that_are_cut_off() {
        let references: [(u8, &[u8]); 5] =
            [(0x02, b"FFAFF"), (0x03, b""), (0x03, b"A"), (0x03, b"FFAFF"), (0x03, &[b'7'; 255])];
        for (version, reference) in references {
            let fields = fields(&header(version, reference));
            let octets = fields.concat();
            let mut place = 0;
            for field in &fields {
                (place..place + field.len()).for_each(|length| assert_eq!(refused(&octets[..length]), place));
                place += field.len();
            }
            assert_eq!(read(&octets).map(|(_, end)| end), Ok(place));
        }
    }

    #[test]
    fn fields_of_one_octet() {
        let header = header(0x02, b"FFAFF");
        for octet in 0..=255 {
            assert_eq!(with(&header, 0, &[octet]), Some(0).filter(|_| octet != 0xdc));
            assert_eq!(with(&header, 6, &[octet]), Some(16).filter(|_| octet != 0x5e));
            assert_eq!(with(&header, 7, &[octet]), Some(17).filter(|_| octet != 0x03));
        }
        for octet in (0..=255).filter(|octet| ![0x02, 0x03].contains(octet)) {
            assert_eq!(with(&header, 1, &[octet]), Some(1));
        }
    }

    #[test]
    fn countries() {
        let header = header(0x02, b"FFAFF");
        let country = |text: &[u8]| c40_with(&header, 2, text);
        assert!([&b"UTO"[..], b"D  ", b"UT "].iter().all(|text| country(text).is_none()));
        // Two characters and one are images in as many octets, and not of three.
        let others = [&b"   "[..], b" UT", b"D D", b"UT0", b"0  ", b"UT", b"D"];
        assert!(others.iter().all(|text| country(text) == Some(2)));
        for pair in [[0x00, 0x00], [0xfa, 0x01], [0xfe, 0x00], [0xfe, 0x3d], [0xff, 0xff], [0x59, 0xb1]] {
            assert_eq!(with(&header, 2, &pair), Some(2));
        }
        let read = read(&written(&Header { country: *b"D<<", ..header })).unwrap().0;
        assert_eq!(read.country, *b"D<<");
    }

    #[test]
    fn references_of_nine_characters() {
        let header = header(0x02, b"FFAFF");
        let reference = |text: &[u8]| c40_with(&header, 3, text);
        assert!([b"UT0100000", b"UTZ9ABCDE", b"AAAA99999"].iter().all(|text| reference(*text).is_none()));
        let signers = [b"U001FFAFF", b"0T01FFAFF", b"U 01FFAFF", b"UT 1FFAFF", b"UT0 FFAFF"];
        let others = [b"UT01FFAFG", b"UT01GFAFF", b"UT01FF FF", b"UT01FFAF "];
        assert!(signers.iter().chain(&others).all(|text| reference(*text) == Some(4)));
        assert_eq!((reference(b"UT01FFAF"), reference(b"UT01FFA")), (Some(4), Some(4)));
        // FE and 0 as a third value before the last pair, and a value of 0.
        let pairs = [[0xfe, b'U' + 1], [0xd9, 0xa9], [0x00, 0x01]];
        assert!(pairs.iter().all(|pair| with(&header, 3, &[pair, &[0x22, 0x4c, 0x5a, 0x8c][..]].concat()) == Some(4)));
    }

    #[test]
    fn references_that_say_their_length() {
        let header = header(0x03, b"FFAFF");
        let reference = |text: &[u8]| c40_with(&header, 3, text);
        assert!([&b"UT0100"[..], b"ZZ9903ABC", b"UT01041234"].iter().all(|text| reference(text).is_none()));
        // Counts that are no hex.
        let counts = [&b"UT01G0"[..], b"UT010G", b"UT01 5FFAFF", b"UT015 FFAFF", b"UT01"];
        assert!(counts.iter().all(|text| reference(text) == Some(4)));
        // A character more and one fewer than are said, in as many octets.
        assert_eq!((reference(b"UT0104FFAFF"), reference(b"UT0105FFAF")), (Some(4), Some(4)));
        let others = [&b"U001041234"[..], b"UT 1041234", b"UT0104123G", b"UT0104123 ", b"UT0104G234"];
        assert!(others.iter().all(|text| reference(text) == Some(4)));
        // As many characters in as many octets, but with FE, and with 0 as a third value, before the last pair.
        let regrouped = |one: &[u8], other: &[u8]| with(&header, 3, &[c40::write(one), c40::write(other)].concat());
        assert_eq!((regrouped(b"UT01041", b"234"), regrouped(b"UT010512", b"345")), (Some(4), Some(4)));
        // What is left over alone: FE with 00, with a filler, and with a letter that is no hex.
        let alone = |code: u8| with(&header, 3, &[&c40::write(b"UT0104123")[..], &[0xfe, code]].concat());
        assert_eq!(alone(b'4' + 1), None);
        assert!([0x00, b'<' + 1, b'G' + 1, 0xff].into_iter().all(|code| alone(code) == Some(4)));
    }

    #[test]
    fn days_at_the_edges() {
        let header = header(0x03, b"A");
        let day = |field, year, month, day| with(&header, field, &day::write(Day { year, month, day }));
        for (field, place) in [(4, 10), (5, 13)] {
            assert!([(2000, 2, 29), (1, 1, 1), (9999, 12, 31)]
                .iter()
                .all(|(y, m, d)| day(field, *y, *m, *d).is_none()));
            let none = [(1900, 2, 29), (2100, 2, 29), (0, 1, 1), (2000, 13, 1), (2000, 1, 0), (2000, 0, 1)];
            assert!(none.iter().all(|(y, m, d)| day(field, *y, *m, *d) == Some(place)));
            assert_eq!(with(&header, field, &[0xff; 3]), Some(place));
        }
    }
}
