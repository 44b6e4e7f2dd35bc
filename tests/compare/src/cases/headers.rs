//! Headers that are given to be written: as they stand in memory, and with each field as version 03 cannot carry it.

use paper::day::Day;
use paper::seal::in_c::HeaderInC;
use paper::seal::{self, printed as papers};

/// Octets of the struct, and where in it the reference begins.
pub const SIZE: usize = 274;
pub const REFERENCE: usize = 19;

/// The papers', in version 03.
pub fn printed() -> HeaderInC {
    let header = seal::read(&papers::signed()).expect("the seal of the papers is accepted").header;
    HeaderInC { version: 0x03, ..HeaderInC::of(&header) }
}

/// Its octets as C has them.
pub fn named(header: &HeaderInC) -> [u8; SIZE] {
    // Numbers and characters without a gap: of as many octets, and any octets are one.
    unsafe { std::mem::transmute(*header) }
}

/// With one octet of the struct changed.
pub fn with_octet(header: &HeaderInC, place: usize, octet: u8) -> HeaderInC {
    let mut octets = named(header);
    octets[place] = octet;
    // As above.
    unsafe { std::mem::transmute(octets) }
}

/// Each field as it cannot be carried, in a header that has a reference of five characters.
pub fn cannot_carry(sound: &HeaderInC) -> impl Iterator<Item = HeaderInC> {
    let sound = *sound;
    let versions = [0x00, 0x01, 0x02, 0x04, 0xff].map(|version| HeaderInC { version, ..sound });
    let definitions = [0x00, 0x5d, 0x5f, 0xff].map(|definition| HeaderInC { definition, ..sound });
    let categories = [0x00, 0x01, 0x02, 0x04, 0xff].map(|category| HeaderInC { category, ..sound });
    let countries = [*b"<<<", *b"U<O", *b"UT ", *b"UT0", *b"uto", *b"   ", *b"<TO", [0; 3], *b"U\xc3\x9c"];
    let countries = countries.map(|country| HeaderInC { country, ..sound });
    let signers = [*b"<<<<", *b"U101", *b"1T01", *b"UT<1", *b"UT0<", *b"UT 1", *b"ut01", *b"UT0a", [0; 4]];
    let signers = signers.map(|signer| HeaderInC { signer, ..sound });
    let days = [(0, 1, 1), (10_000, 1, 1), (2001, 2, 29), (1900, 2, 29), (2000, 13, 1), (2000, 0, 1), (2000, 4, 31)];
    let days = days.map(|(year, month, day)| Day { year, month, day });
    let issued = days.map(|issued| HeaderInC { issued, ..sound });
    let signed = days.map(|signed_on| HeaderInC { signed_on, ..sound });
    let lengths = [0, 4, 6, 255].map(|reference_len| HeaderInC { reference_len, ..sound });
    let characters = [(0, b'G'), (4, b'<'), (2, b' '), (3, b'f'), (5, b'0'), (5, b' '), (254, b'0'), (100, 0)];
    let characters = characters.map(|(place, character)| with_octet(&sound, REFERENCE + place, character));
    let fields = versions.into_iter().chain(definitions).chain(categories).chain(countries).chain(signers);
    fields.chain(issued).chain(signed).chain(lengths).chain(characters)
}

/// One header with each field of another, which has a reference of the same length.
pub fn mixed(one: &HeaderInC, other: &HeaderInC) -> [HeaderInC; 5] {
    [
        HeaderInC { country: other.country, ..*one },
        HeaderInC { signer: other.signer, ..*one },
        HeaderInC { reference: other.reference, ..*one },
        HeaderInC { issued: other.issued, ..*one },
        HeaderInC { signed_on: other.signed_on, ..*one },
    ]
}

#[cfg(test)]
mod tests {
    use super::*;

    #[test]
    fn octets_stand_where_c_has_them() {
        let header = printed();
        let octets = named(&header);
        assert_eq!((&octets[8..12], &octets[12..19]), (&[3, 0x5e, 3, 5][..], &b"UTOUT01"[..]));
        assert_eq!((&octets[REFERENCE..REFERENCE + 5], octets[SIZE - 1]), (&b"FFAFF"[..], b'<'));
        assert_eq!(with_octet(&header, REFERENCE + 254, b'0').reference[254], b'0');
    }

    /// Each is refused for what it is, and no two are one.
    #[test]
    fn none_can_be_carried() {
        assert!(printed().header().is_some_and(|header| header.is_carried()));
        let all: Vec<HeaderInC> = cannot_carry(&printed()).collect();
        assert!(all.iter().all(|header| !header.header().is_some_and(|header| header.is_carried())));
        assert!(all.iter().enumerate().all(|(at, header)| !all[..at].contains(header)));
    }
}
