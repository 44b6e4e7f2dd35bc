//! C40, from document 02, request 2026-08, and source document 002, annex C. A text here has spaces, digits, letters.

/// Stands before a character that is left over alone.
const ALONE: u8 = 0xfe;

/// How many octets so many characters have.
pub fn octets_of(characters: usize) -> usize {
    2 * ((characters + 2) / 3)
}

/// Whether a character has a value, and so can stand in a text.
pub fn is_character(character: u8) -> bool {
    value_of(character).is_some()
}

fn value_of(character: u8) -> Option<u16> {
    match character {
        b' ' => Some(3),
        b'0'..=b'9' => Some(4 + u16::from(character - b'0')),
        b'A'..=b'Z' => Some(14 + u16::from(character - b'A')),
        _ => None,
    }
}

fn character_of(value: u16) -> Option<u8> {
    match value as u8 {
        3 => Some(b' '),
        digit @ 4..=13 => Some(b'0' + digit - 4),
        letter @ 14..=39 => Some(b'A' + letter - 14),
        _ => None,
    }
}

/// The image of a text whose characters all have a value.
pub fn write(text: &[u8]) -> Vec<u8> {
    text.chunks(3).flat_map(written).collect()
}

/// The two octets of three characters, or of the two or the one that are left over.
fn written(characters: &[u8]) -> [u8; 2] {
    let value = |character: &u8| value_of(*character).expect("a character that has a value");
    let values: Vec<u16> = characters.iter().map(value).collect();
    match values[..] {
        [a, b, c] => (1600 * a + 40 * b + c + 1).to_be_bytes(),
        [a, b] => (1600 * a + 40 * b + 1).to_be_bytes(),
        _ => [ALONE, characters[0] + 1],
    }
}

/// The text whose image the octets are; None where they are no text's.
pub fn read(octets: &[u8]) -> Option<Vec<u8>> {
    let mut text = Vec::with_capacity(octets.len() / 2 * 3);
    for (at, pair) in octets.chunks(2).enumerate() {
        let last = 2 * at + 2 == octets.len();
        match *pair {
            [ALONE, code] => text.push(alone(code).filter(|_| last)?),
            [high, low] => text.extend(three(u16::from_be_bytes([high, low]), last)?),
            _ => return None,
        }
    }
    Some(text)
}

fn alone(code: u8) -> Option<u8> {
    code.checked_sub(1).filter(|character| is_character(*character))
}

/// Three characters; in the last pair 0 may stand in the third's place for none.
fn three(number: u16, last: bool) -> Option<Vec<u8>> {
    let number = number.checked_sub(1)?;
    let values = [number / 1600, number / 40 % 40, number % 40];
    let characters = if last && values[2] == 0 { 2 } else { 3 };
    values[..characters].iter().map(|value| character_of(*value)).collect()
}

#[cfg(test)]
mod tests {
    use super::*;

    /// The characters that have a value.
    const CHARACTERS: &[u8; 37] = b" 0123456789ABCDEFGHIJKLMNOPQRSTUVWXYZ";

    fn both_ways(text: &[u8], image: &[u8]) {
        assert_eq!(write(text), image);
        assert_eq!(read(image).as_deref(), Some(text));
        assert_eq!(octets_of(text.len()), image.len());
    }

    #[test]
    fn the_examples_of_the_papers() {
        // Document 02, and source 002's annex C and 3.3.1.
        both_ways(b"XKCD", &[0xeb, 0x11, 0xfe, 0x45]);
        both_ways(b"XK CD", &[0xeb, 0x04, 0x66, 0xa9]);
        both_ways(b"VISA01", &[0xde, 0x51, 0x58, 0x26]);
        // Source 002's tables 8 to 10.
        both_ways(b"UTO", &[0xd9, 0xc5]);
        both_ways(b"DE01FFAFF", &[0x6d, 0x15, 0x22, 0x4c, 0x5a, 0x8c]);
        both_ways(b"UT01FFAFF", &[0xd9, 0xad, 0x22, 0x4c, 0x5a, 0x8c]);
        both_ways(b"ABC424242", &[0x59, 0xe9, 0x32, 0xf9, 0x26, 0xc7]);
        both_ways(b"", &[]);
    }

    /// Source 002's table 9: 64 characters, of which one is left over.
    #[test]
    fn the_visa_of_the_papers() {
        let text = "VCD<<DENT<<ARTHUR<PHILIP<<<<<<<<<<<<1234567XY7GBR5203116M2005250".replace('<', " ");
        let image = [
            0xdd, 0x52, 0x13, 0x4a, 0x74, 0xda, 0x13, 0x47, 0xc6, 0xfe, 0xd9, 0x5c, 0xb8, 0x9f, 0x9f, 0xce, 0x13, 0x3c,
            0x13, 0x3c, 0x13, 0x3c, 0x13, 0x3c, 0x20, 0x38, 0x33, 0x73, 0x4a, 0xaf, 0x47, 0xf0, 0xc3, 0x2f, 0x1a, 0x1e,
            0x20, 0xeb, 0x26, 0x25, 0x39, 0x3a, 0xfe, 0x31,
        ];
        both_ways(text.as_bytes(), &image);
    }

    #[test]
    fn values_are_those_of_the_table() {
        let values: Vec<u16> = CHARACTERS.iter().map(|character| value_of(*character).unwrap()).collect();
        assert_eq!(values, (3..40).collect::<Vec<u16>>());
        assert_eq!((0..=255).filter(|character| is_character(*character)).count(), 37);
        assert!((3..40).zip(CHARACTERS).all(|(value, character)| character_of(value) == Some(*character)));
        assert!([0, 1, 2, 40].iter().all(|value| character_of(*value).is_none()));
    }

    /// Every pair of octets: it is read exactly where writing gives it, and as many are read as there are texts of one
    /// to three characters.
    #[test]
    fn one_pair() {
        let mut count = 0;
        for pair in (0..=u16::MAX).map(u16::to_be_bytes) {
            if let Some(text) = read(&pair) {
                assert_eq!(write(&text), pair);
                count += 1;
            }
        }
        assert_eq!(count, 37 + 37 * 37 + 37 * 37 * 37);
    }

    /// Every pair of octets before another: only three characters stand there.
    #[test]
    fn a_pair_in_the_middle() {
        let mut count = 0;
        for [high, low] in (0..=u16::MAX).map(u16::to_be_bytes) {
            if let Some(text) = read(&[high, low, 0x13, 0x3c]) {
                assert_eq!((text.len(), &text[3..]), (6, &b"   "[..]));
                assert_eq!(write(&text)[..2], [high, low]);
                count += 1;
            }
        }
        assert_eq!(count, 37 * 37 * 37);
    }

    #[test]
    fn every_length_comes_back() {
        for length in 0..200 {
            let text: Vec<u8> = CHARACTERS.iter().copied().cycle().skip(length % 37).take(length).collect();
            both_ways(&text, &write(&text));
        }
    }

    #[test]
    fn what_is_no_image() {
        let joined = |a: u16, b: u16, c: u16| (1600 * a + 40 * b + c + 1).to_be_bytes();
        for value in [0, 1, 2] {
            assert_eq!(read(&joined(value, 14, 14)), None);
            assert_eq!(read(&joined(14, value, 14)), None);
            assert_eq!(read(&joined(14, 14, value)).is_none(), value > 0);
            assert_eq!(read(&[joined(14, 14, value), [0x13, 0x3c]].concat()), None);
        }
        // Values of 40 and over, with the number 0, which has none.
        let others = [[0x00, 0x00], [0xfa, 0x01], [0xfd, 0xff], [0xff, 0x00], [0xff, 0xff]];
        // FE with 00, with a filler, with the neighbours of the digits and letters, and over 7F.
        let codes = [0x00, b'<' + 1, b'/' + 1, b':' + 1, b'@' + 1, b'[' + 1, b'a' + 1, 0x01, 0x20, 0x22, 0x80, 0xff];
        assert!(others.iter().all(|pair| read(pair).is_none()));
        assert!(codes.iter().all(|code| read(&[0xfe, *code]).is_none()));
        assert_eq!(read(&[0xfe, b'A' + 1, 0x13, 0x3c]), None);
        // Half a pair.
        assert_eq!((read(&[0xeb]), read(&[0xeb, 0x11, 0xfe])), (None, None));
    }
}
