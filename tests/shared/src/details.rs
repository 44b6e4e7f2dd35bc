//! Files of group 11: one as Doc 9303-10 has it, and one of 65,539 octets, the longest that can be, that gives the most to do.

use paper::details::{FILE, FULL_NAME, LIST};
use paper::inside::LONGEST;
use paper::tlv::tlv;

#[derive(Clone, Copy, Debug, PartialEq, Eq)]
pub enum Details {
    /// A.5, with the telephone as its text has it.
    Printed,
    /// A list that names the full name, and as many empty ones as there is room for: all are walked before the second differs.
    Empty,
}

impl Details {
    pub const ALL: [Details; 2] = [Details::Printed, Details::Empty];

    pub fn octets(self) -> Vec<u8> {
        match self {
            Details::Printed => printed(),
            Details::Empty => empty(),
        }
    }
}

fn printed() -> Vec<u8> {
    let details: [(&[u8], &[u8]); 5] = [
        (&[0x5f, 0x0e], b"SMITH<<JOHN<J"),
        (&[0x5f, 0x11], b"ANYTOWN<MN"),
        (&[0x5f, 0x42], b"123 MAPLE RD<ANYTOWN<MN"),
        (&[0x5f, 0x12], b"1-612-555-1212"),
        (&[0x5f, 0x13], b"TRAVEL<AGENT"),
    ];
    let list: Vec<u8> = details.iter().flat_map(|(tag, _)| tag.to_vec()).collect();
    let elements: Vec<u8> = details.iter().flat_map(|(tag, value)| tlv(tag, value)).collect();
    tlv(&FILE, &[tlv(&LIST, &list), elements].concat())
}

fn empty() -> Vec<u8> {
    let list = tlv(&LIST, &FULL_NAME.to_be_bytes());
    let one = tlv(&FULL_NAME.to_be_bytes(), &[]);
    // The last takes what is left.
    let content = LONGEST - 4 - list.len();
    let left = content % one.len();
    let last = tlv(&FULL_NAME.to_be_bytes(), &vec![0; left]);
    tlv(&FILE, &[list, one.repeat(content / one.len() - 1), last].concat())
}

#[cfg(test)]
mod tests {
    use super::*;
    use paper::details::read;

    #[test]
    fn answers() {
        let printed = Details::Printed.octets();
        assert_eq!((printed.len(), read(&printed).is_ok()), (101, true));
        // Behind the file's head and the list stands the first, of three octets.
        let empty = Details::Empty.octets();
        let refusal = read(&empty).unwrap_err();
        assert_eq!((empty.len(), refusal.number, refusal.place), (LONGEST, 20, 4 + 4 + 3));
    }
}
