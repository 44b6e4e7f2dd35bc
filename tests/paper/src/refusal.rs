//! A refusal, and the bound of its number 1, from document 01, "Refusal numbers", and document 02, requests 2026-01, 2026-07,
//! 2026-08, 2026-10, 2026-13 and 2026-14.

/// The longest input that is digested, the longest presentation, and the longest seal.
pub const LONGEST: usize = 65_535;

/// A refusal's number in document 01 or, of 20 to 28, in document 02, and its place in what was lent; of a check
/// digit that is wrong also the one that was worked out, 0 to 9.
#[derive(Clone, Copy, Debug, PartialEq, Eq)]
pub struct Refusal {
    pub number: u32,
    pub expected: Option<u8>,
    pub place: usize,
}

impl Refusal {
    /// Of anything but a check digit.
    pub fn at(number: u32, place: usize) -> Refusal {
        assert_ne!(number, 9, "a check digit is refused with the one that was worked out");
        Refusal { number, expected: None, place }
    }

    /// Of the check digit at a place, where another was worked out.
    pub fn digit(expected: u8, place: usize) -> Refusal {
        assert!(expected <= 9, "a digit");
        Refusal { number: 9, expected: Some(expected), place }
    }
}
