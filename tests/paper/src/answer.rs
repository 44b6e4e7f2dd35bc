//! What a call answers and writes, as it passes to C.

use crate::refusal::Refusal;
use std::fmt;
use std::ops::Range;

/// What C receives where no digit was expected: "every other refusal, and a success at the C host, has 255 there".
pub const NO_DIGIT: u32 = 255;

/// An answer as it passes to C: 0 and a length or an offset, or a refusal's number and its place; between them the digit
/// that was expected.
#[repr(C)]
#[derive(Clone, Copy, Debug, PartialEq, Eq)]
pub struct Answer {
    pub number: u32,
    pub expected: u32,
    pub value: u64,
}

impl Answer {
    pub fn not_refused(value: u64) -> Answer {
        Answer { number: 0, expected: NO_DIGIT, value }
    }

    pub fn refused(refusal: Refusal) -> Answer {
        let Refusal { number, expected, place } = refusal;
        Answer { number, expected: expected.map_or(NO_DIGIT, u32::from), value: place as u64 }
    }
}

impl fmt::Display for Answer {
    fn fmt(&self, to: &mut fmt::Formatter) -> fmt::Result {
        write!(to, "number {}, expected {}, value {}", self.number, self.expected, self.value)
    }
}

/// Where a group's file stands in what was lent. C has it as a start and a length.
#[repr(C)]
#[derive(Clone, Copy, Debug, PartialEq, Eq)]
pub struct Stretch {
    pub start: u64,
    pub length: u64,
}

impl Stretch {
    pub const EMPTY: Stretch = Stretch { start: 0, length: 0 };
}

impl fmt::Display for Stretch {
    fn fmt(&self, to: &mut fmt::Formatter) -> fmt::Result {
        write!(to, "start {}, length {}", self.start, self.length)
    }
}

impl From<Range<usize>> for Stretch {
    fn from(range: Range<usize>) -> Stretch {
        Stretch { start: range.start as u64, length: range.len() as u64 }
    }
}

/// A detail of group 11 as it passes to C: an answer whose value is 0 or a refusal's place, and where the detail stands.
#[repr(C)]
#[derive(Clone, Copy, Debug, PartialEq, Eq)]
pub struct Detail {
    pub answer: Answer,
    pub stretch: Stretch,
}

impl Detail {
    pub fn found(stretch: Option<Range<usize>>) -> Detail {
        Detail { answer: Answer::not_refused(0), stretch: stretch.map_or(Stretch::EMPTY, Stretch::from) }
    }

    pub fn refused(refusal: Refusal) -> Detail {
        Detail { answer: Answer::refused(refusal), stretch: Stretch::EMPTY }
    }
}

impl fmt::Display for Detail {
    fn fmt(&self, to: &mut fmt::Formatter) -> fmt::Result {
        write!(to, "{}, {}", self.answer, self.stretch)
    }
}

/// The full name as it passes to C: in which of the two it stands, and where.
#[repr(C)]
#[derive(Clone, Copy, Debug, PartialEq, Eq)]
pub struct Name {
    pub from: u32,
    pub stretch: Stretch,
}

impl Name {
    pub const NONE: Name = Name { from: 0, stretch: Stretch::EMPTY };

    pub fn in_file(range: Range<usize>) -> Name {
        Name { from: 1, stretch: range.into() }
    }

    pub fn in_text(range: Range<usize>) -> Name {
        Name { from: 2, stretch: range.into() }
    }
}

impl fmt::Display for Name {
    fn fmt(&self, to: &mut fmt::Formatter) -> fmt::Result {
        write!(to, "from {}, {}", self.from, self.stretch)
    }
}

/// A call's complete outcome: its answer, and the octets at the start of the lent output that it changes.
#[derive(Clone, Debug, PartialEq, Eq)]
pub struct Outcome<A = Answer> {
    pub answer: A,
    pub written: Vec<u8>,
}

impl<A> Outcome<A> {
    /// Of a call that has no output.
    pub fn of(answer: A) -> Outcome<A> {
        Outcome { answer, written: Vec::new() }
    }
}

impl Outcome {
    /// A refusal writes nothing.
    pub fn refused(refusal: Refusal) -> Outcome {
        Outcome::of(Answer::refused(refusal))
    }

    /// All of these octets, or refusal 16 where the lent output has no room for them.
    pub fn written(octets: Vec<u8>, room: usize) -> Outcome {
        if room < octets.len() {
            return Outcome::refused(Refusal::at(16, 0));
        }
        Outcome { answer: Answer::not_refused(octets.len() as u64), written: octets }
    }
}

#[cfg(test)]
mod tests {
    use super::*;
    use std::mem::size_of;
    use std::ptr::addr_of;

    /// Where each field begins in C: the digit stands where there was padding.
    #[test]
    fn laid_out_as_in_c() {
        let answer = Answer::not_refused(0);
        let fields =
            [addr_of!(answer.number) as usize, addr_of!(answer.expected) as usize, addr_of!(answer.value) as usize];
        let begins = fields.map(|field| field - addr_of!(answer) as usize);
        assert_eq!((begins, size_of::<Answer>()), ([0, 4, 8], 16));
    }

    #[test]
    fn a_digit_passes_and_255_where_there_is_none() {
        let digits = (0..=9).map(|digit| Answer::refused(Refusal::digit(digit, 53)).expected);
        assert!(digits.eq(0..=9));
        assert_eq!((Answer::refused(Refusal::at(18, 7)).expected, Answer::not_refused(7).expected), (255, 255));
    }
}
