//! Presentations of which others made a part, each with the answer that document 01 gives it.

use crate::cases::{outside, printed};
use paper::answer::Outcome;
use paper::refusal::Refusal;
use paper::{entry, specimens, text};

pub struct Vector {
    pub name: &'static str,
    pub octets: Vec<u8>,
    pub refusal: Option<Refusal>,
}

impl Vector {
    /// What is answered with house 1: the refusal, or the entry of T3.
    pub fn expected(&self, room: usize) -> Outcome {
        match self.refusal {
            Some(refusal) => Outcome::refused(refusal),
            None => Outcome::written(entry::write(1, &text::read(specimens::T3.as_bytes()).unwrap()), room),
        }
    }
}

/// Those that another encoder made, and those that the paper prints.
pub fn all() -> Vec<Vector> {
    outside::all().into_iter().chain(printed::all()).collect()
}

pub fn refused(number: u32, place: usize) -> Option<Refusal> {
    Some(Refusal::at(number, place))
}

/// The octets of a file of hex. A line that begins with # is a remark.
pub fn octets(hex: &str) -> Vec<u8> {
    let lines = hex.lines().filter(|line| !line.starts_with('#'));
    let digits: Vec<u8> = lines.flat_map(str::bytes).collect();
    let octet = |pair: &[u8]| u8::from_str_radix(&String::from_utf8_lossy(pair), 16).expect("two digits of hex");
    digits.chunks(2).map(octet).collect()
}

#[cfg(test)]
mod tests {
    use super::*;
    use crate::cases::reading::ROOM;
    use paper::calls;

    #[test]
    fn the_reader_answers_as_argued() {
        for vector in all() {
            let (answered, expected) = (calls::read_presentation(1, &vector.octets, ROOM), vector.expected(ROOM));
            assert_eq!(answered, expected, "{}", vector.name);
        }
    }

    #[test]
    fn octets_behind_a_remark() {
        assert_eq!(octets("# a remark, 00\n6016\n5f\n"), [0x60, 0x16, 0x5f]);
    }
}
