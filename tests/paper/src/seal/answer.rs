//! What the call that reads a seal answers, as it passes to C.

use crate::answer::{Answer, Outcome, Stretch, NO_DIGIT};
use crate::day::Day;
use crate::field::FILLER;
use crate::refusal::Refusal;
use crate::seal::Seal;
use std::fmt;

/// An answer as it passes to C: 0, the octets of entry and the seal's own fields; or a refusal's number and its place
/// over blank fields.
#[repr(C)]
#[derive(Clone, Copy, Debug, PartialEq, Eq)]
pub struct SealAnswer {
    pub number: u32,
    pub expected: u32,
    pub value: u64,
    pub signature: Stretch,
    pub issued: Day,
    pub signed_on: Day,
    pub version: u8,
    pub definition: u8,
    pub category: u8,
    pub reference_len: u8,
    pub country: [u8; 3],
    pub signer: [u8; 4],
    /// Fillers behind its length.
    pub reference: [u8; 255],
}

impl SealAnswer {
    /// Over blank fields: numbers 0, characters fillers.
    fn blank(answer: Answer) -> SealAnswer {
        SealAnswer {
            number: answer.number,
            expected: answer.expected,
            value: answer.value,
            signature: Stretch::EMPTY,
            issued: Day::NONE,
            signed_on: Day::NONE,
            version: 0,
            definition: 0,
            category: 0,
            reference_len: 0,
            country: [FILLER; 3],
            signer: [FILLER; 4],
            reference: [FILLER; 255],
        }
    }

    fn of(seal: &Seal, octets: u64) -> SealAnswer {
        let Seal { header, signature, .. } = seal;
        let mut reference = [FILLER; 255];
        reference[..header.reference.len()].copy_from_slice(&header.reference);
        SealAnswer {
            number: 0,
            expected: NO_DIGIT,
            value: octets,
            signature: Stretch { start: signature.start as u64, length: signature.len() as u64 },
            issued: header.issued,
            signed_on: header.signed_on,
            version: header.version,
            definition: header.definition,
            category: header.category,
            reference_len: header.reference.len() as u8,
            country: header.country,
            signer: header.signer,
            reference,
        }
    }
}

impl Outcome<SealAnswer> {
    /// A refusal writes nothing.
    pub fn refused_seal(refusal: Refusal) -> Outcome<SealAnswer> {
        Outcome::of(SealAnswer::blank(Answer::refused(refusal)))
    }

    /// The entry of a seal that was read, or refusal 16 where the lent output has no room for it.
    pub fn written_seal(seal: &Seal, entry: Vec<u8>, room: usize) -> Outcome<SealAnswer> {
        if room < entry.len() {
            return Outcome::refused_seal(Refusal::at(16, 0));
        }
        Outcome { answer: SealAnswer::of(seal, entry.len() as u64), written: entry }
    }
}

impl fmt::Display for SealAnswer {
    fn fmt(&self, to: &mut fmt::Formatter) -> fmt::Result {
        write!(to, "number {}, expected {}, value {}", self.number, self.expected, self.value)?;
        write!(to, ", signature at {}", self.signature)?;
        write!(to, ", version {}, definition {}, category {}", self.version, self.definition, self.category)?;
        write!(to, ", country {}, signer {}", self.country.escape_ascii(), self.signer.escape_ascii())?;
        write!(to, ", reference {} of {}", self.reference.escape_ascii(), self.reference_len)?;
        write!(to, ", issued {:?}, signed on {:?}", self.issued, self.signed_on)
    }
}

#[cfg(test)]
mod tests {
    use super::*;
    use crate::seal::printed;
    use crate::{calls, entry, specimens, text};
    use std::ptr::addr_of;

    fn sample_entry() -> Vec<u8> {
        entry::write(1, &text::read(specimens::ERIKSSON_TD2.as_bytes()).unwrap())
    }

    /// 306 octets, and then to the next multiple of 8; the digit stands where there was padding.
    #[test]
    fn as_large_as_in_c() {
        assert_eq!(std::mem::size_of::<SealAnswer>(), 312);
        assert_eq!((std::mem::size_of::<Day>(), std::mem::align_of::<SealAnswer>()), (4, 8));
        let answer = SealAnswer::blank(Answer::not_refused(0));
        let fields = [addr_of!(answer.expected) as usize, addr_of!(answer.value) as usize];
        assert_eq!(fields.map(|field| field - addr_of!(answer) as usize), [4, 8]);
    }

    #[test]
    fn the_seal_of_the_papers() {
        let (sample, entry) = (printed::signed(), sample_entry());
        let done = calls::read_seal(1, &sample, entry.len());
        assert_eq!(done, calls::read_seal(1, &sample, entry::LONGEST));
        assert_eq!(done.written, entry);
        let answer = done.answer;
        assert_eq!((answer.number, answer.expected, answer.value), (0, 255, entry.len() as u64));
        assert_eq!(answer.signature, Stretch { start: 70, length: 64 });
        assert_eq!((answer.version, answer.definition, answer.category), (2, 0x5e, 3));
        assert_eq!((&answer.country, &answer.signer), (b"UTO", b"UT01"));
        assert_eq!((answer.reference_len, &answer.reference[..5]), (5, &b"FFAFF"[..]));
        assert_eq!(answer.reference[5..], [FILLER; 250]);
        assert_eq!(answer.issued, Day { year: 2016, month: 8, day: 8 });
        assert_eq!(answer.signed_on, Day { year: 2007, month: 8, day: 9 });
    }

    #[test]
    fn an_empty_signature_has_its_own_start() {
        let lent = [&printed::signed()[..68], &[0xff, 0x00]].concat();
        assert_eq!(calls::read_seal(1, &lent, 64).answer.signature, Stretch { start: 70, length: 0 });
    }

    /// The seal's refusals, then the house, then the room; each over blank fields, and nothing is written.
    #[test]
    fn refusals_in_their_order() {
        let (sample, short) = (printed::signed(), sample_entry().len() - 1);
        let refused = |house, lent: &[u8], room, number, place| {
            let expected = Outcome::of(SealAnswer::blank(Answer::refused(Refusal::at(number, place))));
            assert_eq!(calls::read_seal(house, lent, room), expected);
        };
        refused(0, &sample[..68], 0, 27, 68);
        refused(0, &sample, 0, 17, 0);
        refused(32_768, &sample, 64, 17, 0);
        refused(1, &sample, short, 16, 0);
        refused(1, &sample, 0, 16, 0);
        refused(1, &[], 64, 24, 0);
        refused(1, &vec![0xdc; 65_536], 64, 1, 0);
    }
}
