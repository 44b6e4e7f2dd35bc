//! A seal's header as C gives it to write one: fields of what C receives of a seal that is read.

use crate::day::Day;
use crate::field::FILLER;
use crate::seal::answer::SealAnswer;
use crate::seal::header::Header;
use std::fmt;

#[repr(C)]
#[derive(Clone, Copy, Debug, PartialEq, Eq)]
pub struct HeaderInC {
    pub issued: Day,
    pub signed_on: Day,
    pub version: u8,
    pub definition: u8,
    pub category: u8,
    pub reference_len: u8,
    pub country: [u8; 3],
    pub signer: [u8; 4],
    /// Fillers behind its length.
    pub reference: [u8; 255],
}

impl HeaderInC {
    /// Numbers 0, characters fillers.
    pub const BLANK: HeaderInC = HeaderInC {
        issued: Day::NONE,
        signed_on: Day::NONE,
        version: 0,
        definition: 0,
        category: 0,
        reference_len: 0,
        country: [FILLER; 3],
        signer: [FILLER; 4],
        reference: [FILLER; 255],
    };

    pub fn of(header: &Header) -> HeaderInC {
        let mut reference = [FILLER; 255];
        reference[..header.reference.len()].copy_from_slice(&header.reference);
        HeaderInC {
            issued: header.issued,
            signed_on: header.signed_on,
            version: header.version,
            definition: header.definition,
            category: header.category,
            reference_len: header.reference.len() as u8,
            country: header.country,
            signer: header.signer,
            reference,
        }
    }

    /// Field by field, as a host does that writes what it read.
    pub fn read(answer: &SealAnswer) -> HeaderInC {
        HeaderInC {
            issued: answer.issued,
            signed_on: answer.signed_on,
            version: answer.version,
            definition: answer.definition,
            category: answer.category,
            reference_len: answer.reference_len,
            country: answer.country,
            signer: answer.signer,
            reference: answer.reference,
        }
    }

    /// The header that these fields are, where `of` would give them again: None where a place behind the reference is no
    /// filler.
    pub fn header(&self) -> Option<Header> {
        let (reference, behind) = self.reference.split_at(usize::from(self.reference_len));
        behind.iter().all(|character| *character == FILLER).then(|| Header {
            version: self.version,
            country: self.country,
            signer: self.signer,
            reference: reference.to_vec(),
            issued: self.issued,
            signed_on: self.signed_on,
            definition: self.definition,
            category: self.category,
        })
    }
}

impl fmt::Display for HeaderInC {
    fn fmt(&self, to: &mut fmt::Formatter) -> fmt::Result {
        write!(to, "version {}, definition {}, category {}", self.version, self.definition, self.category)?;
        write!(to, ", country {}, signer {}", self.country.escape_ascii(), self.signer.escape_ascii())?;
        write!(to, ", reference {} of {}", self.reference.escape_ascii(), self.reference_len)?;
        write!(to, ", issued {:?}, signed on {:?}", self.issued, self.signed_on)
    }
}

#[cfg(test)]
mod tests {
    use super::*;
    use crate::seal::{self, printed};
    use crate::{calls, entry};

    #[test]
    fn as_large_as_in_c() {
        assert_eq!((std::mem::size_of::<HeaderInC>(), std::mem::align_of::<HeaderInC>()), (274, 2));
    }

    #[test]
    fn both_ways() {
        let header = seal::read(&printed::signed()).unwrap().header;
        let in_c = HeaderInC::of(&header);
        assert_eq!(in_c.header(), Some(header));
        assert_eq!(in_c, HeaderInC::read(&calls::read_seal(1, &printed::signed(), entry::LONGEST).answer));
        for place in 5..255 {
            let mut other = in_c;
            other.reference[place] = b'0';
            assert_eq!(other.header(), None);
        }
    }
}
