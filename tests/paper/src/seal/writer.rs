//! Writing the seal of a crew's emergency paper, from document 02, request 2026-13: header fields, a sound TD2 record and a
//! signature go in, the seal's octets in version 03 come out.

use crate::form::Form;
use crate::record::Record;
use crate::refusal::{Refusal, LONGEST};
use crate::seal::in_c::HeaderInC;
use crate::seal::{self, Feature};
use crate::text;

/// The octets; or 17 for the record, then 28 for the header or a seal over 65,535 octets, each at 0.
pub fn write(record: &Record, header: &HeaderInC, signature: &[u8]) -> Result<Vec<u8>, Refusal> {
    if record.form != Form::Td2 || !record.is_sound() {
        return Err(Refusal::at(17, 0));
    }
    sealed(record, header, signature).ok_or(Refusal::at(28, 0))
}

/// Feature 02 is the only one.
fn sealed(record: &Record, header: &HeaderInC, signature: &[u8]) -> Option<Vec<u8>> {
    let header = header.header().filter(|header| header.is_carried())?;
    if signature.len() > LONGEST {
        return None;
    }
    let octets = seal::write(&header, &[Feature::of_text(&text::write(record))], signature);
    Some(octets).filter(|octets| octets.len() <= LONGEST)
}

#[cfg(test)]
mod tests;
