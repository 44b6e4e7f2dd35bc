//! Reading and writing a seal, from document 02, requests 2026-08 and 2026-13, and source document 002, sections 3 and 6.

pub mod answer;
pub mod fillers;
pub mod header;
pub mod in_c;
pub mod printed;
pub mod writer;

use crate::form::Form;
use crate::record::Record;
use crate::refusal::{Refusal, LONGEST};
use crate::seal::fillers::with_fillers;
use crate::seal::header::Header;
use crate::tlv::{tlv, Element, Walk};
use crate::{c40, text};
use std::ops::Range;

/// The tag of the feature that holds the text.
pub const TEXT: u8 = 0x02;
/// How many octets it holds, and how many characters these are.
pub const TEXT_OCTETS: usize = 48;
const TEXT_CHARACTERS: usize = 72;
/// Begins the signature zone, and is no feature's tag.
pub const MARKER: u8 = 0xff;

/// What a seal says, and where its signature stands in what was lent.
#[derive(Clone, Debug, PartialEq, Eq)]
pub struct Seal {
    pub header: Header,
    pub record: Record,
    pub signature: Range<usize>,
}

/// The seal, or its first refusal: the size, the header, the features, the text's C40, the signature zone, the text.
pub fn read(lent: &[u8]) -> Result<Seal, Refusal> {
    if lent.len() > LONGEST {
        return Err(Refusal::at(1, 0));
    }
    let (header, end) = header::read(lent)?;
    let mut walk = Walk::behind(lent, end);
    let feature = text_feature(&mut walk)?;
    let place = feature.whole.start;
    let spaced = c40::read(&lent[feature.content]).filter(|text| text.len() == TEXT_CHARACTERS);
    let spaced = spaced.ok_or(Refusal::at(26, place))?;
    let signature = signature(&mut walk)?;
    // As TD2, of which no code begins with V: a visa may not stand here.
    let record =
        text::read_among(&with_fillers(&spaced), &Form::IN_SEALS).map_err(|refusal| Refusal { place, ..refusal })?;
    Ok(Seal { header, record, signature })
}

/// Walks over all features. The first wrong one is told at its tag; after all of them, that the text's is not there.
fn text_feature(walk: &mut Walk) -> Result<Element, Refusal> {
    let mut found = None;
    while let Some(tag) = walk.left().first().filter(|tag| **tag != MARKER) {
        let refusal = Refusal::at(25, walk.place());
        let feature = walk.take(&[*tag]).map_err(|_| refusal)?;
        if *tag != TEXT {
            continue;
        }
        if found.is_some() || feature.content.len() != TEXT_OCTETS {
            return Err(refusal);
        }
        found = Some(feature);
    }
    // Here the walk stands at FF or at the end.
    found.ok_or(Refusal::at(25, walk.place()))
}

/// FF, a length and the signature, and nothing behind.
fn signature(walk: &mut Walk) -> Result<Range<usize>, Refusal> {
    let refusal = Refusal::at(27, walk.place());
    let zone = walk.take(&[MARKER]).map_err(|_| refusal)?;
    walk.close().map_err(|_| refusal)?;
    Ok(zone.content)
}

/// A feature's tag and its value.
#[derive(Clone, Debug, PartialEq, Eq)]
pub struct Feature {
    pub tag: u8,
    pub value: Vec<u8>,
}

impl Feature {
    /// Feature 02 with a text of 72 characters.
    pub fn of_text(text: &[u8]) -> Feature {
        Feature { tag: TEXT, value: c40::write(&fillers::with_spaces(text)) }
    }

    pub fn written(&self) -> Vec<u8> {
        tlv(&[self.tag], &self.value)
    }
}

/// A seal's octets: header, features and signature, in the version that the header names.
pub fn write(header: &Header, features: &[Feature], signature: &[u8]) -> Vec<u8> {
    let features: Vec<Vec<u8>> = features.iter().map(Feature::written).collect();
    [header::fields(header).concat(), features.concat(), tlv(&[MARKER], signature)].concat()
}

#[cfg(test)]
mod tests;
