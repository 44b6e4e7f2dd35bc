//! Group 11, additional personal details, from document 02, request 2026-01. Lengths are document 01's.
//!
//! "tag 6B, a list 5C of tags among 5F0E to 5F18, 5F2B and 5F42, none twice, then the elements it names, in its order; template
//! A0 stands where it names 5F0F".

use crate::refusal::Refusal;
use crate::tlv::{Element, Walk};
use std::ops::Range;

pub const FILE: [u8; 1] = [0x6b];
pub const LIST: [u8; 1] = [0x5c];
/// What stands where the list names the other names.
pub const TEMPLATE: [u8; 1] = [0xa0];
pub const FULL_NAME: u16 = 0x5f0e;
pub const OTHER_NAMES: u16 = 0x5f0f;

/// "among 5F0E to 5F18, 5F2B and 5F42".
pub const NAMED: [u16; 13] =
    [0x5f0e, 0x5f0f, 0x5f10, 0x5f11, 0x5f12, 0x5f13, 0x5f14, 0x5f15, 0x5f16, 0x5f17, 0x5f18, 0x5f2b, 0x5f42];

/// A file that reads: what its list names, each with the element that stands for it.
#[derive(Clone, Debug, PartialEq, Eq)]
pub struct Details(Vec<(u16, Element)>);

impl Details {
    /// "each element's value as a stretch of the lent file, A0 whole (asked for as 5F0F)"; None "where there is none".
    pub fn value(&self, tag: u32) -> Option<Range<usize>> {
        let (named, element) = self.0.iter().find(|(named, _)| u32::from(*named) == tag)?;
        let stretch = if *named == OTHER_NAMES { &element.whole } else { &element.content };
        Some(stretch.clone())
    }
}

/// "10 as before, also for an element whose tag is none of these or A0; 20, after 10 for the whole group".
pub fn read(file: &[u8]) -> Result<Details, Refusal> {
    let mut walk = Walk::over(file);
    let holder = walk.take(&FILE)?;
    let mut inner = Walk::inside(file, &holder);
    let list = inner.take(&LIST)?;
    let mut elements = Vec::new();
    while !inner.left().is_empty() {
        let tag = tag_of(inner.left()).ok_or(Refusal::at(10, inner.place()))?;
        elements.push((tag, inner.take(tag)?));
    }
    walk.close()?;
    let named = listed(&file[list.content]).ok_or(Refusal::at(20, list.whole.start))?;
    for (turn, (tag, element)) in elements.iter().enumerate() {
        if named.get(turn).map(|named| stands_for(*named)).as_deref() != Some(*tag) {
            return Err(Refusal::at(20, element.whole.start));
        }
    }
    if elements.len() < named.len() {
        return Err(Refusal::at(20, file.len()));
    }
    Ok(Details(named.into_iter().zip(elements.into_iter().map(|(_, element)| element)).collect()))
}

/// The tag at the start, where it is A0 or one of those that a list may name.
fn tag_of(octets: &[u8]) -> Option<&[u8]> {
    match octets {
        [0xa0, ..] => Some(&octets[..1]),
        [high, low, ..] if NAMED.contains(&u16::from_be_bytes([*high, *low])) => Some(&octets[..2]),
        _ => None,
    }
}

/// What a list names: None where its length is odd, a tag is none of these, or one stands twice.
fn listed(list: &[u8]) -> Option<Vec<u16>> {
    let tags: Vec<u16> =
        list.chunks(2).map(|pair| pair.try_into().map(u16::from_be_bytes)).collect::<Result<_, _>>().ok()?;
    let once = tags.iter().enumerate().all(|(at, tag)| !tags[..at].contains(tag));
    (once && tags.iter().all(|tag| NAMED.contains(tag))).then_some(tags)
}

/// The tag of the element that stands where the list names this one.
fn stands_for(named: u16) -> Vec<u8> {
    if named == OTHER_NAMES {
        TEMPLATE.to_vec()
    } else {
        named.to_be_bytes().to_vec()
    }
}

#[cfg(test)]
mod tests;
