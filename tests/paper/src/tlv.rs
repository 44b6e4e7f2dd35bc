//! Elements: a tag, a length and a content. From document 01, "Stages of a presentation": lengths are definite and
//! shortest, and each element ends within the one that holds it.

use crate::refusal::Refusal;
use std::ops::Range;

/// The longest content whose length can be written.
pub const LONGEST: usize = 0xffff;

/// For whoever spoils an element: what is none of the three forms, and at the end a length of more than is likely to follow.
pub const WRONG_LENGTHS: [&[u8]; 8] = [
    &[0x80],
    &[0x81, 0x00],
    &[0x81, 0x7f],
    &[0x82, 0x00, 0xff],
    &[0x83, 0x01, 0x00, 0x00],
    &[0x84, 0x00, 0x00, 0x01, 0x00],
    &[0xff],
    &[0x82, 0xff, 0xff],
];

/// An element that was found: where it stands as a whole, from its tag on, and where its content stands.
#[derive(Clone, Debug, PartialEq, Eq)]
pub struct Element {
    pub whole: Range<usize>,
    pub content: Range<usize>,
}

/// A walk from left to right over what one element holds. Places are counted in all of the lent octets.
pub struct Walk<'a> {
    lent: &'a [u8],
    at: usize,
    end: usize,
}

impl<'a> Walk<'a> {
    /// Over all that was lent.
    pub fn over(lent: &'a [u8]) -> Walk<'a> {
        Walk { lent, at: 0, end: lent.len() }
    }

    /// Over all that stands behind a place.
    pub fn behind(lent: &'a [u8], place: usize) -> Walk<'a> {
        Walk { lent, at: place, end: lent.len() }
    }

    pub fn inside(lent: &'a [u8], holder: &Element) -> Walk<'a> {
        Walk { lent, at: holder.content.start, end: holder.content.end }
    }

    /// The element that stands here and has this tag. Whatever is wrong with it, and also where the holder ends too early
    /// for it, the place is the one where its tag stands or should stand.
    pub fn take(&mut self, tag: &[u8]) -> Result<Element, Refusal> {
        let refusal = Refusal::at(10, self.at);
        let behind = self.left().strip_prefix(tag).ok_or(refusal)?;
        let (width, length) = read_length(behind).ok_or(refusal)?;
        if length > behind.len() - width {
            return Err(refusal);
        }
        let start = self.at + tag.len() + width;
        let whole = self.at..start + length;
        self.at = whole.end;
        Ok(Element { content: start..whole.end, whole })
    }

    /// Nothing is left over.
    pub fn close(&self) -> Result<(), Refusal> {
        match self.left() {
            [] => Ok(()),
            _ => Err(Refusal::at(10, self.at)),
        }
    }

    /// Where the walk stands.
    pub fn place(&self) -> usize {
        self.at
    }

    /// What was not walked over yet.
    pub fn left(&self) -> &'a [u8] {
        &self.lent[self.at..self.end]
    }
}

/// How many octets the length at the start takes, and its value. None where it is not one of the three forms, or cut off.
pub fn read_length(octets: &[u8]) -> Option<(usize, usize)> {
    match *octets {
        [length @ 0x00..=0x7f, ..] => Some((1, usize::from(length))),
        [0x81, length @ 0x80..=0xff, ..] => Some((2, usize::from(length))),
        [0x82, high @ 0x01..=0xff, low, ..] => Some((3, usize::from(high) << 8 | usize::from(low))),
        _ => None,
    }
}

/// The shortest form of a length up to 65,535.
pub fn write_length(length: usize) -> Vec<u8> {
    assert!(length <= LONGEST, "a length that has no form");
    let [high, low] = (length as u16).to_be_bytes();
    match length {
        0..=0x7f => vec![low],
        0x80..=0xff => vec![0x81, low],
        _ => vec![0x82, high, low],
    }
}

/// An element's octets.
pub fn tlv(tag: &[u8], content: &[u8]) -> Vec<u8> {
    [tag, &write_length(content.len()), content].concat()
}

#[cfg(test)]
mod tests {
    use super::*;

    #[test]
    fn the_starred_lengths() {
        assert_eq!(read_length(&[0x7f]), Some((1, 127)));
        assert_eq!(read_length(&[0x81, 0x7f]), None);
        assert_eq!(read_length(&[0x81, 0x80]), Some((2, 128)));
    }

    #[test]
    fn lengths_that_are_none() {
        let cut: [&[u8]; 5] = [&[], &[0x81], &[0x82], &[0x82, 0x01], &[0x82, 0xff]];
        let others: [&[u8]; 7] = [
            &[0x80, 0x00, 0x00],
            &[0x81, 0x00],
            &[0x82, 0x00, 0x80],
            &[0x82, 0x00, 0xff],
            &[0x83, 0x01, 0x00, 0x00],
            &[0x84, 0x00, 0x00, 0x01, 0x00],
            &[0xff, 0x01],
        ];
        assert!(cut.iter().chain(&others).all(|octets| read_length(octets).is_none()));
    }

    #[test]
    fn every_length_comes_back_and_has_one_form() {
        for length in 0..=LONGEST {
            let written = write_length(length);
            assert_eq!(read_length(&written), Some((written.len(), length)));
        }
        // What is read is what would be written: no second form of any length.
        for octets in (0..=0xff_ffff).step_by(7).map(|number: u32| number.to_be_bytes()) {
            if let Some((width, length)) = read_length(&octets[1..]) {
                assert_eq!(octets[1..1 + width], write_length(length)[..]);
            }
        }
    }

    fn place(octets: &[u8], tag: &[u8]) -> Option<usize> {
        let mut walk = Walk::over(octets);
        walk.take(&[0x01]).unwrap();
        walk.take(tag).err().map(|refusal| refusal.place)
    }

    #[test]
    fn a_failing_element_is_told_at_its_tag() {
        // Behind 01 00 there should stand 5C 02 and two octets.
        assert_eq!(place(&[0x01, 0x00, 0x5c, 0x02, 0x61, 0x75], &[0x5c]), None);
        assert_eq!(place(&[0x01, 0x00, 0x5c, 0x02, 0x61], &[0x5c]), Some(2));
        assert_eq!(place(&[0x01, 0x00, 0x5c, 0x81, 0x02, 0x61, 0x75], &[0x5c]), Some(2));
        assert_eq!(place(&[0x01, 0x00, 0x5c], &[0x5c]), Some(2));
        assert_eq!(place(&[0x01, 0x00, 0x5d, 0x00], &[0x5c]), Some(2));
        assert_eq!(place(&[0x01, 0x00], &[0x5c]), Some(2));
        // Half of a tag.
        assert_eq!(place(&[0x01, 0x00, 0x5f], &[0x5f, 0x01]), Some(2));
        assert_eq!(place(&[0x01, 0x00, 0x5f, 0x36, 0x00], &[0x5f, 0x01]), Some(2));
    }

    #[test]
    fn an_element_ends_within_its_holder() {
        // 30 03 holds 02 02 00: one octet more would be there, but it is not the holder's.
        let lent = [0x30, 0x03, 0x02, 0x02, 0x00, 0x00];
        let holder = Walk::over(&lent).take(&[0x30]).unwrap();
        assert_eq!(Walk::inside(&lent, &holder).take(&[0x02]), Err(Refusal::at(10, 2)));
        let lent = [0x30, 0x04, 0x02, 0x02, 0x00, 0x00];
        let holder = Walk::over(&lent).take(&[0x30]).unwrap();
        let mut walk = Walk::inside(&lent, &holder);
        assert_eq!(walk.take(&[0x02]), Ok(Element { whole: 2..6, content: 4..6 }));
        assert_eq!(walk.close(), Ok(()));
    }
}
