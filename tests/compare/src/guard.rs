//! Ranges that are lent to a call, each between guard octets, and what has changed in and around them afterwards.

use crate::fence::Pages;
use shared::seeds::Seeds;
use std::ops::{Deref, DerefMut};

/// Guard octets before and after each range: more than a block, so that a block written at a wrong place is seen.
const GUARD: usize = 128;
/// Starts are counted from a multiple of this.
const ALIGNMENT: usize = 64;

pub struct Lent {
    octets: Held,
    before: Vec<u8>,
    start: usize,
    length: usize,
    absent: bool,
}

enum Held {
    Guarded(Vec<u8>),
    Fenced(Pages),
}

/// Which end of a range lies at a fence. The other has guard octets.
#[derive(Clone, Copy)]
pub enum Side {
    Start,
    End,
}

impl Side {
    pub const BOTH: [Side; 2] = [Side::Start, Side::End];
}

impl Lent {
    /// The content between guards, its start `shift` octets past a multiple of 64.
    pub fn new(content: &[u8], shift: usize) -> Lent {
        // The guards differ from place to place: octets that are moved are seen as well as octets that are set.
        let guards = Seeds::new(content.len() as u64).octets(2 * GUARD);
        // Reserved once, so that the start stays where it is worked out.
        let mut octets = Vec::with_capacity(content.len() + 2 * (GUARD + ALIGNMENT));
        let first = octets.as_ptr() as usize + GUARD;
        let start = GUARD + (ALIGNMENT - first % ALIGNMENT) % ALIGNMENT + shift % ALIGNMENT;
        octets.resize(start - GUARD, 0);
        octets.extend([&guards[..GUARD], content, &guards[GUARD..]].concat());
        Lent::of(Held::Guarded(octets), start, content.len())
    }

    /// The content with one of its ends at a page that may not be touched.
    pub fn fenced(content: &[u8], side: Side) -> Lent {
        let mut pages = Pages::new(content.len());
        let start = match side {
            Side::Start => 0,
            Side::End => pages.len() - content.len(),
        };
        pages.fill(0x5a);
        pages[start..start + content.len()].copy_from_slice(content);
        Lent::of(Held::Fenced(pages), start, content.len())
    }

    fn of(octets: Held, start: usize, length: usize) -> Lent {
        let before = octets.to_vec();
        Lent { octets, before, start, length, absent: false }
    }

    /// An empty range whose pointer is null, as a C host may have it. It must not be read.
    pub fn absent() -> Lent {
        Lent { absent: true, ..Lent::new(&[], 0) }
    }

    pub fn length(&self) -> usize {
        self.length
    }

    /// From a range that may change, also for an input: a call that writes where it must not is then seen here, and the
    /// compiler may not assume that it cannot happen.
    pub fn pointer(&mut self) -> *mut u8 {
        if self.absent {
            return std::ptr::null_mut();
        }
        self.octets.as_mut_ptr().wrapping_add(self.start)
    }

    pub fn content(&self) -> &[u8] {
        &self.octets[self.start..self.start + self.length]
    }

    pub fn content_before(&self) -> &[u8] {
        &self.before[self.start..self.start + self.length]
    }

    /// The first octet that is not what it was, apart from `written` octets at the start of the range; counted from the
    /// start of the range, so that a guard octet before it has a place below 0.
    pub fn changed(&self, written: usize) -> Option<isize> {
        let said = self.start..self.start + written;
        let mut places = 0..self.octets.len();
        let first = places.find(|at| !said.contains(at) && self.octets[*at] != self.before[*at]);
        first.map(|at| at as isize - self.start as isize)
    }
}

impl Deref for Held {
    type Target = [u8];
    fn deref(&self) -> &[u8] {
        match self {
            Held::Guarded(octets) => octets,
            Held::Fenced(pages) => pages,
        }
    }
}

impl DerefMut for Held {
    fn deref_mut(&mut self) -> &mut [u8] {
        match self {
            Held::Guarded(octets) => octets,
            Held::Fenced(pages) => pages,
        }
    }
}

#[cfg(test)]
mod tests {
    use super::*;

    #[test]
    fn starts_where_asked() {
        for shift in 0..ALIGNMENT {
            let mut lent = Lent::new(b"K7", shift);
            assert_eq!(lent.pointer() as usize % ALIGNMENT, shift);
            assert_eq!(lent.content(), b"K7");
        }
    }

    #[test]
    fn every_change_is_seen() {
        let mut lent = Lent::new(b"K7", 3);
        for at in 0..lent.octets.len() {
            let place = at as isize - lent.start as isize;
            lent.octets[at] ^= 1;
            assert_eq!(lent.changed(0), Some(place));
            assert_eq!(lent.changed(1).is_none(), place == 0);
            lent.octets[at] ^= 1;
        }
        assert_eq!(lent.changed(0), None);
    }

    #[test]
    fn a_fenced_range_ends_at_its_page() {
        for length in [0, 1, 4_095, 4_096, 4_097, 65_536] {
            let content = vec![7; length];
            let mut first = Lent::fenced(&content, Side::Start);
            assert_eq!(first.pointer() as usize % 4_096, 0);
            let mut last = Lent::fenced(&content, Side::End);
            assert_eq!((last.pointer() as usize + length) % 4_096, 0);
            assert_eq!((first.content(), last.content()), (&content[..], &content[..]));
        }
    }
}
