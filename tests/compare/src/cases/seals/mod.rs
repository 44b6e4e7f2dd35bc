//! A seal in pieces, of which any can be spoilt while all others stand: the eight fields of its header, its features,
//! its signature zone.

pub mod damage;
mod fields;
#[cfg(test)]
mod tests;

use paper::refusal::Refusal;
use paper::seal::{header, Feature, MARKER, TEXT};
use paper::tlv::tlv;
use shared::seals::Sound;

/// The pieces of a header.
pub const FIELDS: usize = 8;

#[derive(Clone)]
pub struct Pieces {
    pub pieces: Vec<Vec<u8>>,
    /// Which of them is the feature with the text.
    pub text: usize,
}

impl Pieces {
    pub fn of(sound: &Sound) -> Pieces {
        let features = sound.features.iter().map(Feature::written);
        let zone = tlv(&[MARKER], &sound.signature);
        let pieces = header::fields(&sound.header).into_iter().chain(features).chain([zone]).collect();
        let place = sound.features.iter().position(|feature| feature.tag == TEXT);
        Pieces { pieces, text: FIELDS + place.expect("the feature with the text") }
    }

    /// The number of the last piece, the signature zone.
    pub fn zone(&self) -> usize {
        self.pieces.len() - 1
    }

    pub fn octets(&self) -> Vec<u8> {
        self.pieces.concat()
    }

    /// Where a piece begins.
    pub fn start(&self, piece: usize) -> usize {
        self.pieces[..piece].iter().map(Vec::len).sum()
    }

    /// What its first octets alone are refused with: the piece that they end in is told, or the one that they leave
    /// out, but for features, of which only the text's must be there.
    pub fn cut(&self, length: usize) -> Refusal {
        let whole = (0..self.pieces.len()).take_while(|piece| self.start(piece + 1) <= length).count();
        let inside = self.start(whole) < length;
        let place = self.start(whole);
        let number = match whole {
            0..=7 => 24,
            _ if inside && whole < self.zone() => 25,
            _ if whole <= self.text => 25,
            _ => 27,
        };
        Refusal::at(number, place)
    }
}
