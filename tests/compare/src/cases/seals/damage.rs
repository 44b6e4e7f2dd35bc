//! Every kind of damage to a seal, with the refusal that it is meant to give: each number at each of its places, to be
//! taken alone and in pairs.

use crate::cases::digits;
use crate::cases::seals::{fields, Pieces, FIELDS};
use paper::form::Form;
use paper::refusal::Refusal;
use paper::seal::{Feature, MARKER, TEXT};
use paper::text;
use paper::tlv::{tlv, WRONG_LENGTHS};
use shared::records::until;
use shared::seals::{sound, Sound};
use shared::seeds::Seeds;

/// Other octets for a piece, and what is then refused.
#[derive(Clone)]
pub struct Damage {
    piece: usize,
    octets: Vec<u8>,
    pub number: u32,
    /// The digit that was right, where it is a wrong one.
    expected: Option<u8>,
    /// The piece at which it is told.
    pub told: usize,
    /// Whether there is a feature with a text more, or less.
    counts: bool,
}

impl Damage {
    pub fn new(piece: usize, octets: Vec<u8>, number: u32) -> Damage {
        Damage { piece, octets, number, expected: None, told: piece, counts: false }
    }

    /// The seal with this damage alone, and its refusal.
    pub fn alone(&self, pieces: &Pieces) -> (Vec<u8>, Refusal) {
        spoilt(pieces, &[self], self)
    }

    /// The seal with both, and the refusal that goes first. None where one would take the other away.
    pub fn with(&self, other: &Damage, pieces: &Pieces) -> Option<(Vec<u8>, Refusal)> {
        if self.piece == other.piece || self.counts && other.counts {
            return None;
        }
        let first = if self.rank() <= other.rank() { self } else { other };
        Some(spoilt(pieces, &[self, other], first))
    }

    /// The header, the features, the C40 of the text, the signature zone, the text; each from the left.
    fn rank(&self) -> (u32, usize) {
        let stage = if (24..=27).contains(&self.number) { self.number } else { 28 };
        (stage, self.told)
    }
}

fn spoilt(pieces: &Pieces, damages: &[&Damage], first: &Damage) -> (Vec<u8>, Refusal) {
    let mut pieces = pieces.clone();
    damages.iter().for_each(|damage| pieces.pieces[damage.piece] = damage.octets.clone());
    let Damage { number, expected, told, .. } = *first;
    (pieces.octets(), Refusal { number, expected, place: pieces.start(told) })
}

/// A seal that has other features before the text's and behind it, so that there is a place for every damage.
pub fn sample(seeds: &mut Seeds, version: u8) -> Sound {
    let has_place = |sound: &Sound| {
        let is_text = [0, sound.features.len() - 1].map(|at| sound.features[at].tag == TEXT);
        sound.header.version == version && is_text == [false, false]
    };
    until(seeds, sound, has_place)
}

/// Every kind of damage to this seal.
pub fn all(sound: &Sound) -> Vec<Damage> {
    let pieces = Pieces::of(sound);
    [fields::all(sound), coded(&pieces), counted(&pieces), values(&pieces), zone(&pieces), texts(sound)].concat()
}

/// C40 with one of its pairs replaced by each that cannot stand there: values 0, 1, 2 and 40, FE with what is no
/// character, and FE or 0 as a third value, which in the last pair leave fewer characters, none of them of a reference.
pub fn with_bad_pairs(image: &[u8], pair: usize) -> Vec<Vec<u8>> {
    let joined = |a: u16, b: u16, c: u16| (1600 * a + 40 * b + c + 1).to_be_bytes();
    let values = (0..3).flat_map(|value| [joined(value, 30, 30), joined(30, value, 30), joined(30, 30, value)]);
    let others = [[0x00, 0x00], [0xfa, 0x01], [0xff, 0xff], [0xfe, 0x00], [0xfe, b'<' + 1], [0xfe, b'Q' + 1]];
    let with = |octets: [u8; 2]| [&image[..2 * pair], &octets, &image[2 * pair + 2..]].concat();
    values.chain(others).map(with).collect()
}

/// Features whose length is wrongly coded, or more than there is, before every feature and before FF; and the text's.
fn coded(pieces: &Pieces) -> Vec<Damage> {
    let mut all = Vec::new();
    for (piece, length) in (FIELDS..=pieces.zone()).flat_map(|piece| WRONG_LENGTHS.map(|length| (piece, length))) {
        let octets = [&[0x05], length, &pieces.pieces[piece]].concat();
        all.push(Damage::new(piece, octets, 25));
    }
    let value = &pieces.pieces[pieces.text][2..];
    let lengths: [&[u8]; 4] = [&[0x80], &[0x81, 0x30], &[0x82, 0x00, 0x30], &[0x82, 0xff, 0xff]];
    all.extend(lengths.map(|length| Damage::new(pieces.text, [&[TEXT], length, value].concat(), 25)));
    all
}

/// Feature 02 of another length; not there; and a second time, before every feature and before FF.
fn counted(pieces: &Pieces) -> Vec<Damage> {
    let another = |length| Damage::new(pieces.text, tlv(&[TEXT], &vec![0x13; length]), 25);
    let mut all: Vec<Damage> = [0, 1, 47, 49, 0x80, 0x100].map(another).to_vec();
    let absent = Damage::new(pieces.text, Vec::new(), 25);
    all.push(Damage { told: pieces.zone(), counts: true, ..absent });
    for piece in (FIELDS..=pieces.zone()).filter(|piece| *piece != pieces.text) {
        let octets = [&pieces.pieces[pieces.text][..], &pieces.pieces[piece]].concat();
        // The one that comes behind is told.
        all.push(Damage { told: piece.max(pieces.text), counts: true, ..Damage::new(piece, octets, 25) });
    }
    all
}

/// The C40 of feature 02.
fn values(pieces: &Pieces) -> Vec<Damage> {
    let value = &pieces.pieces[pieces.text][2..];
    let bad = [0, 1, 12, 22, 23].into_iter().flat_map(|pair| with_bad_pairs(value, pair));
    bad.map(|value| Damage::new(pieces.text, tlv(&[TEXT], &value), 26)).collect()
}

/// A signature zone that is missing, wrongly coded, cut off or followed by anything.
fn zone(pieces: &Pieces) -> Vec<Damage> {
    let zone = &pieces.pieces[pieces.zone()];
    let all: [&[u8]; 14] = [
        &[],
        &[MARKER],
        &[MARKER, 0x80],
        &[MARKER, 0x80, 0x00, 0x00],
        &[MARKER, 0x81],
        &[MARKER, 0x81, 0x00],
        &[&[MARKER, 0x81, 0x7f][..], &[7; 0x7f]].concat(),
        &[&[MARKER, 0x82, 0x00, 0x80][..], &[7; 0x80]].concat(),
        &[&[MARKER, 0x83, 0x00, 0x01, 0x00][..], &[7; 0x100]].concat(),
        &[&[MARKER, 0x82, 0xff, 0xff][..], &[7; 64]].concat(),
        &zone[..zone.len() - 1],
        &[&zone[..], &[0x00]].concat(),
        &[&zone[..], &[MARKER, 0x00]].concat(),
        &[&zone[..], zone].concat(),
    ];
    all.map(|octets| Damage::new(pieces.zone(), octets.to_vec(), 27)).to_vec()
}

/// Texts with one field that breaks its rule, or one wrong digit.
fn texts(sound: &Sound) -> Vec<Damage> {
    let sound_text = text::write(&sound.record);
    let at = Form::Td2.layout();
    let fields: [(usize, &[u8], u32); 14] = [
        (at.code.start, b"V<", 3),
        (at.code.start, b"VC", 3),
        (at.code.start, b"P<", 3),
        (at.code.start, b"IV", 3),
        (at.state.start, b"<<<", 4),
        (at.state.start, b"U<O", 4),
        (at.name.start, b"0", 8),
        (at.name.start, b"<", 8),
        (at.number.start, b"<", 5),
        (at.nationality.start, b"UT0", 4),
        (at.birth.start, b"950229", 6),
        (at.sex, b"X", 7),
        (at.expiry.start, b"<<0101", 6),
        (at.expiry.start, b"300631", 6),
    ];
    let mut all = fields.map(|(place, characters, number)| (place, characters.to_vec(), number)).to_vec();
    for place in digits::places(&sound.record) {
        let next = b'0' + (sound_text[place] - b'0' + 1) % 10;
        all.extend([next, b'Z'].map(|character| (place, vec![character], 9)));
    }
    let text = Pieces::of(sound).text;
    let damage = |(place, characters, number): (usize, Vec<u8>, u32)| {
        let mut other = sound_text.clone();
        other[place..place + characters.len()].copy_from_slice(&characters);
        let expected = (number == 9).then(|| sound_text[place] - b'0');
        Damage { expected, ..Damage::new(text, Feature::of_text(&other).written(), number) }
    };
    all.into_iter().map(damage).collect()
}

/// The seal with a longer signature, or with a longer feature before it: just so many octets.
pub fn filled(sound: &Sound, size: usize) -> [Vec<u8>; 2] {
    let long = |length| Feature { tag: 0x05, value: vec![7; length] };
    let mut signed = Sound { signature: vec![7; 1_000], ..sound.clone() };
    signed.signature.resize(size - (signed.octets().len() - 1_000), 7);
    let mut featured = sound.clone();
    featured.features.insert(0, long(1_000));
    featured.features[0] = long(size - (featured.octets().len() - 1_000));
    [signed.octets(), featured.octets()]
}
