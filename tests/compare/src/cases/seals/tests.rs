//! Holds the independent reader to the refusal that each damage is meant to give.

use super::damage::{all, filled, sample};
use super::*;
use paper::seal;
use shared::seals::{sound, sound_of_kind, VERSIONS};
use shared::seeds::Seeds;
use std::collections::BTreeSet;

/// Of both versions, with references of every remainder by three.
fn samples() -> Vec<Sound> {
    let mut seeds = Seeds::new(1);
    let lengths = [0, 1, 2, 3, 5, 7, 254, 255];
    let later = lengths.map(|length| sound_of_kind(&mut seeds, 0x03, length));
    let earlier = [5; 8].map(|length| sound_of_kind(&mut seeds, 0x02, length));
    later.into_iter().chain(earlier).collect()
}

#[test]
fn each_gives_the_refusal_that_it_is_meant_to() {
    for sound in samples() {
        let pieces = Pieces::of(&sound);
        for damage in all(&sound) {
            let (lent, refusal) = damage.alone(&pieces);
            assert_eq!(seal::read(&lent), Err(refusal));
        }
    }
}

#[test]
fn of_two_the_first_in_order_is_given() {
    for version in VERSIONS {
        let sound = sample(&mut Seeds::new(1), version);
        let (pieces, all) = (Pieces::of(&sound), all(&sound));
        for (at, one) in all.iter().enumerate() {
            for (lent, refusal) in all[..at].iter().filter_map(|other| one.with(other, &pieces)) {
                assert_eq!(seal::read(&lent), Err(refusal));
            }
        }
    }
}

#[derive(Clone, Copy, Debug, PartialEq, Eq, PartialOrd, Ord)]
enum Spot {
    Field(usize),
    FeatureBefore,
    Text,
    FeatureBehind,
    Zone,
}

/// Each number of a seal, and where it is told.
fn told(sound: &Sound) -> Vec<(u32, Spot)> {
    let pieces = Pieces::of(sound);
    let spot = |piece: usize| match piece {
        0..=7 => Spot::Field(piece),
        _ if piece < pieces.text => Spot::FeatureBefore,
        _ if piece == pieces.text => Spot::Text,
        _ if piece < pieces.zone() => Spot::FeatureBehind,
        _ => Spot::Zone,
    };
    all(sound).into_iter().map(|damage| (damage.number, spot(damage.told))).collect()
}

#[test]
fn every_number_at_each_of_its_places() {
    for version in VERSIONS {
        let drawn = samples().into_iter().filter(|sound| sound.header.version == version);
        let all: BTreeSet<(u32, Spot)> = drawn.flat_map(|sound| told(&sound)).collect();
        let header = (0..FIELDS).map(|field| (24, Spot::Field(field)));
        let features = [Spot::FeatureBefore, Spot::Text, Spot::FeatureBehind, Spot::Zone].map(|spot| (25, spot));
        let texts = [26, 3, 4, 5, 6, 7, 8, 9].map(|number| (number, Spot::Text));
        assert_eq!(all, header.chain(features).chain(texts).chain([(27, Spot::Zone)]).collect());
    }
}

#[test]
fn as_long_as_wanted() {
    for sound in samples() {
        for lent in filled(&sound, 65_535) {
            assert_eq!(lent.len(), 65_535);
            assert_eq!(seal::read(&lent).map(|seal| seal.record), Ok(sound.record.clone()));
        }
        let over = Err(Refusal::at(1, 0));
        assert!(filled(&sound, 65_536).iter().all(|lent| seal::read(lent) == over));
    }
}

/// Every prefix of many seals.
#[test]
fn cut_off() {
    let mut seeds = Seeds::new(1);
    for _ in 0..100 {
        let sound = sound(&mut seeds);
        let (pieces, lent) = (Pieces::of(&sound), sound.octets());
        assert_eq!(pieces.octets(), lent);
        assert!(seal::read(&lent).is_ok());
        (0..lent.len()).for_each(|length| assert_eq!(seal::read(&lent[..length]), Err(pieces.cut(length))));
    }
}
