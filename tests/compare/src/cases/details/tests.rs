//! Holds the independent reader to what the files drawn have, and to the refusal that each damage is meant to give.

use super::damage::{all, elements, lists};
use super::*;
use crate::cases::insides::damage::Told;
use paper::refusal::Refusal;
use paper::{calls, details};
use std::collections::BTreeSet;

fn refusal(lent: &Tree) -> Option<Refusal> {
    details::read(&lent.encoded()).err()
}

#[test]
fn sound_files() {
    let mut seeds = Seeds::new(1);
    let mut counts = BTreeSet::new();
    for _ in 0..500 {
        let (tags, lent) = drawn(&mut seeds);
        let octets = lent.encoded();
        for tag in asked() {
            assert_eq!(calls::read_detail(&octets, tag), found(&lent, &tags, tag), "{tag:x} of {tags:x?}");
        }
        counts.insert(tags.len());
    }
    assert_eq!(counts.len(), 14);
}

/// Files of none, one, two and all details, and some with the other names in any place.
fn samples(seeds: &mut Seeds) -> Vec<(Vec<u16>, Tree)> {
    let mut samples: Vec<(Vec<u16>, Tree)> = [&[][..], &[0x5f0e], &[0x5f0f], &[0x5f0f, 0x5f42]]
        .iter()
        .map(|tags| (tags.to_vec(), file(seeds, tags)))
        .collect();
    samples.extend((0..6).map(|_| drawn(seeds)));
    samples.push((NAMED.to_vec(), file(seeds, &NAMED)));
    samples
}

#[test]
fn each_gives_the_refusal_that_it_is_meant_to() {
    for (tags, sound) in samples(&mut Seeds::new(1)) {
        for damage in all(&sound, &tags) {
            let mut lent = sound.clone();
            damage.put(&mut lent);
            assert_eq!(refusal(&lent), Some(damage.refusal(&lent)), "{tags:x?}: {:02x?}", lent.encoded());
        }
    }
}

/// "20, after 10 for the whole group": octets behind the file, which stand further right than any 20, and one foreign element.
#[test]
fn ten_goes_first() {
    for (tags, sound) in samples(&mut Seeds::new(2)) {
        for twenty in [lists(&tags), elements(&tags)].concat() {
            let mut lent = sound.clone();
            twenty.put(&mut lent);
            let place = lent.encoded().len();
            assert_eq!(refusal(&lent), Some(twenty.refusal(&lent)));
            lent.over = vec![0x00];
            assert_eq!(refusal(&lent), Some(Refusal::at(10, place)));
            lent.over = Vec::new();
            lent.trees_mut().expect("the file")[0].over = vec![0x5f, 0x19, 0x00];
            assert_eq!(refusal(&lent), Some(Refusal::at(10, lent.encoded().len() - 3)));
        }
    }
}

/// Each number where it can be told.
#[test]
fn every_number_at_each_of_its_places() {
    let mut seeds = Seeds::new(1);
    let tags = [0x5f0e, 0x5f0f, 0x5f10];
    let told: BTreeSet<(u32, Option<usize>)> = all(&file(&mut seeds, &tags), &tags)
        .iter()
        .map(|damage| match &damage.told {
            Told::At(path) => (damage.number, Some(path.len() * 10 + path.last().unwrap_or(&0))),
            Told::Behind(path) => (damage.number, Some(100 + path.len())),
            Told::Start => (damage.number, None),
        })
        .collect();
    // The file, the list and three elements; a second list; at the end of the file and behind it.
    let ten = [None, Some(10), Some(20), Some(21), Some(22), Some(23), Some(100), Some(101)].map(|at| (10, at));
    // The list, three elements and one more; the end.
    let twenty = [Some(20), Some(21), Some(22), Some(23), Some(24), Some(100)].map(|at| (20, at));
    assert_eq!(told, ten.into_iter().chain(twenty).collect());
}
