//! Every kind of damage to a file of group 11, with the refusal that it is meant to give: each number at each of its places, to
//! be taken alone and in pairs.

use super::{octets_of, tag_of, with_value};
use crate::cases::insides::damage::{is_shortest, Told, LENGTHS};
use crate::cases::trees::{Held, Length, Tree};
use paper::details::{NAMED, OTHER_NAMES};
use paper::refusal::Refusal;
use shared::seeds::Seeds;
use std::rc::Rc;

/// Another tree in place of a sound one, and what is then refused.
#[derive(Clone)]
pub struct Damage {
    spoil: Rc<dyn Fn(&mut Tree)>,
    pub number: u32,
    pub told: Told,
}

/// Tags of elements that may not stand in the file behind its list.
const FOREIGN: [&[u8]; 16] = [
    &[0x5f, 0x0d],
    &[0x5f, 0x19],
    &[0x5f, 0x2a],
    &[0x5f, 0x2c],
    &[0x5f, 0x41],
    &[0x5f, 0x43],
    &[0x5f, 0x1f],
    &[0x5f, 0x8e],
    &[0x7f, 0x0e],
    &[0x5e, 0x0e],
    &[0x5c],
    &[0xa1],
    &[0x80],
    &[0x6b],
    &[0x00],
    &[0xff],
];

/// What is no element of the file, or the beginning of one: at its end.
const BEGUN: [&[u8]; 11] = [
    &[0x5f],
    &[0x5f, 0x0e],
    &[0x5f, 0x0e, 0x01],
    &[0x5f, 0x0e, 0x80],
    &[0x5f, 0x0e, 0x81, 0x00],
    &[0x5f, 0x0e, 0x82, 0x01],
    &[0xa0],
    &[0xa0, 0x01],
    &[0x5c, 0x00],
    &[0x5f, 0x19, 0x00],
    &[0x00],
];

/// Two octets that a list may not have.
const UNNAMED: [u16; 10] = [0x5f0d, 0x5f19, 0x5f2a, 0x5f2c, 0x5f41, 0x5f43, 0x00a0, 0xa000, 0x5c00, 0x0e5f];

impl Damage {
    pub fn put(&self, lent: &mut Tree) {
        (self.spoil)(lent);
    }

    /// What it is meant to give, in what it alone was put into.
    pub fn refusal(&self, lent: &Tree) -> Refusal {
        let place = match &self.told {
            Told::At(path) => lent.stands(path).map(|(begins, _)| begins),
            Told::Behind(path) => lent.stands(path).map(|(_, ends)| ends),
            Told::Start => Some(0),
        };
        Refusal::at(self.number, place.expect("a place of the file"))
    }
}

/// Damage to what stands at a path, where it still stands there.
fn on(path: &[usize], number: u32, told: Told, change: impl Fn(&mut Tree) + 'static) -> Damage {
    let path = path.to_vec();
    let spoil = move |lent: &mut Tree| {
        if let Some(tree) = lent.at(&path) {
            change(tree);
        }
    };
    Damage { spoil: Rc::new(spoil), number, told }
}

/// Damage to the row of list and elements, where it still has so many.
fn among(least: usize, number: u32, told: Told, change: impl Fn(&mut Vec<Tree>) + 'static) -> Damage {
    on(&[0], number, told, move |file| {
        if let Some(trees) = file.trees_mut().filter(|trees| trees.len() >= least) {
            change(trees);
        }
    })
}

fn in_file(turn: usize) -> Told {
    Told::At(vec![0, turn])
}

/// Behind all that is lent: where one is missing.
fn at_end() -> Told {
    Told::Behind(Vec::new())
}

/// Each kind at each of its places, of a sound file with these details.
pub fn all(lent: &Tree, tags: &[u16]) -> Vec<Damage> {
    [encodings(lent, tags), lists(tags), elements(tags)].concat()
}

/// 10: the file, its list, each element, what stands at the end and behind.
pub fn encodings(lent: &Tree, tags: &[u16]) -> Vec<Damage> {
    let last = tags.len();
    let mut all = of_file(last);
    all.extend(of_list(last));
    for turn in 1..=last {
        let foreign = |tag: &'static [u8]| on(&[0, turn], 10, in_file(turn), move |tree| tree.tag = tag.to_vec());
        all.extend(FOREIGN.into_iter().map(foreign));
    }
    for path in lent.paths().into_iter().filter(|path| !path.is_empty()) {
        let tree = lent.clone().at(&path).expect("a path of the tree").clone();
        let wrong = LENGTHS.into_iter().filter(|length| !is_shortest(*length, &tree) && !is_too_narrow(*length, &tree));
        all.extend(wrong.map(|length| on(&path, 10, Told::At(path.clone()), move |tree| tree.length = length)));
    }
    all
}

/// Whether a length in one octet would be another one, of fewer.
fn is_too_narrow(length: Length, tree: &Tree) -> bool {
    matches!(length, Length::Octets(1)) && tree.encoded().len() > 255
}

fn of_file(last: usize) -> Vec<Damage> {
    let tags: [&'static [u8]; 6] = [&[0x6a], &[0x6c], &[0x61], &[0x7f, 0x6b], &[0x5c], &[0x00]];
    let mut all: Vec<Damage> =
        tags.into_iter().map(|tag| on(&[0], 10, Told::Start, move |file| file.tag = tag.to_vec())).collect();
    all.push(on(&[], 10, Told::Start, |lent| lent.held = Held::Trees(Vec::new())));
    // One octet more than there are, and one less, so that the last element ends behind the file.
    all.push(on(&[0], 10, Told::Start, |file| file.length = Length::Off(1)));
    all.push(on(&[0], 10, in_file(last), |file| file.length = Length::Off(-1)));
    all.extend(BEGUN.iter().map(|octets| on(&[0], 10, Told::Behind(vec![0]), |file| file.over = octets.to_vec())));
    let behind: [&'static [u8]; 4] = [&[0x00], &[0x6b, 0x02, 0x5c, 0x00], &[0x5f, 0x0e, 0x00], &[0x5f]];
    all.extend(behind.into_iter().map(|octets| on(&[], 10, at_end(), move |lent| lent.over = octets.to_vec())));
    all
}

/// Another tag where the list should stand, or none; and a second list.
fn of_list(last: usize) -> Vec<Damage> {
    let tags: [&'static [u8]; 6] = [&[0x5d], &[0x5f, 0x0e], &[0xa0], &[0x6b], &[0x5f, 0x5c], &[0x00]];
    let mut all: Vec<Damage> =
        tags.into_iter().map(|tag| on(&[0, 0], 10, in_file(0), move |list| list.tag = tag.to_vec())).collect();
    // Where there is no element either, it is told behind the file's head.
    let missing = if last > 0 { in_file(0) } else { Told::Behind(vec![0]) };
    all.push(among(1, 10, missing, |trees| drop(trees.remove(0))));
    all.push(among(1, 10, in_file(1), |trees| trees.insert(1, trees[0].clone())));
    if last > 0 {
        all.push(among(2, 10, in_file(0), |trees| trees.swap(0, 1)));
    }
    all
}

/// 20 at the list, or at the first element that another list does not name in its turn.
pub fn lists(tags: &[u16]) -> Vec<Damage> {
    let last = tags.len();
    let with = |list: Vec<u8>, told: Told| on(&[0, 0], 20, told, move |tree| tree.held = Held::Octets(list.clone()));
    let list = octets_of(tags);
    let mut all = vec![
        with([&list[..], &[0x5f]].concat(), in_file(0)),
        with([&list[..], &[0x5f, 0x0d]].concat(), in_file(0)),
        with([&list[..], &list, &[0x5f, 0x0e, 0x5f, 0x0e]].concat(), in_file(0)),
    ];
    for turn in 0..last {
        let other = |tag: u16| {
            let mut tags = tags.to_vec();
            tags[turn] = tag;
            octets_of(&tags)
        };
        all.extend(UNNAMED.iter().map(|tag| with(other(*tag), in_file(0))));
        all.extend(tags[..turn].iter().map(|tag| with(other(*tag), in_file(0))));
        all.push(with(list[..2 * turn + 1].to_vec(), in_file(0)));
        // It ends here, and the next element is one more than it names.
        all.push(with(list[..2 * turn].to_vec(), in_file(turn + 1)));
    }
    if last > 1 {
        all.push(with([&list[2..], &list[..2]].concat(), in_file(1)));
    }
    if let Some(more) = NAMED.iter().find(|tag| !tags.contains(tag)) {
        all.push(with([list, more.to_be_bytes().to_vec()].concat(), at_end()));
    }
    all
}

/// 20 at the first element that is not the one named, or at the end where one is missing.
pub fn elements(tags: &[u16]) -> Vec<Damage> {
    let last = tags.len();
    let itself = OTHER_NAMES.to_be_bytes().to_vec();
    let may_stand: Vec<Vec<u8>> = NAMED.iter().map(|tag| tag_of(*tag)).chain([itself]).collect();
    let mut all = Vec::new();
    for turn in 1..=last {
        for tag in may_stand.iter().filter(|tag| **tag != tag_of(tags[turn - 1])) {
            let tag = tag.clone();
            all.push(on(&[0, turn], 20, in_file(turn), move |tree| tree.tag = tag.clone()));
        }
        let missing = if turn < last { in_file(turn) } else { at_end() };
        all.push(among(turn + 1, 20, missing, move |trees| drop(trees.remove(turn))));
        all.push(among(turn + 1, 20, in_file(turn + 1), move |trees| trees.insert(turn, trees[turn].clone())));
        if turn < last {
            all.push(among(turn + 2, 20, in_file(turn), move |trees| trees.swap(turn, turn + 1)));
        }
    }
    let more = |tag: &u16| {
        let one = with_value(*tag, b"more");
        among(last + 1, 20, in_file(last + 1), move |trees| trees.insert(last + 1, one.clone()))
    };
    all.extend(NAMED.iter().map(more));
    all
}

/// One of all kinds at a place of the seed's choice, of a file that may be spoilt already.
pub fn drawn(seeds: &mut Seeds, lent: &mut Tree, tags: &[u16]) {
    let all = all(lent, tags);
    all[seeds.below(all.len())].put(lent);
}
