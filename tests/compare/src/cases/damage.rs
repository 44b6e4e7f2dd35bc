//! Every kind of damage at every place of one presentation, to be taken alone and in pairs.

use crate::cases::presentations::{self, entry, seal, strings};
use crate::cases::trees::{Held, Length, Tree};
use paper::lds::Lds;
use paper::presentation::write_text_element;
use paper::specimens;
use shared::seeds::Seeds;

/// One damage, at a place of the tree.
#[derive(Clone)]
pub struct Damage {
    path: Vec<usize>,
    kind: Kind,
    /// After the digests were worked out: what is in a file then differs from what its entry says.
    late: bool,
}

#[derive(Clone)]
enum Kind {
    Tag(Vec<u8>),
    Length(Length),
    Over(Vec<u8>),
    Content(Vec<u8>),
    Trees(Vec<Tree>),
    Bit(usize),
    Removed,
    Doubled,
    Swapped,
}

/// The presentation that the list spoils.
pub fn sample(seeds: &mut Seeds) -> Tree {
    sample_as(Lds::V17, seeds)
}

/// Groups 1, 2 and 16 are lent; 3 is listed besides, and 5 has an entry.
pub fn sample_as(lds: Lds, seeds: &mut Seeds) -> Tree {
    let files = [(1, write_text_element(specimens::T3.as_bytes())), (2, seeds.octets(20)), (16, seeds.octets(130))];
    let mut tree = presentations::tree_as(lds, seeds, &files);
    set(&mut tree, &[0, 2], Held::Octets(vec![0x75, 0x61, 0x63, 0x70]));
    let entries = [16, 1, 5, 2].map(|number| entry(number, &[number; 32]));
    set(&mut tree, &[1, 2], Held::Trees(entries.to_vec()));
    seal(&mut tree);
    tree
}

fn set(tree: &mut Tree, path: &[usize], held: Held) {
    tree.at(path).expect("a place of the sample").held = held;
}

/// Puts damage into a tree: first what is early, then the digests that fit it, then what is late.
pub fn spoil(tree: &mut Tree, damages: &[&Damage]) {
    damages.iter().filter(|damage| !damage.late).for_each(|damage| put(tree, damage));
    seal(tree);
    damages.iter().filter(|damage| damage.late).for_each(|damage| put(tree, damage));
}

/// Nothing is done where other damage has taken the place away.
fn put(tree: &mut Tree, damage: &Damage) {
    let (last, holder) = match damage.path.split_last() {
        Some((last, path)) => (*last, tree.at(path)),
        None => return tree.over.extend(over_of(&damage.kind)),
    };
    let trees = match holder.and_then(Tree::trees_mut) {
        Some(trees) if last < trees.len() => trees,
        _ => return,
    };
    match &damage.kind {
        Kind::Tag(tag) => trees[last].tag = tag.clone(),
        Kind::Length(length) => trees[last].length = *length,
        Kind::Over(octets) => trees[last].over = octets.clone(),
        Kind::Content(octets) => trees[last].held = Held::Octets(octets.clone()),
        Kind::Trees(inner) => trees[last].held = Held::Trees(inner.clone()),
        Kind::Bit(bit) => {
            if let Some(octet) = trees[last].octets_mut().and_then(|octets| octets.get_mut(bit / 8)) {
                *octet ^= 0x80 >> (bit % 8);
            }
        }
        Kind::Removed => drop(trees.remove(last)),
        Kind::Doubled => trees.push(trees[last].clone()),
        Kind::Swapped => {
            let next = (last + 1) % trees.len();
            trees.swap(last, next);
        }
    }
}

fn over_of(kind: &Kind) -> &[u8] {
    match kind {
        Kind::Over(octets) => octets,
        _ => &[],
    }
}

/// Every kind of damage at every place of the sample.
pub fn all() -> Vec<Damage> {
    [everywhere(&PLACES), com(), object(), entries(), files()].concat()
}

/// Of a newer sample: what can be wrong with its versions, and at every place of its strings.
pub fn versions() -> Vec<Damage> {
    let told: [&[u8]; 4] = [b"0107", b"0106", b"0109", b"0118"];
    let told = told.iter().map(|octets| at(&[0, 0], Kind::Content(octets.to_vec())));
    let unicodes = [0, 7, 40, 47].into_iter().map(|bit| at(&[0, 1], Kind::Bit(bit)));
    let numbers: [&[u8]; 4] = [&[0], &[2], &[0x81], &[1, 1]];
    let numbers = numbers.iter().map(|octets| at(&[1, 0], Kind::Content(octets.to_vec())));
    let texts: [&[u8]; 6] = [b"0108", b"0107", b"010", b"01080", b"040000", b"\xb0108"];
    let texts =
        [[1, 3, 0], [1, 3, 1]].into_iter().flat_map(|path| texts.map(|text| at(&path, Kind::Content(text.to_vec()))));
    let bits = [[1, 3, 0], [1, 3, 1]].into_iter().flat_map(|path| [0, 15, 31].map(|bit| at(&path, Kind::Bit(bit))));
    let held = [at(&[1, 3], Kind::Trees(vec![strings(b"0108", b"040000")]))];
    let all = told.chain(unicodes).chain(numbers).chain(texts).chain(bits).chain(held);
    all.chain(everywhere(&[&[1, 3], &[1, 3, 0], &[1, 3, 1]])).collect()
}

fn at(path: &[usize], kind: Kind) -> Damage {
    // Files are spoilt early, so that what is behind the digest is reached.
    Damage { path: path.to_vec(), kind, late: path.first().map_or(true, |part| *part < 2) }
}

const PLACES: [&[usize]; 17] = [
    &[0],
    &[0, 0],
    &[0, 1],
    &[0, 2],
    &[1],
    &[1, 0],
    &[1, 1],
    &[1, 2],
    &[1, 2, 0],
    &[1, 2, 0, 0],
    &[1, 2, 0, 1],
    &[1, 2, 3],
    &[1, 2, 3, 0],
    &[2],
    &[2, 0],
    &[3],
    &[4],
];

/// What can be wrong with any element.
fn everywhere(places: &[&[usize]]) -> Vec<Damage> {
    let kinds = [
        Kind::Tag(vec![0x05]),
        Kind::Tag(vec![]),
        Kind::Length(Length::Octets(1)),
        Kind::Length(Length::Octets(2)),
        Kind::Length(Length::Octets(3)),
        Kind::Length(Length::Indefinite),
        Kind::Length(Length::Off(1)),
        Kind::Length(Length::Off(-1)),
        Kind::Length(Length::Off(60_000)),
        Kind::Over(vec![0x00]),
        Kind::Over(vec![0x05, 0x00]),
        Kind::Content(vec![]),
        Kind::Removed,
        Kind::Doubled,
        Kind::Swapped,
    ];
    places.iter().flat_map(|path| kinds.iter().map(move |kind| at(path, kind.clone()))).collect()
}

fn com() -> Vec<Damage> {
    // The first is the newer version, with which this object does not go.
    let versions: [&[u8]; 6] = [b"0108", b"0106", b"1107", b"107", b"00107", b"\x30\x31\x30\xb7"];
    let unicodes: [&[u8]; 6] = [b"04000", b"0400000", b"04000:", b"/40000", b"04 000", b"99999A"];
    // Known and in another order, none, too few, unknown, repeated, and both in either order.
    let lists: [&[u8]; 12] = [
        &[0x70, 0x75, 0x61],
        &[],
        &[0x61],
        &[0x75, 0x70],
        &[0x61, 0x75, 0x70, 0x66],
        &[0x00, 0x61, 0x75, 0x70],
        &[0x61, 0x75, 0x70, 0x61],
        &[0x61, 0x61, 0x75, 0x66, 0x70],
        &[0x61, 0x75, 0x66, 0x66, 0x75],
        &[0x61, 0x75, 0x63, 0x76, 0x65, 0x67, 0x68, 0x69, 0x6a, 0x6b, 0x6c, 0x6d, 0x6e, 0x6f, 0x70],
        &[0x61, 0x75, 0x63, 0x76, 0x65, 0x67, 0x68, 0x69, 0x6a, 0x6b, 0x6c, 0x6d, 0x6e, 0x6f, 0x70, 0x75],
        &[0x61, 0x75, 0x63, 0x76, 0x65, 0x66, 0x67, 0x68, 0x69, 0x6a, 0x6b, 0x6c, 0x6d, 0x6e, 0x6f, 0x70],
    ];
    let versions = versions.iter().map(|octets| at(&[0, 0], Kind::Content(octets.to_vec())));
    let unicodes = unicodes.iter().map(|octets| at(&[0, 1], Kind::Content(octets.to_vec())));
    let lists = lists.iter().map(|octets| at(&[0, 2], Kind::Content(octets.to_vec())));
    let tags = [&[0x5f, 0x02][..], &[0x5f], &[0x41], &[0x5f, 0x81, 0x01]];
    let tags = tags.iter().map(|tag| at(&[0, 0], Kind::Tag(tag.to_vec())));
    versions.chain(unicodes).chain(lists).chain(tags).collect()
}

fn object() -> Vec<Damage> {
    let versions: [&[u8]; 6] = [&[1], &[2], &[0, 0], &[0x80], &[0xff], &[0, 1]];
    let algorithms: [&[u8]; 10] = [
        // Both spellings that are right.
        b"\x06\x09\x60\x86\x48\x01\x65\x03\x04\x02\x01",
        b"\x06\x09\x60\x86\x48\x01\x65\x03\x04\x02\x01\x05\x00",
        // SHA-512 and SHA-1.
        b"\x06\x09\x60\x86\x48\x01\x65\x03\x04\x02\x03",
        b"\x06\x05\x2b\x0e\x03\x02\x1a\x05\x00",
        // Half a NULL, two, one with a content, one whose length is not shortest, another parameter.
        b"\x06\x09\x60\x86\x48\x01\x65\x03\x04\x02\x01\x05",
        b"\x06\x09\x60\x86\x48\x01\x65\x03\x04\x02\x01\x05\x00\x05\x00",
        b"\x06\x09\x60\x86\x48\x01\x65\x03\x04\x02\x01\x05\x01\x00",
        b"\x06\x09\x60\x86\x48\x01\x65\x03\x04\x02\x01\x05\x81\x00",
        b"\x06\x09\x60\x86\x48\x01\x65\x03\x04\x02\x01\x30\x00",
        // The identifier's own length is not shortest.
        b"\x06\x81\x09\x60\x86\x48\x01\x65\x03\x04\x02\x01",
    ];
    let versions = versions.iter().map(|octets| at(&[1, 0], Kind::Content(octets.to_vec())));
    let algorithms = algorithms.iter().map(|octets| at(&[1, 1], Kind::Content(octets.to_vec())));
    versions.chain(algorithms).collect()
}

fn entries() -> Vec<Damage> {
    let mut all = Vec::new();
    for place in [0, 1, 3] {
        let integers: [&[u8]; 9] = [&[0], &[17], &[255], &[0, 1], &[1, 0], &[0, 16], &[5], &[3], &[6]];
        all.extend(integers.iter().map(|octets| at(&[1, 2, place, 0], Kind::Content(octets.to_vec()))));
        all.extend([20, 31, 33, 64, 127, 128, 256].map(|length| at(&[1, 2, place, 1], Kind::Content(vec![7; length]))));
        all.extend([0, 7, 128, 255].map(|bit| at(&[1, 2, place, 1], Kind::Bit(bit))));
        // The digest before the number.
        all.push(at(&[1, 2, place, 0], Kind::Swapped));
    }
    let listed = |numbers: &[u8]| {
        let entries = numbers.iter().map(|number| entry(*number, &[*number; 32])).collect();
        at(&[1, 2], Kind::Trees(entries))
    };
    let sixteen: Vec<u8> = (1..=16).collect();
    let lists: [&[u8]; 6] = [&[1], &[17], &[1, 1], &[1, 1, 17], &sixteen, &[&sixteen[..], &[1]].concat()];
    all.extend(lists.map(listed));
    // Behind the list, as version 1 has it: a sequence of two printable strings.
    all.push(at(&[1], Kind::Over(b"\x30\x0e\x13\x040108\x13\x06040000".to_vec())));
    all
}

fn files() -> Vec<Damage> {
    let mut all: Vec<Damage> = [0x66, 0x62, 0x77, 0x60, 0x30, 0x00, 0x7f, 0xff, 0x63, 0x61, 0x75, 0x70]
        .iter()
        .flat_map(|tag| [2, 3, 4].map(|place| at(&[place], Kind::Tag(vec![*tag]))))
        .collect();
    // Other content than its entry has the digest of: in a file, and in group 1's text.
    for path in [&[2, 0][..], &[3], &[4]] {
        all.extend([0, 63, 700].map(|bit| Damage { path: path.to_vec(), kind: Kind::Bit(bit), late: true }));
    }
    // Another file of the same group behind all others.
    all.extend([2, 3, 4].map(|place| Damage { path: vec![place], kind: Kind::Doubled, late: true }));
    let behind = [&[0x00][..], &[0x61], &[0x61, 0x00], &[0x75, 0x02, 0x00], &[0x6a, 0x00]];
    all.extend(behind.map(|octets| at(&[], Kind::Over(octets.to_vec()))));
    let tags = [&[0x5f, 0x1e][..], &[0x5f], &[0x1f], &[0x5f, 0x01]];
    all.extend(tags.map(|tag| at(&[2, 0], Kind::Tag(tag.to_vec()))));
    all.extend([0, 1, 71, 72, 73, 87, 89, 90, 91].map(|length| at(&[2, 0], Kind::Content(vec![b'<'; length]))));
    // Characters of the text: its code, its number, its sex, check digits, and one that is none.
    for (place, character) in [(0, b'V'), (2, b'0'), (44, b'<'), (64, b'X'), (53, b'0'), (87, b'5'), (30, b'a')] {
        let mut text = specimens::T3.as_bytes().to_vec();
        text[place] = character;
        all.push(at(&[2, 0], Kind::Content(text)));
    }
    // Visas, which are texts alone: as they are printed, and with a character that is none.
    for visa in [specimens::ERIKSSON_MRV_A, specimens::ERIKSSON_MRV_B].map(str::as_bytes) {
        let foreign = [&visa[..30], b"a", &visa[31..]].concat();
        all.extend([visa.to_vec(), foreign].map(|text| at(&[2, 0], Kind::Content(text))));
    }
    all.push(at(&[2], Kind::Over(specimens::T3.as_bytes().to_vec())));
    all
}

#[cfg(test)]
mod tests {
    use super::*;
    use paper::presentation;
    use std::collections::BTreeSet;

    #[test]
    fn the_samples_are_sound() {
        for lds in Lds::ALL {
            let made = sample_as(lds, &mut Seeds::new(1)).encoded();
            assert!(presentation::read(&made).is_ok());
        }
    }

    fn numbers(lds: Lds, damages: Vec<Damage>) -> BTreeSet<u32> {
        let sample = sample_as(lds, &mut Seeds::new(1));
        let answers = damages.into_iter().map(|damage| {
            let mut tree = sample.clone();
            spoil(&mut tree, &[&damage]);
            presentation::read(&tree.encoded()).map_or_else(|refusal| refusal.number, |_| 0)
        });
        answers.collect()
    }

    /// Damage that only ever gave one refusal would try little.
    #[test]
    fn the_list_reaches_every_refusal() {
        let every = [0, 1, 2, 3, 4, 5, 7, 9, 10, 11, 12, 13, 14, 15, 19];
        assert_eq!(numbers(Lds::V17, all()), BTreeSet::from(every));
        // A string may be spoilt into what it was.
        assert_eq!(numbers(Lds::V18, versions()), BTreeSet::from([0, 10, 11, 12, 19]));
    }
}
