//! Files of group 11 drawn from a seed, as trees that can be spoilt.
//!
//! What is lent is a tree without tag and length of its own, which holds the file: so octets can stand behind the file. The list
//! is the first that the file holds, and the elements follow it.

pub mod damage;
pub mod printed;
#[cfg(test)]
mod tests;

use crate::cases::trees::{Held, Length, Tree};
use paper::answer::Detail;
use paper::details::{FILE, LIST, NAMED, OTHER_NAMES, TEMPLATE};
use shared::seeds::Seeds;

/// Numbers that no list names: of other elements, of named ones in another order or with more, and those around them.
pub const OTHERS: [u32; 16] = [
    0,
    0x5c,
    0xa0,
    0x6b,
    0x0e,
    0x5f,
    0x5f0d,
    0x5f19,
    0x5f2a,
    0x5f43,
    0x0e5f,
    0x1_5f0e,
    0x5f0e_0000,
    0x8000_5f0f,
    0xffff_5f10,
    u32::MAX,
];

/// All tags that are named, and the others.
pub fn asked() -> impl Iterator<Item = u32> {
    NAMED.into_iter().map(u32::from).chain(OTHERS)
}

/// Any of the named tags, in any order.
pub fn tags(seeds: &mut Seeds) -> Vec<u16> {
    let mut all = NAMED;
    for at in 1..all.len() {
        all.swap(at, seeds.below(at + 1));
    }
    let any = seeds.below(NAMED.len() + 1);
    let count = seeds.pick(&[0, 1, 2, any, any, any, NAMED.len()]);
    all[..count].to_vec()
}

/// A file of any details, and their tags in its order.
pub fn drawn(seeds: &mut Seeds) -> (Vec<u16>, Tree) {
    let tags = tags(seeds);
    let lent = file(seeds, &tags);
    (tags, lent)
}

/// A file of these details, with values of any octets.
pub fn file(seeds: &mut Seeds, tags: &[u16]) -> Tree {
    let elements = tags.iter().map(|tag| element(seeds, *tag)).collect();
    lent(tags, elements)
}

/// What is lent of a file with this list and these elements.
pub fn lent(tags: &[u16], elements: Vec<Tree>) -> Tree {
    let list = Tree::leaf(&LIST, &octets_of(tags));
    Tree { length: Length::None, ..Tree::holding(&[], vec![Tree::holding(&FILE, [vec![list], elements].concat())]) }
}

pub fn octets_of(tags: &[u16]) -> Vec<u8> {
    tags.iter().flat_map(|tag| tag.to_be_bytes()).collect()
}

/// The element that stands where a list names this tag, of any octets.
pub fn element(seeds: &mut Seeds, tag: u16) -> Tree {
    let any = seeds.below(60);
    let length = seeds.pick(&[0, 0, 1, 2, any, any, any, 99, 127, 128, 255, 256]);
    let value = match tag {
        OTHER_NAMES if seeds.below(2) == 0 => names(seeds),
        _ => seeds.octets(length),
    };
    with_value(tag, &value)
}

/// The same of these octets.
pub fn with_value(tag: u16, value: &[u8]) -> Tree {
    Tree::leaf(&tag_of(tag), value)
}

/// The octets of the tag that stands where a list names this one.
pub fn tag_of(named: u16) -> Vec<u8> {
    match named {
        OTHER_NAMES => TEMPLATE.to_vec(),
        _ => named.to_be_bytes().to_vec(),
    }
}

/// Other names as Doc 9303-10 has them: their number, and each as 5F0F.
fn names(seeds: &mut Seeds) -> Vec<u8> {
    let count = seeds.below(4);
    let mut all = Tree::leaf(&[0x02], &[count as u8]).encoded();
    for _ in 0..count {
        let length = 1 + seeds.below(39);
        all.extend(Tree::leaf(&OTHER_NAMES.to_be_bytes(), &seeds.octets(length)).encoded());
    }
    all
}

/// What is found of a tag in a sound file, from its tree: the value, of the other names the whole element.
pub fn found(lent: &Tree, tags: &[u16], tag: u32) -> Detail {
    let turn = tags.iter().position(|named| u32::from(*named) == tag);
    Detail::found(turn.map(|turn| {
        let (begins, ends) = lent.stands(&[0, 1 + turn]).expect("an element of the file");
        match &lent.trees()[0].trees()[1 + turn].held {
            Held::Octets(octets) if tag != u32::from(OTHER_NAMES) => ends - octets.len()..ends,
            _ => begins..ends,
        }
    }))
}
