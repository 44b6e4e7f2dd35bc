//! Sound presentations made from a seed, as trees that can be spoilt.

use crate::cases::trees::{Held, Length, Tree};
use paper::group;
use paper::lds::Lds;
use paper::sha256::sha256;
use shared::seeds::Seeds;

/// A sound presentation of these files as a tree, of LDS 1.7 or 1.8.
pub fn tree(seeds: &mut Seeds, files: &[(u8, Vec<u8>)]) -> Tree {
    let lds = seeds.pick(&Lds::ALL);
    tree_as(lds, seeds, files)
}

/// A sound presentation of these files as a tree. The list may name more, and the object may have more entries.
pub fn tree_as(lds: Lds, seeds: &mut Seeds, files: &[(u8, Vec<u8>)]) -> Tree {
    let lent: Vec<u8> = files.iter().map(|(group, _)| *group).collect();
    let listed = more(seeds, &lent, &group::ALL);
    let every: Vec<u8> = (1..=16).collect();
    let mut numbers = more(seeds, &lent, &every);
    while numbers.len() < 2 {
        numbers = more(seeds, &lent, &every);
    }
    let tags: Vec<u8> = listed.into_iter().map(tag).collect();
    let unicode: Vec<u8> = (0..6).map(|_| seeds.pick(b"0123456789")).collect();
    let mut parts = vec![com(lds, &unicode, &tags), object(lds, seeds, &unicode, &numbers)];
    parts.extend(files.iter().map(|(group, content)| file(*group, content)));
    let mut tree = Tree { length: Length::None, ..Tree::holding(&[], parts) };
    seal(&mut tree);
    tree
}

fn tag(group: u8) -> u8 {
    group::tag_of(u32::from(group)).expect("a group that has a tag")
}

/// What must be there and now and then more, in any order.
fn more(seeds: &mut Seeds, must: &[u8], of: &[u8]) -> Vec<u8> {
    let often = seeds.below(4);
    let mut taken: Vec<u8> = of.iter().copied().filter(|one| must.contains(one) || seeds.below(4) < often).collect();
    for at in 1..taken.len() {
        taken.swap(at, seeds.below(at + 1));
    }
    taken
}

fn com(lds: Lds, unicode: &[u8], tags: &[u8]) -> Tree {
    let versions = vec![Tree::leaf(&[0x5f, 0x01], lds.told()), Tree::leaf(&[0x5f, 0x36], unicode)];
    Tree::holding(&[0x60], [versions, vec![Tree::leaf(&[0x5c], tags)]].concat())
}

fn object(lds: Lds, seeds: &mut Seeds, unicode: &[u8], numbers: &[u8]) -> Tree {
    let mut algorithm = vec![0x06, 0x09, 0x60, 0x86, 0x48, 0x01, 0x65, 0x03, 0x04, 0x02, 0x01];
    algorithm.extend(seeds.pick(&[&[][..], &[0x05, 0x00]]));
    let entries = numbers.iter().map(|number| entry(*number, &seeds.octets(32))).collect();
    let version = u8::from(lds == Lds::V18);
    let mut held =
        vec![Tree::leaf(&[0x02], &[version]), Tree::leaf(&[0x30], &algorithm), Tree::holding(&[0x30], entries)];
    if lds == Lds::V18 {
        held.push(strings(lds.told(), unicode));
    }
    Tree::holding(&[0x30], held)
}

/// What an object of version 1 ends with.
pub fn strings(lds: &[u8], unicode: &[u8]) -> Tree {
    Tree::holding(&[0x30], vec![Tree::leaf(&[0x13], lds), Tree::leaf(&[0x13], unicode)])
}

pub fn entry(number: u8, digest: &[u8]) -> Tree {
    Tree::holding(&[0x30], vec![Tree::leaf(&[0x02], &[number]), Tree::leaf(&[0x04], digest)])
}

/// Group 1's text is an element of its own, so that it can be spoilt as one.
pub fn file(group: u8, content: &[u8]) -> Tree {
    match content {
        [0x5f, 0x1f, _, text @ ..] if group == 1 => Tree::holding(&[tag(1)], vec![Tree::leaf(&[0x5f, 0x1f], text)]),
        _ => Tree::leaf(&[tag(group)], content),
    }
}

/// Lengths around those where another form of length begins.
pub const EDGES: [usize; 13] = [0, 1, 126, 127, 128, 129, 254, 255, 256, 257, 511, 512, 4_096];

/// A content behind a tag and its length in every form, of which one is the shortest and the others are none.
pub fn coded(tag: u8, content: &[u8]) -> Vec<Vec<u8>> {
    let [high, low] = (content.len() as u16).to_be_bytes();
    let lengths = [&[low][..], &[0x81, low], &[0x82, high, low], &[0x83, 0, high, low], &[0x80]];
    lengths.iter().map(|length| [&[tag], *length, content].concat()).collect()
}

/// Puts the digests of the files as they now are into the entries that they have.
pub fn seal(tree: &mut Tree) {
    let files: Vec<(u8, [u8; 32])> = tree.trees().iter().skip(2).filter_map(digest).collect();
    let entries = tree.at(&[1, 2]).and_then(Tree::trees_mut);
    for entry in entries.into_iter().flatten() {
        let number = match entry.at(&[0]).and_then(Tree::octets_mut) {
            Some(octets) if octets.len() == 1 => octets[0],
            _ => continue,
        };
        // The first file of a group is the one that its entry is held against.
        let found = files.iter().find(|(group, _)| *group == number);
        if let (Some((_, digest)), Some(octets)) = (found, entry.at(&[1])) {
            octets.held = Held::Octets(digest.to_vec());
        }
    }
}

fn digest(file: &Tree) -> Option<(u8, [u8; 32])> {
    let group = group::of_tag(*file.tag.first()?)?;
    Some((group, sha256(&file.encoded())))
}

#[cfg(test)]
mod tests {
    use super::*;
    use paper::presentation;
    use shared::files::files;

    #[test]
    fn sound_ones_are_accepted() {
        let mut seeds = Seeds::new(1);
        for turn in 0..600 {
            let files = files(&mut seeds, 1 + turn % 15);
            assert_eq!(files.len(), 1 + turn % 15);
            let made = tree(&mut seeds, &files).encoded();
            let read = presentation::read(&made).unwrap();
            assert_eq!(presentation::read(&presentation::write(&files)), Ok(read));
            for (group, content) in &files {
                let found = presentation::group_file(&made, u32::from(*group));
                let (start, length) = (found.start as usize, found.length as usize);
                assert_eq!(made[start..start + length], presentation::write_file(*group, content)[..]);
            }
        }
    }

    #[test]
    fn a_tree_and_the_encoder_agree() {
        let mut seeds = Seeds::new(1);
        let files = files(&mut seeds, 2);
        for lds in Lds::ALL {
            let mut tree = tree_as(lds, &mut seeds, &files);
            tree.at(&[0, 1]).unwrap().held = Held::Octets(b"040000".to_vec());
            tree.at(&[0, 2]).unwrap().held = Held::Octets(files.iter().map(|(group, _)| tag(*group)).collect());
            let lent = files.iter().map(|(group, _)| *group).collect::<Vec<_>>();
            *tree.at(&[1]).unwrap() = object(lds, &mut seeds, b"040000", &lent);
            let algorithm = tree.at(&[1, 1]).and_then(Tree::octets_mut).unwrap();
            algorithm.truncate(11);
            algorithm.extend([0x05, 0x00]);
            seal(&mut tree);
            assert_eq!(tree.encoded(), presentation::write_as(lds, &files));
        }
    }
}
