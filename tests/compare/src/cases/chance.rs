//! Damage of any kind at any place of any presentation, drawn from a seed.

use crate::cases::trees::{Held, Length, Tree};
use shared::seeds::Seeds;

/// Spoils one place of the tree. All that any kind of damage may need is drawn first.
pub fn spoil(seeds: &mut Seeds, tree: &mut Tree) {
    let number = seeds.below(tree.count());
    let off = seeds.pick(&[1, -1, 2, -2, 127, 128, 256, 40_000]);
    let (octet, some) = (seeds.number() as u8, seeds.below(3));
    let over = seeds.octets(1 + some);
    let length = seeds.pick(&[0, 1, 2, 3, 4, 5, 6, 7, 31, 32, 33, 72, 88, 90, 127, 128, 255, 256]);
    let resized = seeds.octets(length);
    let tags = [&[0x02][..], &[0x04], &[0x30], &[0x5c], &[0x5f, 0x01], &[0x5f, 0x1f], &[0x5f, 0x36], &[0x61], &[0x75]];
    let tag = seeds.pick(&tags);
    let widths = seeds.pick(&[Length::Octets(1), Length::Octets(2), Length::Octets(3), Length::Indefinite]);
    let (kind, place) = (seeds.below(13), seeds.number() as usize);
    let tree = tree.nth(number);
    match (kind, &mut tree.held) {
        (0, _) => tree.tag = tag.to_vec(),
        (1, _) => tree.tag = vec![octet],
        (2, _) => tree.length = widths,
        (3, _) => tree.length = Length::Off(off),
        (4, _) => tree.over = over,
        (5, Held::Octets(octets)) => *octets = resized,
        (6..=8, Held::Octets(octets)) if !octets.is_empty() => {
            let place = place % octets.len();
            octets[place] = octet;
        }
        (5..=8, Held::Octets(octets)) => octets.push(octet),
        (9, Held::Octets(octets)) => drop(octets.pop()),
        (10, Held::Octets(octets)) => octets.extend_from_within(..octets.len().min(1)),
        (5..=6, Held::Trees(trees)) if !trees.is_empty() => drop(trees.remove(place % trees.len())),
        (7..=8, Held::Trees(trees)) if !trees.is_empty() => trees.push(trees[place % trees.len()].clone()),
        (9, Held::Trees(trees)) if !trees.is_empty() => {
            let (one, other) = (place % trees.len(), place / 256 % trees.len());
            trees.swap(one, other);
        }
        (10, Held::Trees(trees)) => trees.truncate(1),
        (11, Held::Trees(trees)) => trees.clear(),
        _ => tree.length = Length::Off(off),
    }
}
