//! Files of groups with their inside, drawn from a seed: deep ones and wide ones, with tags of every kind.

pub mod damage;
pub mod printed;
#[cfg(test)]
mod tests;

use crate::cases::trees::Tree;
use paper::group;
use paper::inside::{COUNT, COUNTED, DEEPEST, OF_TEMPLATES, TEMPLATE};
use shared::records::until;
use shared::seeds::Seeds;

/// How deep a file goes, itself counted, and how many elements one of them holds at most.
#[derive(Clone, Copy, Debug)]
pub struct Shape {
    pub deepest: usize,
    pub widest: usize,
}

/// Deep ones, wide ones, and both.
pub const SHAPES: [Shape; 8] = [
    Shape { deepest: DEEPEST, widest: 1 },
    Shape { deepest: DEEPEST, widest: 2 },
    Shape { deepest: DEEPEST, widest: 4 },
    Shape { deepest: DEEPEST - 1, widest: 3 },
    Shape { deepest: 5, widest: 6 },
    Shape { deepest: 4, widest: 12 },
    Shape { deepest: 3, widest: 40 },
    Shape { deepest: 2, widest: 300 },
];

/// Octets that a content may have, so that everything around it can be written.
const ROOM: usize = 50_000;
/// As many as tag and length of an element can have.
const HEAD: usize = 5;

/// A file of a group, sound unless the shape is too deep.
pub fn file(seeds: &mut Seeds, group: u8, shape: Shape) -> Tree {
    let tag = [group::tag_of(u32::from(group)).expect("a group that has a tag")];
    match group {
        13 => {
            let length = seeds.pick(&[0, 1, 2, 127, 128, 300]);
            Tree::leaf(&tag, &seeds.octets(length))
        }
        _ if COUNTED.contains(&group) => Tree::holding(&tag, biometric(seeds, group, shape)),
        _ => Tree::holding(&tag, elements(seeds, shape, 2, ROOM)),
    }
}

/// What a file of groups 2 to 4 holds: a template of templates, and other elements around it, behind it also one more.
fn biometric(seeds: &mut Seeds, group: u8, shape: Shape) -> Vec<Tree> {
    let least = usize::from(group == 2);
    let templates = seeds.pick(&[least, 1, 1, 1, 2, 3, 9, 127, 128, 255]);
    let other =
        |seeds: &mut Seeds| until(seeds, |seeds| element(seeds, shape, 2, 200), |tree| tree.tag != OF_TEMPLATES);
    let mut held: Vec<Tree> = (0..seeds.below(3)).map(|_| other(seeds)).collect();
    held.push(of_templates(seeds, templates, shape));
    held.extend((0..seeds.below(3)).map(|_| element(seeds, shape, 2, 200)));
    if seeds.below(4) == 0 {
        held.push(Tree::holding(&OF_TEMPLATES, vec![Tree::leaf(&COUNT, &[7])]));
    }
    held
}

/// 7F61 with its count, so many templates, and other elements between and behind them.
fn of_templates(seeds: &mut Seeds, templates: usize, shape: Shape) -> Tree {
    let mut held = vec![Tree::leaf(&COUNT, &[templates as u8])];
    for _ in 0..templates {
        held.push(Tree::holding(&TEMPLATE, elements(seeds, shape, 4, (ROOM / 2) / templates)));
        if seeds.below(4) == 0 {
            held.push(until(seeds, |seeds| element(seeds, shape, 3, 60), |tree| tree.tag != TEMPLATE));
        }
    }
    Tree::holding(&OF_TEMPLATES, held)
}

/// What an element holds whose own elements are at this depth: one of them goes as deep as the shape says.
fn elements(seeds: &mut Seeds, shape: Shape, depth: usize, room: usize) -> Vec<Tree> {
    if depth > shape.deepest {
        return Vec::new();
    }
    let (count, mut left) = (1 + seeds.below(shape.widest), room);
    let deep = seeds.below(count);
    let mut held = Vec::new();
    for at in 0..count {
        let one = match at == deep && depth < shape.deepest {
            true => constructed(seeds, shape, depth, left / 2),
            false => element(seeds, shape, depth, left / 4),
        };
        left = left.saturating_sub(one.encoded().len());
        held.push(one);
    }
    held
}

/// One element at this depth, most often one that is primitive.
fn element(seeds: &mut Seeds, shape: Shape, depth: usize, room: usize) -> Tree {
    match seeds.below(8) {
        0 => return Tree::holding(&tag(seeds, true), Vec::new()),
        1 | 2 if room > 40 => return constructed(seeds, shape, depth, room),
        _ => {}
    }
    let length = seeds.pick(&[0, 0, 0, 1, 1, 2, 3, 5, 20, 126, 127, 128, 129, 255, 256, 300]);
    let octets = seeds.octets(length.min(room.saturating_sub(HEAD)));
    Tree::leaf(&tag(seeds, false), &octets)
}

/// One that is constructed, and holds elements unless it is as deep as the shape says.
fn constructed(seeds: &mut Seeds, shape: Shape, depth: usize, room: usize) -> Tree {
    let tag = tag(seeds, true);
    Tree::holding(&tag, elements(seeds, shape, depth + 1, room.saturating_sub(HEAD)))
}

/// Of either kind, in one octet or two, of every class, the edges of each octet among them.
pub fn tag(seeds: &mut Seeds, constructed: bool) -> Vec<u8> {
    let first = seeds.pick(&[0x00, 0x40, 0x80, 0xc0]) | if constructed { 0x20 } else { 0 };
    let (low, second) = (seeds.below(31) as u8, seeds.below(0x80) as u8);
    match seeds.below(3) {
        0 => vec![first | 0x1f, seeds.pick(&[0x00, 0x1e, 0x1f, 0x60, 0x61, 0x7f, second, second, second])],
        _ => vec![first | seeds.pick(&[0x00, 0x1e, low, low, low])],
    }
}
