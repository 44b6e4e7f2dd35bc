//! Every kind of damage to the inside of a file, with the refusal that it is meant to give: each number at each of its places,
//! to be taken alone and in pairs.
//!
//! What is lent is a tree without tag and length of its own, which holds the file: so octets can stand behind the file, and
//! the paths of all elements begin with 0.

use crate::cases::trees::{Held, Length, Tree};
use paper::inside::{is_constructed, DEEPEST, OF_TEMPLATES, TEMPLATE};
#[cfg(test)]
use paper::refusal::Refusal;
use shared::seeds::Seeds;

/// Another tree in place of a sound one, and what is then refused.
#[derive(Clone)]
pub struct Damage {
    path: Vec<usize>,
    kind: Kind,
    pub number: u32,
    pub told: Told,
}

#[derive(Clone)]
enum Kind {
    Tag(Vec<u8>),
    Length(Length),
    Over(Vec<u8>),
    Held(Held),
    Removed,
    /// In an element around it.
    Wrapped,
    Doubled,
    Swapped,
}

/// Where a refusal is told.
#[derive(Clone, Debug, PartialEq, Eq)]
pub enum Told {
    /// At the tag of the element there.
    At(Vec<usize>),
    /// Behind what the element there holds.
    Behind(Vec<usize>),
    Start,
}

/// Lengths that are none, or that reach past any holder of few octets.
pub const LENGTHS: [Length; 6] = [
    Length::Octets(1),
    Length::Octets(2),
    Length::Octets(3),
    Length::Octets(4),
    Length::Indefinite,
    Length::Off(40_000),
];

/// What is no element, or the beginning of one: at the end of a holder.
const BEGUN: [&[u8]; 9] = [
    &[0x02],
    &[0x30],
    &[0x5f],
    &[0x7f, 0x61],
    &[0x02, 0x01],
    &[0x02, 0x81],
    &[0x02, 0x82, 0x01],
    &[0x5f, 0x80, 0x00],
    &[0x1f, 0xff, 0x00],
];

impl Damage {
    /// Puts it in. False where other damage has taken the place away.
    pub fn put(&self, lent: &mut Tree) -> bool {
        match (&self.kind, self.path.split_last()) {
            (Kind::Removed | Kind::Wrapped | Kind::Doubled | Kind::Swapped, Some((last, path))) => {
                let trees = lent.at(path).and_then(Tree::trees_mut);
                trees.filter(|trees| *last < trees.len()).map(|trees| self.among(trees, *last)).is_some()
            }
            _ => lent.at(&self.path).map(|tree| self.to(tree)).is_some(),
        }
    }

    fn to(&self, tree: &mut Tree) {
        match &self.kind {
            Kind::Tag(tag) => tree.tag = tag.clone(),
            Kind::Length(length) => tree.length = *length,
            Kind::Over(octets) => tree.over = octets.clone(),
            Kind::Held(held) => tree.held = held.clone(),
            _ => {}
        }
    }

    fn among(&self, trees: &mut Vec<Tree>, last: usize) {
        match self.kind {
            Kind::Removed => drop(trees.remove(last)),
            Kind::Wrapped => trees[last] = Tree::holding(&[0x30], vec![trees[last].clone()]),
            Kind::Doubled => trees.insert(last, trees[last].clone()),
            _ => {
                let next = (last + 1) % trees.len();
                trees.swap(last, next);
            }
        }
    }

    /// Whether it takes away what the other was put into.
    #[cfg(test)]
    pub fn takes(&self, other: &Damage) -> bool {
        other.is_below(&self.path) && matches!(self.kind, Kind::Held(_))
    }

    /// Whether it is put into something that stands in the tree at the end of a path.
    #[cfg(test)]
    pub fn is_below(&self, path: &[usize]) -> bool {
        self.path.len() > path.len() && self.path.starts_with(path)
    }

    /// Whether the place at which it is told is there.
    #[cfg(test)]
    pub fn stands(&self, lent: &Tree) -> bool {
        match &self.told {
            Told::At(path) | Told::Behind(path) => lent.stands(path).is_some(),
            Told::Start => true,
        }
    }

    /// What it is meant to give, in what it was put into.
    #[cfg(test)]
    pub fn refusal(&self, lent: &Tree) -> Refusal {
        let place = match &self.told {
            Told::At(path) => lent.stands(path).map(|(begins, _)| begins),
            Told::Behind(path) => lent.stands(path).map(|(_, ends)| ends),
            Told::Start => Some(0),
        };
        Refusal::at(self.number, place.expect("a place of the sample"))
    }
}

/// The file in what is lent.
pub fn lent(file: Tree) -> Tree {
    Tree { length: Length::None, ..Tree::holding(&[], vec![file]) }
}

/// The file that the list spoils: of group 2, with two templates, and behind them elements as deep as can be.
pub fn sample(seeds: &mut Seeds) -> Tree {
    let header = [(0x80, 2), (0x81, 1), (0x87, 2), (0x88, 2)];
    let header = header.map(|(tag, length)| Tree::leaf(&[tag], &seeds.octets(length)));
    let picture = Tree::leaf(&[0x5f, 0x2e], &seeds.octets(150));
    let first = Tree::holding(&TEMPLATE, vec![Tree::holding(&[0xa1], header.to_vec()), picture]);
    let second = Tree::holding(&TEMPLATE, vec![Tree::leaf(&[0x5f, 0x2e], &[])]);
    let templates = vec![Tree::leaf(&[0x02], &[2]), first, Tree::holding(&[0xa0], Vec::new()), second];
    let deep = (3..DEEPEST).fold(Tree::leaf(&[0x1f, 0x00], b"deep"), |inner, _| Tree::holding(&[0x30], vec![inner]));
    let held = vec![
        Tree::leaf(&[0x53], &seeds.octets(9)),
        Tree::holding(&OF_TEMPLATES, templates),
        Tree::holding(&[0x7f, 0x21], vec![deep]),
    ];
    lent(Tree::holding(&[0x75], held))
}

/// Each kind at each of its places.
pub fn all(lent: &Tree) -> Vec<Damage> {
    [encodings(lent), depths(lent), counts()].concat()
}

/// 10: at every element, at the end of every constructed one, and behind the file.
pub fn encodings(lent: &Tree) -> Vec<Damage> {
    let mut all = Vec::new();
    for path in lent.paths() {
        let tree = lent.clone().at(&path).expect("a path of the tree").clone();
        if path.is_empty() || is_constructed(&tree.tag) {
            let over = BEGUN.iter().map(|octets| (Kind::Over(octets.to_vec()), Told::Behind(path.clone())));
            all.extend(over.map(|(kind, told)| Damage { path: path.clone(), kind, number: 10, told }));
        }
        if path.is_empty() {
            continue;
        }
        let second = [0x80, 0xff].map(|second| Kind::Tag(vec![tree.tag[0] | 0x1f, second]));
        let lengths = LENGTHS.into_iter().filter(|length| !is_shortest(*length, &tree)).map(Kind::Length);
        let at = |kind| Damage { path: path.clone(), kind, number: 10, told: Told::At(path.clone()) };
        all.extend(second.into_iter().chain(lengths).map(at));
    }
    // No group's file.
    let tags = [0x60, 0x66, 0x77, 0x30, 0x02, 0x00, 0xff];
    all.extend(tags.map(|tag| Damage {
        path: vec![0],
        kind: Kind::Tag(vec![tag]),
        number: 10,
        told: Told::At(vec![0]),
    }));
    all.push(Damage { path: vec![0], kind: Kind::Removed, number: 10, told: Told::Start });
    all
}

/// Whether this is how the tree's length is written anyway.
pub fn is_shortest(length: Length, tree: &Tree) -> bool {
    let with = |length| Tree { length, ..tree.clone() }.encoded();
    with(length) == with(Length::Shortest)
}

/// 21: in every constructed element others that go one too deep, or several.
pub fn depths(lent: &Tree) -> Vec<Damage> {
    let constructed =
        |path: &Vec<usize>| !path.is_empty() && lent.clone().at(path).map_or(false, |tree| is_constructed(&tree.tag));
    let mut all = Vec::new();
    for path in lent.paths().into_iter().filter(constructed) {
        // The file's path has one place, and its depth is 1.
        for more in [1, 2, 5] {
            let levels = DEEPEST - path.len() + more;
            let chain = (1..levels).fold(Tree::leaf(&[0x04], b""), |inner, _| Tree::holding(&[0x30], vec![inner]));
            let told = Told::At([path.clone(), vec![0; DEEPEST + 1 - path.len()]].concat());
            all.push(Damage { path: path.clone(), kind: Kind::Held(Held::Trees(vec![chain])), number: 21, told });
        }
    }
    all
}

/// 22, of the sample: at 7F61, which is the second in the file, or at the start where it is not there.
pub fn counts() -> Vec<Damage> {
    let (of_templates, count, template) = (vec![0, 1], vec![0, 1, 0], vec![0, 1, 3]);
    let told = |path: &[usize], kind: Kind, told: Told| Damage { path: path.to_vec(), kind, number: 22, told };
    let at = |path: &[usize], kind: Kind| told(path, kind, Told::At(of_templates.clone()));
    let octets = |octets: &[u8]| Kind::Held(Held::Octets(octets.to_vec()));
    let numbers = [0, 1, 3, 128, 130, 255].map(|number| at(&count, octets(&[number])));
    let contents: [&[u8]; 4] = [&[], &[2, 2], &[0, 2], &[2, 0]];
    let counts = [Kind::Tag(vec![0x03]), Kind::Tag(vec![0x1f, 0x02]), Kind::Removed, Kind::Swapped, Kind::Wrapped];
    let templates = [Kind::Tag(vec![0x7f, 0x62]), Kind::Tag(vec![0x60]), Kind::Removed, Kind::Doubled, Kind::Wrapped];
    let inside = [Kind::Held(Held::Trees(Vec::new()))];
    // One that is not where it is looked for.
    let missing = [Kind::Tag(vec![0x7f, 0x60]), Kind::Tag(vec![0x61]), Kind::Removed, Kind::Wrapped];
    let mut all = numbers.to_vec();
    all.extend(contents.map(|content| at(&count, octets(content))));
    all.extend(counts.map(|kind| at(&count, kind)));
    all.extend(templates.map(|kind| at(&template, kind)));
    all.extend(inside.map(|kind| at(&of_templates, kind)));
    all.extend(missing.map(|kind| told(&of_templates, kind, Told::Start)));
    all
}

/// One of all kinds at a place of the seed's choice, of any tree.
pub fn drawn(seeds: &mut Seeds, lent: &mut Tree) {
    let paths = lent.paths();
    let path = paths[seeds.below(paths.len())].clone();
    let (octet, content) = (seeds.number() as u8, seeds.below(5));
    let tag =
        [vec![octet], vec![octet | 0x1f, seeds.number() as u8], OF_TEMPLATES.to_vec(), TEMPLATE.to_vec(), vec![0x02]];
    let off = seeds.pick(&[1, -1, 2, -2, 127, 128, 256, 40_000]);
    let length = LENGTHS[seeds.below(LENGTHS.len())];
    let kind = match seeds.below(10) {
        0 | 1 => Kind::Tag(tag[seeds.below(tag.len())].clone()),
        2 => Kind::Length(length),
        3 => Kind::Length(Length::Off(off)),
        4 => Kind::Over(BEGUN[seeds.below(BEGUN.len())].to_vec()),
        5 => Kind::Held(Held::Octets(seeds.octets(content))),
        6 => Kind::Removed,
        7 => Kind::Wrapped,
        8 => Kind::Doubled,
        _ => Kind::Swapped,
    };
    // Its refusal is the independent reader's to tell.
    Damage { path, kind, number: 10, told: Told::Start }.put(lent);
}
