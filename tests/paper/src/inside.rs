//! The inside of a group's file, from document 02, request 2026-10. Tags of groups and lengths are document 01's.
//!
//! "Any group's file is a tree (group 13, whose inside is the State's own, counts as one element): a constructed element holds
//! a list of elements, and each of those may hold a list again."

use crate::group;
use crate::refusal::Refusal;
use crate::tlv::{Element, Walk};

/// "to a depth of at most eight counting the file itself".
pub const DEEPEST: usize = 8;
/// The longest file: its tag, three octets of length, and the longest content.
pub const LONGEST: usize = 4 + crate::tlv::LONGEST;

/// The group "whose inside is the State's own".
const STATES_OWN: u8 = 13;
/// The groups whose templates are counted.
pub const COUNTED: [u8; 3] = [2, 3, 4];
/// Of these the one in which a count of 0 is not allowed.
const NEVER_NONE: u8 = 2;

/// The template that holds the count and the templates counted.
pub const OF_TEMPLATES: [u8; 2] = [0x7f, 0x61];
pub const TEMPLATE: [u8; 2] = [0x7f, 0x60];
/// The count's tag. It has one octet.
pub const COUNT: [u8; 1] = [0x02];

/// An element, with those that it holds.
#[derive(Clone, Debug, PartialEq, Eq)]
pub struct Node<'a> {
    pub tag: &'a [u8],
    pub element: Element,
    pub held: Vec<Node<'a>>,
}

impl Node<'_> {
    /// "the number of elements, defined from the tree": itself and those of all that it holds.
    pub fn count(&self) -> usize {
        1 + self.held.iter().map(Node::count).sum::<usize>()
    }

    /// Itself counted, and then the deepest that it holds.
    pub fn depth(&self) -> usize {
        1 + self.held.iter().map(Node::depth).max().unwrap_or(0)
    }
}

/// The tree of a group's file.
pub fn read(file: &[u8]) -> Result<Node, Refusal> {
    let group = file.first().and_then(|tag| group::of_tag(*tag)).ok_or(Refusal::at(10, 0))?;
    let mut walk = Walk::over(file);
    let tree = node(file, &mut walk, group == STATES_OWN, 1)?;
    walk.close()?;
    if COUNTED.contains(&group) {
        counted(file, &tree, group)?;
    }
    Ok(tree)
}

/// The element that stands here, with all that it holds, unless its inside is not looked at. 10 at its tag, then 21 there, then
/// what is refused inside.
fn node<'a>(file: &'a [u8], walk: &mut Walk<'a>, closed: bool, depth: usize) -> Result<Node<'a>, Refusal> {
    let place = walk.place();
    let tag = tag_of(walk.left()).ok_or(Refusal::at(10, place))?;
    let element = walk.take(tag)?;
    if depth > DEEPEST {
        return Err(Refusal::at(21, place));
    }
    let mut held = Vec::new();
    if is_constructed(tag) && !closed {
        let mut inner = Walk::inside(file, &element);
        while !inner.left().is_empty() {
            held.push(node(file, &mut inner, false, depth + 1)?);
        }
    }
    Ok(Node { tag, element, held })
}

/// "it has two octets when the low five bits are all ones, the second being 00 to 7F". None where it is cut off, or has another
/// second octet.
pub fn tag_of(octets: &[u8]) -> Option<&[u8]> {
    match octets {
        [first, second, ..] if first % 32 == 31 => (*second <= 0x7f).then_some(&octets[..2]),
        [first, ..] if first % 32 != 31 => Some(&octets[..1]),
        _ => None,
    }
}

/// "A tag is constructed when its first octet's bit of value 32 is set".
pub fn is_constructed(tag: &[u8]) -> bool {
    tag[0] & 32 != 0
}

/// "the first 7F61 directly in the file opens with a count (02 01 n) and directly holds exactly n templates 7F60": else 22, "at
/// 7F61, or at the file's start where 7F61 is missing".
fn counted(file: &[u8], tree: &Node, group: u8) -> Result<(), Refusal> {
    let of_templates = tree.held.iter().find(|node| node.tag == OF_TEMPLATES).ok_or(Refusal::at(22, 0))?;
    let count = match of_templates.held.first() {
        Some(first) if first.tag == COUNT && first.element.content.len() == 1 => file[first.element.content.start],
        _ => return Err(Refusal::at(22, of_templates.element.whole.start)),
    };
    let templates = of_templates.held.iter().filter(|node| node.tag == TEMPLATE).count();
    if templates != usize::from(count) || (count == 0 && group == NEVER_NONE) {
        return Err(Refusal::at(22, of_templates.element.whole.start));
    }
    Ok(())
}

#[cfg(test)]
mod tests;
