//! Files of groups that are looked into: a face as passports have it, and those of 65,539 octets, the longest that can be, that
//! give the most to do.
//!
//! All are of group 2, where templates are counted once everything else was found right: what stands before the first 7F61, and
//! what stands in it, is looked at a second time.

use crate::seeds::Seeds;
use paper::inside::{COUNT, DEEPEST, LONGEST, OF_TEMPLATES, TEMPLATE};
use paper::tlv::{tlv, write_length};

#[derive(Clone, Copy, Debug, PartialEq, Eq)]
pub enum Inside {
    /// One template of a face, with its header and 20,480 octets in all.
    Face,
    /// A template of templates full of empty elements.
    Empty,
    /// The same elements before the template of templates.
    EmptyBefore,
    /// A template of templates full of empty elements that are constructed.
    EmptyConstructed,
    /// A template of templates full of small elements of all kinds, in no order: no branch on a tag goes as it went before.
    Mixed,
    /// Elements in each other, as deep as can be, one such chain behind another.
    Chains,
    /// As many templates as there is room for, and so more than any count.
    Templates,
}

impl Inside {
    pub const ALL: [Inside; 7] = [
        Inside::Face,
        Inside::Empty,
        Inside::EmptyBefore,
        Inside::EmptyConstructed,
        Inside::Mixed,
        Inside::Chains,
        Inside::Templates,
    ];

    pub fn octets(self) -> Vec<u8> {
        match self {
            Inside::Face => face(),
            Inside::Empty => of_templates(|| vec![0x04, 0x00]),
            Inside::EmptyBefore => empty_before(),
            Inside::EmptyConstructed => of_templates(|| vec![0x30, 0x00]),
            Inside::Mixed => mixed(),
            Inside::Chains => chains(),
            Inside::Templates => of_templates(|| tlv(&TEMPLATE, &[])),
        }
    }
}

const FILE: [u8; 1] = [0x75];
/// Octets of the face's file.
pub const FACE: usize = 20_480;

/// As Doc 9303-10's A.3 has it: a header of four elements, and the picture.
fn face() -> Vec<u8> {
    let header = [tlv(&[0x80], &[1, 1]), tlv(&[0x81], &[2]), tlv(&[0x87], &[1, 1]), tlv(&[0x88], &[0, 8])];
    let with = |picture: usize| {
        let template = [tlv(&[0xa1], &header.concat()), tlv(&[0x5f, 0x2e], &vec![0x3c; picture])].concat();
        tlv(&FILE, &tlv(&OF_TEMPLATES, &[tlv(&COUNT, &[1]), tlv(&TEMPLATE, &template)].concat()))
    };
    with(FACE - (with(FACE / 2).len() - FACE / 2))
}

/// One template, and then as many of these as there is room for.
fn of_templates(mut each: impl FnMut() -> Vec<u8>) -> Vec<u8> {
    // 75, 7F61, and three octets of length behind each.
    let content = LONGEST - 4 - 5;
    let mut held = [tlv(&COUNT, &[1]), tlv(&TEMPLATE, &[])].concat();
    fill(&mut held, content, &mut each);
    tlv(&FILE, &tlv(&OF_TEMPLATES, &held))
}

/// The same number of octets, behind each other, and at the end an element that takes what is left.
fn fill(held: &mut Vec<u8>, content: usize, each: &mut impl FnMut() -> Vec<u8>) {
    let mut next = each();
    while held.len() + next.len() + 2 <= content {
        held.extend(next);
        next = each();
    }
    let left = content - held.len() - 2;
    held.extend([&[0x04], &write_length(left)[..], &vec![0; left]].concat());
}

fn empty_before() -> Vec<u8> {
    let last = tlv(&OF_TEMPLATES, &[tlv(&COUNT, &[1]), tlv(&TEMPLATE, &[])].concat());
    let mut held = Vec::new();
    fill(&mut held, LONGEST - 4 - last.len(), &mut || vec![0x04, 0x00]);
    tlv(&FILE, &[held, last].concat())
}

fn mixed() -> Vec<u8> {
    let mut seeds = Seeds::new(9303);
    of_templates(|| match seeds.below(6) {
        0 => vec![0x04, 0x00],
        1 => vec![0x30, 0x00],
        2 => vec![0x5f, 0x2e, 0x00],
        3 => vec![0x7f, 0x21, 0x00],
        4 => vec![0x04, 0x01, 0x00],
        _ => vec![0xa1, 0x02, 0x80, 0x00],
    })
}

/// In the file itself, so that each chain has seven elements.
fn chains() -> Vec<u8> {
    let last = tlv(&OF_TEMPLATES, &[tlv(&COUNT, &[1]), tlv(&TEMPLATE, &[])].concat());
    let chain = (1..DEEPEST).fold(Vec::new(), |inner, _| tlv(&[0x30], &inner));
    let mut held = Vec::new();
    fill(&mut held, LONGEST - 4 - last.len(), &mut || chain.clone());
    tlv(&FILE, &[held, last].concat())
}

#[cfg(test)]
mod tests {
    use super::*;
    use paper::inside::read;

    fn answer(inside: Inside) -> Result<(usize, usize), (u32, usize)> {
        let octets = inside.octets();
        read(&octets).map(|tree| (tree.count(), tree.depth())).map_err(|refusal| (refusal.number, refusal.place))
    }

    /// How many elements each has, how deep it goes, and what refuses the one with too many templates.
    #[test]
    fn answers() {
        // 75, 7F61, 02, 7F60, A1 and four in it, 5F2E.
        assert_eq!(answer(Inside::Face), Ok((10, 5)));
        // Of the 65,530 octets in 7F61 six are the count and the template; then pairs, of which the last is the one that fills.
        assert_eq!(answer(Inside::Empty), Ok((2 + 2 + 32_762, 3)));
        assert_eq!(answer(Inside::EmptyConstructed), Ok((2 + 2 + 32_762, 3)));
        // Of 65,535 in the file the last nine are 7F61 with count and template.
        assert_eq!(answer(Inside::EmptyBefore), Ok((1 + 3 + 32_763, 3)));
        assert_eq!(answer(Inside::Templates), Err((22, 4)));
        // 65,526 octets are 4,680 chains of fourteen, and six are left.
        assert_eq!(answer(Inside::Chains), Ok((1 + 3 + 7 * 4_680 + 1, 8)));
        let (elements, depth) = answer(Inside::Mixed).unwrap();
        assert!(elements > 25_000 && depth == 4);
    }

    #[test]
    fn as_long_as_said() {
        assert_eq!(Inside::Face.octets().len(), FACE);
        assert!(Inside::ALL[1..].iter().all(|inside| inside.octets().len() == LONGEST));
    }
}
