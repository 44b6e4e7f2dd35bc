//! Presentations that give the most to do beside digests, each as long as a presentation may be.
//!
//! What document 01 looks at once for every file is the outer walk, for every entry stage 4, for every tag of the list stage
//! 3. Stage 5 ends at the first file of a group that was lent before, so that it has fifteen files to look at, and no more.

use crate::files::bare_group_1;
use crate::seeds::Seeds;
use paper::lds::Lds;
use paper::object::{self, Entry, Object};
use paper::presentation::{write, write_file};
use paper::refusal::LONGEST;
use paper::{com, group};

#[derive(Clone, Copy, Debug, PartialEq, Eq)]
pub enum Worst {
    /// A sound presentation of every group, and behind it files of one group that hold nothing.
    TinyFiles,
    /// The same, the groups in no order: no branch on a tag goes as it went before.
    RandomTags,
    /// An object whose entries are all for one group.
    OneGroup,
    /// A tag list as long as can be. All its tags are known, in no order.
    LongestList,
}

impl Worst {
    pub const ALL: [Worst; 4] = [Worst::TinyFiles, Worst::RandomTags, Worst::OneGroup, Worst::LongestList];

    pub fn octets(self) -> Vec<u8> {
        let octets = match self {
            Worst::TinyFiles => tiny_files(|_| 0x70),
            Worst::RandomTags => tiny_files(any_tag),
            Worst::OneGroup => one_group(),
            Worst::LongestList => longest_list(),
        };
        assert_eq!(octets.len(), LONGEST);
        octets
    }
}

fn tags() -> Vec<u8> {
    group::ALL.into_iter().filter_map(|group| group::tag_of(u32::from(group))).collect()
}

fn any_tag(seeds: &mut Seeds) -> u8 {
    seeds.pick(&tags())
}

/// A presentation of every group: all that stage 5 will look at.
fn sound(seeds: &mut Seeds) -> Vec<u8> {
    let first = (1, bare_group_1(seeds));
    let others = group::ALL[1..].iter().map(|group| (*group, Vec::new()));
    write(&[first].into_iter().chain(others).collect::<Vec<_>>())
}

fn tiny_files(tag: impl Fn(&mut Seeds) -> u8) -> Vec<u8> {
    let mut seeds = Seeds::new(9303);
    let mut made = sound(&mut seeds);
    while made.len() + 3 < LONGEST {
        made.extend([tag(&mut seeds), 0x00]);
    }
    filled(made)
}

/// With a last file, of group 16, up to the longest.
fn filled(mut made: Vec<u8>) -> Vec<u8> {
    let left = LONGEST - made.len();
    // Two octets are the tag and the length.
    made.extend(write_file(16, &vec![0; left - 2]));
    made
}

fn one_group() -> Vec<u8> {
    let com = com::write(Lds::V17, b"040000", &[0x61, 0x75]);
    let entry = Entry { number: 1, digest: [0x3c; 32] };
    let object = |count: usize| object::write(&Object { entries: vec![entry.clone(); count], strings: None }, true);
    let of = |count: usize| [&com[..], &object(count)].concat();
    // An entry has 39 octets, and the last file at least two.
    let count = (LONGEST - 2 - of(1_000).len()) / 39 + 1_000;
    filled(of(count))
}

fn longest_list() -> Vec<u8> {
    let mut seeds = Seeds::new(9303);
    // 30 00 is the object. It is not looked into.
    let around = com::write(Lds::V17, b"040000", &[0x61; 1_000]).len() - 1_000 + 2;
    let mut list = tags();
    list.resize_with(LONGEST - around, || any_tag(&mut seeds));
    [com::write(Lds::V17, b"040000", &list), vec![0x30, 0x00]].concat()
}

#[cfg(test)]
mod tests {
    use super::*;
    use paper::presentation::{group_file, read};

    fn refused(worst: Worst) -> (u32, usize) {
        let refusal = read(&worst.octets()).unwrap_err();
        (refusal.number, refusal.place)
    }

    /// Each is refused only after all of it was looked at, with a refusal that was worked out by hand.
    #[test]
    fn answers() {
        // "lent before": at the first file behind the fifteen.
        let sound = sound(&mut Seeds::new(9303)).len();
        assert_eq!(refused(Worst::TinyFiles), (14, sound));
        assert_eq!(refused(Worst::RandomTags), (14, sound));
        // "a repeated number (12 at its integer)", after all entries: EF.COM 22, the object's tag and length 4, its version 3
        // and its algorithm 15, the list's tag and length 4, an entry of 39, and the second one's tag and length.
        assert_eq!(refused(Worst::OneGroup), (12, 22 + 4 + 3 + 15 + 4 + 39 + 2));
        // "first an unknown tag, then a repeated one": the sixteenth, behind tag and length of 60, 16 octets, and those of 5C.
        assert_eq!(refused(Worst::LongestList), (11, 4 + 16 + 4 + 15));
    }

    #[test]
    fn how_many() {
        let count =
            |worst: Worst, octets: &[u8]| worst.octets().windows(octets.len()).filter(|at| at == &octets).count();
        assert!(count(Worst::TinyFiles, &[0x70, 0x00]) > 32_000);
        assert!(tags().iter().all(|tag| count(Worst::RandomTags, &[*tag, 0x00]) > 2_000));
        assert!(count(Worst::OneGroup, &[0x30, 0x25, 0x02, 0x01, 0x01]) > 1_600);
    }

    /// The outer walk passes, and what is looked for is not there.
    #[test]
    fn files_of_groups() {
        for worst in Worst::ALL {
            assert_eq!(group_file(&worst.octets(), 6).length, 0);
        }
        assert_ne!(group_file(&Worst::TinyFiles.octets(), 16).length, 0);
    }
}
