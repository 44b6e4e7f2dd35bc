//! The cases of the file of a group.

use crate::border;
use crate::cases::trees::Tree;
use crate::cases::trials::{Call, Trials};
use crate::cases::{chance, damage, presentations, vector};
use crate::guard::{Lent, Side};
use crate::report::{hex_shown, Tally};
use paper::answer::{Outcome, Stretch};
use paper::presentation::{group_file, write};
use shared::files::files;
use shared::worst::Worst;

/// Numbers that are no group's: tags of groups, and those that are a group's only in their lowest octets.
const OTHERS: [u32; 9] = [0x61, 0x75, 255, 256, 257, 65_537, 0x8000_0001, 0xffff_ff01, u32::MAX];

pub fn compare(seed: u64) -> Tally {
    let mut trials = Trials::<GroupFile>::new(seed);
    trials.outside();
    trials.sound();
    trials.lent_twice();
    trials.damage();
    trials.outer_walk();
    trials.length_edges();
    trials.cut();
    trials.limit();
    trials.worst();
    trials.fenced();
    trials.drawn();
    trials.tally
}

/// All that are a group's, those around them, and the others.
fn groups() -> impl Iterator<Item = u32> {
    (0..=20).chain(OTHERS)
}

struct GroupFile {
    lent: Lent,
    group: u32,
}

impl Call for GroupFile {
    const NAME: &'static str = "group_file";
    type Answer = Stretch;

    fn expected(&self) -> Outcome<Stretch> {
        Outcome::of(group_file(self.lent.content(), self.group))
    }

    fn made(&mut self) -> Stretch {
        border::group_file(&mut self.lent, self.group)
    }

    fn inputs(&self) -> Vec<&Lent> {
        vec![&self.lent]
    }

    fn output(&self) -> Option<&Lent> {
        None
    }

    fn about(&self) -> Vec<String> {
        let lent = self.lent.content_before();
        let first = format!("group_file of group {}, of {} octets", self.group, lent.len());
        vec![first, format!("lent:     {}", hex_shown(lent))]
    }
}

impl Trials<GroupFile> {
    fn outside(&mut self) {
        vector::all().iter().for_each(|vector| self.all_groups(&vector.octets));
    }

    fn sound(&mut self) {
        for turn in 0..300 {
            let files = files(&mut self.seeds, 1 + turn % 15);
            let made = presentations::tree(&mut self.seeds, &files).encoded();
            self.all_groups(&made);
        }
    }

    /// The first of several files of a group, each with another content and length.
    fn lent_twice(&mut self) {
        for turn in 0..300 {
            let files = files(&mut self.seeds, 1 + turn % 15);
            let mut tree = presentations::tree(&mut self.seeds, &files);
            for _ in 0..1 + turn % 4 {
                let group = self.seeds.pick(&files.iter().map(|(group, _)| *group).collect::<Vec<_>>());
                let length = self.seeds.below(200);
                let again = presentations::file(group, &self.seeds.octets(length));
                tree.trees_mut().unwrap().push(again);
            }
            self.all_groups(&tree.encoded());
        }
    }

    /// Only what is wrong outside matters: each kind of damage, and any of them in pairs.
    fn damage(&mut self) {
        let sample = damage::sample(&mut self.seeds);
        let all = damage::all();
        for (at, one) in all.iter().enumerate() {
            let mut tree = sample.clone();
            damage::spoil(&mut tree, &[one]);
            self.all_groups(&tree.encoded());
            let mut tree = sample.clone();
            let other = &all[self.seeds.below(at + 1)];
            damage::spoil(&mut tree, &[one, other]);
            self.all_groups(&tree.encoded());
        }
    }

    /// Small ones of any tags: 60, 30, then files of every tag octet, with lengths of every first octet.
    fn outer_walk(&mut self) {
        for octet in 0..=255 {
            self.all_groups(&[0x60, 0x00, 0x30, 0x00, 0x61, 0x00, octet, 0x00, 0x70, 0x01, 0x07]);
            self.all_groups(&[octet, 0x00, 0x30, 0x00, 0x61, 0x00]);
            self.all_groups(&[0x60, 0x00, octet, 0x00, 0x61, 0x00]);
            self.all_groups(&[&[0x60, 0x00, 0x30, 0x00, 0x70, 0x00, 0x75, octet][..], &[0x80; 0x90]].concat());
        }
    }

    /// Files around the lengths where another form of length begins, each coded in every form, between two others.
    fn length_edges(&mut self) {
        for length in presentations::EDGES {
            let content = self.seeds.octets(length);
            for file in presentations::coded(0x75, &content) {
                self.all_groups(&[&[0x60, 0x00, 0x30, 0x00, 0x61, 0x00], &file[..], &[0x70, 0x00]].concat());
            }
        }
    }

    fn cut(&mut self) {
        let sample = damage::sample(&mut self.seeds).encoded();
        (0..=sample.len()).for_each(|length| self.all_groups(&sample[..length]));
    }

    fn limit(&mut self) {
        for size in [65_534, 65_535, 65_536, 65_537, 1_000_000] {
            let start = write(&[(1, vec![0x5f, 0x1f, 0x00])]);
            // Files of group 2 as long as they can be, and one of group 16 to fill up.
            let room = size - start.len();
            let file = |tag: u8, length: usize| Tree::leaf(&[tag], &vec![tag; length]).encoded();
            let mut made = [start, file(0x75, room.min(60_000) - 4)].concat();
            while size - made.len() > 60_000 {
                made.extend(file(0x75, 59_000));
            }
            let left = size - made.len();
            made.extend(file(0x70, left - 4));
            assert_eq!(made.len(), size);
            self.all_groups(&made);
        }
        self.all_groups(&vec![0x60; 65_536]);
    }

    /// Those that give the most to do: the walk goes over every file, and so does the search for one that is not lent.
    fn worst(&mut self) {
        Worst::ALL.iter().for_each(|worst| self.all_groups(&worst.octets()));
    }

    /// Nothing is read past either end, wherever a presentation is cut, nor the pointer of an empty range.
    fn fenced(&mut self) {
        let sample = damage::sample(&mut self.seeds).encoded();
        for (length, side) in (0..=sample.len()).flat_map(|length| Side::BOTH.map(|side| (length, side))) {
            self.watch(GroupFile { lent: Lent::fenced(&sample[..length], side), group: 16 });
        }
        groups().for_each(|group| self.watch(GroupFile { lent: Lent::absent(), group }));
    }

    fn drawn(&mut self) {
        for _ in 0..5_000 {
            let count = 1 + self.seeds.below(5);
            let files = files(&mut self.seeds, count);
            let mut tree = presentations::tree(&mut self.seeds, &files);
            for _ in 0..1 + self.seeds.below(2) {
                chance::spoil(&mut self.seeds, &mut tree);
            }
            self.all_groups(&tree.encoded());
        }
    }

    /// Every group of one presentation is one case.
    fn all_groups(&mut self, lent: &[u8]) {
        self.together(|trials| groups().for_each(|group| trials.of(lent, group)));
    }

    fn of(&mut self, lent: &[u8], group: u32) {
        let lent = self.lent(lent);
        self.hold(GroupFile { lent, group });
    }
}
