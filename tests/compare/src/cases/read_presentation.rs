//! The cases of reading a presentation to an entry.

use crate::border;
use crate::cases::houses::HOUSES;
use crate::cases::reading::{self, Reader, Reading, ROOM};
use crate::cases::trials::{self, Trials};
use crate::cases::versions::{self, Spoilt};
use crate::cases::visas::{visa, Wrong};
use crate::cases::{chance, damage, digits, octets, personal, presentations, vector};
use crate::guard::{Lent, Side};
use crate::report::Tally;
use paper::answer::{Answer, Outcome};
use paper::form::Form;
use paper::lds::Lds;
use paper::presentation::{write, write_as, write_file, write_text_element};
use paper::refusal::LONGEST;
use paper::sha256::sha256;
use paper::{calls, group, specimens};
use shared::files::{files, group_1};
use shared::records;
use shared::worst::Worst;
use std::ops::Range;

pub fn compare(seed: u64) -> Tally {
    let mut trials = Trials::<ReadPresentation>::new(seed);
    trials.outside();
    trials.sound();
    trials.rooms_and_houses();
    trials.limit();
    trials.worst();
    trials.length_edges();
    trials.versions();
    trials.damage();
    trials.pairs();
    trials.newer_pairs();
    trials.cut();
    trials.one_octet();
    trials.one_octet_of_versions();
    trials.bits();
    trials.lists();
    trials.numbers();
    trials.wrong_digits();
    trials.personal_checks();
    trials.visas();
    trials.fenced();
    trials.drawn();
    trials.random();
    trials.threads(alone);
    trials.tally
}

struct Presentations;
type ReadPresentation = Reading<Presentations>;

impl Reader for Presentations {
    const NAME: &'static str = "read_presentation";
    type Answer = Answer;

    fn expected(house: u32, lent: &[u8], room: usize) -> Outcome {
        calls::read_presentation(house, lent, room)
    }

    fn made(house: u32, lent: &mut Lent, entry: &mut Lent) -> Answer {
        border::read_presentation(house, lent, entry)
    }
}

impl Trials<ReadPresentation> {
    /// Presentations of which another encoder or the paper itself made a part, with the answers that are argued for there.
    fn outside(&mut self) {
        for vector in vector::all() {
            let (lent, entry) = (self.lent(&vector.octets), self.room(ROOM));
            self.count(trials::held_to(&vector.expected(ROOM), ReadPresentation::new(1, lent, entry)));
        }
    }

    fn sound(&mut self) {
        for turn in 0..3_000 {
            let files = files(&mut self.seeds, 1 + turn % 15);
            let made = presentations::tree(&mut self.seeds, &files).encoded();
            self.together(|trials| {
                trials.case(&made);
                Lds::ALL.iter().for_each(|lds| trials.plain(&write_as(*lds, &files)));
            });
        }
    }

    /// Versions that agree, and that disagree in every way; alone, and with what goes before and behind them.
    fn versions(&mut self) {
        for said in versions::all() {
            self.together(|trials| {
                for spoilt in Spoilt::ALL {
                    let made = said.presentation(&mut trials.seeds, spoilt);
                    trials.plain(&made);
                }
            });
        }
    }

    /// Every output length to one past the need with every house, on a sound presentation and on one that is refused.
    fn rooms_and_houses(&mut self) {
        for groups in [1, 2, 5] {
            let made = write(&files(&mut self.seeds, groups));
            let need = calls::read_presentation(1, &made, ROOM).written.len();
            for lent in [&made[..], &made[..made.len() - 1]] {
                self.together(|trials| {
                    for (room, house) in (0..=need + 1).flat_map(|room| HOUSES.map(|house| (room, house))) {
                        trials.with_room(house, lent, room);
                    }
                });
            }
        }
    }

    /// Around 65,535 octets in all, with one long file, with fifteen, and with nothing that is a presentation.
    fn limit(&mut self) {
        for size in [65_000, LONGEST - 2, LONGEST - 1, LONGEST, LONGEST + 1, LONGEST + 2] {
            for groups in [2, 3, 15] {
                let made = self.filled(groups, size);
                self.case(&made);
                self.plain(&made);
            }
        }
        let sound = self.filled(2, LONGEST);
        self.plain(&[&sound[..], &[0x00]].concat());
        for size in [LONGEST, LONGEST + 1, 65_600, 100_000, 131_072, 1_000_000] {
            for octet in [0x00, 0x60, 0xff] {
                self.case(&vec![octet; size]);
            }
            let octets = self.seeds.octets(size);
            self.case(&octets);
        }
        // One file whose length is the longest that has a form: it runs over.
        for length in [[0xff, 0xff], [0xff, 0x00], [0xfe, 0xff]] {
            let mut made = sound.clone();
            let last = made.len() - 1_000;
            made.truncate(last);
            made.extend([0x6a, 0x82, length[0], length[1]]);
            self.case(&made);
        }
    }

    /// Those that give the most to do beside digests.
    fn worst(&mut self) {
        for octets in Worst::ALL.map(Worst::octets) {
            self.plain(&octets);
            self.case(&octets);
            Side::BOTH.iter().for_each(|side| self.fence(&octets, ROOM, *side));
        }
    }

    /// A sound presentation of just so many octets.
    fn filled(&mut self, groups: usize, size: usize) -> Vec<u8> {
        let mut files = files(&mut self.seeds, groups);
        let longest = files.iter().position(|(group, _)| *group != 1).expect("more groups than one");
        files[longest].1 = self.seeds.octets(1_000);
        let length = size - (write(&files).len() - 1_000);
        files[longest].1 = self.seeds.octets(length);
        let made = write(&files);
        assert_eq!(made.len(), size);
        made
    }

    /// Files around the lengths where another form of length begins, each coded in every form.
    fn length_edges(&mut self) {
        for length in presentations::EDGES {
            let content = self.seeds.octets(length);
            let made = write(&[(1, group_1(&mut self.seeds)), (2, content.clone())]);
            self.plain(&made);
            for file in presentations::coded(0x75, &content) {
                self.plain(&with_file(&made, &write_file(2, &content), &file));
            }
        }
    }

    /// Each kind of damage at each place, and each house with it.
    fn damage(&mut self) {
        for (lds, damages) in [(Lds::V17, damage::all()), (Lds::V18, [damage::all(), damage::versions()].concat())] {
            let sample = damage::sample_as(lds, &mut self.seeds);
            self.plain(&sample.encoded());
            for damage in damages {
                let mut tree = sample.clone();
                damage::spoil(&mut tree, &[&damage]);
                let made = tree.encoded();
                self.together(|trials| {
                    HOUSES.iter().for_each(|house| trials.with_room(*house, &made, ROOM));
                    trials.with_room(0, &made, 0);
                });
            }
        }
    }

    /// Any two of them: the stages go in number order, and each stage from left to right. One with all those before it is
    /// one case.
    fn pairs(&mut self) {
        let sample = damage::sample(&mut self.seeds);
        let all = damage::all();
        for (at, one) in all.iter().enumerate() {
            self.together(|trials| {
                for other in &all[..at] {
                    let mut tree = sample.clone();
                    damage::spoil(&mut tree, &[one, other]);
                    trials.plain(&tree.encoded());
                }
            });
        }
    }

    /// What can be wrong with the versions of a newer one, and anything else with it.
    fn newer_pairs(&mut self) {
        let sample = damage::sample_as(Lds::V18, &mut self.seeds);
        let all = [damage::versions(), damage::all()].concat();
        for one in &damage::versions() {
            self.together(|trials| {
                for other in &all {
                    let mut tree = sample.clone();
                    damage::spoil(&mut tree, &[one, other]);
                    trials.plain(&tree.encoded());
                }
            });
        }
    }

    fn cut(&mut self) {
        Lds::ALL.iter().for_each(|lds| self.cut_as(*lds));
    }

    fn cut_as(&mut self, lds: Lds) {
        let sample = damage::sample_as(lds, &mut self.seeds).encoded();
        for length in 0..sample.len() {
            self.together(|trials| {
                trials.case(&sample[..length]);
                trials.plain(&sample[..length]);
                // And its end alone.
                trials.plain(&sample[length..]);
            });
        }
    }

    /// Every octet of one presentation with every value, and each of these again with the digests that fit it.
    fn one_octet(&mut self) {
        let first = write_text_element(specimens::T3.as_bytes());
        let made = write(&[(1, first), (2, b"abc".to_vec())]);
        // Where each file stands, and where its digest.
        let files = [(122..215, 51), (215..220, 90)];
        assert!(files.iter().all(|(file, entry)| made[*entry..entry + 32] == sha256(&made[file.clone()])));
        for place in 0..made.len() {
            let file = files.iter().find(|(file, _)| file.contains(&place));
            self.together(|trials| {
                for mut other in octets::with_each(&made, place) {
                    trials.plain(&other);
                    if let Some((file, entry)) = file {
                        let digest = sha256(&other[file.clone()]);
                        other[*entry..entry + 32].copy_from_slice(&digest);
                        trials.plain(&other);
                    }
                }
            });
        }
    }

    /// Every octet of EF.COM, of the object's version and of its strings with every value, in a newer one.
    fn one_octet_of_versions(&mut self) {
        let first = write_text_element(specimens::T3.as_bytes());
        let made = write_as(Lds::V18, &[(1, first), (2, b"abc".to_vec())]);
        assert_eq!((made[22..24].to_vec(), made[122..124].to_vec()), (vec![0x30, 0x72], vec![0x30, 0x0e]));
        for place in (0..27).chain(122..138) {
            self.together(|trials| octets::with_each(&made, place).iter().for_each(|other| trials.plain(other)));
        }
    }

    /// Every bit of every digest of a presentation of all groups, and every bit of a smaller one.
    fn bits(&mut self) {
        let made = write(&files(&mut self.seeds, 15));
        let digests: Vec<usize> = (2..made.len() - 32).filter(|at| made[at - 2..*at] == [0x04, 0x20]).collect();
        let small = write(&files(&mut self.seeds, 3));
        digests.into_iter().for_each(|digest| self.flipped(&made, digest..digest + 32));
        (0..small.len()).for_each(|octet| self.flipped(&small, octet..octet + 1));
    }

    /// Each bit of some octets.
    fn flipped(&mut self, made: &[u8], octets: Range<usize>) {
        self.together(|trials| {
            (8 * octets.start..8 * octets.end).for_each(|bit| trials.plain(&octets::flipped(made, bit)));
        });
    }

    /// Tag lists: every octet alone, and many of known, unknown and repeated tags.
    fn lists(&mut self) {
        for tag in 0..=255 {
            self.listed(&[tag]);
            self.listed(&[0x61, tag, 0x75]);
        }
        for _ in 0..3_000 {
            let length = self.seeds.below(18);
            let odd = self.seeds.pick(&[1, 8, 32]);
            let tags: Vec<u8> = (0..length)
                .map(|_| match self.seeds.below(odd) {
                    0 => self.seeds.pick(&[0x66, 0x60, 0x62, 0x71, 0x00, 0xff, 0x61]),
                    _ => group::tag_of(u32::from(self.seeds.pick(&group::ALL))).unwrap(),
                })
                .collect();
            self.listed(&tags);
        }
    }

    fn listed(&mut self, tags: &[u8]) {
        let mut tree = damage::sample(&mut self.seeds);
        *tree.at(&[0, 2]).unwrap().octets_mut().unwrap() = tags.to_vec();
        self.plain(&tree.encoded());
    }

    /// Entries: every octet as a number, and lists of none to eighteen with and without repeats.
    fn numbers(&mut self) {
        for number in 0..=255 {
            self.numbered(&[1, 2, number, 16]);
        }
        for turn in 0..3_000 {
            let most = self.seeds.pick(&[16, 16, 16, 17]);
            let mut numbers: Vec<u8> = (0..turn % 19).map(|_| 1 + self.seeds.below(most) as u8).collect();
            if self.seeds.below(3) > 0 {
                // Mostly without a repeat, since a repeat is looked for before the count.
                numbers.sort_unstable();
                numbers.dedup();
            }
            self.numbered(&numbers);
        }
    }

    fn numbered(&mut self, numbers: &[u8]) {
        let mut tree = damage::sample(&mut self.seeds);
        let entries = numbers.iter().map(|number| presentations::entry(*number, &[0; 32])).collect();
        *tree.at(&[1, 2]).unwrap().trees_mut().unwrap() = entries;
        presentations::seal(&mut tree);
        self.plain(&tree.encoded());
    }

    /// One or more wrong check digits in group 1's text, which has its digest in its entry.
    fn wrong_digits(&mut self) {
        for turn in 0..2_000 {
            let record = records::sound_among(&mut self.seeds, &Form::IN_GROUP_1);
            let text = digits::spoilt(&mut self.seeds, &record);
            self.with_text(&text, 1 + turn % 4);
        }
    }

    /// A filler or 0 for the check of a passport's personal number, a thousand of each kind.
    fn personal_checks(&mut self) {
        for (kind, turn) in personal::kinds().flat_map(|kind| (0..1_000).map(move |turn| (kind, turn))) {
            let text = personal::passport(&mut self.seeds, kind);
            self.with_text(&text, 1 + turn % 4);
        }
    }

    /// Sound and damaged visas of both kinds in group 1, where none may stand: 2 where a character is foreign, else 3.
    fn visas(&mut self) {
        for (form, wrong) in Form::VISAS.into_iter().flat_map(|form| Wrong::ALL.map(|wrong| (form, wrong))) {
            for turn in 0..300 {
                let text = visa(&mut self.seeds, form, wrong);
                self.with_text(&text, 1 + turn % 4);
            }
        }
    }

    /// A text in group 1, among so many groups.
    fn with_text(&mut self, text: &[u8], groups: usize) {
        let mut files = files(&mut self.seeds, groups);
        let first = files.iter().position(|(group, _)| *group == 1).expect("group 1");
        files[first].1 = write_text_element(text);
        self.case(&write(&files));
    }

    /// Nothing is read past either end, wherever a presentation is cut, nor the pointer of an empty range.
    fn fenced(&mut self) {
        let sample = damage::sample(&mut self.seeds).encoded();
        let longest = self.filled(3, LONGEST);
        for side in Side::BOTH {
            (0..=sample.len()).for_each(|length| self.fence(&sample[..length], ROOM, side));
            (0..=44).for_each(|room| self.fence(&sample, room, side));
            self.fence(&longest, ROOM, side);
        }
        self.absent(&sample);
    }

    /// None to four damages of any kind, some of them before the digests are worked out.
    fn drawn(&mut self) {
        for turn in 0..40_000 {
            let groups = self.seeds.pick(&[1, 2, 2, 3, 3, 4]);
            let files = files(&mut self.seeds, groups);
            let mut tree = presentations::tree(&mut self.seeds, &files);
            for _ in 0..turn % 3 {
                chance::spoil(&mut self.seeds, &mut tree);
            }
            presentations::seal(&mut tree);
            for _ in 0..self.seeds.below(3) {
                chance::spoil(&mut self.seeds, &mut tree);
            }
            self.case(&tree.encoded());
        }
    }

    fn random(&mut self) {
        for length in (0..300).chain([1_000, 10_000]) {
            let octets = self.seeds.octets(length);
            self.case(&octets);
            // Behind an outside that is well made.
            let inner = self.seeds.octets(length % 100);
            let made = [write_file(1, &octets), write_file(2, &inner)].concat();
            self.case(&[&[0x60, inner.len() as u8], &inner[..], &[0x30, inner.len() as u8], &inner, &made].concat());
        }
    }
}

/// The presentation with another last file, and the digest of that file as it now is: nothing else is wrong.
fn with_file(made: &[u8], last: &[u8], file: &[u8]) -> Vec<u8> {
    let before = made.strip_suffix(last).expect("the last file");
    let digest = sha256(last);
    let entry = before.windows(32).position(|window| window == digest).expect("the entry of the last file");
    [&before[..entry], &sha256(file), &before[entry + 32..], file].concat()
}

/// What one thread tries.
fn alone(seed: u64) -> Vec<Vec<String>> {
    reading::alone::<Presentations>(seed, |seeds, turn| write(&files(seeds, 1 + turn % 15)))
}
