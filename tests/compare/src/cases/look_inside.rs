//! The cases of the inside of a group's file.

use crate::border;
use crate::cases::insides::damage::{self, lent, sample};
use crate::cases::insides::{file, printed, tag, Shape, SHAPES};
use crate::cases::octets;
use crate::cases::trees::Tree;
use crate::cases::trials::{self, Call, Trials};
use crate::cases::{presentations, vector};
use crate::guard::{Lent, Side};
use crate::report::{hex_shown, Tally};
use paper::answer::{Answer, Outcome};
use paper::inside::{DEEPEST, LONGEST, OF_TEMPLATES, TEMPLATE};
use paper::presentation::group_file;
use paper::tlv::tlv;
use paper::{calls, group};
use shared::insides::Inside;
use shared::records::until;
use shared::seeds::Seeds;

pub fn compare(seed: u64) -> Tally {
    let mut trials = Trials::<LookInside>::new(seed);
    trials.printed();
    trials.outside();
    trials.sound();
    trials.too_deep();
    trials.depths();
    trials.damage();
    trials.pairs();
    trials.tags();
    trials.length_edges();
    trials.counts();
    trials.cut();
    trials.one_octet();
    trials.bits();
    trials.limit();
    trials.worst();
    trials.fenced();
    trials.drawn();
    trials.octets_drawn();
    trials.random();
    trials.threads(alone);
    trials.tally
}

struct LookInside {
    file: Lent,
}

impl Call for LookInside {
    const NAME: &'static str = "look_inside";
    type Answer = Answer;

    fn expected(&self) -> Outcome {
        Outcome::of(calls::look_inside(self.file.content()))
    }

    fn made(&mut self) -> Answer {
        border::look_inside(&mut self.file)
    }

    fn inputs(&self) -> Vec<&Lent> {
        vec![&self.file]
    }

    fn output(&self) -> Option<&Lent> {
        None
    }

    fn about(&self) -> Vec<String> {
        let lent = self.file.content_before();
        vec![format!("look_inside of {} octets", lent.len()), format!("lent:     {}", hex_shown(lent))]
    }
}

impl Trials<LookInside> {
    /// Those of Doc 9303-10, held to what was worked out for each by hand.
    fn printed(&mut self) {
        for printed in printed::all() {
            let file = self.lent(&printed.octets);
            self.count(trials::held_to(&Outcome::of(printed.answer), LookInside { file }));
        }
    }

    /// The files in presentations that another encoder made, and each of those presentations whole, which is no group's file.
    fn outside(&mut self) {
        for vector in vector::all() {
            self.together(|trials| {
                trials.of(&vector.octets);
                for group in 1..=16 {
                    let found = group_file(&vector.octets, group);
                    trials.of(&vector.octets[found.start as usize..][..found.length as usize]);
                }
            });
        }
    }

    /// Deep and wide ones of every group, held to the number that their trees have.
    fn sound(&mut self) {
        for (shape, group) in SHAPES.into_iter().flat_map(|shape| [shape; 12]).flat_map(of_each_group) {
            let tree = file(&mut self.seeds, group, shape);
            let file = self.lent(&tree.encoded());
            let expected = Outcome::of(Answer::not_refused(tree.count() as u64));
            self.count(trials::held_to(&expected, LookInside { file }));
        }
    }

    fn too_deep(&mut self) {
        let shapes = [(1, 1), (1, 2), (2, 3), (5, 1)].map(|(more, widest)| Shape { deepest: DEEPEST + more, widest });
        for (shape, group) in shapes.into_iter().flat_map(|shape| [shape; 6]).flat_map(of_each_group) {
            let tree = file(&mut self.seeds, group, shape);
            self.of(&tree.encoded());
        }
    }

    /// Chains of every depth in files of every group, empty at their end or not, with what is right or wrong behind them.
    fn depths(&mut self) {
        for (group, depth) in group::ALL.into_iter().flat_map(|group| (1..=12).map(move |depth| (group, depth))) {
            let ends: [&[u8]; 6] = [&[], &[0x04, 0x00], &[0x30, 0x00], &[0x04, 0x01], &[0x04], &[0x5f, 0x80, 0x00]];
            let own = [group::tag_of(u32::from(group)).expect("a group that has a tag")];
            self.together(|trials| {
                for (end, behind) in ends.into_iter().flat_map(|end| ends.map(|behind| (end, behind))) {
                    let chain = (1..depth).fold(end.to_vec(), |inner, _| tlv(&tag(&mut trials.seeds, true), &inner));
                    trials.of(&tlv(&own, &[&chain, behind].concat()));
                    trials.of(&[&tlv(&own, &chain), behind].concat());
                }
            });
        }
    }

    /// Each kind at each of its places, in several files.
    fn damage(&mut self) {
        for _ in 0..8 {
            let sample = sample(&mut self.seeds);
            for damage in damage::all(&sample) {
                let mut lent = sample.clone();
                damage.put(&mut lent);
                self.of(&lent.encoded());
            }
        }
        for (shape, group) in SHAPES[..5].iter().copied().flat_map(of_each_group) {
            let sound = lent(file(&mut self.seeds, group, shape));
            let all = [damage::encodings(&sound), damage::depths(&sound)].concat();
            self.together(|trials| {
                for _ in 0..40 {
                    let mut lent = sound.clone();
                    all[trials.seeds.below(all.len())].put(&mut lent);
                    trials.of(&lent.encoded());
                }
            });
        }
    }

    /// Any two of them. One with all those before it is one case.
    fn pairs(&mut self) {
        let sample = sample(&mut self.seeds);
        let all = damage::all(&sample);
        for (at, one) in all.iter().enumerate() {
            self.together(|trials| {
                for other in &all[..at] {
                    let mut lent = sample.clone();
                    other.put(&mut lent);
                    one.put(&mut lent);
                    trials.of(&lent.encoded());
                }
            });
        }
    }

    /// Every octet and every two octets as a tag: the file's, an element's, one at the end of what is lent.
    fn tags(&mut self) {
        for first in 0..=255 {
            self.together(|trials| {
                trials.of(&[first]);
                trials.of(&[first, 0x00]);
                trials.of(&[0x61, 0x01, first]);
                for second in 0..=255 {
                    trials.of(&[0x61, 0x03, first, second, 0x00]);
                    trials.of(&[0x61, 0x05, first, second, 0x02, 0x04, 0x00]);
                    trials.of(&[0x61, 0x02, first, second]);
                    trials.of(&[first, 0x03, second, 0x01, 0x00]);
                }
            });
        }
    }

    /// Around the lengths where another form of length begins, of a file and of an element in it, each coded in every form.
    fn length_edges(&mut self) {
        for length in presentations::EDGES {
            let content = vec![0x04; length];
            for (group, tag) in [(0x61, 0x04), (0x61, 0x30), (0x6d, 0x04), (0x75, 0x53)] {
                self.together(|trials| {
                    for element in presentations::coded(tag, &content) {
                        trials.of(&tlv(&[group], &element));
                        trials.of(&tlv(&[group], &[&element[..], &[0x02, 0x00]].concat()));
                        presentations::coded(group, &element).iter().for_each(|file| trials.of(file));
                    }
                });
            }
        }
    }

    /// Every count with every number of templates near it, in each of the three groups and in one that has none.
    fn counts(&mut self) {
        for (group, count) in [0x75, 0x63, 0x76, 0x65].into_iter().flat_map(|tag| (0..=255).map(move |n| (tag, n))) {
            self.together(|trials| {
                for templates in [usize::from(count), 0, 1, 2, 128, 255, 256, usize::from(count) + 1] {
                    let held = [&[0x02, 0x01, count][..], &tlv(&TEMPLATE, &[]).repeat(templates)].concat();
                    trials.of(&tlv(&[group], &tlv(&OF_TEMPLATES, &held)));
                }
            });
        }
    }

    fn cut(&mut self) {
        let sample = sample(&mut self.seeds).encoded();
        for length in 0..=sample.len() {
            self.together(|trials| {
                trials.of(&sample[..length]);
                // And its end alone.
                trials.of(&sample[length..]);
            });
        }
    }

    /// Every octet of small files with every value.
    fn one_octet(&mut self) {
        let small = |seeds: &mut Seeds, turn| until(seeds, |seeds| drawn_file(seeds, turn), is_small).encoded();
        let others = [2, 10, 14].map(|turn| small(&mut self.seeds, turn));
        for sample in [sample(&mut self.seeds).encoded()].into_iter().chain(others) {
            for place in 0..sample.len() {
                self.together(|trials| octets::with_each(&sample, place).iter().for_each(|file| trials.of(file)));
            }
        }
    }

    fn bits(&mut self) {
        for group in group::ALL {
            let sound = file(&mut self.seeds, group, SHAPES[4]).encoded();
            self.together(|trials| {
                (0..8 * sound.len().min(600)).for_each(|bit| trials.of(&octets::flipped(&sound, bit)));
            });
        }
    }

    /// Around the longest file, and far past it; what stands behind the file is left over.
    fn limit(&mut self) {
        for size in [LONGEST - 2, LONGEST - 1, LONGEST, LONGEST + 1, LONGEST + 2, 100_000, 1_000_000] {
            for (tag, inner) in [(0x61, 0x04), (0x61, 0x30), (0x6d, 0x04), (0x75, 0x53)] {
                // An element of all that is left, as far as that can be written.
                let content = (size - 8).min(LONGEST - 8);
                let mut made = tlv(&[tag], &tlv(&[inner], &vec![0x04; content]));
                made.resize(size, 0x04);
                self.of(&made);
            }
        }
        group::ALL.into_iter().filter_map(|group| group::tag_of(u32::from(group))).for_each(|tag| {
            self.of(&[&[tag, 0x82, 0xff, 0xff][..], &[0x04, 0x00].repeat(40_000)].concat());
        });
    }

    /// A face, and those that give the most to do; also with one octet more, one less, and a wrong last one.
    fn worst(&mut self) {
        for octets in Inside::ALL.map(Inside::octets) {
            self.of(&octets);
            self.of(&octets[..octets.len() - 1]);
            self.of(&[&octets[..], &[0x00]].concat());
            self.of(&[&octets[..octets.len() - 1], &[0x80]].concat());
        }
    }

    /// Nothing is read past either end, wherever a file is cut, nor the pointer of an empty range.
    fn fenced(&mut self) {
        let sample = sample(&mut self.seeds).encoded();
        for (length, side) in (0..=sample.len()).flat_map(|length| Side::BOTH.map(|side| (length, side))) {
            self.fence(&sample[..length], side);
        }
        for side in Side::BOTH {
            Inside::ALL.iter().for_each(|inside| self.fence(&inside.octets(), side));
            let begun: [&[u8]; 8] = [
                &[0x61],
                &[0x61, 0x81],
                &[0x61, 0x82],
                &[0x61, 0x82, 0x01],
                &[0x61, 0x01, 0x1f],
                &[0x61, 0x02, 0x04, 0x81],
                &[0x61, 0x03, 0x04, 0x82, 0x01],
                &[0x75, 0x05, 0x7f, 0x61, 0x02, 0x02, 0x01],
            ];
            begun.iter().for_each(|octets| self.fence(octets, side));
        }
        self.watch(LookInside { file: Lent::absent() });
    }

    fn fence(&mut self, octets: &[u8], side: Side) {
        self.watch(LookInside { file: Lent::fenced(octets, side) });
    }

    /// Deep and wide ones with damage of any kind at one to three places.
    fn drawn(&mut self) {
        for turn in 0..10_000 {
            let mut lent = lent(drawn_file(&mut self.seeds, turn));
            (0..=turn % 3).for_each(|_| damage::drawn(&mut self.seeds, &mut lent));
            self.of(&lent.encoded());
        }
    }

    /// One to four octets changed, taken away or put in, anywhere.
    fn octets_drawn(&mut self) {
        for turn in 0..10_000 {
            let mut lent = drawn_file(&mut self.seeds, turn).encoded();
            for _ in 0..=turn % 4 {
                let (place, octet) = (self.seeds.below(lent.len()), self.seeds.number() as u8);
                let octet = self.seeds.pick(&[octet, octet, 0x00, 0x02, 0x30, 0x5f, 0x7f, 0x80, 0x81, 0x82, 0xff]);
                match self.seeds.below(4) {
                    0 => lent.insert(place, octet),
                    1 if lent.len() > 1 => drop(lent.remove(place)),
                    _ => lent[place] = octet,
                }
            }
            self.of(&lent);
        }
    }

    fn random(&mut self) {
        for length in (0..300).chain([1_000, 10_000, 65_535]) {
            let octets = self.seeds.octets(length);
            self.together(|trials| {
                trials.of(&octets);
                // As the inside of each group's file.
                for tag in group::ALL.into_iter().filter_map(|group| group::tag_of(u32::from(group))) {
                    trials.of(&tlv(&[tag], &octets));
                    trials.of(&tlv(&[tag], &octets.iter().map(|octet| octet & 0x07).collect::<Vec<_>>()));
                }
            });
        }
    }

    fn of(&mut self, octets: &[u8]) {
        let file = self.lent(octets);
        self.hold(LookInside { file });
    }
}

fn of_each_group(shape: Shape) -> impl Iterator<Item = (Shape, u8)> {
    group::ALL.into_iter().map(move |group| (shape, group))
}

/// Small ones most often, of all groups in turn.
fn drawn_file(seeds: &mut Seeds, turn: usize) -> Tree {
    let widest = 1 + seeds.below(4);
    let deepest = 2 + seeds.below(DEEPEST);
    let shape = seeds.pick(&[Shape { deepest, widest }, Shape { deepest, widest: 1 }, SHAPES[turn % SHAPES.len()]]);
    file(seeds, group::ALL[turn % group::ALL.len()], shape)
}

/// Of some elements in each other, and of not many octets.
fn is_small(file: &Tree) -> bool {
    file.count() > 8 && file.encoded().len() < 150
}

/// What one thread tries.
fn alone(seed: u64) -> Vec<Vec<String>> {
    let mut seeds = Seeds::new(seed);
    let case = |turn: usize| {
        let octets = drawn_file(&mut seeds, turn).encoded();
        trials::held(LookInside { file: Lent::new(&octets, seeds.below(64)) })
    };
    (0..150).map(case).collect()
}
