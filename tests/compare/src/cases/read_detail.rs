//! The cases of the details of group 11.

use crate::border;
use crate::cases::details::{asked, damage, drawn, element, file, found, lent, octets_of, printed, tag_of, with_value};
use crate::cases::octets;
use crate::cases::presentations;
use crate::cases::trees::Tree;
use crate::cases::trials::{self, Call, Trials};
use crate::guard::{Lent, Side};
use crate::report::{hex_shown, Tally};
use paper::answer::{Detail, Outcome};
use paper::calls;
use paper::details::{FILE, FULL_NAME, LIST, NAMED, OTHER_NAMES, TEMPLATE};
use paper::inside::LONGEST;
use paper::tlv::tlv;
use shared::details::Details;
use shared::seeds::Seeds;

pub fn compare(seed: u64) -> Tally {
    let mut trials = Trials::<ReadDetail>::new(seed);
    trials.printed();
    trials.sound();
    trials.two();
    trials.empty();
    trials.damage();
    trials.pairs();
    trials.tags();
    trials.lists();
    trials.length_edges();
    trials.cut();
    trials.one_octet();
    trials.bits();
    trials.limit();
    trials.worst();
    trials.fenced();
    trials.drawn();
    trials.octets_drawn();
    trials.random();
    trials.threads(alone);
    trials.tally
}

struct ReadDetail {
    file: Lent,
    tag: u32,
}

impl Call for ReadDetail {
    const NAME: &'static str = "read_detail";
    type Answer = Detail;

    fn expected(&self) -> Outcome<Detail> {
        Outcome::of(calls::read_detail(self.file.content(), self.tag))
    }

    fn made(&mut self) -> Detail {
        border::read_detail(&mut self.file, self.tag)
    }

    fn inputs(&self) -> Vec<&Lent> {
        vec![&self.file]
    }

    fn output(&self) -> Option<&Lent> {
        None
    }

    fn about(&self) -> Vec<String> {
        let lent = self.file.content_before();
        let first = format!("read_detail of {:X}, of {} octets", self.tag, lent.len());
        vec![first, format!("lent:     {}", hex_shown(lent))]
    }
}

impl Trials<ReadDetail> {
    /// Those of Doc 9303-10, held to what was worked out for each by hand.
    fn printed(&mut self) {
        for printed in printed::all() {
            self.together(|trials| asked().for_each(|tag| trials.told(&printed.octets, tag, printed.detail(tag))));
        }
    }

    /// Any details in any order, held to where their trees have them.
    fn sound(&mut self) {
        for _ in 0..1_500 {
            let (tags, lent) = drawn(&mut self.seeds);
            self.sound_one(&tags, &lent);
        }
    }

    /// Every detail alone, and any two of them.
    fn two(&mut self) {
        for (first, second) in NAMED.into_iter().flat_map(|first| NAMED.map(|second| (first, second))) {
            let tags = if first == second { vec![first] } else { vec![first, second] };
            let lent = file(&mut self.seeds, &tags);
            self.sound_one(&tags, &lent);
        }
    }

    /// Values without octets, each of them and all; and a file without details.
    fn empty(&mut self) {
        for count in 0..=NAMED.len() {
            let none = NAMED[..count].iter().map(|tag| with_value(*tag, b"")).collect();
            let lent = lent(&NAMED[..count], none);
            self.sound_one(&NAMED[..count], &lent);
        }
    }

    fn sound_one(&mut self, tags: &[u16], lent: &Tree) {
        let octets = lent.encoded();
        self.together(|trials| asked().for_each(|tag| trials.told(&octets, tag, found(lent, tags, tag))));
    }

    /// Each kind at each of its places, in several files, held to the refusal that it is meant to give.
    fn damage(&mut self) {
        let mut samples: Vec<Vec<u16>> = vec![vec![], vec![FULL_NAME], vec![OTHER_NAMES], NAMED.to_vec()];
        samples.extend((0..6).map(|_| drawn(&mut self.seeds).0));
        for tags in samples {
            let sound = file(&mut self.seeds, &tags);
            for damage in damage::all(&sound, &tags) {
                let mut lent = sound.clone();
                damage.put(&mut lent);
                let told = Detail::refused(damage.refusal(&lent));
                let octets = lent.encoded();
                let any = self.any_tag();
                self.together(|trials| {
                    [u32::from(FULL_NAME), 0, any].iter().for_each(|tag| trials.told(&octets, *tag, told));
                });
            }
        }
    }

    /// Any two of them: a 10 goes before a 20 wherever it stands. One with all those before it is one case.
    fn pairs(&mut self) {
        for tags in [vec![FULL_NAME, OTHER_NAMES, 0x5f42], vec![0x5f2b, 0x5f10]] {
            let sound = file(&mut self.seeds, &tags);
            let all = damage::all(&sound, &tags);
            for (at, one) in all.iter().enumerate() {
                self.together(|trials| {
                    for other in &all[..at] {
                        let mut lent = sound.clone();
                        other.put(&mut lent);
                        one.put(&mut lent);
                        trials.one(&lent.encoded());
                    }
                });
            }
        }
    }

    /// Every two octets as a tag: in the list, of an element, and of both; and every octet as the tag of the file.
    fn tags(&mut self) {
        for first in 0..=255 {
            self.together(|trials| {
                trials.one(&[first, 0x02, 0x5c, 0x00]);
                trials.one(&[0x6b, 0x02, first, 0x00]);
                trials.one(&[0x6b, 0x04, 0x5c, 0x00, first, 0x00]);
                for second in 0..=255 {
                    let tag = u32::from(u16::from_be_bytes([first, second]));
                    trials.of(&[0x6b, 0x07, 0x5c, 0x02, first, second, first, second, 0x00], tag);
                    trials.of(&[0x6b, 0x07, 0x5c, 0x02, 0x5f, 0x0e, first, second, 0x00], tag);
                    trials.of(&[0x6b, 0x07, 0x5c, 0x02, first, second, 0x5f, 0x0e, 0x00], tag);
                    trials.of(&[0x6b, 0x06, 0x5c, 0x02, first, second, 0xa0, 0x00], tag);
                    trials.of(&[0x6b, 0x07, 0x5c, 0x02, 0x5f, 0x0e, 0x5f, 0x0e, 0x00], tag);
                }
            });
        }
    }

    /// Lists that name every two tags and any three, with elements as they are named; and lists of many octets.
    fn lists(&mut self) {
        for tags in NAMED.into_iter().flat_map(|one| NAMED.map(|two| [one, two])) {
            let third = self.seeds.pick(&NAMED);
            self.of_list(&tags);
            self.of_list(&[tags[0], tags[1], third]);
        }
        for length in [25, 26, 27, 28, 127, 128, 255, 256, 1_000, 65_000] {
            let tags: Vec<u16> = NAMED.into_iter().cycle().take(length / 2).collect();
            let list = [octets_of(&tags), vec![0x5f; length % 2]].concat();
            self.one(&tlv(&FILE, &tlv(&LIST, &list)));
            self.one(&tlv(&FILE, &[tlv(&LIST, &list), tlv(&[0x5f, 0x19], b"")].concat()));
        }
    }

    fn of_list(&mut self, tags: &[u16]) {
        let elements = tags.iter().map(|tag| element(&mut self.seeds, *tag)).collect();
        let octets = lent(tags, elements).encoded();
        self.together(|trials| tags.iter().for_each(|tag| trials.of(&octets, u32::from(*tag))));
    }

    /// Around the lengths where another form of length begins, of a value and of the file, each coded in every form.
    fn length_edges(&mut self) {
        for length in presentations::EDGES {
            let value = self.seeds.octets(length.min(65_500));
            for named in [FULL_NAME, OTHER_NAMES] {
                let list = tlv(&LIST, &named.to_be_bytes());
                self.together(|trials| {
                    // A second octet of the tag stands before the length as a one-octet tag does.
                    for coded in presentations::coded(tag_of(named)[tag_of(named).len() - 1], &value) {
                        let before = &tag_of(named)[..tag_of(named).len() - 1];
                        let content = [&list, before, &coded].concat();
                        trials.of(&tlv(&FILE, &content), u32::from(named));
                        presentations::coded(FILE[0], &content)
                            .iter()
                            .for_each(|file| trials.of(file, u32::from(named)));
                    }
                });
            }
        }
    }

    fn cut(&mut self) {
        let sample = self.sample();
        for length in 0..=sample.len() {
            self.together(|trials| {
                trials.one(&sample[..length]);
                // And its end alone.
                trials.one(&sample[length..]);
            });
        }
    }

    /// Every octet of small files with every value.
    fn one_octet(&mut self) {
        let samples = [self.sample(), printed::all()[1].octets.clone()];
        for sample in samples {
            for place in 0..sample.len() {
                self.together(|trials| octets::with_each(&sample, place).iter().for_each(|file| trials.one(file)));
            }
        }
    }

    fn bits(&mut self) {
        for _ in 0..20 {
            let sound = drawn(&mut self.seeds).1.encoded();
            self.together(|trials| {
                (0..8 * sound.len().min(300)).for_each(|bit| trials.one(&octets::flipped(&sound, bit)));
            });
        }
    }

    /// Around the longest file, and far past it; what stands behind the file is left over.
    fn limit(&mut self) {
        for size in [LONGEST - 2, LONGEST - 1, LONGEST, LONGEST + 1, LONGEST + 2, 100_000, 1_000_000] {
            for named in [FULL_NAME, OTHER_NAMES] {
                let list = tlv(&LIST, &named.to_be_bytes());
                // The value has all that is left, as far as that can be written; both lengths have three octets.
                let head = 4 + list.len() + tag_of(named).len() + 3;
                let value = vec![0x5f; size.min(LONGEST) - head];
                let mut made = tlv(&FILE, &[list, tlv(&tag_of(named), &value)].concat());
                made.resize(size, 0x5f);
                self.of(&made, u32::from(named));
            }
        }
        // As many elements as a file can have, of which the list names one.
        let many = [tlv(&LIST, &[0x5f, 0x0e]), [0x5f, 0x0e, 0x00].repeat(21_000)].concat();
        self.one(&tlv(&FILE, &many));
        self.one(&tlv(&FILE, &[&many[..], &[0x5f]].concat()));
    }

    /// Those that are measured; also with one octet more, one less, and a wrong last one.
    fn worst(&mut self) {
        for octets in Details::ALL.map(Details::octets) {
            let less = octets.len() - 1;
            self.one(&octets);
            self.one(&octets[..less]);
            self.one(&[&octets[..], &[0x00]].concat());
            self.one(&[&octets[..less], &[0x80]].concat());
        }
    }

    /// Nothing is read past either end, wherever a file is cut, nor the pointer of an empty range.
    fn fenced(&mut self) {
        let sample = self.sample();
        let printed = printed::all();
        for (length, side) in (0..=sample.len()).flat_map(|length| Side::BOTH.map(|side| (length, side))) {
            self.fence(&sample[..length], side);
        }
        for side in Side::BOTH {
            printed.iter().for_each(|printed| self.fence(&printed.octets, side));
            let begun: [&[u8]; 9] = [
                &[0x6b],
                &[0x6b, 0x81],
                &[0x6b, 0x82, 0x01],
                &[0x6b, 0x01, 0x5c],
                &[0x6b, 0x02, 0x5c, 0x81],
                &[0x6b, 0x03, 0x5c, 0x01, 0x5f],
                &[0x6b, 0x03, 0x5c, 0x00, 0x5f],
                &[0x6b, 0x04, 0x5c, 0x00, 0x5f, 0x0e],
                &[0x6b, 0x06, 0x5c, 0x00, 0x5f, 0x0e, 0x82, 0x01],
            ];
            begun.iter().for_each(|octets| self.fence(octets, side));
        }
        asked().for_each(|tag| self.watch(ReadDetail { file: Lent::absent(), tag }));
    }

    fn fence(&mut self, octets: &[u8], side: Side) {
        for tag in [FULL_NAME, OTHER_NAMES] {
            self.watch(ReadDetail { file: Lent::fenced(octets, side), tag: u32::from(tag) });
        }
    }

    /// Any files with damage of any kind at one to three places.
    fn drawn(&mut self) {
        for turn in 0..6_000 {
            let (tags, mut lent) = drawn(&mut self.seeds);
            (0..=turn % 3).for_each(|_| damage::drawn(&mut self.seeds, &mut lent, &tags));
            self.one(&lent.encoded());
        }
    }

    /// One to four octets changed, taken away or put in, anywhere.
    fn octets_drawn(&mut self) {
        for turn in 0..6_000 {
            let mut lent = drawn(&mut self.seeds).1.encoded();
            for _ in 0..=turn % 4 {
                let (place, octet) = (self.seeds.below(lent.len()), self.seeds.number() as u8);
                let octet =
                    self.seeds.pick(&[octet, octet, 0x00, 0x0e, 0x0f, 0x42, 0x5c, 0x5f, 0x6b, 0x81, 0x82, 0xa0]);
                match self.seeds.below(4) {
                    0 => lent.insert(place, octet),
                    1 if lent.len() > 1 => drop(lent.remove(place)),
                    _ => lent[place] = octet,
                }
            }
            self.one(&lent);
        }
    }

    /// Any octets, and octets of few kinds: lent as they are, in the file, behind a list, as a list and in the other names.
    fn random(&mut self) {
        const KINDS: [u8; 8] = [0x5f, 0x0e, 0x0f, 0x10, 0x00, 0xa0, 0x5c, 0x01];
        for length in (0..200).chain([1_000, 10_000, 60_000]) {
            let any = self.seeds.octets(length);
            let near: Vec<u8> = any.iter().map(|octet| KINDS[usize::from(octet % 8)]).collect();
            self.together(|trials| {
                for octets in [any, near] {
                    trials.one(&octets);
                    trials.one(&tlv(&FILE, &octets));
                    trials.one(&tlv(&FILE, &[&tlv(&LIST, &[0x5f, 0x0e]), &octets[..]].concat()));
                    let list = tlv(&LIST, &octets[..octets.len().min(26)]);
                    trials.one(&tlv(&FILE, &[list, tlv(&TEMPLATE, &octets)].concat()));
                }
            });
        }
    }

    /// A small file with other names between two other details.
    fn sample(&mut self) -> Vec<u8> {
        let names = [0x02, 0x01, 0x01, 0x5f, 0x0f, 0x02, b'A', b'B'];
        let tags = [FULL_NAME, OTHER_NAMES, 0x5f42];
        let values: [&[u8]; 3] = [&self.seeds.octets(20), &names, b""];
        lent(&tags, tags.iter().zip(values).map(|(tag, value)| with_value(*tag, value)).collect()).encoded()
    }

    fn any_tag(&mut self) -> u32 {
        let all: Vec<u32> = asked().collect();
        self.seeds.pick(&all)
    }

    /// Asked for any of the tags.
    fn one(&mut self, octets: &[u8]) {
        let tag = self.any_tag();
        self.of(octets, tag);
    }

    fn of(&mut self, octets: &[u8], tag: u32) {
        let file = self.lent(octets);
        self.hold(ReadDetail { file, tag });
    }

    /// Held to an answer that was worked out without the reader.
    fn told(&mut self, octets: &[u8], tag: u32, told: Detail) {
        let file = self.lent(octets);
        self.count(trials::held_to(&Outcome::of(told), ReadDetail { file, tag }));
    }
}

/// What one thread tries.
fn alone(seed: u64) -> Vec<Vec<String>> {
    let mut seeds = Seeds::new(seed);
    let case = |_| {
        let (tags, lent) = drawn(&mut seeds);
        let tag = tags.first().map_or(0, |tag| u32::from(*tag));
        trials::held(ReadDetail { file: Lent::new(&lent.encoded(), seeds.below(64)), tag })
    };
    (0..150).map(case).collect()
}
