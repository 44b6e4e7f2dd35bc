//! The cases of the store's nightly list.

use crate::border;
use crate::cases::lists::{damaged, followed, places, sound, Damage, Said};
use crate::cases::trials::{self, Call, Trials};
use crate::cases::{entries, octets};
use crate::guard::{Lent, Side};
use crate::report::{hex_shown, Tally};
use paper::answer::{Answer, Outcome};
use paper::list::KEY;
use paper::refusal::Refusal;
use paper::{calls, entry};
use shared::night::{self, LONG};
use shared::seeds::Seeds;

pub fn compare(seed: u64) -> Tally {
    let mut trials = Trials::<LookOver>::new(seed);
    trials.sound();
    trials.damage();
    trials.pairs();
    trials.key_octets();
    trials.any_order();
    trials.careless();
    trials.cut();
    trials.flipped();
    trials.fenced();
    trials.long();
    trials.random();
    trials.threads(alone);
    trials.tally
}

struct LookOver {
    list: Lent,
}

impl Call for LookOver {
    const NAME: &'static str = "look_over";
    type Answer = Answer;

    fn expected(&self) -> Outcome {
        Outcome::of(calls::look_over(self.list.content()))
    }

    fn made(&mut self) -> Answer {
        border::look_over(&mut self.list)
    }

    fn inputs(&self) -> Vec<&Lent> {
        vec![&self.list]
    }

    fn output(&self) -> Option<&Lent> {
        None
    }

    fn about(&self) -> Vec<String> {
        let lent = self.list.content_before();
        vec![format!("look_over of {} octets", lent.len()), format!("list:     {}", hex_shown(lent))]
    }
}

impl Trials<LookOver> {
    fn sound(&mut self) {
        for count in (0..=12).chain([100, 1_000]).flat_map(|count| [count; 5]) {
            let entries = night::entries(&mut self.seeds, count);
            self.said(sound(&entries));
        }
    }

    /// Each kind at each place, and octets behind the last.
    fn damage(&mut self) {
        for count in [1, 2, 3, 7, 30].into_iter().flat_map(|count| [count; 3]) {
            let entries = night::entries(&mut self.seeds, count);
            for at in 0..count {
                Damage::ALL.into_iter().filter_map(|damage| damaged(&entries, damage, at)).for_each(|s| self.said(s));
            }
            followed(&entries).into_iter().for_each(|said| self.said(said));
        }
    }

    /// Any two kinds at any two places, of which the first from the left is told, and at one entry 18 before 23.
    fn pairs(&mut self) {
        let entries = night::entries(&mut self.seeds, 5);
        for (one, at) in Damage::ALL.into_iter().flat_map(|one| (1..5).map(move |at| (one, at))) {
            self.together(|trials| {
                for (other, place) in Damage::ALL.into_iter().flat_map(|other| (1..5).map(move |place| (other, place)))
                {
                    let mut lent = entries.clone();
                    // Entries change places while they are sound, and the list is cut when all else is wrong.
                    let mut both = [(one, at), (other, place)];
                    both.sort_by_key(|(damage, _)| (!damage.is_of_order(), *damage == Damage::Cut));
                    for (damage, at) in both {
                        if at < lent.len() {
                            damage.put(&mut lent, at);
                        }
                    }
                    trials.of(&lent.concat());
                }
            });
        }
    }

    /// Each octet of an entry with every value that leaves it one, in rising order and exchanged: where it is one of the key's,
    /// the two differ in nothing else; where it stands behind the key, the keys are equal.
    fn key_octets(&mut self) {
        for (sound, at) in
            entries::of_specimens(16_383).iter().flat_map(|sound| (0..sound.len()).map(move |at| (sound, at)))
        {
            let is_whole =
                |octets: &Vec<u8>| entry::read(octets).map_or(false, |(_, _, length)| length == octets.len());
            let values: Vec<Vec<u8>> = octets::with_each(sound, at).into_iter().filter(is_whole).collect();
            self.together(|trials| {
                for (low, high) in neighbours_and_ends(&values) {
                    let refused = |first: &[u8]| Answer::refused(Refusal::at(23, first.len()));
                    let rising = if at < KEY { Answer::not_refused(2) } else { refused(low) };
                    trials.said(Said { list: [&low[..], high].concat(), answer: rising });
                    trials.said(Said { list: [&high[..], low].concat(), answer: refused(high) });
                    trials.said(Said { list: [&high[..], high].concat(), answer: refused(high) });
                }
            });
        }
    }

    /// Entries of any houses as they are drawn, and in the order of their keys.
    fn any_order(&mut self) {
        for turn in 0..1_000 {
            let mut entries: Vec<Vec<u8>> = (0..turn % 8).map(|_| entries::sound(&mut self.seeds)).collect();
            self.together(|trials| {
                trials.of(&entries.concat());
                entries.sort();
                trials.of(&entries.concat());
                entries.reverse();
                trials.of(&entries.concat());
            });
        }
    }

    /// An entry among others, one of its fields against its rule or not.
    fn careless(&mut self) {
        for turn in 0..1_000 {
            let mut lent = night::entries(&mut self.seeds, 1 + turn % 6);
            let (at, careless) = (self.seeds.below(lent.len()), entries::careless(&mut self.seeds));
            self.together(|trials| {
                lent[at] = careless;
                trials.of(&lent.concat());
                lent.sort();
                trials.of(&lent.concat());
            });
        }
    }

    fn cut(&mut self) {
        let list = night::entries(&mut self.seeds, 6).concat();
        for length in 0..=list.len() {
            self.together(|trials| {
                trials.of(&list[..length]);
                // And its end alone.
                trials.of(&list[length..]);
                trials.of(&[&list[..length], &list[(length + 1).min(list.len())..]].concat());
            });
        }
    }

    /// Each bit of a list of three.
    fn flipped(&mut self) {
        for _ in 0..6 {
            let list = night::entries(&mut self.seeds, 3).concat();
            for place in 0..list.len() {
                self.together(|trials| {
                    (8 * place..8 * place + 8).for_each(|bit| trials.of(&octets::flipped(&list, bit)));
                });
            }
        }
    }

    /// Nothing is read past either end, wherever a list is cut, nor the pointer of an empty range.
    fn fenced(&mut self) {
        let list = night::entries(&mut self.seeds, 4).concat();
        for (length, side) in (0..=list.len()).flat_map(|length| Side::BOTH.map(|side| (length, side))) {
            self.watch(LookOver { list: Lent::fenced(&list[..length], side) });
        }
        self.watch(LookOver { list: Lent::absent() });
    }

    /// 100,000 entries: sound, and damaged at the first, in the middle and at the last. Only the sound list is held to the
    /// independent implementation too, which takes more than twice as long; what is said of the others is held to that for
    /// shorter lists.
    fn long(&mut self) {
        let entries = night::entries(&mut self.seeds, LONG);
        self.said(sound(&entries));
        self.of(&entries.concat());
        let kinds = [Damage::Sex, Damage::Renamed, Damage::Exchanged];
        for (damage, at) in kinds.into_iter().zip(places(LONG)) {
            damaged(&entries, damage, at).into_iter().for_each(|said| self.said(said));
        }
        damaged(&entries, Damage::Cut, LONG - 1).into_iter().for_each(|said| self.said(said));
        self.said(followed(&entries).remove(0));
    }

    fn random(&mut self) {
        for _ in 0..1_000 {
            let length = self.seeds.below(300);
            let octets = self.seeds.octets(length);
            self.of(&octets);
        }
    }

    fn of(&mut self, octets: &[u8]) {
        let list = self.lent(octets);
        self.hold(LookOver { list });
    }

    fn said(&mut self, said: Said) {
        let list = self.lent(&said.list);
        self.count(trials::held_to(&Outcome::of(said.answer), LookOver { list }));
    }
}

/// Each with the next, and the first with the last, between which the highest bit may change.
fn neighbours_and_ends(values: &[Vec<u8>]) -> impl Iterator<Item = (&Vec<u8>, &Vec<u8>)> {
    let ends = values.first().zip(values.last()).filter(|(first, last)| first != last);
    values.windows(2).map(|pair| (&pair[0], &pair[1])).chain(ends)
}

/// What one thread tries.
fn alone(seed: u64) -> Vec<Vec<String>> {
    let mut seeds = Seeds::new(seed);
    let case = |turn: usize| {
        let mut entries = night::entries(&mut seeds, 2 + turn % 5);
        let at = 1 + seeds.below(entries.len() - 1);
        if turn % 2 == 0 {
            seeds.pick(&Damage::ALL).put(&mut entries, at);
        }
        trials::held(LookOver { list: Lent::new(&entries.concat(), seeds.below(64)) })
    };
    (0..150).map(case).collect()
}
