//! The cases of a house's entries in the store's nightly list.

use crate::border;
use crate::cases::lists::{asked, damaged, followed, house_of, places, stretch_of, Damage};
use crate::cases::trials::{self, Call, Trials};
use crate::cases::{entries, octets};
use crate::guard::{Lent, Side};
use crate::report::{hex_shown, Tally};
use paper::answer::{Outcome, Stretch};
use paper::list;
use shared::night::{self, HOUSES, LONG};
use shared::seeds::Seeds;

pub fn compare(seed: u64) -> Tally {
    let mut trials = Trials::<HouseEntries>::new(seed);
    trials.of_some_houses();
    trials.other_houses();
    trials.refused();
    trials.any_houses();
    trials.cut();
    trials.flipped();
    trials.fenced();
    trials.long();
    trials.threads(alone);
    trials.tally
}

struct HouseEntries {
    list: Lent,
    house: u32,
}

impl Call for HouseEntries {
    const NAME: &'static str = "house_entries";
    type Answer = Stretch;

    fn expected(&self) -> Outcome<Stretch> {
        Outcome::of(list::house_entries(self.list.content(), self.house))
    }

    fn made(&mut self) -> Stretch {
        border::house_entries(&mut self.list, self.house)
    }

    fn inputs(&self) -> Vec<&Lent> {
        vec![&self.list]
    }

    fn output(&self) -> Option<&Lent> {
        None
    }

    fn about(&self) -> Vec<String> {
        let lent = self.list.content_before();
        let first = format!("house_entries of house {}, of {} octets", self.house, lent.len());
        vec![first, format!("list:     {}", hex_shown(lent))]
    }
}

impl Trials<HouseEntries> {
    /// Lists of every choice among the six houses, none at all among them, so that each is absent before, between and behind
    /// the others; a house has one entry to some.
    fn of_some_houses(&mut self) {
        for (choice, count) in (0..1 << HOUSES.len()).flat_map(|choice| [6, 20].map(|count| (choice, count))) {
            let chosen = |entry: &Vec<u8>| HOUSES.iter().position(|house| *house == house_of(entry));
            let mut entries = night::entries(&mut self.seeds, count);
            entries.retain(|entry| chosen(entry).map_or(false, |at| choice >> at & 1 == 1));
            let list = entries.concat();
            self.together(|trials| {
                asked().for_each(|house| trials.said(&list, house, stretch_of(&entries, house)));
                trials.joined(&list, HOUSES);
            });
        }
    }

    /// Every eleventh number of fifteen bits, and all powers of two with their neighbours, of a list of two houses; what is not
    /// theirs has nothing.
    fn other_houses(&mut self) {
        let entries = night::entries(&mut self.seeds, 2);
        let list = entries.concat();
        let powers = (0..32).flat_map(|power| [(1_u32 << power) - 1, 1 << power, (1 << power) + 1]);
        let houses: Vec<u32> = powers.chain((0..1 << 15).step_by(11)).collect();
        for some in houses.chunks(100) {
            self.together(|trials| {
                some.iter().for_each(|house| trials.said(&list, *house, stretch_of(&entries, *house)));
            });
        }
    }

    /// Of a refused list nobody has anything, wherever it is refused.
    fn refused(&mut self) {
        for count in [1, 2, 9] {
            let entries = night::entries(&mut self.seeds, count);
            let places = (0..count).flat_map(|at| Damage::ALL.map(|damage| (damage, at)));
            let lists = places.filter_map(|(damage, at)| damaged(&entries, damage, at));
            for said in lists.chain(followed(&entries)) {
                self.together(|trials| asked().for_each(|house| trials.said(&said.list, house, Stretch::EMPTY)));
            }
        }
    }

    /// Entries of any houses, often the same, as they are drawn and in the order of their keys.
    fn any_houses(&mut self) {
        for turn in 0..250 {
            let mut entries: Vec<Vec<u8>> = (0..turn % 8).map(|_| entries::sound(&mut self.seeds)).collect();
            if turn % 2 == 0 {
                // Of houses 0 to 7, of which 0 is none.
                entries.iter_mut().for_each(|entry| (entry[0], entry[1]) = (0, entry[1] & 0x0f));
            }
            self.together(|trials| {
                let mut houses: Vec<u32> = entries.iter().map(|entry| house_of(entry)).chain(0..9).collect();
                houses.sort();
                houses.dedup();
                for lent in [entries.concat(), sorted(&entries).concat()] {
                    houses.iter().for_each(|house| trials.of(&lent, *house));
                    if list::read(&lent).is_ok() {
                        trials.joined(&lent, houses.iter().copied());
                    }
                }
            });
        }
    }

    fn cut(&mut self) {
        let list = night::entries(&mut self.seeds, 6).concat();
        for length in 0..=list.len() {
            self.together(|trials| HOUSES.iter().for_each(|house| trials.of(&list[..length], *house)));
        }
    }

    /// Each bit of a list of three, asked for the house that is written there now.
    fn flipped(&mut self) {
        let list = night::entries(&mut self.seeds, 3).concat();
        for bit in 0..8 * list.len() {
            let lent = octets::flipped(&list, bit);
            self.together(|trials| [house_of(&lent), 1, 2, 300].iter().for_each(|house| trials.of(&lent, *house)));
        }
    }

    /// Nothing is read past either end, wherever a list is cut, nor the pointer of an empty range.
    fn fenced(&mut self) {
        let list = night::entries(&mut self.seeds, 4).concat();
        for (length, side) in (0..=list.len()).flat_map(|length| Side::BOTH.map(|side| (length, side))) {
            self.watch(HouseEntries { list: Lent::fenced(&list[..length], side), house: 2 });
        }
        asked().for_each(|house| self.watch(HouseEntries { list: Lent::absent(), house }));
    }

    /// 100,000 entries, held to what is said of them: see the other call's.
    fn long(&mut self) {
        let entries = night::entries(&mut self.seeds, LONG);
        let list = entries.concat();
        for house in HOUSES.into_iter().chain([0, 301, 32_768]) {
            self.said(&list, house, stretch_of(&entries, house));
        }
        for at in places(LONG) {
            let said = damaged(&entries, Damage::Spare, at).expect("a list");
            self.said(&said.list, 300, Stretch::EMPTY);
        }
    }

    /// What the houses are handed, in the order of houses, is the list.
    fn joined(&mut self, list: &[u8], houses: impl IntoIterator<Item = u32>) {
        let mut joined: Vec<u8> = Vec::new();
        for house in houses {
            let Stretch { start, length } = border::house_entries(&mut self.lent(list), house);
            joined.extend(&list[start as usize..][..length as usize]);
        }
        let differs = vec![format!("the stretches, joined, are not the list: {}", hex_shown(list))];
        self.count(if joined == list { Vec::new() } else { differs });
    }

    fn of(&mut self, octets: &[u8], house: u32) {
        let list = self.lent(octets);
        self.hold(HouseEntries { list, house });
    }

    fn said(&mut self, octets: &[u8], house: u32, stretch: Stretch) {
        let list = self.lent(octets);
        self.count(trials::held_to(&Outcome::of(stretch), HouseEntries { list, house }));
    }
}

fn sorted(entries: &[Vec<u8>]) -> Vec<Vec<u8>> {
    let mut sorted = entries.to_vec();
    sorted.sort();
    sorted
}

/// What one thread tries.
fn alone(seed: u64) -> Vec<Vec<String>> {
    let mut seeds = Seeds::new(seed);
    let case = |turn: usize| {
        let list = night::entries(&mut seeds, turn % 9).concat();
        trials::held(HouseEntries { list: Lent::new(&list, seeds.below(64)), house: HOUSES[turn % HOUSES.len()] })
    };
    (0..150).map(case).collect()
}
