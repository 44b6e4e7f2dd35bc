//! The cases of an entry that is opened: its house and every field of its record.

use crate::border;
use crate::cases::trials::{Call, Trials};
use crate::cases::{data, entries, octets, old};
use crate::guard::{Lent, Side};
use crate::report::{hex_shown, Tally};
use paper::answer::Outcome;
use paper::form::Form;
use paper::opened::Opened;
use paper::record::Record;
use paper::{calls, entry};
use shared::records;

pub fn compare(seed: u64) -> Tally {
    let mut trials = Trials::<OpenEntry>::new(seed);
    trials.specimens();
    trials.none();
    trials.sound();
    trials.houses();
    trials.careless();
    trials.lengths();
    trials.data();
    trials.old();
    trials.spare_bits();
    trials.flipped();
    trials.octets();
    trials.cut();
    trials.more();
    trials.fenced();
    trials.random();
    trials.tally
}

struct OpenEntry {
    entry: Lent,
}

impl Call for OpenEntry {
    const NAME: &'static str = "open_entry";
    type Answer = Opened;

    fn expected(&self) -> Outcome<Opened> {
        Outcome::of(calls::open_entry(self.entry.content()))
    }

    fn made(&mut self) -> Opened {
        border::open_entry(&mut self.entry)
    }

    fn inputs(&self) -> Vec<&Lent> {
        vec![&self.entry]
    }

    fn output(&self) -> Option<&Lent> {
        None
    }

    fn about(&self) -> Vec<String> {
        let lent = self.entry.content_before();
        vec![format!("open_entry of {} octets", lent.len()), format!("entry:    {}", hex_shown(lent))]
    }
}

impl Trials<OpenEntry> {
    /// The bits hold houses up to 32,767, and 0, which is none.
    fn specimens(&mut self) {
        for house in [0, 1, 32_767] {
            entries::of_specimens(house).iter().for_each(|entry| self.case(entry));
        }
    }

    fn none(&mut self) {
        self.case(&[]);
        self.watch(OpenEntry { entry: Lent::absent() });
    }

    fn sound(&mut self) {
        for _ in 0..4_000 {
            let entry = entries::sound(&mut self.seeds);
            self.case(&entry);
        }
    }

    /// Every number that the bits of a house can say, in every form.
    fn houses(&mut self) {
        for form in Form::ALL {
            let record = records::sound_of(&mut self.seeds, form);
            self.together(|trials| (0..=32_767).for_each(|house| trials.case(&entry::write(house, &record))));
        }
    }

    /// One field against its rule.
    fn careless(&mut self) {
        for _ in 0..4_000 {
            let entry = entries::careless(&mut self.seeds);
            self.case(&entry);
        }
    }

    /// Numbers, names and data of every length that fits the bits, in every form.
    fn lengths(&mut self) {
        entries::of_every_length(&mut self.seeds).iter().for_each(|entry| self.case(entry));
    }

    /// Data of every length that there is room for, and fillers anywhere in it.
    fn data(&mut self) {
        for record in data::of_every_length(&mut self.seeds) {
            self.case(&entry::write(1, &record));
        }
    }

    /// Entries as they were before they had data.
    fn old(&mut self) {
        old::entries(&mut self.seeds).iter().for_each(|entry| self.case(entry));
    }

    /// Behind a name and data of every length, all that the spare bits can say.
    fn spare_bits(&mut self) {
        let record = records::bare_of(&mut self.seeds, Form::MrvA);
        for (length, data) in (1..=39).flat_map(|length| (0..=16).map(move |data| (length, data))) {
            let (name, data) = (vec![b'N'; length], vec![b'0'; data]);
            let bits = 283 + 6 * (name.len() + data.len());
            let sound = entry::write(1, &Record { name, data, ..record.clone() });
            let spare = 8 * sound.len() - bits;
            self.together(|trials| {
                for said in 0..1 << spare {
                    let mut entry = sound.clone();
                    *entry.last_mut().unwrap() |= said;
                    trials.case(&entry);
                }
            });
        }
    }

    /// Each bit of an entry.
    fn flipped(&mut self) {
        for sound in entries::some(&mut self.seeds) {
            self.together(|trials| (0..8 * sound.len()).for_each(|bit| trials.case(&octets::flipped(&sound, bit))));
        }
    }

    /// Each octet of an entry, with each value.
    fn octets(&mut self) {
        for sound in entries::of_specimens(1) {
            (0..sound.len()).for_each(|at| {
                self.together(|trials| octets::with_each(&sound, at).iter().for_each(|entry| trials.case(entry)));
            });
        }
    }

    fn cut(&mut self) {
        for sound in entries::some(&mut self.seeds) {
            self.together(|trials| (0..sound.len()).for_each(|length| trials.case(&sound[..length])));
        }
    }

    /// Anything before or behind the entry, be it an octet or an entry.
    fn more(&mut self) {
        for _ in 0..100 {
            let (first, second) = (entries::sound(&mut self.seeds), entries::sound(&mut self.seeds));
            self.case(&[&first[..], &second].concat());
            self.case(&[&first[..], &first].concat());
            self.case(&[&first[..], &[0]].concat());
            self.case(&[&first[..], &[0xff]].concat());
            self.case(&[&[0], &first[..]].concat());
        }
    }

    /// Nothing is read past either end of an entry, be it whole or cut.
    fn fenced(&mut self) {
        for sound in entries::some(&mut self.seeds) {
            self.together(|trials| {
                for (length, side) in (0..=sound.len()).flat_map(|length| Side::BOTH.map(|side| (length, side))) {
                    trials.watch(OpenEntry { entry: Lent::fenced(&sound[..length], side) });
                }
            });
        }
    }

    fn random(&mut self) {
        for length in (0..200).chain([1_000, 65_536]) {
            let octets = self.seeds.octets(length);
            self.case(&octets);
            self.case(&vec![0; length]);
        }
    }

    fn case(&mut self, entry: &[u8]) {
        let entry = self.lent(entry);
        self.hold(OpenEntry { entry });
    }
}
