//! The cases of writing a text from an entry.

use crate::border;
use crate::cases::trials::{Call, Trials};
use crate::cases::{data, entries, octets, old};
use crate::guard::{Lent, Side};
use crate::report::{hex, Tally};
use paper::answer::{Answer, Outcome};
use paper::form::Form;
use paper::{calls, entry};
use shared::records;

/// As long as the longest text.
const ROOM: usize = 90;

pub fn compare(seed: u64) -> Tally {
    let mut trials = Trials::<WriteText>::new(seed);
    trials.specimens();
    trials.rooms();
    trials.sound();
    trials.careless();
    trials.lengths();
    trials.data();
    trials.old();
    trials.flipped();
    trials.octets();
    trials.cut();
    trials.more();
    trials.fenced();
    trials.random();
    trials.tally
}

struct WriteText {
    entry: Lent,
    text: Lent,
}

impl Call for WriteText {
    const NAME: &'static str = "write_text";
    type Answer = Answer;

    fn expected(&self) -> Outcome {
        calls::write_text(self.entry.content(), self.text.length())
    }

    fn made(&mut self) -> Answer {
        border::write_text(&mut self.entry, &mut self.text)
    }

    fn inputs(&self) -> Vec<&Lent> {
        vec![&self.entry]
    }

    fn output(&self) -> Option<&Lent> {
        Some(&self.text)
    }

    fn about(&self) -> Vec<String> {
        let lent = self.entry.content_before();
        let first = format!("write_text of {} octets into {}", lent.len(), self.text.length());
        vec![first, format!("entry:    {}", hex(lent))]
    }
}

impl Trials<WriteText> {
    /// The bits hold houses up to 32,767, and 0, which is none.
    fn specimens(&mut self) {
        for house in [0, 1, 32_767] {
            entries::of_specimens(house).iter().for_each(|entry| self.with_room(entry, ROOM));
        }
    }

    /// Every output length up to one past the need, with an entry and with none.
    fn rooms(&mut self) {
        for form in Form::ALL {
            let sound = entry::write(1, &records::sound_of(&mut self.seeds, form));
            for room in 0..=form.layout().length + 1 {
                self.with_room(&sound, room);
                self.with_room(&sound[1..], room);
            }
        }
        let (none, text) = (Lent::absent(), self.room(ROOM));
        self.watch(WriteText { entry: none, text });
        let sound = entries::sound(&mut self.seeds);
        self.watch(WriteText { entry: Lent::new(&sound, 0), text: Lent::absent() });
    }

    fn sound(&mut self) {
        for _ in 0..2_000 {
            let entry = entries::sound(&mut self.seeds);
            self.case(&entry);
        }
    }

    fn careless(&mut self) {
        for _ in 0..4_000 {
            let entry = entries::careless(&mut self.seeds);
            self.case(&entry);
        }
    }

    /// Numbers, names and data of every length that fits the bits, in every form.
    fn lengths(&mut self) {
        entries::of_every_length(&mut self.seeds).iter().for_each(|entry| self.with_room(entry, ROOM));
    }

    /// Data of every length that there is room for, and fillers anywhere in it.
    fn data(&mut self) {
        for record in data::of_every_length(&mut self.seeds) {
            self.with_room(&entry::write(1, &record), ROOM);
        }
    }

    /// Entries as they were before they had data.
    fn old(&mut self) {
        old::entries(&mut self.seeds).iter().for_each(|entry| self.with_room(entry, ROOM));
    }

    /// Each bit of an entry.
    fn flipped(&mut self) {
        for sound in entries::some(&mut self.seeds) {
            self.together(|trials| {
                (0..8 * sound.len()).for_each(|bit| trials.with_room(&octets::flipped(&sound, bit), ROOM));
            });
        }
    }

    /// Each octet of an entry, with each value.
    fn octets(&mut self) {
        for sound in entries::of_specimens(1) {
            (0..sound.len()).for_each(|at| {
                self.together(|trials| {
                    octets::with_each(&sound, at).iter().for_each(|entry| trials.with_room(entry, ROOM));
                });
            });
        }
    }

    fn cut(&mut self) {
        for sound in entries::some(&mut self.seeds) {
            self.together(|trials| (0..sound.len()).for_each(|length| trials.case(&sound[..length])));
        }
    }

    /// Anything behind the entry, be it an octet of zeros or an entry.
    fn more(&mut self) {
        for _ in 0..40 {
            let (first, second) = (entries::sound(&mut self.seeds), entries::sound(&mut self.seeds));
            self.case(&[&first[..], &second].concat());
            self.case(&[&first[..], &[0]].concat());
            self.case(&[&first[..], &[0xff]].concat());
            self.case(&[&[0], &first[..]].concat());
        }
    }

    /// Nothing is read past either end of an entry, be it whole or cut.
    fn fenced(&mut self) {
        for _ in 0..4 {
            let sound = entries::sound(&mut self.seeds);
            for (length, side) in (0..=sound.len()).flat_map(|length| Side::BOTH.map(|side| (length, side))) {
                let entry = Lent::fenced(&sound[..length], side);
                let text = Lent::fenced(&self.seeds.octets(ROOM), side);
                self.watch(WriteText { entry, text });
            }
        }
    }

    fn random(&mut self) {
        for length in (0..200).chain([1_000, 65_536]) {
            let octets = self.seeds.octets(length);
            self.case(&octets);
            self.case(&vec![0; length]);
        }
    }

    /// A room of the seed's choice.
    fn case(&mut self, entry: &[u8]) {
        let room = self.seeds.pick(&[ROOM, ROOM, ROOM, 200, 89, 88, 87, 72, 71, 0]);
        self.with_room(entry, room);
    }

    fn with_room(&mut self, entry: &[u8], room: usize) {
        let (entry, text) = (self.lent(entry), self.room(room));
        self.hold(WriteText { entry, text });
    }
}
