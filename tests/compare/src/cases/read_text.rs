//! The cases of reading a text to an entry.

use crate::border;
use crate::cases::houses::{house, HOUSES};
use crate::cases::trials::{Call, Trials};
use crate::cases::visas::{visa, Wrong};
use crate::cases::{data, digits, personal};
use crate::guard::{Lent, Side};
use crate::report::{hex, Tally};
use paper::answer::{Answer, Outcome};
use paper::field::{Check, FILLER};
use paper::form::Form;
use paper::{calls, entry, specimens, text};
use shared::records::{self, ALPHABET};
use std::ops::Range;

/// What damage puts into a place: of each kind of character, and the neighbours of each kind that are none.
const DAMAGE: &[u8; 20] = b"<019AFMPVZ/:;=@[a \0\xff";
/// As long as the longest entry.
const ROOM: usize = entry::LONGEST;

pub fn compare(seed: u64) -> Tally {
    let mut trials = Trials::<ReadText>::new(seed);
    trials.specimens();
    trials.lengths();
    trials.rooms_and_houses();
    trials.orders();
    trials.fenced();
    trials.sound();
    trials.one_place();
    trials.two_places();
    trials.codes();
    trials.states();
    trials.sexes();
    trials.dates();
    trials.optional();
    trials.data();
    trials.damaged_data();
    trials.long_numbers();
    trials.wrong_digits();
    trials.personal_checks();
    trials.visas();
    trials.visa_codes();
    trials.random();
    trials.tally
}

struct ReadText {
    house: u32,
    text: Lent,
    entry: Lent,
}

impl Call for ReadText {
    const NAME: &'static str = "read_text";
    type Answer = Answer;

    fn expected(&self) -> Outcome {
        calls::read_text(self.house, self.text.content(), self.entry.length())
    }

    fn made(&mut self) -> Answer {
        border::read_text(self.house, &mut self.text, &mut self.entry)
    }

    fn inputs(&self) -> Vec<&Lent> {
        vec![&self.text]
    }

    fn output(&self) -> Option<&Lent> {
        Some(&self.entry)
    }

    fn about(&self) -> Vec<String> {
        let lent = self.text.content_before();
        vec![
            format!("read_text, house {}, of {} octets into {}", self.house, lent.len(), self.entry.length()),
            format!("text:     {}", hex(lent)),
            format!("          {}", String::from_utf8_lossy(lent).escape_default()),
        ]
    }
}

impl Trials<ReadText> {
    fn specimens(&mut self) {
        for text in specimens::ALL {
            HOUSES.iter().for_each(|house| self.with_room(*house, text.as_bytes(), ROOM));
        }
    }

    /// Every length up to well past the longest form, and a null pointer for the empty text.
    fn lengths(&mut self) {
        for length in (0..=200).chain([65_535, 65_536, 1_000_000]) {
            for text in [specimens::T3, specimens::ERIKSSON_MRV_A, specimens::ERIKSSON_MRV_B] {
                let text: Vec<u8> = text.bytes().cycle().take(length).collect();
                self.case(&text);
            }
        }
        let (none, entry) = (Lent::absent(), self.room(ROOM));
        self.watch(ReadText { house: 1, text: none, entry });
        for house in HOUSES {
            let text = self.lent(specimens::T3.as_bytes());
            self.watch(ReadText { house, text, entry: Lent::absent() });
        }
    }

    /// Every output length up to one past the need, with every house.
    fn rooms_and_houses(&mut self) {
        for form in Form::ALL.into_iter().flat_map(|form| [form; 10]) {
            let record = records::sound_of(&mut self.seeds, form);
            let text = text::write(&record);
            let need = (283 + 6 * (record.name.len() + record.data.len()) + 7) / 8;
            self.together(|trials| {
                for (room, house) in (0..=need + 1).flat_map(|room| HOUSES.map(|house| (room, house))) {
                    trials.with_room(house, &text, room);
                }
            });
        }
    }

    /// The reader's refusals go before the house's, and that before the output's.
    fn orders(&mut self) {
        let whole = specimens::T3.as_bytes();
        let damaged = |place: usize| [&whole[..place], b"/", &whole[place + 1..]].concat();
        let wrong_digit = [&whole[..87], b"1"].concat();
        for text in [whole.to_vec(), whole[1..].to_vec(), damaged(0), damaged(87), wrong_digit] {
            for (house, room) in HOUSES.into_iter().flat_map(|house| [0, 42, 43, ROOM].map(|room| (house, room))) {
                self.with_room(house, &text, room);
            }
        }
    }

    /// Nothing is read past either end of a text, whatever its length.
    fn fenced(&mut self) {
        let documents = [specimens::T3, specimens::LONG_TD1, specimens::LONG_TD2];
        let texts = documents.into_iter().chain([specimens::ERIKSSON_MRV_A, specimens::ERIKSSON_MRV_B]);
        for text in
            texts.map(str::as_bytes).into_iter().flat_map(|text| (0..=text.len()).map(move |length| &text[..length]))
        {
            self.together(|trials| {
                for (side, room) in Side::BOTH.into_iter().flat_map(|side| [0, 43, ROOM].map(|room| (side, room))) {
                    let text = Lent::fenced(text, side);
                    let entry = Lent::fenced(&trials.seeds.octets(room), side);
                    trials.watch(ReadText { house: 1, text, entry });
                }
            });
        }
    }

    fn sound(&mut self) {
        for _ in 0..2_000 {
            let record = records::sound(&mut self.seeds);
            self.case(&text::write(&record));
        }
    }

    /// A place damaged in each way, with the check digits as they were and with digits that fit the damage.
    fn one_place(&mut self) {
        for form in Form::ALL.into_iter().flat_map(|form| [form; 3]) {
            let record = records::sound_of(&mut self.seeds, form);
            let sound = text::write(&record);
            for place in 0..sound.len() {
                self.together(|trials| {
                    for character in DAMAGE {
                        let mut damaged = sound.clone();
                        damaged[place] = *character;
                        trials.case_and_repaired(form, damaged, record.number.len());
                    }
                });
            }
        }
    }

    /// Two damaged places: the first refusal in order is the one that is given.
    fn two_places(&mut self) {
        for _ in 0..3_000 {
            let record = records::sound(&mut self.seeds);
            let mut damaged = text::write(&record);
            for _ in 0..2 {
                let place = self.seeds.below(damaged.len());
                damaged[place] = self.seeds.pick(ALPHABET);
            }
            self.together(|trials| trials.case_and_repaired(record.form, damaged, record.number.len()));
        }
    }

    /// A text as it is, and with the check digits that it should have for a number of so many characters.
    fn case_and_repaired(&mut self, form: Form, mut text: Vec<u8>, number: usize) {
        self.case(&text);
        text::repair(form, &mut text, number.saturating_sub(9));
        self.case(&text);
    }

    /// A field of a short text replaced, and the check digits made to fit.
    fn replaced(&mut self, form: Form, field: Range<usize>, characters: &[u8]) {
        let mut text = specimens::short(form).as_bytes().to_vec();
        text[field].copy_from_slice(characters);
        text::repair(form, &mut text, 0);
        self.with_room(1, &text, ROOM);
    }

    /// Every pair of characters.
    fn codes(&mut self) {
        for (form, first) in Form::ALL.into_iter().flat_map(|form| ALPHABET.map(|first| (form, first))) {
            self.together(|trials| {
                let field = form.layout().code.clone();
                ALPHABET.iter().for_each(|second| trials.replaced(form, field.clone(), &[first, *second]));
            });
        }
    }

    fn states(&mut self) {
        let kinds = b"<09AZ";
        for form in Form::ALL {
            for at in 0..125 {
                let state = [kinds[at % 5], kinds[at / 5 % 5], kinds[at / 25]];
                self.replaced(form, form.layout().state.clone(), &state);
                self.replaced(form, form.layout().nationality.clone(), &state);
            }
        }
    }

    fn sexes(&mut self) {
        for form in Form::ALL {
            let at = form.layout().sex;
            ALPHABET.iter().for_each(|sex| self.replaced(form, at..at + 1, &[*sex]));
        }
    }

    /// Every month and day from 00 to 40, and unknown, in years that are and are not divisible by 4, and unknown.
    fn dates(&mut self) {
        let pair = |number: usize| match number {
            41 => [FILLER; 2],
            42 => [b'1', FILLER],
            43 => [FILLER, b'1'],
            44 => [b'0', b'A'],
            _ => [b'0' + (number / 10) as u8, b'0' + (number % 10) as u8],
        };
        let years = [b"00", b"95", b"96", b"99", b"<<", b"9<", b"<6"];
        for (year, month) in years.into_iter().flat_map(|year| (0..45).map(move |month| (year, month))) {
            self.together(|trials| {
                for day in 0..45 {
                    let date = [*year, pair(month), pair(day)].concat();
                    let form = trials.seeds.pick(&Form::ALL);
                    trials.replaced(form, form.layout().birth.clone(), &date);
                    trials.replaced(form, form.layout().expiry.clone(), &date);
                }
            });
        }
    }

    /// Anything in every optional field, TD1's first line among them, which is not kept.
    fn optional(&mut self) {
        for form in Form::ALL.into_iter().flat_map(|form| [form; 300]) {
            let mut text = text::write(&records::sound_of(&mut self.seeds, form));
            for place in optional_places(form) {
                text[place] = self.seeds.pick(ALPHABET);
            }
            self.together(|trials| trials.case_and_repaired(form, text, 0));
        }
    }

    /// Data of every length that there is room for, and fillers anywhere in it, beside numbers of every length.
    fn data(&mut self) {
        for record in data::of_every_length(&mut self.seeds) {
            self.with_room(1, &text::write(&record), ROOM);
        }
    }

    /// Each place of the data damaged in each way, with the check digits as they were and with digits that fit the damage.
    fn damaged_data(&mut self) {
        for record in data::of_every_length(&mut self.seeds) {
            let sound = text::write(&record);
            let place = paper::data::place(record.form.layout(), record.number.len().saturating_sub(9));
            self.together(|trials| {
                for (place, character) in place.flat_map(|place| DAMAGE.map(|character| (place, character))) {
                    let mut damaged = sound.clone();
                    damaged[place] = character;
                    trials.case_and_repaired(record.form, damaged, record.number.len());
                }
            });
        }
    }

    /// A filler at the number's check place, and the first filler of the optional field at each of its places or nowhere; the
    /// character before it the right digit, a wrong one, or a letter.
    fn long_numbers(&mut self) {
        for form in Form::ALL {
            let places = form.layout().further.as_ref().map_or(0, |optional| optional.len() + 1);
            for before in 0..places {
                for _ in 0..40 {
                    let text = self.long_number(form, before);
                    self.case(&text);
                }
            }
        }
    }

    fn long_number(&mut self, form: Form, before: usize) -> Vec<u8> {
        let at = form.layout();
        let optional = at.further.clone().unwrap();
        let mut text = text::write(&records::sound_of(&mut self.seeds, form));
        text[at.number_check] = FILLER;
        for place in optional.clone() {
            text[place] = self.seeds.pick(&ALPHABET[1..]);
        }
        if before < optional.len() {
            text[optional.start + before] = FILLER;
        }
        if before > 0 {
            let digit = optional.start + before - 1;
            let right = Check::start().over(&text[at.number.clone()]).over(&text[optional.start..digit]).digit();
            text[digit] = self.seeds.pick(&[right, right, right, text[digit], b'0' + (right - b'0' + 1) % 10]);
        }
        if let Some(place) = at.composite {
            text[place] = text::composite(at, &text);
        }
        text
    }

    /// One or more wrong check digits: the first is told, with what is expected there.
    fn wrong_digits(&mut self) {
        for _ in 0..5_000 {
            let record = records::sound(&mut self.seeds);
            let text = digits::spoilt(&mut self.seeds, &record);
            self.case(&text);
        }
    }

    /// A filler or 0 for the check of a passport's personal number, a thousand of each kind.
    fn personal_checks(&mut self) {
        for kind in personal::kinds().flat_map(|kind| [kind; 1_000]) {
            let text = personal::passport(&mut self.seeds, kind);
            self.case(&text);
        }
    }

    /// Sound and damaged visas of both kinds, a thousand of each.
    fn visas(&mut self) {
        for (form, wrong) in Form::VISAS.into_iter().flat_map(|form| Wrong::ALL.map(|wrong| (form, wrong))) {
            for _ in 0..1_000 {
                let text = visa(&mut self.seeds, form, wrong);
                self.case(&text);
            }
        }
    }

    /// V and every octet, and every octet and a filler, in the texts of every form.
    fn visa_codes(&mut self) {
        for form in Form::ALL {
            self.together(|trials| {
                for octet in 0..=255 {
                    trials.replaced(form, form.layout().code.clone(), &[b'V', octet]);
                    trials.replaced(form, form.layout().code.clone(), &[octet, FILLER]);
                }
            });
        }
    }

    fn random(&mut self) {
        for _ in 0..500 {
            let length = self.seeds.pick(&[72, 88, 90]);
            let mut text: Vec<u8> = (0..length).map(|_| self.seeds.pick(ALPHABET)).collect();
            self.case(&text);
            text[0] = b'V';
            self.case(&text);
            let octets = self.seeds.octets(length);
            self.case(&octets);
        }
    }

    /// House and room of the seed's choice.
    fn case(&mut self, text: &[u8]) {
        let house = house(&mut self.seeds);
        let room = self.seeds.pick(&[ROOM, ROOM, ROOM, 100, 50, 0]);
        self.with_room(house, text, room);
    }

    fn with_room(&mut self, house: u32, text: &[u8], room: usize) {
        let (text, entry) = (self.lent(text), self.room(room));
        self.hold(ReadText { house, text, entry });
    }
}

pub fn optional_places(form: Form) -> Vec<usize> {
    form.layout().free.iter().cloned().flatten().collect()
}
