//! The cases of the full name.

use crate::border;
use crate::cases::details::{damage, drawn, file, lent, printed, with_value};
use crate::cases::digits;
use crate::cases::trees::Tree;
use crate::cases::trials::{self, Call, Trials};
use crate::cases::visas::{visa, Wrong};
use crate::guard::{Lent, Side};
use crate::report::{hex_shown, Tally};
use paper::answer::{Name, Outcome};
use paper::details::{FULL_NAME, NAMED};
use paper::form::Form;
use paper::{calls, specimens, text};
use shared::records::{self, ALPHABET};
use shared::seeds::Seeds;

pub fn compare(seed: u64) -> Tally {
    let mut trials = Trials::<FullName>::new(seed);
    trials.specimens();
    trials.sound();
    trials.name_lengths();
    trials.value_lengths();
    trials.files_refused();
    trials.texts_refused();
    trials.one_place();
    trials.lengths();
    trials.fenced();
    trials.drawn();
    trials.threads(alone);
    trials.tally
}

struct FullName {
    file: Lent,
    text: Lent,
}

impl Call for FullName {
    const NAME: &'static str = "full_name";
    type Answer = Name;

    fn expected(&self) -> Outcome<Name> {
        Outcome::of(calls::full_name(self.file.content(), self.text.content()))
    }

    fn made(&mut self) -> Name {
        border::full_name(&mut self.file, &mut self.text)
    }

    fn inputs(&self) -> Vec<&Lent> {
        vec![&self.file, &self.text]
    }

    fn output(&self) -> Option<&Lent> {
        None
    }

    fn about(&self) -> Vec<String> {
        let (file, text) = (self.file.content_before(), self.text.content_before());
        vec![
            format!("full_name of {} and {} octets", file.len(), text.len()),
            format!("file:     {}", hex_shown(file)),
            format!("text:     {}", hex_shown(text)),
        ]
    }
}

/// Files by what they have of a full name, each with where it stands.
fn files(seeds: &mut Seeds) -> Vec<(Vec<u8>, Option<Name>)> {
    let name = |value: &[u8]| lent(&[FULL_NAME], vec![with_value(FULL_NAME, value)]);
    let last: Vec<u16> = NAMED.into_iter().rev().collect();
    let behind = file(seeds, &last[..last.len() - 1]);
    let start = behind.encoded().len();
    let wrong_list = lent(&[0x5f10], vec![with_value(FULL_NAME, b"NAME")]);
    vec![
        (name(b"\xce\x91").encoded(), Some(Name::in_file(9..11))),
        (name(b"A").encoded(), Some(Name::in_file(9..10))),
        (name(b"").encoded(), None),
        (behind.encoded(), None),
        (lent(&[], vec![]).encoded(), None),
        (wrong_list.encoded(), None),
        ([name(b"A").encoded(), vec![0]].concat(), None),
        (name(b"A").encoded()[..9].to_vec(), None),
        (Vec::new(), None),
        (vec![0x00; start], None),
        (printed::all()[1].octets.clone(), Some(Name::in_file(17..30))),
        (printed::all()[0].octets.clone(), None),
    ]
}

impl Trials<FullName> {
    /// Every file with every text of the papers, as it is and cut, held to what the sentence says.
    fn specimens(&mut self) {
        let files = files(&mut self.seeds);
        for text in specimens::ALL.iter().map(|text| text.as_bytes()) {
            let form = text::read(text).map(|record| (record.form.layout().name.start, record.name.len()));
            let in_text = form.map_or(Name::NONE, |(start, length)| Name::in_text(start..start + length));
            for (file, in_file) in &files {
                self.told(file, text, in_file.unwrap_or(in_text));
                self.told(file, &text[..text.len() - 1], in_file.unwrap_or(Name::NONE));
                self.told(file, b"", in_file.unwrap_or(Name::NONE));
            }
        }
    }

    /// Records of all forms, beside files of every kind.
    fn sound(&mut self) {
        let files = files(&mut self.seeds);
        for form in Form::ALL.into_iter().flat_map(|form| [form; 60]) {
            let record = records::sound_of(&mut self.seeds, form);
            let start = form.layout().name.start;
            let in_text = Name::in_text(start..start + record.name.len());
            self.together(|trials| {
                for (file, in_file) in &files {
                    trials.told(file, &text::write(&record), in_file.unwrap_or(in_text));
                }
            });
        }
    }

    /// A name of every length that a form has room for, with fillers inside and none.
    fn name_lengths(&mut self) {
        for (form, length) in Form::ALL.into_iter().flat_map(|form| (1..=form.longest_name()).map(move |n| (form, n))) {
            self.together(|trials| {
                for filled in [false, true] {
                    let mut record = records::sound_of(&mut trials.seeds, form);
                    record.name = (0..length).map(|at| if filled && at % 3 == 1 { b'<' } else { b'N' }).collect();
                    *record.name.last_mut().expect("one at least") = b'Z';
                    let start = form.layout().name.start;
                    trials.told(b"", &text::write(&record), Name::in_text(start..start + length));
                }
            });
        }
    }

    /// A name in the file of many lengths, alone and behind other details.
    fn value_lengths(&mut self) {
        for length in (0..=300).chain([1_000, 65_535 - 11, 65_535 - 10]) {
            let value = self.seeds.octets(length);
            let alone = lent(&[FULL_NAME], vec![with_value(FULL_NAME, &value)]).encoded();
            let behind = lent(
                &[0x5f10, FULL_NAME],
                vec![with_value(0x5f10, b"7"), with_value(FULL_NAME, &value[..length.min(60_000)])],
            );
            self.together(|trials| {
                for text in [specimens::T3.as_bytes(), b""] {
                    trials.of(&alone, text);
                    trials.of(&behind.encoded(), text);
                }
            });
        }
    }

    /// Every damage to a file that has a name: the text's is told then, or none.
    fn files_refused(&mut self) {
        let tags = [0x5f10, FULL_NAME, 0x5f42];
        let values: [&[u8]; 3] = [b"7", b"NAME", b""];
        let sound = lent(&tags, tags.iter().zip(values).map(|(tag, value)| with_value(*tag, value)).collect());
        let (text, in_text) = (specimens::ERIKSSON_TD3.as_bytes(), Name::in_text(5..25));
        for damage in damage::all(&sound, &tags) {
            let mut lent = sound.clone();
            damage.put(&mut lent);
            self.told(&lent.encoded(), text, in_text);
            self.told(&lent.encoded(), b"", Name::NONE);
        }
        self.told(&sound.encoded(), text, Name::in_file(17..21));
    }

    /// Texts that are refused, of all forms and in many ways, beside files of every kind.
    fn texts_refused(&mut self) {
        let files = files(&mut self.seeds);
        for form in Form::ALL.into_iter().flat_map(|form| [form; 20]) {
            let record = records::sound_of(&mut self.seeds, form);
            let spoilt = digits::spoilt(&mut self.seeds, &record);
            self.together(|trials| files.iter().for_each(|(file, _)| trials.of(file, &spoilt)));
        }
        for (form, wrong) in [Form::MrvA, Form::MrvB].into_iter().flat_map(|form| Wrong::ALL.map(|wrong| (form, wrong)))
        {
            let text = visa(&mut self.seeds, form, wrong);
            self.together(|trials| files.iter().for_each(|(file, _)| trials.of(file, &text)));
        }
    }

    /// Every place of a text of each form with each kind of character, the check digits as they were and made to fit.
    fn one_place(&mut self) {
        let nameless = lent(&[], Vec::<Tree>::new()).encoded();
        for form in Form::ALL {
            let record = records::sound_of(&mut self.seeds, form);
            let sound = text::write(&record);
            for place in 0..sound.len() {
                self.together(|trials| {
                    for character in b"<09AMVZ/a" {
                        let mut text = sound.clone();
                        text[place] = *character;
                        trials.of(&nameless, &text);
                        text::repair(form, &mut text, record.number.len().saturating_sub(9));
                        trials.of(&nameless, &text);
                    }
                });
            }
        }
    }

    /// Texts of every length, and both ranges far past what is read.
    fn lengths(&mut self) {
        let (nameless, named) = (lent(&[], Vec::<Tree>::new()).encoded(), printed::all()[1].octets.clone());
        for length in (0..=200).chain([65_535, 65_536, 1_000_000]) {
            let text: Vec<u8> = specimens::T3.bytes().cycle().take(length).collect();
            self.together(|trials| [&nameless, &named, &text].iter().for_each(|file| trials.of(file, &text)));
        }
    }

    /// Nothing is read past either end of either range, nor the pointer of an empty one.
    fn fenced(&mut self) {
        let file = printed::all()[1].octets.clone();
        let text = specimens::T3.as_bytes();
        for (length, side) in (0..=file.len()).flat_map(|length| Side::BOTH.map(|side| (length, side))) {
            let (file, text) = (Lent::fenced(&file[..length], side), Lent::fenced(text, side));
            self.watch(FullName { file, text });
        }
        for (length, side) in (0..=text.len()).flat_map(|length| Side::BOTH.map(|side| (length, side))) {
            let (file, text) = (Lent::fenced(&[0x6b, 0x02, 0x5c, 0x00], side), Lent::fenced(&text[..length], side));
            self.watch(FullName { file, text });
        }
        let lent = |trials: &mut Self, octets: &[u8]| trials.lent(octets);
        let (of_file, of_text) = (lent(self, &file), lent(self, text));
        self.watch(FullName { file: of_file, text: Lent::absent() });
        self.watch(FullName { file: Lent::absent(), text: of_text });
        self.watch(FullName { file: Lent::absent(), text: Lent::absent() });
    }

    /// Files and texts of any kind, each spoilt or not.
    fn drawn(&mut self) {
        for turn in 0..5_000 {
            let (tags, mut lent) = drawn(&mut self.seeds);
            if turn % 3 == 0 {
                damage::drawn(&mut self.seeds, &mut lent, &tags);
            }
            let mut text = text::write(&records::sound(&mut self.seeds));
            if turn % 2 == 0 {
                let place = self.seeds.below(text.len());
                text[place] = self.seeds.pick(ALPHABET);
            }
            self.of(&lent.encoded(), &text);
        }
    }

    fn of(&mut self, file: &[u8], text: &[u8]) {
        let (file, text) = (self.lent(file), self.lent(text));
        self.hold(FullName { file, text });
    }

    /// Held to an answer that was worked out without the reader.
    fn told(&mut self, file: &[u8], text: &[u8], told: Name) {
        let (file, text) = (self.lent(file), self.lent(text));
        self.count(trials::held_to(&Outcome::of(told), FullName { file, text }));
    }
}

/// What one thread tries.
fn alone(seed: u64) -> Vec<Vec<String>> {
    let mut seeds = Seeds::new(seed);
    let case = |_| {
        let (file, text) = (drawn(&mut seeds).1.encoded(), text::write(&records::sound(&mut seeds)));
        trials::held(FullName { file: Lent::new(&file, seeds.below(64)), text: Lent::new(&text, seeds.below(64)) })
    };
    (0..150).map(case).collect()
}
