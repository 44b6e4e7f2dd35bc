//! The work on texts and entries: sound records of TD1, TD2 and TD3, taken in turn, as a server meets them, texts of which half
//! are refused, and the same records as passports and as visas.

use crate::border;
use crate::contender::Contender;
use crate::job::{Job, Work};
use crate::whole::whole;
use paper::answer::Answer;
use paper::field::trimmed;
use paper::form::Form;
use paper::opened::Opened;
use paper::record::Record;
use paper::{calls, entry, text};
use shared::records::{self, until, ALPHABET};
use shared::seeds::Seeds;

/// How many there are of each, and of the mixed texts.
pub const RECORDS: usize = 256;
pub const MIXED: usize = 4_000;

pub fn of(contender: Contender, job: Job) -> Option<Work> {
    match (contender, job) {
        (Contender::Library, Job::ReadText) => Some(over(texts(), |text, room| border::read_text(1, text, room))),
        (Contender::Library, Job::ReadForm(form)) => {
            Some(over(texts_of(form), |text, room| border::read_text(1, text, room)))
        }
        (Contender::Library, Job::ReadMixed) => Some(mixed(|text, room| border::read_text(1, text, room))),
        (Contender::Library, Job::WriteText) => Some(over(entries(), border::write_text)),
        (Contender::Library, Job::OpenEntry) => Some(opening(entries(), border::open_entry)),
        (Contender::Library, Job::NextEntry) => Some(along(entries(), border::next_entry)),
        (Contender::Rust, Job::ReadText) => Some(over(texts(), read_text)),
        (Contender::Rust, Job::ReadForm(form)) => Some(over(texts_of(form), read_text)),
        (Contender::Rust, Job::ReadMixed) => Some(mixed(read_text)),
        (Contender::Rust, Job::WriteText) => Some(over(entries(), write_text)),
        (Contender::Rust, Job::OpenEntry) => Some(opening(entries(), calls::open_entry)),
        (Contender::Rust, Job::NextEntry) => Some(along(entries(), calls::next_entry)),
        _ => None,
    }
}

/// The independent implementation's.
pub fn read_text(text: &[u8], room: &mut [u8]) -> Answer {
    let outcome = calls::read_text(1, text, room.len());
    room[..outcome.written.len()].copy_from_slice(&outcome.written);
    outcome.answer
}

/// Likewise.
pub fn write_text(entry: &[u8], room: &mut [u8]) -> Answer {
    let outcome = calls::write_text(entry, room.len());
    room[..outcome.written.len()].copy_from_slice(&outcome.written);
    outcome.answer
}

/// Of the forms that a chip can have, without the issuer's data: the records that were measured before there were visas and
/// before a record held data.
fn sound(seeds: &mut Seeds) -> Record {
    records::bare_among(seeds, &Form::IN_GROUP_1)
}

fn entries() -> Vec<Vec<u8>> {
    let mut seeds = Seeds::new(9303);
    (0..RECORDS).map(|_| entry::write(1, &sound(&mut seeds))).collect()
}

fn texts() -> Vec<Vec<u8>> {
    let mut seeds = Seeds::new(9303);
    (0..RECORDS).map(|_| text::write(&sound(&mut seeds))).collect()
}

/// The same passports for every form, so that one form's work can be held to another's.
fn texts_of(form: Form) -> Vec<Vec<u8>> {
    let mut seeds = Seeds::new(9303);
    (0..RECORDS).map(|_| text::write(&turned(form, records::bare_of(&mut seeds, Form::Td3)))).collect()
}

/// A passport's record as one of a visa, or as it is: another first letter, and a name that is cut where it does not fit.
fn turned(form: Form, passport: Record) -> Record {
    let first = if form.is_visa() { b'V' } else { passport.code[0] };
    let longest = passport.name.len().min(form.longest_name());
    let name = trimmed(&passport.name[..longest]).to_vec();
    Record { form, code: [first, passport.code[1]], name, ..passport }
}

/// Sound texts, and in the place of every other one a text that is refused.
fn mixed_texts() -> Vec<Vec<u8>> {
    let mut seeds = Seeds::new(9303);
    let text = |turn: usize| match turn % 2 {
        0 => text::write(&sound(&mut seeds)),
        _ => until(&mut seeds, damaged, |text| number_of(text) != 0),
    };
    (0..MIXED).map(text).collect()
}

/// What a text is to be answered with: its refusal's number, or 0.
fn number_of(text: &[u8]) -> u32 {
    text::read(text).map_or_else(|refusal| refusal.number, |_| 0)
}

/// A text of which one character is another: one of the alphabet, or now and then any octet.
fn damaged(seeds: &mut Seeds) -> Vec<u8> {
    let mut text = text::write(&sound(seeds));
    let place = seeds.below(text.len());
    let any = seeds.number() as u8;
    text[place] = if seeds.below(8) == 0 { any } else { seeds.pick(ALPHABET) };
    text
}

/// One of what is lent at each turn. A refusal would be quicker than the work, so none may come.
pub fn over(lent: Vec<Vec<u8>>, call: impl Fn(&[u8], &mut [u8]) -> Answer + 'static) -> Work {
    let (mut at, mut room) = (0, [0; 90]);
    Box::new(move || {
        assert_eq!(call(&lent[at], &mut room).number, 0);
        at = (at + 1) % RECORDS;
    })
}

/// One of the mixed texts at each turn.
fn mixed(call: impl Fn(&[u8], &mut [u8]) -> Answer + 'static) -> Work {
    let texts = mixed_texts();
    let numbers: Vec<u32> = texts.iter().map(|text| number_of(text)).collect();
    let (mut at, mut room) = (0, [0; 90]);
    Box::new(move || {
        assert_eq!(call(&texts[at], &mut room).number, numbers[at]);
        at = (at + 1) % MIXED;
    })
}

/// One entry at each turn, and every field of it, which the compiler must not leave out.
pub fn opening(entries: Vec<Vec<u8>>, call: impl Fn(&[u8]) -> Opened + 'static) -> Work {
    over(entries, move |entry, _| {
        let opened = call(entry);
        whole(&opened);
        Answer { number: opened.number, ..Answer::not_refused(0) }
    })
}

/// The next entry of a run at each turn, and the first one after the last.
pub fn along(entries: Vec<Vec<u8>>, call: impl Fn(&[u8], u64) -> Answer + 'static) -> Work {
    let (run, mut offset) = (entries.concat(), 0);
    Box::new(move || {
        let answer = call(&run, offset);
        assert_eq!(answer.number, 0);
        offset = answer.value % run.len() as u64;
    })
}

#[cfg(test)]
mod tests {
    use super::*;
    use std::collections::BTreeSet;

    /// Each is accepted as its form, and the records are the same but for form, code and a long name's end.
    #[test]
    fn texts_of_each_form() {
        let read = |form: Form| -> Vec<Record> {
            texts_of(form).iter().map(|text| text::read(text).expect("a sound text")).collect()
        };
        let passports = read(Form::Td3);
        for form in Form::VISAS {
            for (visa, passport) in read(form).into_iter().zip(&passports) {
                assert_eq!((visa.form, visa.code[0]), (form, b'V'));
                assert!(passport.name.starts_with(&visa.name));
                let (code, name) = (passport.code, passport.name.clone());
                assert_eq!(&Record { form: Form::Td3, code, name, ..visa }, passport);
            }
        }
    }

    /// Half are accepted, and the others are refused by every rule of a text but its length.
    #[test]
    fn mixed_texts_are_of_every_kind() {
        let numbers: Vec<u32> = mixed_texts().iter().map(|text| number_of(text)).collect();
        assert_eq!(numbers.iter().filter(|number| **number == 0).count(), 2_000);
        assert_eq!(numbers.into_iter().collect::<BTreeSet<_>>(), BTreeSet::from([0, 2, 3, 4, 5, 6, 7, 8, 9]));
    }
}
