//! Sound records made from a seed.

use crate::seeds::Seeds;
use paper::data;
use paper::field::{is_birth, is_code, is_expiry, FILLER};
use paper::form::Form;
use paper::record::Record;

pub const ALPHABET: &[u8; 37] = b"<0123456789ABCDEFGHIJKLMNOPQRSTUVWXYZ";
const LETTERS: &[u8] = b"ABCDEFGHIJKLMNOPQRSTUVWXYZ";

pub fn sound(seeds: &mut Seeds) -> Record {
    sound_among(seeds, &Form::ALL)
}

/// Of one of these forms.
pub fn sound_among(seeds: &mut Seeds, forms: &[Form]) -> Record {
    let form = seeds.pick(forms);
    sound_of(seeds, form)
}

pub fn sound_of(seeds: &mut Seeds, form: Form) -> Record {
    let bare = bare_of(seeds, form);
    Record { data: data(seeds, data::longest(form, bare.number.len())), ..bare }
}

/// As `sound_among`, without the issuer's data.
pub fn bare_among(seeds: &mut Seeds, forms: &[Form]) -> Record {
    let form = seeds.pick(forms);
    bare_of(seeds, form)
}

pub fn bare_of(seeds: &mut Seeds, form: Form) -> Record {
    let first: &[u8] = if form.is_visa() { b"V" } else { b"PACI" };
    Record {
        form,
        code: until(seeds, |seeds| [seeds.pick(first), seeds.pick(ALPHABET)], |code| is_code(form, code)),
        state: state(seeds),
        number: number(seeds, form),
        nationality: state(seeds),
        birth: until(seeds, date, |date| is_birth(date)),
        sex: seeds.pick(b"MF<"),
        expiry: until(seeds, date, |date| is_expiry(date)),
        name: name(seeds, form.longest_name()),
        data: Vec::new(),
    }
}

/// Drawn again until it will do.
pub fn until<T>(seeds: &mut Seeds, draw: impl Fn(&mut Seeds) -> T, will_do: impl Fn(&T) -> bool) -> T {
    loop {
        let drawn = draw(seeds);
        if will_do(&drawn) {
            return drawn;
        }
    }
}

pub fn state(seeds: &mut Seeds) -> [u8; 3] {
    let letters = 1 + seeds.below(3);
    std::array::from_fn(|at| if at < letters { seeds.pick(LETTERS) } else { FILLER })
}

/// Short and long numbers, some with fillers inside the first nine places.
fn number(seeds: &mut Seeds, form: Form) -> Vec<u8> {
    let longest = form.longest_number();
    let any = 1 + seeds.below(longest);
    let length = seeds.pick(&[1, 2, 8, 9, 10, 11, longest - 1, longest, any]).min(longest);
    let filled = seeds.below(3) == 0;
    let character = |at: usize| {
        if filled && at > 0 && at < 9 && at + 1 < length && seeds.below(2) == 0 {
            return FILLER;
        }
        seeds.pick(&ALPHABET[1..])
    };
    (0..length).map(character).collect()
}

pub fn name(seeds: &mut Seeds, longest: usize) -> Vec<u8> {
    let any = 1 + seeds.below(longest);
    let length = seeds.pick(&[1, 2, longest - 1, longest, any, any]);
    let character = |at: usize| {
        if at > 0 && at + 1 < length && seeds.below(5) == 0 {
            return FILLER;
        }
        seeds.pick(LETTERS)
    };
    (0..length).map(character).collect()
}

/// None, some, or as many as there is room for; some with fillers before and between.
fn data(seeds: &mut Seeds, longest: usize) -> Vec<u8> {
    let any = seeds.below(longest + 1);
    let length = seeds.pick(&[0, longest, any, any, any]);
    data_of(seeds, length)
}

/// Of so many characters.
pub fn data_of(seeds: &mut Seeds, length: usize) -> Vec<u8> {
    let often = seeds.pick(&[0, 0, 1, 3]);
    let character = |at: usize| {
        if at + 1 < length && seeds.below(4) < often {
            return FILLER;
        }
        seeds.pick(&ALPHABET[1..])
    };
    (0..length).map(character).collect()
}

/// Six characters that are often a date: in pairs, the last days of a month among them.
pub fn date(seeds: &mut Seeds) -> [u8; 6] {
    let pair = |number: usize| [b'0' + (number / 10) as u8, b'0' + (number % 10) as u8];
    let mut pairs = [pair(seeds.below(100)), pair(seeds.below(14)), pair(seeds.pick(&[0, 1, 15, 28, 29, 30, 31, 32]))];
    for pair in &mut pairs {
        if seeds.below(6) == 0 {
            *pair = [FILLER; 2];
        }
    }
    let mut date = [FILLER; 6];
    date.copy_from_slice(&pairs.concat());
    date
}

#[cfg(test)]
mod tests {
    use super::*;
    use paper::{entry, text};
    use std::collections::BTreeSet;

    #[test]
    fn they_come_back_from_their_texts() {
        let mut seeds = Seeds::new(1);
        for _ in 0..2_000 {
            let record = sound(&mut seeds);
            assert!(record.is_sound());
            assert_eq!(text::read(&text::write(&record)), Ok(record));
        }
    }

    #[test]
    fn they_come_back_from_their_entries() {
        let mut seeds = Seeds::new(1);
        for _ in 0..2_000 {
            let (house, record) = (1 + seeds.below(32_767) as u32, sound(&mut seeds));
            let entry = entry::write(house, &record);
            let length = entry.len();
            assert_eq!(entry::read(&[&entry[..], b"more"].concat()), Some((house, record, length)));
            assert!((0..length).all(|cut| entry::read(&entry[..cut]).is_none()));
        }
    }

    /// Data of every length that there is room for in every form, also behind a TD2 number of every length; some that begins
    /// with a filler, and some with one inside.
    #[test]
    fn every_length_of_data_is_drawn() {
        let mut seeds = Seeds::new(1);
        let drawn: Vec<Record> = (0..50_000).map(|_| sound(&mut seeds)).collect();
        let kind = |form: Form, number: usize| (form as u8, if form == Form::Td2 { number.max(9) } else { 0 });
        let lengths = drawn.iter().map(|record| (kind(record.form, record.number.len()), record.data.len()));
        let every =
            Form::ALL.into_iter().flat_map(|form| (9..=form.longest_number()).map(move |number| (form, number)));
        let every = every.flat_map(|(form, number)| {
            (0..=data::longest(form, number)).map(move |length| (kind(form, number), length))
        });
        assert_eq!(lengths.collect::<BTreeSet<_>>(), every.collect());
        let filled = |inside: fn(&[u8]) -> bool| drawn.iter().filter(|record| inside(&record.data)).count();
        assert!(filled(|data| data.first() == Some(&FILLER)) > 1_000);
        assert!(filled(|data| data.first() != Some(&FILLER) && data.contains(&FILLER)) > 1_000);
    }
}
