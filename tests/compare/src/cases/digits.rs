//! Texts with wrong check digits, drawn from a seed.

use crate::cases::read_text::optional_places;
use paper::record::Record;
use paper::text;
use shared::records::{until, ALPHABET};
use shared::seeds::Seeds;

/// Where the check digits stand in the text of a sound record: the number's, which of a long one stands behind its further
/// characters, the birth's, the expiry's, TD3's personal one, and the composite, which visas do not have.
pub fn places(record: &Record) -> Vec<usize> {
    let at = record.form.layout();
    let number = match (&at.further, further(record)) {
        (Some(optional), further @ 1..) => optional.start + further,
        _ => at.number_check,
    };
    let personal = at.personal.as_ref().map(|personal| personal.end);
    [number, at.birth_check, at.expiry_check].into_iter().chain(personal).chain(at.composite).collect()
}

fn further(record: &Record) -> usize {
    record.number.len().saturating_sub(9)
}

/// The text of a record with other characters at one or more of these places. Every optional field is drawn, so that a
/// personal number's check is not often 0, nor the composite always even.
pub fn spoilt(seeds: &mut Seeds, record: &Record) -> Vec<u8> {
    let mut text = text::write(record);
    let mut left = places(record);
    // A long number has the places before its digit, and the filler behind that.
    let taken = if further(record) > 0 { left[0] + 2 } else { 0 };
    for place in optional_places(record.form).into_iter().filter(|place| *place >= taken) {
        text[place] = seeds.pick(ALPHABET);
    }
    text::repair(record.form, &mut text, further(record));
    for _ in 0..=seeds.below(left.len()) {
        let place = left.swap_remove(seeds.below(left.len()));
        let right = text[place];
        text[place] = until(seeds, wrong, |wrong| *wrong != right);
    }
    text
}

/// A filler, a digit or a letter.
fn wrong(seeds: &mut Seeds) -> u8 {
    let kind = seeds.pick(&[&ALPHABET[..1], &ALPHABET[1..11], &ALPHABET[11..]]);
    seeds.pick(kind)
}

#[cfg(test)]
mod tests {
    use super::*;
    use paper::field::{is_digit, is_letter, FILLER};
    use paper::form::Form;
    use paper::refusal::Refusal;
    use shared::records;
    use std::collections::BTreeSet;

    /// Which form, whether its number is long, which of its check digits, what is expected, and whether a filler, a digit or
    /// a letter stands there. None where the text is refused otherwise, or not at all: a long number that a filler has made
    /// shorter may fit.
    fn drawn(seeds: &mut Seeds) -> Option<(u8, bool, usize, u8, [bool; 3])> {
        let record = records::sound(seeds);
        let text = spoilt(seeds, &record);
        match text::read(&text).err()? {
            Refusal { number: 9, expected: Some(digit), place } => {
                let which = places(&record).into_iter().position(|check| check == place)?;
                let kind = [text[place] == FILLER, is_digit(text[place]), is_letter(text[place])];
                Some((record.form as u8, record.number.len() > 9, which, digit, kind))
            }
            _ => None,
        }
    }

    /// A filler at the number's own check place makes a number long, or shorter; where there are no long numbers, in TD3 and
    /// in visas, it is refused there. TD3's composite runs over fields with their digits, and each with its own adds an even
    /// sum, since all weights are odd.
    fn can_be(form: Form, which: usize, digit: u8, kind: [bool; 3]) -> bool {
        match form {
            Form::Td1 | Form::Td2 => which > 0 || !kind[0],
            Form::Td3 => which < 4 || digit % 2 == 0,
            Form::MrvA | Form::MrvB => true,
        }
    }

    #[test]
    fn every_digit_at_every_place_under_every_kind() {
        let mut seeds = Seeds::new(1);
        let all: BTreeSet<_> = (0..250_000).filter_map(|_| drawn(&mut seeds)).collect();
        let kinds = [0, 1, 2].map(|one| [0, 1, 2].map(|kind| kind == one));
        let mut every = BTreeSet::new();
        for (form, long, checks) in [
            (Form::Td1, false, 4),
            (Form::Td1, true, 4),
            (Form::Td2, false, 4),
            (Form::Td2, true, 4),
            (Form::Td3, false, 5),
            (Form::MrvA, false, 3),
            (Form::MrvB, false, 3),
        ] {
            for (which, digit, kind) in (0..checks).flat_map(|w| (0..10).flat_map(move |d| kinds.map(|k| (w, d, k)))) {
                every.extend(can_be(form, which, digit, kind).then_some((form as u8, long, which, digit, kind)));
            }
        }
        let differ: Vec<_> = all.symmetric_difference(&every).collect();
        assert!(differ.is_empty(), "{differ:?}");
    }
}
