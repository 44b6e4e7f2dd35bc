//! Visas, sound and damaged, drawn from a seed.

use crate::cases::digits;
use paper::field::{in_alphabet, FILLER};
use paper::form::Form;
use paper::text;
use shared::records::{self, until, ALPHABET};
use shared::seeds::Seeds;

const DIGITS: &[u8] = b"0123456789";

/// What is wrong with a visa that is drawn.
#[derive(Clone, Copy, Debug, PartialEq, Eq)]
pub enum Wrong {
    Nothing,
    /// One or more check digits.
    Checks,
    /// A filler for the number's check, and behind it what would be a long number of a card.
    LongNumber,
    /// A filler, or any character of the alphabet, at any place behind the code.
    Place,
    /// A digit behind V: the code selects no visa.
    Code,
    /// A character that is none of the alphabet, anywhere behind V.
    Foreign,
}

impl Wrong {
    pub const ALL: [Wrong; 6] =
        [Wrong::Nothing, Wrong::Checks, Wrong::LongNumber, Wrong::Place, Wrong::Code, Wrong::Foreign];
    /// C40 has no character that is foreign.
    pub const IN_SEALS: [Wrong; 5] = [Wrong::Nothing, Wrong::Checks, Wrong::LongNumber, Wrong::Place, Wrong::Code];
}

/// A visa of a form with this wrong. Its optional data is a sound record's, or any.
pub fn visa(seeds: &mut Seeds, form: Form, wrong: Wrong) -> Vec<u8> {
    let record = records::sound_of(seeds, form);
    let mut text = match wrong {
        Wrong::Checks => digits::spoilt(seeds, &record),
        _ => text::write(&record),
    };
    if seeds.below(2) == 0 {
        text[form.layout().free[0].clone()].fill_with(|| seeds.pick(ALPHABET));
    }
    match wrong {
        Wrong::Nothing | Wrong::Checks => {}
        Wrong::LongNumber => long_number(seeds, form, &mut text),
        Wrong::Place => {
            let character = seeds.pick(ALPHABET);
            text[2 + seeds.below(form.layout().length - 2)] = seeds.pick(&[FILLER, character]);
        }
        Wrong::Code => text[1] = seeds.pick(DIGITS),
        Wrong::Foreign => text[1 + seeds.below(form.layout().length - 1)] = foreign(seeds),
    }
    text
}

/// Further characters, a digit and a filler at the start of the optional data, as in TD1 and TD2.
fn long_number(seeds: &mut Seeds, form: Form, text: &mut [u8]) {
    let at = form.layout();
    let optional = at.free[0].clone();
    let further = 1 + seeds.below(optional.len() - 2);
    text[at.number_check] = FILLER;
    for place in &mut text[optional.start..optional.start + further] {
        *place = seeds.pick(&ALPHABET[1..]);
    }
    text[optional.start + further] = seeds.pick(DIGITS);
    text[optional.start + further + 1] = FILLER;
}

fn foreign(seeds: &mut Seeds) -> u8 {
    until(seeds, |seeds| seeds.number() as u8, |octet| !in_alphabet(*octet))
}

#[cfg(test)]
mod tests {
    use super::*;
    use paper::refusal::Refusal;
    use std::collections::BTreeSet;

    /// What is answered to many of a kind where these forms may stand: each number and place, and 0 for a record.
    fn answers(form: Form, wrong: Wrong, among: &[Form]) -> BTreeSet<(u32, usize)> {
        let mut seeds = Seeds::new(1);
        let answer = |refusal: Refusal| (refusal.number, refusal.place);
        let drawn = (0..5_000).map(|_| visa(&mut seeds, form, wrong));
        drawn.map(|text| text::read_among(&text, among).map_or_else(answer, |_| (0, 0))).collect()
    }

    #[test]
    fn what_is_answered_to_each_kind_alone() {
        for form in Form::VISAS {
            let at = form.layout();
            let alone = |wrong| answers(form, wrong, &Form::ALL);
            let checks = [at.number_check, at.birth_check, at.expiry_check].map(|place| (9, place));
            assert_eq!(alone(Wrong::Nothing), BTreeSet::from([(0, 0)]));
            assert_eq!(alone(Wrong::Checks), BTreeSet::from(checks));
            assert_eq!(alone(Wrong::LongNumber), BTreeSet::from([(9, at.number_check)]));
            assert_eq!(alone(Wrong::Code), BTreeSet::from([(3, 0)]));
            assert_eq!(alone(Wrong::Foreign), (1..at.length).map(|place| (2, place)).collect());
            let fields = [
                (0, 0),
                (4, at.state.start),
                (8, at.name.start),
                (5, at.number.start),
                (4, at.nationality.start),
                (6, at.birth.start),
                (7, at.sex),
                (6, at.expiry.start),
            ];
            assert_eq!(alone(Wrong::Place), fields.into_iter().chain(checks).collect());
        }
    }

    /// 2 where a character is foreign, else 3 at the start, whatever else is wrong.
    #[test]
    fn what_is_answered_to_each_kind_elsewhere() {
        for (form, wrong) in Form::VISAS.into_iter().flat_map(|form| Wrong::ALL.map(|wrong| (form, wrong))) {
            let expected: BTreeSet<_> = match wrong {
                Wrong::Foreign => (1..form.layout().length).map(|place| (2, place)).collect(),
                _ => BTreeSet::from([(3, 0)]),
            };
            assert_eq!(answers(form, wrong, &Form::IN_GROUP_1), expected);
        }
    }
}
