//! Passports with a filler or 0 for the check of their personal number, drawn from a seed.

use paper::field::FILLER;
use paper::form::Form;
use paper::text;
use shared::records::{self, until, ALPHABET};
use shared::seeds::Seeds;
use std::ops::Range;

/// Where the personal number stands, and behind it its check.
const NUMBER: Range<usize> = 72..86;
const CHECK: usize = NUMBER.end;
/// The other checks of a passport, and among them the composite.
const OTHERS: [usize; 4] = [53, 63, 71, COMPOSITE];
const COMPOSITE: usize = 87;

/// What a passport is drawn with: whether its personal number is all fillers, what stands for that number's check, and
/// whether the text is damaged elsewhere.
#[derive(Clone, Copy)]
pub struct Kind {
    pub empty: bool,
    pub check: u8,
    pub damaged: bool,
}

pub fn kinds() -> impl Iterator<Item = Kind> {
    let each = |empty| [FILLER, b'0'].map(|check| [false, true].map(|damaged| Kind { empty, check, damaged }));
    [false, true].into_iter().flat_map(each).flatten()
}

/// A passport of a kind, whose last digit fits what stands there before it is damaged.
pub fn passport(seeds: &mut Seeds, kind: Kind) -> Vec<u8> {
    let mut text = text::write(&records::bare_of(seeds, Form::Td3));
    if !kind.empty {
        number(seeds, &mut text[NUMBER]);
    }
    text[CHECK] = kind.check;
    fit(&mut text);
    if kind.damaged {
        damage(seeds, &mut text);
    }
    text
}

/// One character among fillers, or many of any kind.
fn number(seeds: &mut Seeds, places: &mut [u8]) {
    if seeds.below(2) == 0 {
        places.iter_mut().for_each(|place| *place = seeds.pick(ALPHABET));
    }
    places[seeds.below(places.len())] = seeds.pick(&ALPHABET[1..]);
}

/// Puts the last digit right, over the others as they stand.
fn fit(text: &mut [u8]) {
    text[COMPOSITE] = text::composite(Form::Td3.layout(), text);
}

/// A filler or any character, for another check or anywhere but at the number and its check; the last digit as it was, or
/// made to fit.
fn damage(seeds: &mut Seeds, text: &mut [u8]) {
    let elsewhere = |place: &usize| *place < NUMBER.start || *place > CHECK;
    let anywhere = until(seeds, |seeds| seeds.below(text.len()), elsewhere);
    let (check, character) = (seeds.pick(&OTHERS), seeds.pick(ALPHABET));
    text[seeds.pick(&[check, anywhere])] = seeds.pick(&[FILLER, character]);
    if seeds.below(2) == 0 {
        fit(text);
    }
}

#[cfg(test)]
mod tests {
    use super::*;
    use paper::field::Check;
    use paper::refusal::Refusal;
    use std::collections::BTreeSet;

    /// What is answered to many of a kind: each number and place with the digit that was expected, and 0 for a record.
    fn answers(kind: Kind) -> BTreeSet<(u32, usize, Option<u8>)> {
        let mut seeds = Seeds::new(1);
        let answer = |refusal: Refusal| (refusal.number, refusal.place, refusal.expected);
        let drawn = (0..5_000).map(|_| passport(&mut seeds, kind));
        drawn.map(|text| text::read(&text).map_or_else(answer, |_| (0, 0, None))).collect()
    }

    #[test]
    fn the_kinds() {
        let all: BTreeSet<_> = kinds().map(|kind| (kind.empty, kind.check, kind.damaged)).collect();
        assert_eq!((all.len(), kinds().count()), (8, 8));
        let mut seeds = Seeds::new(1);
        for (kind, _) in kinds().flat_map(|kind| (0..1_000).map(move |turn| (kind, turn))) {
            let text = passport(&mut seeds, kind);
            assert_eq!(text[NUMBER].iter().all(|character| *character == FILLER), kind.empty);
            assert_eq!(text[CHECK], kind.check);
        }
    }

    #[test]
    fn what_is_answered_to_each_sound_kind() {
        let kept = (0, 0, None);
        let refused = |digits: Range<u8>| digits.map(|digit| (9, CHECK, Some(digit)));
        for kind in kinds().filter(|kind| !kind.damaged) {
            let every: BTreeSet<_> = match (kind.empty, kind.check) {
                (true, _) => BTreeSet::from([kept]),
                (false, FILLER) => refused(0..10).collect(),
                // Some numbers that are not empty have 0.
                (false, _) => refused(1..10).chain([kept]).collect(),
            };
            assert_eq!(answers(kind), every);
        }
    }

    /// The refusal of every field, and 9 at every check that can be told.
    #[test]
    fn what_is_answered_to_each_damaged_kind() {
        for kind in kinds().filter(|kind| kind.damaged) {
            let (numbers, checks) = match (kind.empty, kind.check) {
                (true, _) => (vec![0, 3, 4, 5, 6, 7, 8, 9], vec![53, 63, 71, 87]),
                (false, FILLER) => (vec![3, 4, 5, 6, 7, 8, 9], vec![53, 63, 71, 86]),
                (false, _) => (vec![0, 3, 4, 5, 6, 7, 8, 9], vec![53, 63, 71, 86, 87]),
            };
            let given = answers(kind);
            let nines = given.iter().filter(|(number, _, _)| *number == 9);
            assert_eq!(nines.map(|(_, place, _)| *place).collect::<BTreeSet<_>>(), BTreeSet::from_iter(checks));
            assert_eq!(given.iter().map(|given| given.0).collect::<BTreeSet<_>>(), BTreeSet::from_iter(numbers));
        }
    }

    /// The check of a number that is not empty is 0 often enough.
    #[test]
    fn numbers_whose_check_is_0() {
        let mut seeds = Seeds::new(1);
        let kind = Kind { empty: false, check: FILLER, damaged: false };
        let drawn = (0..1_000).map(|_| passport(&mut seeds, kind));
        let zero = drawn.filter(|text| Check::start().over(&text[NUMBER]).digit() == b'0').count();
        assert!(zero > 50, "{zero}");
    }
}
