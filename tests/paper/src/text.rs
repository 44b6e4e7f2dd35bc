//! Reading and writing a text, from document 01, "The text", and document 02, requests 2026-02, 2026-05 and 2026-06.

use crate::data;
use crate::field::{self, trimmed, Check, FILLER};
use crate::form::{Form, Layout};
use crate::personal::is_left_out;
use crate::record::Record;
use crate::refusal::Refusal;
use std::ops::Range;

/// The record of a text that stands alone, or its first refusal.
pub fn read(text: &[u8]) -> Result<Record, Refusal> {
    read_among(text, &Form::ALL)
}

/// The same where only these forms may stand: the length, the alphabet, the fields, then the check digits.
pub fn read_among(text: &[u8], among: &[Form]) -> Result<Record, Refusal> {
    let form = Form::of(text, among).ok_or(Refusal::at(1, 0))?;
    if let Some(place) = text.iter().position(|character| !field::in_alphabet(*character)) {
        return Err(Refusal::at(2, place));
    }
    let layout = form.layout();
    let further = further(layout, text);
    if let Some(refusal) = field_refusal(form, text, &further) {
        return Err(refusal);
    }
    let further = further.unwrap_or(0..0);
    if let Some(refusal) = digit_refusal(layout, text, &further) {
        return Err(refusal);
    }
    Ok(record(form, text, &further))
}

/// Where the further characters of a long number stand: nowhere for a number that is not long, and None for a long one
/// that has no filler behind it, or not one character and a check digit before that.
fn further(layout: &Layout, text: &[u8]) -> Option<Range<usize>> {
    let optional = match &layout.further {
        Some(optional) if text[layout.number_check] == FILLER => optional.clone(),
        _ => return Some(0..0),
    };
    let before = text[optional.clone()].iter().position(|character| *character == FILLER)?;
    (before >= 2).then(|| optional.start..optional.start + before - 1)
}

/// The field refusals have their fields' starts for places, so the first in text order is the one of the lowest place.
fn field_refusal(form: Form, text: &[u8], further: &Option<Range<usize>>) -> Option<Refusal> {
    let at = form.layout();
    let of = |range: &Range<usize>| &text[range.clone()];
    let checks = [
        (field::is_code(form, of(&at.code)), 3, at.code.start),
        (field::is_state(of(&at.state)), 4, at.state.start),
        (text[at.number.start] != FILLER && further.is_some(), 5, at.number.start),
        (field::is_state(of(&at.nationality)), 4, at.nationality.start),
        (field::is_birth(of(&at.birth)), 6, at.birth.start),
        (field::is_sex(text[at.sex]), 7, at.sex),
        (field::is_expiry(of(&at.expiry)), 6, at.expiry.start),
        (field::is_name(of(&at.name)), 8, at.name.start),
    ];
    let failing = checks.iter().filter(|(kept, _, _)| !kept);
    failing.map(|(_, number, place)| Refusal::at(*number, *place)).min_by_key(|refusal| refusal.place)
}

/// Each check digit's place is where it stands, so here too the lowest place is the first.
fn digit_refusal(at: &Layout, text: &[u8], further: &Range<usize>) -> Option<Refusal> {
    let composite = at.composite.map(|place| (place, composite(at, text)));
    let digits = digits(at, text, further).into_iter().flatten().chain(composite);
    let failing = digits.filter(|(place, digit)| text[*place] != *digit && !is_left_out(at, text, *place));
    failing.map(|(place, digit)| Refusal::digit(digit - b'0', place)).min_by_key(|refusal| refusal.place)
}

/// The place of each check digit but the composite, and what should stand there.
fn digits(at: &Layout, text: &[u8], further: &Range<usize>) -> [Option<(usize, u8)>; 4] {
    let over = |range: &Range<usize>| Check::start().over(&text[range.clone()]);
    let number_check = if further.is_empty() { at.number_check } else { further.end };
    [
        Some((number_check, over(&at.number).over(&text[further.clone()]).digit())),
        Some((at.birth_check, over(&at.birth).digit())),
        Some((at.expiry_check, over(&at.expiry).digit())),
        at.personal.as_ref().map(|personal| (personal.end, over(personal).digit())),
    ]
}

/// What should stand at the composite's place, by the text as it stands.
pub fn composite(at: &Layout, text: &[u8]) -> u8 {
    at.covered.iter().fold(Check::start(), |check, range| check.over(&text[range.clone()])).digit()
}

fn record(form: Form, text: &[u8], further: &Range<usize>) -> Record {
    let at = form.layout();
    let whole = [&text[at.number.clone()], &text[further.clone()]].concat();
    Record {
        form,
        code: array(text, &at.code),
        state: array(text, &at.state),
        number: trimmed(&whole).to_vec(),
        nationality: array(text, &at.nationality),
        birth: array(text, &at.birth),
        sex: text[at.sex],
        expiry: array(text, &at.expiry),
        name: trimmed(&text[at.name.clone()]).to_vec(),
        data: trimmed(&text[data::place(at, further.len())]).to_vec(),
    }
}

fn array<const WIDTH: usize>(text: &[u8], range: &Range<usize>) -> [u8; WIDTH] {
    let mut array = [FILLER; WIDTH];
    array.copy_from_slice(&text[range.clone()]);
    array
}

/// The text of a sound record.
pub fn write(record: &Record) -> Vec<u8> {
    let at = record.form.layout();
    let mut text = vec![FILLER; at.length];
    let mut put = |start: usize, characters: &[u8]| text[start..start + characters.len()].copy_from_slice(characters);
    let (nine, beyond) = record.number.split_at(record.number.len().min(9));
    put(at.code.start, &record.code);
    put(at.state.start, &record.state);
    put(at.number.start, nine);
    put(at.nationality.start, &record.nationality);
    put(at.birth.start, &record.birth);
    put(at.sex, &[record.sex]);
    put(at.expiry.start, &record.expiry);
    put(at.name.start, &record.name);
    if let Some(optional) = &at.further {
        put(optional.start, beyond);
    }
    put(data::place(at, beyond.len()).start, &record.data);
    repair(record.form, &mut text, beyond.len());
    text
}

/// Puts the right check digits into a text of this form, for a number with so many further characters. The composite runs
/// over the others, so it comes last.
pub fn repair(form: Form, text: &mut [u8], further: usize) {
    let at = form.layout();
    let start = at.further.as_ref().map_or(0, |optional| optional.start);
    for (place, digit) in digits(at, text, &(start..start + further)).into_iter().flatten() {
        text[place] = digit;
    }
    if let Some(place) = at.composite {
        text[place] = composite(at, text);
    }
}

#[cfg(test)]
mod tests {
    use super::*;
    use crate::specimens;

    fn refused(text: &str) -> (u32, usize) {
        let refusal = read(text.as_bytes()).unwrap_err();
        (refusal.number, refusal.place)
    }

    /// The text with some characters put at a place.
    fn with(text: &str, place: usize, characters: &str) -> String {
        [&text[..place], characters, &text[place + characters.len()..]].concat()
    }

    #[test]
    fn t3_is_accepted() {
        let record = read(specimens::T3.as_bytes()).unwrap();
        assert_eq!((record.form, &record.code, &record.state), (Form::Td3, b"P<", b"UTO"));
        assert_eq!((&record.number[..], &record.nationality, record.sex), (&b"K7"[..], b"UTO", b'F'));
        assert_eq!((&record.birth, &record.expiry, &record.name[..]), (b"900115", b"300630", &b"NORD<<ELIN"[..]));
        assert_eq!(record.data, b"");
        assert_eq!(write(&record), specimens::T3.as_bytes());
    }

    #[test]
    fn the_specimens_are_accepted() {
        for text in specimens::ALL {
            let record = read(text.as_bytes()).unwrap();
            assert!(record.is_sound());
            // Each is written as it was printed: none has anything in the field that is not kept, TD1's in the first line.
            assert_eq!(write(&record), text.as_bytes());
        }
        for text in [specimens::LONG_TD1, specimens::LONG_TD2] {
            assert_eq!(read(text.as_bytes()).unwrap().number, b"D23145890734");
        }
    }

    #[test]
    fn what_is_refused_and_where() {
        assert_eq!(refused(""), (1, 0));
        assert_eq!(refused(&with(specimens::T3, 40, "a ")), (2, 40));
        assert_eq!(refused(&with(specimens::T3, 0, "I")), (3, 0));
        assert_eq!(refused(&with(specimens::T3, 0, "V0")), (3, 0));
        assert_eq!(refused(&with(specimens::T3, 2, "U<O")), (4, 2));
        assert_eq!(refused(&with(specimens::T3, 5, "0")), (8, 5));
        assert_eq!(refused(&with(specimens::T3, 44, "<")), (5, 44));
        assert_eq!(refused(&with(specimens::T3, 54, "<<<")), (4, 54));
        assert_eq!(refused(&with(specimens::T3, 57, "900230")), (6, 57));
        assert_eq!(refused(&with(specimens::T3, 64, "X")), (7, 64));
        assert_eq!(refused(&with(specimens::T3, 65, "<<")), (6, 65));
        // A filler where a digit must stand.
        for place in [53, 63, 71, 87] {
            assert_eq!(refused(&with(specimens::T3, place, "<")), (9, place));
        }
    }

    /// The check digits as the papers print them, each with its place.
    const PRINTED: [(&str, &[(usize, u8)]); 8] = [
        (specimens::T3, &[(53, 1), (63, 8), (71, 2), (86, 0), (87, 0)]),
        (specimens::ERIKSSON_TD3, &[(53, 6), (63, 2), (71, 9), (86, 1), (87, 0)]),
        (specimens::ERIKSSON_TD1, &[(14, 7), (36, 2), (44, 9), (59, 6)]),
        (specimens::ERIKSSON_TD2, &[(45, 7), (55, 2), (63, 9), (71, 6)]),
        (specimens::LONG_TD1, &[(18, 9), (36, 7), (44, 2), (59, 2)]),
        (specimens::LONG_TD2, &[(55, 7), (63, 2), (67, 9), (71, 8)]),
        (specimens::ERIKSSON_MRV_A, &[(53, 4), (63, 8), (71, 9)]),
        (specimens::ERIKSSON_MRV_B, &[(45, 4), (55, 8), (63, 9)]),
    ];

    #[test]
    fn the_printed_digit_is_expected() {
        for (text, digits) in PRINTED {
            for (place, digit) in digits {
                assert_eq!(text.as_bytes()[*place], b'0' + digit);
                let others = (b'0'..=b'9').chain(b'A'..=b'Z').filter(|other| *other != b'0' + digit);
                for other in others.map(|other| char::from(other).to_string()) {
                    assert_eq!(read(with(text, *place, &other).as_bytes()), Err(Refusal::digit(*digit, *place)));
                }
            }
        }
    }

    /// Of several the first is told, and what is expected there follows from the characters that stand in the text.
    #[test]
    fn what_is_expected_elsewhere() {
        let expected = |text: &str| read(text.as_bytes()).unwrap_err();
        let several = with(&with(&with(specimens::T3, 63, "<"), 71, "A"), 86, "77");
        assert_eq!(expected(&several), Refusal::digit(8, 63));
        assert_eq!(expected(&with(&several, 63, "8")), Refusal::digit(2, 71));
        // K8: 20 * 7 + 8 * 3 = 164.
        assert_eq!(expected(&with(specimens::T3, 45, "8")), Refusal::digit(4, 53));
        // The last further character counts once: D23145890734 has 9, and so D23145890735 has 0.
        assert_eq!(expected(&with(specimens::LONG_TD1, 17, "5")), Refusal::digit(0, 18));
        assert_eq!(expected(&with(specimens::LONG_TD2, 66, "5")), Refusal::digit(0, 67));
        // Another first digit of the birth, 8 * 7 for 7 * 7, is expected with 9 for 2; with that the last one, which runs over
        // both, is found wrong.
        assert_eq!(expected(&with(specimens::ERIKSSON_TD3, 57, "8")), Refusal::digit(9, 63));
        assert_eq!(expected(&with(&with(specimens::ERIKSSON_TD3, 57, "8"), 63, "9")).place, 87);
    }

    #[test]
    fn fields_go_before_digits() {
        assert_eq!(refused(&with(&with(specimens::ERIKSSON_TD1, 14, "0"), 60, "0")), (8, 60));
        assert_eq!(refused(&with(&with(specimens::ERIKSSON_TD1, 30, "X"), 60, "0")), (6, 30));
        assert_eq!(refused(&with(&with(specimens::ERIKSSON_TD2, 5, "0"), 36, "<")), (8, 5));
    }

    #[test]
    fn long_numbers_that_are_refused() {
        // Fourteen further characters and a check digit leave no place for the filler.
        assert_eq!(refused(&with(specimens::LONG_TD1, 15, "734567890123459")), (5, 5));
        assert_eq!(refused(&with(specimens::LONG_TD1, 15, "<")), (5, 5));
        assert_eq!(refused(&with(specimens::LONG_TD1, 15, "9<")), (5, 5));
        assert_eq!(refused(&with(specimens::LONG_TD1, 18, "A")), (9, 18));
        // In TD2 the long number's digit stands behind those of birth and expiry.
        assert_eq!(refused(&with(specimens::LONG_TD2, 67, "0")), (9, 67));
        assert_eq!(refused(&with(&with(specimens::LONG_TD2, 67, "0"), 63, "0")), (9, 63));
    }

    /// Each digit of the two specimens, by the weights 7, 3, 1, with 21 for L and 12 for C.
    #[test]
    fn the_digits_of_the_visas() {
        let number = [21 * 7, 8 * 3, 9, 8 * 7, 8 * 3, 9, 0, 3, 12];
        let birth = [4 * 7, 0, 0, 9 * 7, 0, 7];
        let expiry = [9 * 7, 6 * 3, 1, 2 * 7, 3, 0];
        let sums = [number.iter().sum::<u32>(), birth.iter().sum(), expiry.iter().sum()];
        assert_eq!(sums.map(|sum| sum % 10), [4, 8, 9]);
    }

    #[test]
    fn the_visas_are_accepted() {
        let (a, b) = (specimens::ERIKSSON_MRV_A, specimens::ERIKSSON_MRV_B);
        for (text, form, data) in [(a, Form::MrvA, &b"6ZE184226B"[..]), (b, Form::MrvB, b"")] {
            let record = read(text.as_bytes()).unwrap();
            assert_eq!((record.form, &record.code, &record.state), (form, b"V<", b"UTO"));
            assert_eq!((&record.number[..], &record.nationality, record.sex), (&b"L8988901C"[..], b"XXX", b'F'));
            assert_eq!((&record.birth, &record.expiry), (b"400907", b"961210"));
            assert_eq!((&record.name[..], &record.data[..]), (&b"ERIKSSON<<ANNA<MARIA"[..], data));
        }
    }

    /// In the order of the fields, which is TD3's and TD2's; a filler at the number's check is no long number.
    #[test]
    fn visas_that_are_refused() {
        for (text, line) in [(specimens::ERIKSSON_MRV_A, 44), (specimens::ERIKSSON_MRV_B, 36)] {
            let fields: [(usize, &str, u32); 13] = [
                (0, "V0", 3),
                (0, "P0", 3),
                (0, "Va", 2),
                (1, "/", 2),
                (line - 1, "a", 2),
                (2, "U<O", 4),
                (5, "0", 8),
                (line, "<", 5),
                (line + 10, "<<<", 4),
                (line + 13, "400230", 6),
                (line + 20, "X", 7),
                (line + 21, "<<1210", 6),
                (line + 21, "961310", 6),
            ];
            for (place, characters, number) in fields {
                let at = place + usize::from(characters == "Va");
                assert_eq!(refused(&with(text, place, characters)), (number, at), "{characters}");
            }
            for (place, digit) in [(line + 9, 4), (line + 19, 8), (line + 27, 9)] {
                assert_eq!(read(with(text, place, "<").as_bytes()), Err(Refusal::digit(digit, place)));
            }
            // What would be a long number of a card: here the check of the nine is told.
            let long = with(&with(text, line + 9, "<"), line + 28, "7349<");
            assert_eq!(read(long.as_bytes()), Err(Refusal::digit(4, line + 9)));
        }
    }

    /// Whatever stands in the optional data is accepted, to the last place, and kept: there is no composite.
    #[test]
    fn the_optional_data_of_visas() {
        for text in [specimens::ERIKSSON_MRV_A, specimens::ERIKSSON_MRV_B] {
            let record = read(text.as_bytes()).unwrap();
            let optional = record.form.layout().free[0].clone();
            for place in optional.clone() {
                for character in (b'0'..=b'9').chain(b'A'..=b'Z').map(|character| char::from(character).to_string()) {
                    let other = with(text, place, &character);
                    let data = trimmed(other[optional.clone()].as_bytes()).to_vec();
                    assert_eq!(read(other.as_bytes()), Ok(Record { data, ..record.clone() }));
                }
                assert_eq!(refused(&with(text, place, " ")), (2, place));
            }
        }
    }

    /// Where visas may not stand they are read as the forms of their lengths, whose codes do not begin with V.
    #[test]
    fn visas_where_they_may_not_stand() {
        for text in [specimens::ERIKSSON_MRV_A, specimens::ERIKSSON_MRV_B] {
            let read = |text: &str| read_among(text.as_bytes(), &Form::IN_GROUP_1);
            assert_eq!(read(text), Err(Refusal::at(3, 0)));
            assert_eq!(read(&with(text, text.len() - 1, "a")), Err(Refusal::at(2, text.len() - 1)));
            assert_eq!(read(&with(text, 5, "0")), Err(Refusal::at(3, 0)));
        }
    }
}
