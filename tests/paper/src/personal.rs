//! The check of TD3's personal number where it is left out, from document 02, request 2026-02: "Doc 9303-4 lets a State print
//! `<` or 0 there when the personal number is all fillers. .. Accept `<` in that one place under that one condition; it
//! counts 0 in the composite. Writing keeps 0."

use crate::field::{trimmed, FILLER};
use crate::form::Layout;

/// Whether this is the place of that check, and a filler stands there over a personal number that is all fillers.
pub fn is_left_out(at: &Layout, text: &[u8], place: usize) -> bool {
    match &at.personal {
        Some(personal) if personal.end == place => text[place] == FILLER && trimmed(&text[personal.clone()]).is_empty(),
        _ => false,
    }
}

#[cfg(test)]
mod tests {
    use crate::field::Check;
    use crate::presentation;
    use crate::record::Record;
    use crate::refusal::Refusal;
    use crate::specimens::{ERIKSSON_TD1, ERIKSSON_TD2, ERIKSSON_TD3, LONG_TD1, LONG_TD2};
    use crate::text::{read, write};

    /// The specimen of Doc 9303-4 with fourteen fillers for its personal number, and a filler for their check. What the last
    /// digit runs over: `L898902C36` adds 358, `7408122` 70, `1204159` 50, and fifteen fillers nothing. 478 leaves 8.
    const LEFT_OUT: &str = "P<UTOERIKSSON<<ANNA<MARIA<<<<<<<<<<<<<<<<<<<\
                            L898902C36UTO7408122F1204159<<<<<<<<<<<<<<<8";
    const ZERO: &str = "P<UTOERIKSSON<<ANNA<MARIA<<<<<<<<<<<<<<<<<<<\
                        L898902C36UTO7408122F1204159<<<<<<<<<<<<<<08";
    /// Where the check stands, behind the fourteen places from 72 on, and the last digit.
    const CHECK: usize = 86;
    const COMPOSITE: usize = 87;

    fn with(text: &str, place: usize, character: u8) -> Vec<u8> {
        let mut other = text.as_bytes().to_vec();
        other[place] = character;
        other
    }

    fn alphanumeric() -> impl Iterator<Item = u8> {
        (b'0'..=b'9').chain(b'A'..=b'Z')
    }

    /// The specimen's own record, but for its personal number.
    fn specimen() -> Record {
        Record { data: Vec::new(), ..read(ERIKSSON_TD3.as_bytes()).unwrap() }
    }

    #[test]
    fn a_filler_and_zero_are_kept_over_fillers() {
        for text in [LEFT_OUT, ZERO] {
            assert_eq!(read(text.as_bytes()), Ok(specimen()));
        }
    }

    #[test]
    fn writing_keeps_zero() {
        assert_eq!(write(&read(LEFT_OUT.as_bytes()).unwrap()), ZERO.as_bytes());
    }

    #[test]
    fn it_counts_0_in_the_composite() {
        for digit in (b'0'..=b'9').filter(|digit| *digit != b'8') {
            assert_eq!(read(&with(LEFT_OUT, COMPOSITE, digit)), Err(Refusal::digit(8, COMPOSITE)));
        }
    }

    /// `ZE184226B` has 1, as it is printed; whatever the last digit is.
    #[test]
    fn over_a_personal_number_a_filler_is_refused() {
        let left_out = String::from_utf8(with(ERIKSSON_TD3, CHECK, b'<')).unwrap();
        for last in alphanumeric().chain([b'<']) {
            assert_eq!(read(&with(&left_out, COMPOSITE, last)), Err(Refusal::digit(1, CHECK)));
        }
    }

    /// One character is enough, wherever it stands, and although with some, such as 0 and A, the check is 0.
    #[test]
    fn over_one_character_a_filler_is_refused() {
        for (place, character) in (72..CHECK).flat_map(|place| alphanumeric().map(move |one| (place, one))) {
            let text = with(LEFT_OUT, place, character);
            let expected = Check::start().over(&text[72..CHECK]).digit() - b'0';
            assert_eq!(read(&text), Err(Refusal::digit(expected, CHECK)));
        }
        assert_eq!(read(&with(LEFT_OUT, 72, b'0')), Err(Refusal::digit(0, CHECK)));
        assert_eq!(read(&with(LEFT_OUT, 72, b'A')), Err(Refusal::digit(0, CHECK)));
        assert_eq!(read(&with(LEFT_OUT, 72, b'1')), Err(Refusal::digit(7, CHECK)));
    }

    #[test]
    fn over_fillers_any_other_character_is_refused() {
        for character in alphanumeric().filter(|character| *character != b'0') {
            assert_eq!(read(&with(LEFT_OUT, CHECK, character)), Err(Refusal::digit(0, CHECK)));
        }
    }

    #[test]
    fn at_another_check_a_filler_is_refused() {
        for (place, digit) in [(53, 6), (63, 2), (71, 9), (COMPOSITE, 8)] {
            for text in [LEFT_OUT, ZERO] {
                assert_eq!(read(&with(text, place, b'<')), Err(Refusal::digit(digit, place)));
            }
        }
        // Whatever comes first is told, and the personal check is not among it.
        assert_eq!(read(&with(ERIKSSON_TD3, 71, b'<')), Err(Refusal::digit(9, 71)));
    }

    /// The other forms have no personal number, and `<` is refused at their checks over optional data that are all fillers.
    #[test]
    fn in_another_form_a_filler_is_refused() {
        let td1 = [(ERIKSSON_TD1, [2, 9, 6]), (LONG_TD1, [7, 2, 2])].map(|(text, digits)| (text, [36, 44, 59], digits));
        let td2 = [(ERIKSSON_TD2, [2, 9, 6]), (LONG_TD2, [7, 2, 8])].map(|(text, digits)| (text, [55, 63, 71], digits));
        for (text, places, digits) in td1.into_iter().chain(td2) {
            for (place, digit) in places.into_iter().zip(digits) {
                assert_eq!(read(&with(text, place, b'<')), Err(Refusal::digit(digit, place)));
            }
        }
    }

    #[test]
    fn on_a_chip_as_in_a_text() {
        let on_chip = |text: &[u8]| {
            let element = presentation::write_text_element(text);
            presentation::read(&presentation::write(&[(1, element), (2, b"abc".to_vec())]))
        };
        assert_eq!(on_chip(LEFT_OUT.as_bytes()), Ok(specimen()));
        // EF.COM and the object have 122 octets, and five stand before the text.
        assert_eq!(on_chip(&with(ERIKSSON_TD3, CHECK, b'<')), Err(Refusal::digit(1, 127 + CHECK)));
    }
}
