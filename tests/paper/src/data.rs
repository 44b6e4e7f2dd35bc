//! The issuer's own data, from document 02, request 2026-06: "TD3's fourteen characters, TD2's and the visas' optional field,
//! TD1's field in the second line, trailing fillers dropped. For a long TD2 number it is what follows the filler after the
//! number's check. A sound record's data fits that place, holds only A-Z, 0-9 and `<`, and does not end in a filler. TD3's
//! personal check is written over it, 0 when it is empty."

use crate::field::{in_alphabet, FILLER};
use crate::form::{Form, Layout};
use std::ops::Range;

/// Where it stands in a text whose number has so many further characters. Behind these stand the number's check and the
/// filler. TD1's number goes on in the first line, and does not meet the data of the second.
pub fn place(at: &Layout, further: usize) -> Range<usize> {
    let meet = at.further.as_ref() == Some(&at.data);
    let taken = if meet && further > 0 { further + 2 } else { 0 };
    at.data.end.min(at.data.start + taken)..at.data.end
}

/// How many characters it may have beside a number of so many.
pub fn longest(form: Form, number: usize) -> usize {
    place(form.layout(), number.saturating_sub(9)).len()
}

pub fn is_data(form: Form, number: usize, data: &[u8]) -> bool {
    data.len() <= longest(form, number)
        && data.iter().all(|character| in_alphabet(*character))
        && data.last() != Some(&FILLER)
}

#[cfg(test)]
mod tests {
    use super::*;
    use crate::record::Record;
    use crate::refusal::Refusal;
    use crate::specimens::{ERIKSSON_MRV_A, ERIKSSON_MRV_B, ERIKSSON_TD1, ERIKSSON_TD2, ERIKSSON_TD3, T3};
    use crate::specimens::{LONG_TD1, LONG_TD2};
    use crate::text::{read, repair, write};

    fn record(text: &str) -> Record {
        read(text.as_bytes()).unwrap()
    }

    /// A specimen with these characters at a place, and the check digits that fit them.
    fn with(text: &str, place: usize, characters: &[u8]) -> Vec<u8> {
        let Record { form, number, .. } = record(text);
        let mut other = text.as_bytes().to_vec();
        other[place..place + characters.len()].copy_from_slice(characters);
        repair(form, &mut other, number.len().saturating_sub(9));
        other
    }

    fn data(text: &[u8]) -> Vec<u8> {
        read(text).unwrap().data
    }

    #[test]
    fn how_long_it_may_be() {
        for number in 1..=9 {
            assert_eq!(Form::ALL.map(|form| longest(form, number)), [11, 7, 14, 16, 8]);
        }
        // Of seven places a long number takes its further characters, the check and the filler.
        assert_eq!([10, 11, 12, 13, 14].map(|number| longest(Form::Td2, number)), [4, 3, 2, 1, 0]);
        assert!((10..=22).all(|number| longest(Form::Td1, number) == 11));
    }

    #[test]
    fn the_specimens() {
        assert_eq!(record(ERIKSSON_TD3).data, b"ZE184226B");
        assert_eq!(record(ERIKSSON_MRV_A).data, b"6ZE184226B");
        for text in [T3, ERIKSSON_TD1, ERIKSSON_TD2, ERIKSSON_MRV_B, LONG_TD1, LONG_TD2] {
            assert_eq!(record(text).data, b"");
        }
    }

    /// From its first place to its last; it may begin with a filler and have others inside, and those at its end are dropped.
    #[test]
    fn every_place_of_every_form() {
        for text in [ERIKSSON_TD1, ERIKSSON_TD2, ERIKSSON_TD3, ERIKSSON_MRV_A, ERIKSSON_MRV_B] {
            let at = record(text).form.layout().data.clone();
            let blank = vec![FILLER; at.len()];
            for length in 1..=at.len() {
                let mut field = blank.clone();
                field[length - 1] = b'7';
                let other = with(text, at.start, &field);
                assert_eq!(data(&other), field[..length]);
                assert_eq!(write(&read(&other).unwrap()), other);
            }
            assert_eq!(data(&with(text, at.start, &blank)), b"");
        }
    }

    /// The optional field of TD1's first line is read past, and written as fillers.
    #[test]
    fn the_first_line_of_td1_is_not_kept() {
        let text = with(ERIKSSON_TD1, 15, b"ABCDEFGHIJKLMNO");
        assert_eq!(read(&text), Ok(record(ERIKSSON_TD1)));
        assert_eq!(write(&read(&text).unwrap()), ERIKSSON_TD1.as_bytes());
        // Behind a long number there too.
        let long = with(LONG_TD1, 20, b"ABCDEFGHIJ");
        assert_eq!(read(&long), Ok(record(LONG_TD1)));
        // The second line's is kept beside either.
        for line in [ERIKSSON_TD1, LONG_TD1] {
            assert_eq!(data(&with(line, 48, b"<AB<<345678")), b"<AB<<345678");
        }
    }

    /// `D23145890<` and then `7349<` and two places: the data may begin with a filler there too.
    #[test]
    fn behind_a_long_number_of_td2() {
        for (last, expected) in [(b"AB", &b"AB"[..]), (b"<B", b"<B"), (b"A<", b"A"), (b"<<", b"")] {
            let text = with(LONG_TD2, 69, last);
            assert_eq!(read(&text), Ok(Record { data: expected.to_vec(), ..record(LONG_TD2) }));
            assert_eq!(write(&read(&text).unwrap()), text);
        }
        // With five further characters, the check and the filler, nothing is left.
        let number = b"D2314589073456".to_vec();
        let full = Record { number, ..record(LONG_TD2) };
        let text = write(&full);
        assert_eq!(&text[64..69], b"73456");
        assert_eq!((text[70], read(&text)), (FILLER, Ok(full)));
    }

    /// `ZE184226B` has 1, as it is printed: 35, 14, 1, 8, 4, 2, 2, 6 and 11 by the weights 7, 3, 1 come to 401.
    #[test]
    fn the_personal_check_is_written_over_it() {
        let check = |data: &[u8]| write(&Record { data: data.to_vec(), ..record(ERIKSSON_TD3) })[86];
        assert_eq!((check(b"ZE184226B"), check(b"")), (b'1', b'0'));
        // 7 * 10, and so 0 over data that is not empty; 1 at the second place counts 3, at the fourteenth too.
        assert_eq!((check(b"A"), check(b"<1"), check(b"<<<<<<<<<<<<<1")), (b'0', b'3', b'3'));
    }

    /// Its check is asked for as before, and told with the digit that was worked out.
    #[test]
    fn a_wrong_personal_check() {
        let mut text = ERIKSSON_TD3.as_bytes().to_vec();
        text[86] = b'0';
        assert_eq!(read(&text), Err(Refusal::digit(1, 86)));
    }

    #[test]
    fn what_is_sound() {
        for text in [ERIKSSON_TD1, ERIKSSON_TD2, ERIKSSON_TD3, ERIKSSON_MRV_A, ERIKSSON_MRV_B, LONG_TD1, LONG_TD2] {
            let record = record(text);
            let room = longest(record.form, record.number.len());
            let sound = |data: Vec<u8>| Record { data, ..record.clone() }.is_sound();
            assert!((0..=room).all(|length| sound(vec![b'Z'; length])));
            assert!(!sound(vec![b'Z'; room + 1]));
            assert!(sound(b"<0".to_vec()) && !sound(b"0<".to_vec()) && !sound(b"<".to_vec()));
            assert!(![&b"a"[..], b" ", b"/", b"0:", b"[", b"@0"].iter().any(|data| sound(data.to_vec())));
        }
        let full = Record { number: b"D2314589073456".to_vec(), ..record(LONG_TD2) };
        assert!(full.is_sound() && !Record { data: b"0".to_vec(), ..full }.is_sound());
    }
}
