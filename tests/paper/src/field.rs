//! The alphabet, the check digit and the rule of each field, from document 01, "The text", and document 02, request 2026-05.

use crate::form::Form;

pub const FILLER: u8 = b'<';

pub fn in_alphabet(character: u8) -> bool {
    is_letter(character) || is_digit(character) || character == FILLER
}

pub fn is_letter(character: u8) -> bool {
    character.is_ascii_uppercase()
}

pub fn is_digit(character: u8) -> bool {
    character.is_ascii_digit()
}

/// A check digit being worked out: the sum so far, and the weight of the next character.
pub struct Check {
    sum: u32,
    weight: u32,
}

impl Check {
    pub fn start() -> Check {
        Check { sum: 0, weight: 7 }
    }

    /// Goes on over characters of the alphabet, as if they were joined to those before.
    pub fn over(mut self, characters: &[u8]) -> Check {
        for character in characters {
            self.sum += self.weight * value(*character);
            self.weight = match self.weight {
                7 => 3,
                3 => 1,
                _ => 7,
            };
        }
        self
    }

    /// The digit as a character.
    pub fn digit(self) -> u8 {
        b'0' + (self.sum % 10) as u8
    }
}

fn value(character: u8) -> u32 {
    match character {
        b'0'..=b'9' => u32::from(character - b'0'),
        b'A'..=b'Z' => u32::from(character - b'A') + 10,
        _ => 0,
    }
}

/// A field without the fillers at its end.
pub fn trimmed(field: &[u8]) -> &[u8] {
    let last = field.iter().rposition(|character| *character != FILLER);
    &field[..last.map_or(0, |last| last + 1)]
}

pub fn is_code(form: Form, code: &[u8]) -> bool {
    let second = is_letter(code[1]) || code[1] == FILLER;
    match form {
        Form::Td3 => code[0] == b'P' && second,
        Form::Td1 | Form::Td2 => matches!(code[0], b'A' | b'C' | b'I') && second && code[1] != b'V' && code != b"AC",
        Form::MrvA | Form::MrvB => selects_visa(code),
    }
}

/// Whether a text, or its code alone, begins as a visa's: "Code V and a letter or `<` selects them".
pub fn selects_visa(text: &[u8]) -> bool {
    matches!(text, [b'V', second, ..] if is_letter(*second) || *second == FILLER)
}

/// An issuing state or a nationality: one to three letters, then fillers.
pub fn is_state(state: &[u8]) -> bool {
    let letters = trimmed(state);
    !letters.is_empty() && letters.iter().all(|character| is_letter(*character))
}

pub fn is_sex(sex: u8) -> bool {
    matches!(sex, b'M' | b'F' | FILLER)
}

/// A name with or without the fillers at its end.
pub fn is_name(name: &[u8]) -> bool {
    let kept = |character: &u8| is_letter(*character) || *character == FILLER;
    name.iter().all(kept) && name.first().map_or(false, |first| is_letter(*first))
}

/// Birth: year, month and day, each of them known or `<<`.
pub fn is_birth(date: &[u8]) -> bool {
    let known = date.chunks(2).all(|pair| pair == b"<<" || two_digits(pair).is_some());
    known && on_calendar(two_digits(&date[..2]), two_digits(&date[2..4]), two_digits(&date[4..]))
}

/// Expiry: all six are digits.
pub fn is_expiry(date: &[u8]) -> bool {
    date.iter().all(|character| is_digit(*character)) && is_birth(date)
}

fn two_digits(pair: &[u8]) -> Option<u32> {
    (is_digit(pair[0]) && is_digit(pair[1])).then(|| 10 * value(pair[0]) + value(pair[1]))
}

fn on_calendar(year: Option<u32>, month: Option<u32>, day: Option<u32>) -> bool {
    let leap = year.map_or(true, |year| year % 4 == 0);
    let days = match month {
        None | Some(1 | 3 | 5 | 7 | 8 | 10 | 12) => 31,
        Some(4 | 6 | 9 | 11) => 30,
        Some(2) => 28 + u32::from(leap),
        Some(_) => return false,
    };
    day.map_or(true, |day| (1..=days).contains(&day))
}

#[cfg(test)]
mod tests {
    use super::*;

    #[test]
    fn the_check_digits_of_the_paper() {
        assert_eq!(Check::start().over(b"520727").digit(), b'3');
        assert_eq!(Check::start().over(b"AB2134<<<").digit(), b'5');
        assert_eq!(Check::start().over(b"D23145890734").digit(), b'9');
        assert_eq!(Check::start().over(b"D23145890").over(b"734").digit(), b'9');
        assert_eq!(Check::start().digit(), b'0');
    }

    #[test]
    fn the_dates_of_the_paper() {
        assert!(!is_birth(b"900230"));
        assert!(is_birth(b"960229"));
        assert!(is_birth(b"95<<31"));
        assert!(!is_birth(b"950229"));
    }

    #[test]
    fn dates_in_part_unknown() {
        for kept in [b"<<<<<<", b"<<0229", b"000229", b"9502<<", b"<<<<31", b"95<<01"] {
            assert!(is_birth(kept));
        }
        for refused in [b"<<0230", b"95<<32", b"95<<00", b"9513<<", b"9500<<", b"9<0101", b"<90101", b"<<0431"] {
            assert!(!is_birth(refused));
        }
        assert!(!is_expiry(b"<<0101") && !is_expiry(b"300631") && is_expiry(b"300630"));
    }

    #[test]
    fn codes() {
        assert!(is_code(Form::Td3, b"P<") && is_code(Form::Td3, b"PV") && !is_code(Form::Td3, b"P0"));
        assert!(is_code(Form::Td1, b"AB") && !is_code(Form::Td1, b"AC") && is_code(Form::Td2, b"IC"));
        assert!(!is_code(Form::Td1, b"IV") && !is_code(Form::Td2, b"V<") && !is_code(Form::Td1, b"P<"));
        for visa in Form::VISAS {
            assert!([b"V<", b"VA", b"VC", b"VV", b"VZ"].iter().all(|code| is_code(visa, *code)));
            assert!(![b"V0", b"V9", b"P<", b"I<", b"AC", b"<V"].iter().any(|code| is_code(visa, *code)));
        }
    }

    #[test]
    fn states_and_names() {
        assert!(is_state(b"D<<") && is_state(b"UTO") && !is_state(b"<<<") && !is_state(b"D<D") && !is_state(b"UT0"));
        assert!(is_name(b"NORD<<ELIN<<<") && !is_name(b"<NORD") && !is_name(b"NORD0") && !is_name(b""));
    }
}
