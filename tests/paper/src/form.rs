//! The five forms and where each has its fields, from document 01, "The text", and document 02, requests 2026-05 and 2026-06.
//! Offsets are from 0 in the joined lines.

use crate::field::selects_visa;
use std::ops::Range;

#[derive(Clone, Copy, Debug, PartialEq, Eq)]
pub enum Form {
    Td1,
    Td2,
    Td3,
    MrvA,
    MrvB,
}

pub struct Layout {
    pub length: usize,
    pub code: Range<usize>,
    pub state: Range<usize>,
    pub number: Range<usize>,
    pub number_check: usize,
    /// The optional field that a long number goes on in. TD3 has none, and "no long numbers" have the visas.
    pub further: Option<Range<usize>>,
    pub birth: Range<usize>,
    pub birth_check: usize,
    pub sex: usize,
    /// A visa's valid-until.
    pub expiry: Range<usize>,
    pub expiry_check: usize,
    pub nationality: Range<usize>,
    pub name: Range<usize>,
    /// TD3's personal number. Its check digit follows it.
    pub personal: Option<Range<usize>>,
    /// The fields whose content is the issuer's own: the optional ones, or the personal number.
    pub free: &'static [Range<usize>],
    /// The one of them that a record keeps: "TD3's fourteen characters, TD2's and the visas' optional field, TD1's field in
    /// the second line".
    pub data: Range<usize>,
    /// The visas have "no composite".
    pub composite: Option<usize>,
    /// What the composite check digit runs over, in its order.
    pub covered: &'static [Range<usize>],
}

static TD1: Layout = Layout {
    length: 90,
    code: 0..2,
    state: 2..5,
    number: 5..14,
    number_check: 14,
    further: Some(15..30),
    birth: 30..36,
    birth_check: 36,
    sex: 37,
    expiry: 38..44,
    expiry_check: 44,
    nationality: 45..48,
    name: 60..90,
    personal: None,
    free: &[15..30, 48..59],
    data: 48..59,
    composite: Some(59),
    covered: &[5..30, 30..37, 38..45, 48..59],
};

static TD2: Layout = Layout {
    length: 72,
    code: 0..2,
    state: 2..5,
    name: 5..36,
    number: 36..45,
    number_check: 45,
    nationality: 46..49,
    birth: 49..55,
    birth_check: 55,
    sex: 56,
    expiry: 57..63,
    expiry_check: 63,
    further: Some(64..71),
    personal: None,
    free: &[64..71],
    data: 64..71,
    composite: Some(71),
    covered: &[36..46, 49..56, 57..71],
};

static TD3: Layout = Layout {
    length: 88,
    code: 0..2,
    state: 2..5,
    name: 5..44,
    number: 44..53,
    number_check: 53,
    nationality: 54..57,
    birth: 57..63,
    birth_check: 63,
    sex: 64,
    expiry: 65..71,
    expiry_check: 71,
    further: None,
    personal: Some(72..86),
    free: &[72..86],
    data: 72..86,
    composite: Some(87),
    covered: &[44..54, 57..64, 65..87],
};

static MRV_A: Layout = Layout {
    length: 88,
    code: 0..2,
    state: 2..5,
    name: 5..44,
    number: 44..53,
    number_check: 53,
    nationality: 54..57,
    birth: 57..63,
    birth_check: 63,
    sex: 64,
    expiry: 65..71,
    expiry_check: 71,
    further: None,
    personal: None,
    free: &[72..88],
    data: 72..88,
    composite: None,
    covered: &[],
};

static MRV_B: Layout = Layout {
    length: 72,
    code: 0..2,
    state: 2..5,
    name: 5..36,
    number: 36..45,
    number_check: 45,
    nationality: 46..49,
    birth: 49..55,
    birth_check: 55,
    sex: 56,
    expiry: 57..63,
    expiry_check: 63,
    further: None,
    personal: None,
    free: &[64..72],
    data: 64..72,
    composite: None,
    covered: &[],
};

impl Form {
    /// Each at the place that is its number in an entry.
    pub const ALL: [Form; 5] = [Form::Td1, Form::Td2, Form::Td3, Form::MrvA, Form::MrvB];
    pub const VISAS: [Form; 2] = [Form::MrvA, Form::MrvB];
    /// Those that may stand in group 1: visas are "text only: inside group 1 such a text stays refusal 3".
    pub const IN_GROUP_1: [Form; 3] = [Form::Td1, Form::Td2, Form::Td3];
    /// Request 2026-08: "the text is read as TD2".
    pub const IN_SEALS: [Form; 1] = [Form::Td2];

    pub fn layout(self) -> &'static Layout {
        match self {
            Form::Td1 => &TD1,
            Form::Td2 => &TD2,
            Form::Td3 => &TD3,
            Form::MrvA => &MRV_A,
            Form::MrvB => &MRV_B,
        }
    }

    pub fn is_visa(self) -> bool {
        Form::VISAS.contains(&self)
    }

    /// The form of a text, of those that may stand where it stands: the visa of its length that its code selects, else the
    /// other form of its length.
    pub fn of(text: &[u8], among: &[Form]) -> Option<Form> {
        let may_be = |form: &Form| form.layout().length == text.len() && (!form.is_visa() || selects_visa(text));
        among.iter().copied().filter(may_be).max_by_key(|form| form.is_visa())
    }

    /// In an optional field the check digit and one filler stand behind the further characters of a number.
    pub fn longest_number(self) -> usize {
        let layout = self.layout();
        layout.number.len() + layout.further.as_ref().map_or(0, |further| further.len() - 2)
    }

    pub fn longest_name(self) -> usize {
        self.layout().name.len()
    }
}

#[cfg(test)]
mod tests {
    use super::*;

    /// The widths in text order, as document 01 lists them: a range for each, from where the one before ends.
    fn ranges(widths: &[usize]) -> Vec<Range<usize>> {
        let mut end = 0;
        let range = |width: &usize| {
            end += width;
            end - width..end
        };
        widths.iter().map(range).collect()
    }

    #[test]
    fn td1_has_the_widths_of_the_paper() {
        let at = ranges(&[2, 3, 9, 1, 15, 6, 1, 1, 6, 1, 3, 11, 1, 30]);
        assert_eq!([&TD1.code, &TD1.state, &TD1.number], [&at[0], &at[1], &at[2]]);
        assert_eq!([TD1.number_check, TD1.birth_check, TD1.sex], [at[3].start, at[6].start, at[7].start]);
        assert_eq!(TD1.further, Some(at[4].clone()));
        assert_eq!([&TD1.birth, &TD1.expiry, &TD1.nationality], [&at[5], &at[8], &at[10]]);
        assert_eq!((TD1.expiry_check, TD1.composite), (at[9].start, Some(at[12].start)));
        assert_eq!((TD1.name.clone(), TD1.length), (at[13].clone(), at[13].end));
    }

    /// The forms of two lines, up to the check of the expiry, and the widths of what is behind it.
    fn two_lines(form: &Layout, name: usize, last: &[usize]) -> Vec<Range<usize>> {
        let at = ranges(&[&[2, 3, name, 9, 1, 3, 6, 1, 1, 6, 1], last].concat());
        assert_eq!([&form.code, &form.state, &form.name], [&at[0], &at[1], &at[2]]);
        assert_eq!([&form.number, &form.nationality], [&at[3], &at[5]]);
        assert_eq!([&form.birth, &form.expiry], [&at[6], &at[9]]);
        assert_eq!([form.number_check, form.birth_check], [at[4].start, at[7].start]);
        assert_eq!([form.sex, form.expiry_check], [at[8].start, at[10].start]);
        assert_eq!(form.length, at.last().unwrap().end);
        at[11..].to_vec()
    }

    #[test]
    fn td2_and_td3_have_the_widths_of_the_paper() {
        for (form, name, last) in [(&TD2, 31, &[7, 1][..]), (&TD3, 39, &[14, 1, 1])] {
            let behind = two_lines(form, name, last);
            assert_eq!(form.further.clone().or(form.personal.clone()), Some(behind[0].clone()));
            assert_eq!(form.composite, Some(form.length - 1));
        }
    }

    #[test]
    fn visas_have_the_widths_of_the_paper() {
        for (form, name, last) in [(&MRV_A, 39, 16), (&MRV_B, 31, 8)] {
            let behind = two_lines(form, name, &[last]);
            assert_eq!(form.free, behind);
            assert_eq!((&form.further, &form.personal, form.composite), (&None, &None, None));
            assert!(form.covered.is_empty());
        }
    }

    #[test]
    fn what_selects_a_visa() {
        let text = |code: &[u8], length: usize| [code, &vec![b'<'; length - 2]].concat();
        let lengths = [(72, Form::Td2, Form::MrvB), (88, Form::Td3, Form::MrvA)];
        for (length, other, visa) in lengths {
            for code in [b"V<", b"VA", b"VC", b"VZ", b"VV"] {
                assert_eq!(Form::of(&text(code, length), &Form::ALL), Some(visa));
                assert_eq!(Form::of(&text(code, length), &Form::IN_GROUP_1), Some(other));
            }
            for code in [b"V0", b"V9", b"Va", b"V ", b"v<", b"P<", b"I<", b"<V", b"AV"] {
                assert_eq!(Form::of(&text(code, length), &Form::ALL), Some(other));
            }
        }
        assert_eq!(Form::of(&text(b"V<", 90), &Form::ALL), Some(Form::Td1));
        assert_eq!(Form::of(&text(b"V<", 72), &Form::IN_SEALS), Some(Form::Td2));
        for length in (0..200).filter(|length| ![72, 88, 90].contains(length)) {
            assert_eq!(Form::of(&b"V<".repeat(100)[..length], &Form::ALL), None);
        }
    }

    #[test]
    fn the_longest_of_each() {
        assert_eq!(Form::ALL.map(Form::longest_number), [22, 14, 9, 9, 9]);
        assert_eq!(Form::ALL.map(Form::longest_name), [30, 31, 39, 39, 31]);
    }

    #[test]
    fn the_data_is_the_last_of_what_is_the_issuers_own() {
        for form in Form::ALL.map(Form::layout) {
            assert_eq!(form.free.last(), Some(&form.data));
        }
        assert_eq!(Form::ALL.map(|form| form.layout().data.len()), [11, 7, 14, 16, 8]);
    }
}
