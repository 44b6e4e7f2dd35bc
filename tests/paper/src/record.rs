//! The record, and what makes one sound, from document 01, "The text", and document 02, request 2026-06. Number, name and
//! data are kept without the fillers at their ends, so that what the papers say of the places past a length holds by itself.

use crate::data;
use crate::field::{self, FILLER};
use crate::form::Form;

#[derive(Clone, Debug, PartialEq, Eq)]
pub struct Record {
    pub form: Form,
    pub code: [u8; 2],
    pub state: [u8; 3],
    pub number: Vec<u8>,
    pub nationality: [u8; 3],
    pub birth: [u8; 6],
    pub sex: u8,
    pub expiry: [u8; 6],
    pub name: Vec<u8>,
    /// What the issuer has put into its own field: a personal number, or optional data.
    pub data: Vec<u8>,
}

impl Record {
    pub fn is_sound(&self) -> bool {
        field::is_code(self.form, &self.code)
            && field::is_state(&self.state)
            && is_number(self.form, &self.number)
            && field::is_state(&self.nationality)
            && field::is_birth(&self.birth)
            && field::is_sex(self.sex)
            && field::is_expiry(&self.expiry)
            && field::is_name(&self.name)
            && self.name.len() <= self.form.longest_name()
            && self.name.last() != Some(&FILLER)
            && data::is_data(self.form, self.number.len(), &self.data)
    }
}

/// A number over nine characters goes on in the optional field, where the first filler ends it.
fn is_number(form: Form, number: &[u8]) -> bool {
    !number.is_empty()
        && number.len() <= form.longest_number()
        && number.iter().all(|character| field::in_alphabet(*character))
        && number.first() != Some(&FILLER)
        && number.last() != Some(&FILLER)
        && !number.iter().skip(9).any(|character| *character == FILLER)
}
