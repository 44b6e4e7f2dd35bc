//! Fillers and spaces, from source document 002, 6.1.3 and annex C: C40 has no filler, and a space stands for it.

use crate::field::FILLER;

pub fn with_spaces(text: &[u8]) -> Vec<u8> {
    replaced(text, FILLER, b' ')
}

pub fn with_fillers(text: &[u8]) -> Vec<u8> {
    replaced(text, b' ', FILLER)
}

fn replaced(text: &[u8], one: u8, other: u8) -> Vec<u8> {
    text.iter().map(|character| if *character == one { other } else { *character }).collect()
}
