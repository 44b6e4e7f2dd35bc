//! The calls of the archives over bare ranges, with nothing around them that would be measured too.

use paper::answer::{Answer, Detail, Name, Stretch};
use paper::opened::Opened;
use paper::seal::answer::SealAnswer;
use paper::seal::in_c::HeaderInC;
use shared::header;

pub fn digest(input: &[u8], output: &mut [u8]) -> Answer {
    // Each range is valid for its length, and what is borrowed exclusively does not overlap what is borrowed.
    unsafe { header::lamphudet_digest(input.as_ptr(), input.len(), output.as_mut_ptr(), output.len()) }
}

pub fn read_text(house: u32, text: &[u8], entry: &mut [u8]) -> Answer {
    // As for the digest.
    unsafe { header::lamphudet_read_text(house, text.as_ptr(), text.len(), entry.as_mut_ptr(), entry.len()) }
}

pub fn write_text(entry: &[u8], text: &mut [u8]) -> Answer {
    // As for the digest.
    unsafe { header::lamphudet_write_text(entry.as_ptr(), entry.len(), text.as_mut_ptr(), text.len()) }
}

pub fn open_entry(entry: &[u8]) -> Opened {
    // The range is valid for its length.
    unsafe { header::lamphudet_open_entry(entry.as_ptr(), entry.len()) }
}

pub fn next_entry(run: &[u8], offset: u64) -> Answer {
    // The range is valid for its length.
    unsafe { header::lamphudet_next_entry(run.as_ptr(), run.len(), offset) }
}

pub fn read_presentation(house: u32, lent: &[u8], entry: &mut [u8]) -> Answer {
    // As for the digest.
    unsafe { header::lamphudet_read_presentation(house, lent.as_ptr(), lent.len(), entry.as_mut_ptr(), entry.len()) }
}

pub fn group_file(lent: &[u8], group: u32) -> Stretch {
    // The range is valid for its length.
    unsafe { header::lamphudet_group_file(lent.as_ptr(), lent.len(), group) }
}

pub fn look_inside(file: &[u8]) -> Answer {
    // The range is valid for its length.
    unsafe { header::lamphudet_look_inside(file.as_ptr(), file.len()) }
}

pub fn read_detail(file: &[u8], tag: u32) -> Detail {
    // The range is valid for its length.
    unsafe { header::lamphudet_read_detail(file.as_ptr(), file.len(), tag) }
}

pub fn full_name(file: &[u8], text: &[u8]) -> Name {
    // Each range is valid for its length.
    unsafe { header::lamphudet_full_name(file.as_ptr(), file.len(), text.as_ptr(), text.len()) }
}

pub fn look_over(list: &[u8]) -> Answer {
    // The range is valid for its length.
    unsafe { header::lamphudet_look_over(list.as_ptr(), list.len()) }
}

pub fn house_entries(list: &[u8], house: u32) -> Stretch {
    // The range is valid for its length.
    unsafe { header::lamphudet_house_entries(list.as_ptr(), list.len(), house) }
}

pub fn read_seal(house: u32, seal: &[u8], entry: &mut [u8]) -> SealAnswer {
    // As for the digest.
    unsafe { header::lamphudet_read_seal(house, seal.as_ptr(), seal.len(), entry.as_mut_ptr(), entry.len()) }
}

pub fn write_seal(entry: &[u8], header: HeaderInC, signature: &[u8], seal: &mut [u8]) -> Answer {
    // As for the digest.
    unsafe {
        header::lamphudet_write_seal(
            entry.as_ptr(),
            entry.len(),
            header,
            signature.as_ptr(),
            signature.len(),
            seal.as_mut_ptr(),
            seal.len(),
        )
    }
}
