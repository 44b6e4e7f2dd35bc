//! The calls of the archives over ranges between guards.

use crate::guard::Lent;
use paper::answer::{Answer, Detail, Name, Stretch};
use paper::opened::Opened;
use paper::seal::answer::SealAnswer;
use paper::seal::in_c::HeaderInC;
use shared::header;

pub fn digest(input: &mut Lent, output: &mut Lent) -> Answer {
    // Each range is valid for its length, and two exclusive borrows do not overlap.
    unsafe { header::lamphudet_digest(input.pointer(), input.length(), output.pointer(), output.length()) }
}

pub fn read_text(house: u32, text: &mut Lent, entry: &mut Lent) -> Answer {
    // As for the digest.
    unsafe { header::lamphudet_read_text(house, text.pointer(), text.length(), entry.pointer(), entry.length()) }
}

pub fn write_text(entry: &mut Lent, text: &mut Lent) -> Answer {
    // As for the digest.
    unsafe { header::lamphudet_write_text(entry.pointer(), entry.length(), text.pointer(), text.length()) }
}

pub fn open_entry(entry: &mut Lent) -> Opened {
    // The range is valid for its length.
    unsafe { header::lamphudet_open_entry(entry.pointer(), entry.length()) }
}

pub fn next_entry(run: &mut Lent, offset: u64) -> Answer {
    // The range is valid for its length.
    unsafe { header::lamphudet_next_entry(run.pointer(), run.length(), offset) }
}

pub fn read_presentation(house: u32, lent: &mut Lent, entry: &mut Lent) -> Answer {
    // As for the digest.
    unsafe {
        header::lamphudet_read_presentation(house, lent.pointer(), lent.length(), entry.pointer(), entry.length())
    }
}

pub fn group_file(lent: &mut Lent, group: u32) -> Stretch {
    // The range is valid for its length.
    unsafe { header::lamphudet_group_file(lent.pointer(), lent.length(), group) }
}

pub fn look_inside(file: &mut Lent) -> Answer {
    // The range is valid for its length.
    unsafe { header::lamphudet_look_inside(file.pointer(), file.length()) }
}

pub fn read_detail(file: &mut Lent, tag: u32) -> Detail {
    // The range is valid for its length.
    unsafe { header::lamphudet_read_detail(file.pointer(), file.length(), tag) }
}

pub fn full_name(file: &mut Lent, text: &mut Lent) -> Name {
    // Each range is valid for its length.
    unsafe { header::lamphudet_full_name(file.pointer(), file.length(), text.pointer(), text.length()) }
}

pub fn look_over(list: &mut Lent) -> Answer {
    // The range is valid for its length.
    unsafe { header::lamphudet_look_over(list.pointer(), list.length()) }
}

pub fn house_entries(list: &mut Lent, house: u32) -> Stretch {
    // The range is valid for its length.
    unsafe { header::lamphudet_house_entries(list.pointer(), list.length(), house) }
}

pub fn read_seal(house: u32, lent: &mut Lent, entry: &mut Lent) -> SealAnswer {
    // As for the digest.
    unsafe { header::lamphudet_read_seal(house, lent.pointer(), lent.length(), entry.pointer(), entry.length()) }
}

pub fn write_seal(entry: &mut Lent, header: HeaderInC, signature: &mut Lent, seal: &mut Lent) -> Answer {
    // As for the digest.
    unsafe {
        header::lamphudet_write_seal(
            entry.pointer(),
            entry.length(),
            header,
            signature.pointer(),
            signature.length(),
            seal.pointer(),
            seal.length(),
        )
    }
}

pub fn version() -> u32 {
    // It is lent nothing.
    unsafe { header::lamphudet_version() }
}

pub fn seals_version() -> u32 {
    // It is lent nothing.
    unsafe { header::lamphudet_seals_version() }
}
