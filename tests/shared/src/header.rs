//! The calls of `include/lamphudet.h` and `include/lamphudet_seals.h`, declared as C has them. Whoever makes one keeps to what
//! the first asks of a host: each pointer is valid for its length, and the ranges of one call do not overlap.

use paper::answer::{Answer, Detail, Name, Stretch};
use paper::opened::Opened;
use paper::seal::answer::SealAnswer;
use paper::seal::in_c::HeaderInC;

extern "C" {
    pub fn lamphudet_digest(input: *const u8, input_length: usize, digest: *mut u8, digest_length: usize) -> Answer;
    pub fn lamphudet_read_text(
        house: u32,
        text: *const u8,
        text_length: usize,
        entry: *mut u8,
        entry_length: usize,
    ) -> Answer;
    pub fn lamphudet_write_text(entry: *const u8, entry_length: usize, text: *mut u8, text_length: usize) -> Answer;
    pub fn lamphudet_open_entry(entry: *const u8, entry_length: usize) -> Opened;
    pub fn lamphudet_next_entry(run: *const u8, run_length: usize, offset: u64) -> Answer;
    pub fn lamphudet_read_presentation(
        house: u32,
        presentation: *const u8,
        presentation_length: usize,
        entry: *mut u8,
        entry_length: usize,
    ) -> Answer;
    pub fn lamphudet_group_file(presentation: *const u8, presentation_length: usize, group: u32) -> Stretch;
    pub fn lamphudet_look_inside(file: *const u8, file_length: usize) -> Answer;
    pub fn lamphudet_read_detail(file: *const u8, file_length: usize, tag: u32) -> Detail;
    pub fn lamphudet_full_name(file: *const u8, file_length: usize, text: *const u8, text_length: usize) -> Name;
    pub fn lamphudet_look_over(list: *const u8, list_length: usize) -> Answer;
    pub fn lamphudet_house_entries(list: *const u8, list_length: usize, house: u32) -> Stretch;
    pub fn lamphudet_read_seal(
        house: u32,
        seal: *const u8,
        seal_length: usize,
        entry: *mut u8,
        entry_length: usize,
    ) -> SealAnswer;
    pub fn lamphudet_write_seal(
        entry: *const u8,
        entry_length: usize,
        header: HeaderInC,
        signature: *const u8,
        signature_length: usize,
        seal: *mut u8,
        seal_length: usize,
    ) -> Answer;
    pub fn lamphudet_version() -> u32;
    pub fn lamphudet_seals_version() -> u32;
}
