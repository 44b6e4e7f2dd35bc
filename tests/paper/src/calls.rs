//! What each C call answers and writes, from document 01, "What the server lends and gets" and "Refusal numbers", and
//! document 02.

use crate::answer::{Answer, Detail, Name, Outcome};
use crate::details::{self, FULL_NAME};
use crate::opened::Opened;
use crate::refusal::{Refusal, LONGEST};
use crate::seal::answer::SealAnswer;
use crate::seal::in_c::HeaderInC;
use crate::sha256::sha256;
use crate::{entry, inside, list, presentation, seal, text};

/// Refusals 1, then 16; else 32 octets.
pub fn digest(input: &[u8], room: usize) -> Outcome {
    if input.len() > LONGEST {
        return Outcome::refused(Refusal::at(1, 0));
    }
    Outcome::written(sha256(input).to_vec(), room)
}

/// The reader's refusals, then 17 for the house, then 16; else the entry.
pub fn read_text(house: u32, text: &[u8], room: usize) -> Outcome {
    match text::read(text) {
        Err(refusal) => Outcome::refused(refusal),
        Ok(_) if !entry::is_house(house) => Outcome::refused(Refusal::at(17, 0)),
        Ok(record) => Outcome::written(entry::write(house, &record), room),
    }
}

/// As for a text.
pub fn read_presentation(house: u32, lent: &[u8], room: usize) -> Outcome {
    match presentation::read(lent) {
        Err(refusal) => Outcome::refused(refusal),
        Ok(_) if !entry::is_house(house) => Outcome::refused(Refusal::at(17, 0)),
        Ok(record) => Outcome::written(entry::write(house, &record), room),
    }
}

/// The number of elements in a group's file, itself counted.
pub fn look_inside(file: &[u8]) -> Answer {
    match inside::read(file) {
        Ok(tree) => Answer::not_refused(tree.count() as u64),
        Err(refusal) => Answer::refused(refusal),
    }
}

/// Where a detail of group 11 stands in its file.
pub fn read_detail(file: &[u8], tag: u32) -> Detail {
    match details::read(file) {
        Ok(details) => Detail::found(details.value(tag)),
        Err(refusal) => Detail::refused(refusal),
    }
}

/// "5F0E if the file reads and it is not empty, otherwise, if the text is accepted, its name without trailing fillers, otherwise
/// an empty stretch".
pub fn full_name(file: &[u8], text: &[u8]) -> Name {
    let in_file = details::read(file).ok().and_then(|details| details.value(FULL_NAME.into()));
    if let Some(stretch) = in_file.filter(|stretch| !stretch.is_empty()) {
        return Name::in_file(stretch);
    }
    match text::read(text) {
        Ok(record) => {
            let start = record.form.layout().name.start;
            Name::in_text(start..start + record.name.len())
        }
        Err(_) => Name::NONE,
    }
}

/// The number of entries in the store's nightly list.
pub fn look_over(lent: &[u8]) -> Answer {
    match list::read(lent) {
        Ok(lines) => Answer::not_refused(lines.len() as u64),
        Err(refusal) => Answer::refused(refusal),
    }
}

/// As for a text; with the entry, what the seal says besides.
pub fn read_seal(house: u32, lent: &[u8], room: usize) -> Outcome<SealAnswer> {
    match seal::read(lent) {
        Err(refusal) => Outcome::refused_seal(refusal),
        Ok(_) if !entry::is_house(house) => Outcome::refused_seal(Refusal::at(17, 0)),
        Ok(seal) => Outcome::written_seal(&seal, entry::write(house, &seal.record), room),
    }
}

/// 18 unless there is exactly one entry, then 16; else the text.
pub fn write_text(lent: &[u8], room: usize) -> Outcome {
    match entry::read(lent) {
        Some((_, record, length)) if length == lent.len() => Outcome::written(text::write(&record), room),
        _ => Outcome::refused(Refusal::at(18, 0)),
    }
}

/// 18 unless there is exactly one entry, then the writer's own refusals, then 16; else the seal. The entry's house is no
/// part of it.
pub fn write_seal(lent: &[u8], header: &HeaderInC, signature: &[u8], room: usize) -> Outcome {
    match entry::read(lent) {
        Some((_, record, length)) if length == lent.len() => match seal::writer::write(&record, header, signature) {
            Err(refusal) => Outcome::refused(refusal),
            Ok(octets) => Outcome::written(octets, room),
        },
        _ => Outcome::refused(Refusal::at(18, 0)),
    }
}

/// 18 with the blank record unless there is exactly one entry; else its house and record.
pub fn open_entry(lent: &[u8]) -> Opened {
    match entry::read(lent) {
        Some((house, record, length)) if length == lent.len() => Opened::of(house, &record),
        _ => Opened::REFUSED,
    }
}

/// The next offset; 0 at the end; 18 at the offset where no entry begins.
pub fn next_entry(run: &[u8], offset: u64) -> Answer {
    let length = run.len() as u64;
    if offset == length {
        return Answer::not_refused(0);
    }
    let found = if offset < length { entry::read(&run[offset as usize..]) } else { None };
    match found {
        Some((_, _, taken)) => Answer::not_refused(offset + taken as u64),
        None => Answer::refused(Refusal::at(18, offset as usize)),
    }
}

#[cfg(test)]
mod tests {
    use super::*;
    use crate::seal::printed;
    use crate::specimens::{ERIKSSON_MRV_A, ERIKSSON_TD2, ERIKSSON_TD3, T3};

    #[test]
    fn t3_opened() {
        let kept = read_text(258, T3.as_bytes(), entry::LONGEST).written;
        let opened = open_entry(&kept);
        assert_eq!((opened.number, opened.house, opened.form, opened.sex), (0, 258, 2, b'F'));
        assert_eq!((&opened.code, &opened.state, &opened.nationality), (b"P<", b"UTO", b"UTO"));
        assert_eq!((&opened.birth, &opened.expiry), (b"900115", b"300630"));
        assert_eq!((opened.document_number_len, &opened.document_number), (2, b"K7<<<<<<<<<<<<<<<<<<<<"));
        assert_eq!((opened.name_len, &opened.name), (10, b"NORD<<ELIN<<<<<<<<<<<<<<<<<<<<<<<<<<<<<"));
        assert_eq!((opened.data_len, &opened.data), (0, &[b'<'; 16]));
        assert_eq!(open_entry(&[]), Opened::REFUSED);
        assert_eq!(open_entry(&kept[1..]), Opened::REFUSED);
        assert_eq!(open_entry(&[&kept[..], &kept].concat()), Opened::REFUSED);
    }

    #[test]
    fn a_seal_written_in_the_order_of_its_refusals() {
        let kept = read_text(258, ERIKSSON_TD2.as_bytes(), entry::LONGEST).written;
        let other = read_text(258, ERIKSSON_TD3.as_bytes(), entry::LONGEST).written;
        let read = read_seal(1, &printed::signed(), entry::LONGEST).answer;
        let header = HeaderInC { version: 0x03, ..HeaderInC::read(&read) };
        let done = write_seal(&kept, &header, &[7; 64], 136);
        assert_eq!((done.answer, done.written.len()), (Answer::not_refused(136), 136));
        assert_eq!(read_seal(258, &done.written, entry::LONGEST).written, kept);
        let refused = |lent: &[u8], header: &HeaderInC, room, number| {
            assert_eq!(write_seal(lent, header, &[7; 64], room), Outcome::refused(Refusal::at(number, 0)));
        };
        refused(&[], &HeaderInC::BLANK, 0, 18);
        refused(&[&kept[..], &kept].concat(), &HeaderInC::BLANK, 0, 18);
        refused(&other, &HeaderInC::BLANK, 0, 17);
        refused(&kept, &HeaderInC::BLANK, 0, 28);
        refused(&kept, &header, 135, 16);
    }

    #[test]
    fn data_opened() {
        let opened = |text: &str| open_entry(&read_text(1, text.as_bytes(), entry::LONGEST).written);
        let (passport, visa) = (opened(ERIKSSON_TD3), opened(ERIKSSON_MRV_A));
        assert_eq!((passport.data_len, &passport.data), (9, b"ZE184226B<<<<<<<"));
        assert_eq!((visa.data_len, &visa.data), (10, b"6ZE184226B<<<<<<"));
    }
}
