//! What the issuer's data costs: passports with as much of it as there is room for, and the same passports without.

use crate::border;
use crate::contender::Contender;
use crate::job::{Call, Data, Work};
use crate::records::{along, opening, over, read_text, write_text, RECORDS};
use paper::data::longest;
use paper::form::Form;
use paper::record::Record;
use paper::{calls, entry, text};
use shared::records::{bare_of, data_of};
use shared::seeds::Seeds;

pub fn of(contender: Contender, call: Call, data: Data) -> Option<Work> {
    let texts = || records(data).iter().map(text::write).collect();
    let entries = || records(data).iter().map(|record| entry::write(1, record)).collect();
    match (contender, call) {
        (Contender::Library, Call::Read) => Some(over(texts(), |text, room| border::read_text(1, text, room))),
        (Contender::Library, Call::Next) => Some(along(entries(), border::next_entry)),
        (Contender::Library, Call::Open) => Some(opening(entries(), border::open_entry)),
        (Contender::Library, Call::Write) => Some(over(entries(), border::write_text)),
        (Contender::Rust, Call::Read) => Some(over(texts(), read_text)),
        (Contender::Rust, Call::Next) => Some(along(entries(), calls::next_entry)),
        (Contender::Rust, Call::Open) => Some(opening(entries(), calls::open_entry)),
        (Contender::Rust, Call::Write) => Some(over(entries(), write_text)),
        _ => None,
    }
}

/// The passports of the row for TD3.
fn records(data: Data) -> Vec<Record> {
    let (mut seeds, mut others) = (Seeds::new(9303), Seeds::new(2606));
    let record = |_| {
        let bare = bare_of(&mut seeds, Form::Td3);
        match data {
            Data::Empty => bare,
            Data::Full => Record { data: data_of(&mut others, longest(bare.form, bare.number.len())), ..bare },
        }
    };
    (0..RECORDS).map(record).collect()
}

#[cfg(test)]
mod tests {
    use super::*;

    /// The same but for the data, of which they have fourteen characters and none.
    #[test]
    fn passports() {
        for (full, empty) in records(Data::Full).into_iter().zip(records(Data::Empty)) {
            assert_eq!((full.data.len(), empty.data.len()), (14, 0));
            assert!(full.is_sound());
            assert_eq!(Record { data: Vec::new(), ..full }, empty);
        }
    }
}
