//! Entries, sound ones and such as are drawn without regard to a rule.

use crate::cases::data;
use paper::field::FILLER;
use paper::form::Form;
use paper::record::Record;
use paper::{entry, specimens, text};
use shared::records::{self, ALPHABET};
use shared::seeds::Seeds;

/// Those of the specimens, with a house that fits the bits.
pub fn of_specimens(house: u32) -> Vec<Vec<u8>> {
    let record = |text: &&str| text::read(text.as_bytes()).expect("a text of the papers is accepted");
    specimens::ALL.iter().map(|text| entry::write(house, &record(text))).collect()
}

/// The entry of a sound record and a house from 1 to 32,767.
pub fn sound(seeds: &mut Seeds) -> Vec<u8> {
    let house = 1 + seeds.below(32_767) as u32;
    entry::write(house, &records::sound(seeds))
}

/// An entry with one field that is drawn without regard to its rule, and now and then no house. It may still be sound.
pub fn careless(seeds: &mut Seeds) -> Vec<u8> {
    let mut record = records::sound(seeds);
    let drawn: [u8; 6] = std::array::from_fn(|_| seeds.pick(ALPHABET));
    let long: Vec<u8> = (0..63).map(|_| seeds.pick(ALPHABET)).collect();
    match seeds.below(16) {
        0 => record.code.copy_from_slice(&drawn[..2]),
        1 => record.state.copy_from_slice(&drawn[..3]),
        2 => record.nationality.copy_from_slice(&drawn[..3]),
        3 => record.birth = records::date(seeds),
        4 => record.expiry = records::date(seeds),
        5 => record.sex = b'X',
        6 => record.number = long[..seeds.below(23)].to_vec(),
        7 => record.number = [&long[..seeds.below(9)], &[FILLER][..], &long[..seeds.below(12)]].concat(),
        8 => record.name = records::name(seeds, 63),
        9 => record.name = long[..seeds.below(40)].to_vec(),
        10 => record.name.extend(&[FILLER, FILLER][..1 + seeds.below(2)]),
        11 => record.data = long[..seeds.below(32)].to_vec(),
        12 => record.data.extend(&[FILLER, FILLER][..1 + seeds.below(2)]),
        13 => record.data.extend(&long[..1 + seeds.below(8)]),
        // Where the number leaves less room, or none.
        14 => record.number = long[..seeds.below(15)].to_vec(),
        _ => record.form = seeds.pick(&Form::ALL),
    }
    let house = seeds.pick(&[0, 1, 2, 255, 256, 32_766, 32_767]);
    entry::write(house, &record)
}

/// Sound entries of every form: those of the specimens, and as many again as make forty.
pub fn some(seeds: &mut Seeds) -> Vec<Vec<u8>> {
    let mut entries = of_specimens(1);
    entries.resize_with(40, || sound(seeds));
    entries
}

/// Entries with a number, a name, or data of every length that fits the bits, also of those that a form does not allow; and
/// with codes that are no character's.
pub fn of_every_length(seeds: &mut Seeds) -> Vec<Vec<u8>> {
    let mut entries = Vec::new();
    for form in Form::ALL {
        let sound = records::sound_of(seeds, form);
        let names = (0..=63).map(|length| Record { name: vec![b'N'; length], ..sound.clone() });
        let numbers = (0..=22).map(|length| Record { number: vec![b'K'; length], ..sound.clone() });
        let filled = (0..22).map(|place| {
            let number: Vec<u8> = (0..22).map(|at| if at == place { FILLER } else { b'K' }).collect();
            Record { number, ..sound.clone() }
        });
        entries.extend(names.chain(numbers).chain(filled).map(|record| entry::write(1, &record)));
    }
    [entries, data::entries_of_every_length(seeds), data::with_foreign_codes(seeds)].concat()
}
