//! Files of groups made from a seed, of which a sound presentation can be made: each a group and the content of its file.

use crate::records;
use crate::seeds::Seeds;
use paper::form::Form;
use paper::presentation::write_text_element;
use paper::{group, text};

/// Groups in the order in which they are lent, group 1 among them, with small contents.
pub fn files(seeds: &mut Seeds, groups: usize) -> Vec<(u8, Vec<u8>)> {
    let mut others: Vec<u8> = group::ALL[1..].to_vec();
    let mut files = vec![(1, group_1(seeds))];
    for _ in 1..groups {
        let group = others.swap_remove(seeds.below(others.len()));
        let length = seeds.pick(&[0, 1, 2, 30, 100, 126, 127, 128, 129, 255, 256]);
        files.push((group, seeds.octets(length)));
    }
    let place = seeds.below(files.len());
    files.swap(0, place);
    files
}

/// The content of a group 1 with the text of a sound record.
pub fn group_1(seeds: &mut Seeds) -> Vec<u8> {
    write_text_element(&text::write(&records::sound_among(seeds, &Form::IN_GROUP_1)))
}

/// The same, of a record without the issuer's data.
pub fn bare_group_1(seeds: &mut Seeds) -> Vec<u8> {
    write_text_element(&text::write(&records::bare_among(seeds, &Form::IN_GROUP_1)))
}
