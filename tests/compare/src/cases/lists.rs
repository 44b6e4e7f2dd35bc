//! Lists of a night, sound and damaged at a place, each with the answer that the request's sentences give it.

use paper::answer::{Answer, Stretch};
use paper::list::KEY;
use paper::refusal::Refusal;
use paper::{entry, record::Record};
use shared::night::HOUSES;

/// What may be wrong at an entry, or with its place behind another.
#[derive(Clone, Copy, Debug, PartialEq, Eq)]
pub enum Damage {
    /// The list ends in it, before its last octet.
    Cut,
    /// A bit is set behind its name, where every entry has one at least that is zero.
    Spare,
    /// Of house 0. Its key is below every other, which is not asked.
    NoHouse,
    /// Of a form that there is not.
    Form,
    /// Of a sex that there is not: behind the key.
    Sex,
    /// The one before it stands here once more.
    Again,
    /// As that, under another name, longer or shorter.
    Renamed,
    /// It stands before the one that was before it.
    Exchanged,
}

impl Damage {
    pub const ALL: [Damage; 8] = [
        Damage::Cut,
        Damage::Spare,
        Damage::NoHouse,
        Damage::Form,
        Damage::Sex,
        Damage::Again,
        Damage::Renamed,
        Damage::Exchanged,
    ];

    /// Only 23 says something of two entries, so that the first has none of it.
    pub fn is_of_order(self) -> bool {
        matches!(self, Damage::Again | Damage::Renamed | Damage::Exchanged)
    }

    /// Puts it to the entry at this place among the others. Of an order there must be one before.
    pub fn put(self, entries: &mut Vec<Vec<u8>>, at: usize) {
        let entry = &mut entries[at];
        match self {
            Damage::Cut => {
                entry.pop();
                entries.truncate(at + 1);
            }
            Damage::Spare => *entry.last_mut().expect("an octet") |= 1,
            Damage::NoHouse => {
                entry[0] = 0;
                entry[1] &= 1;
            }
            Damage::Form => {
                entry[1] |= 1;
                entry[2] |= 0xc0;
            }
            Damage::Sex => entry[33] |= 3,
            Damage::Again => entries[at] = entries[at - 1].clone(),
            Damage::Renamed => entries[at] = renamed(&entries[at - 1]),
            Damage::Exchanged => entries.swap(at - 1, at),
        }
    }
}

/// The same key under another name.
fn renamed(octets: &[u8]) -> Vec<u8> {
    let (house, record, _) = entry::read(octets).expect("an entry");
    let name = if record.name == b"NORD" { b"ELIN<NORD".to_vec() } else { b"NORD".to_vec() };
    let renamed = entry::write(house, &Record { name, ..record });
    assert_eq!(renamed[..KEY], octets[..KEY]);
    renamed
}

/// A list, and what is said of it.
pub struct Said {
    pub list: Vec<u8>,
    pub answer: Answer,
}

pub fn sound(entries: &[Vec<u8>]) -> Said {
    Said { list: entries.concat(), answer: Answer::not_refused(entries.len() as u64) }
}

/// With one damage at one place, where nothing else is wrong; None where the first is asked for its order.
pub fn damaged(entries: &[Vec<u8>], damage: Damage, at: usize) -> Option<Said> {
    if damage.is_of_order() && at == 0 {
        return None;
    }
    let mut entries = entries.to_vec();
    damage.put(&mut entries, at);
    let place = entries[..at].iter().map(Vec::len).sum();
    let refusal = Refusal::at(if damage.is_of_order() { 23 } else { 18 }, place);
    Some(Said { list: entries.concat(), answer: Answer::refused(refusal) })
}

/// With octets behind the last entry that are none: one, as many as a key has, the last entry's all but one, and zeros.
pub fn followed(entries: &[Vec<u8>]) -> Vec<Said> {
    let list = entries.concat();
    let last = entries.last().map_or(&[][..], |last| &last[..last.len() - 1]);
    let behind = [&[0][..], &[0xff], &last[..last.len().min(KEY)], last, &[0; 77], b"more"];
    let said =
        |behind: &[u8]| Said { list: [&list, behind].concat(), answer: Answer::refused(Refusal::at(18, list.len())) };
    behind.into_iter().filter(|behind| !behind.is_empty()).map(said).collect()
}

/// First, in the middle and last.
pub fn places(count: usize) -> [usize; 3] {
    [0, count / 2, count - 1]
}

/// The first fifteen bits.
pub fn house_of(entry: &[u8]) -> u32 {
    u32::from(u16::from_be_bytes([entry[0], entry[1]])) >> 1
}

/// Where those of a house stand, which stand together.
pub fn stretch_of(entries: &[Vec<u8>], house: u32) -> Stretch {
    let length = |own: bool| move |entry: &&Vec<u8>| (house_of(entry) == house) == own;
    let before: usize = entries.iter().take_while(length(false)).map(Vec::len).sum();
    let own: usize = entries.iter().filter(length(true)).map(Vec::len).sum();
    if own == 0 {
        return Stretch::EMPTY;
    }
    Stretch { start: before as u64, length: own as u64 }
}

/// The six, houses beside and between them, and numbers that are no house's, some of which are one's in their lowest bits.
pub fn asked() -> impl Iterator<Item = u32> {
    let others = [0, 3, 128, 299, 301, 16_382, 16_385, 32_766, 32_768, 32_769, 33_068, 65_536, 65_537, 65_836];
    HOUSES.into_iter().chain(others).chain([1 << 31, (1 << 31) + 1, u32::MAX - 1, u32::MAX])
}

#[cfg(test)]
mod tests {
    use super::*;
    use paper::{calls, list};
    use shared::night;
    use shared::seeds::Seeds;

    /// What is said of each is what the independent implementation answers.
    #[test]
    fn said_beforehand() {
        for count in [1, 2, 3, 40] {
            let entries = night::entries(&mut Seeds::new(count as u64), count);
            let places = (0..count).flat_map(|at| Damage::ALL.map(|damage| damaged(&entries, damage, at)));
            for said in places.flatten().chain(followed(&entries)).chain([sound(&entries)]) {
                assert_eq!(calls::look_over(&said.list), said.answer);
            }
            let list = entries.concat();
            assert!(asked().all(|house| list::house_entries(&list, house) == stretch_of(&entries, house)));
        }
    }
}
