//! The entry and the run, from document 01, "The entry, most significant bit first", and document 02, request 2026-05,
//! "entries with form 3 and 4", and request 2026-06: "The entry puts a 5-bit length and its m characters before the name
//! length, so it has 283 + 6(n + m) bits rounded up, at most 77 bytes."

use crate::field::{trimmed, FILLER};
use crate::form::Form;
use crate::record::Record;

/// The widest number, to which every number is filled up.
const NUMBER: usize = 22;
const SEXES: [u8; 3] = [FILLER, b'F', b'M'];

pub fn is_house(house: u32) -> bool {
    (1..=32_767).contains(&house)
}

/// The octets of the longest entry.
pub const LONGEST: usize = 77;

/// Bits joined to octets, the most significant first.
struct Joined {
    octets: Vec<u8>,
    waiting: u64,
    count: u32,
}

impl Joined {
    fn put(&mut self, value: u64, width: u32) {
        self.waiting = self.waiting << width | value;
        self.count += width;
        while self.count >= 8 {
            self.count -= 8;
            self.octets.push((self.waiting >> self.count) as u8);
        }
    }

    fn put_characters(&mut self, characters: &[u8]) {
        characters.iter().for_each(|character| self.put(bits_of(*character), 6));
    }

    /// Zero bits to the next octet.
    fn end(mut self) -> Vec<u8> {
        self.put(0, (8 - self.count) % 8);
        self.octets
    }
}

fn bits_of(character: u8) -> u64 {
    match character {
        b'0'..=b'9' => u64::from(character - b'0') + 1,
        b'A'..=b'Z' => u64::from(character - b'A') + 11,
        _ => 0,
    }
}

/// The entry of a house and a record. Both are as they should be, or at least fit the bits.
pub fn write(house: u32, record: &Record) -> Vec<u8> {
    let mut bits = Joined { octets: Vec::with_capacity(LONGEST), waiting: 0, count: 0 };
    bits.put(u64::from(house), 15);
    bits.put(record.form as u64, 3);
    bits.put_characters(&record.state);
    bits.put_characters(&record.number);
    (record.number.len()..NUMBER).for_each(|_| bits.put(bits_of(FILLER), 6));
    bits.put_characters(&record.birth);
    bits.put_characters(&record.expiry);
    bits.put_characters(&record.code);
    bits.put_characters(&record.nationality);
    bits.put(SEXES.iter().position(|sex| *sex == record.sex).unwrap_or(3) as u64, 2);
    bits.put(record.data.len() as u64, 5);
    bits.put_characters(&record.data);
    bits.put(record.name.len() as u64, 6);
    bits.put_characters(&record.name);
    bits.end()
}

/// Octets taken apart to bits.
struct Taken<'a> {
    octets: &'a [u8],
    used: usize,
    waiting: u64,
    count: u32,
}

impl Taken<'_> {
    fn take(&mut self, width: u32) -> Option<u64> {
        while self.count < width {
            self.waiting = self.waiting << 8 | u64::from(*self.octets.get(self.used)?);
            self.used += 1;
            self.count += 8;
        }
        self.count -= width;
        Some(self.waiting >> self.count & ((1 << width) - 1))
    }

    fn take_characters(&mut self, length: usize) -> Option<Vec<u8>> {
        (0..length).map(|_| character_of(self.take(6)?)).collect()
    }

    fn take_array<const LENGTH: usize>(&mut self) -> Option<[u8; LENGTH]> {
        let mut array = [FILLER; LENGTH];
        for character in &mut array {
            *character = character_of(self.take(6)?)?;
        }
        Some(array)
    }
}

fn character_of(bits: u64) -> Option<u8> {
    match bits as u8 {
        0 => Some(FILLER),
        digit @ 1..=10 => Some(b'0' + digit - 1),
        letter @ 11..=36 => Some(b'A' + letter - 11),
        _ => None,
    }
}

/// The house and record of the entry that the octets begin with, and how many of them it has; None where they begin with
/// none.
pub fn read(octets: &[u8]) -> Option<(u32, Record, usize)> {
    let mut bits = Taken { octets, used: 0, waiting: 0, count: 0 };
    let house = bits.take(15)? as u32;
    let form = *Form::ALL.get(bits.take(3)? as usize)?;
    let state = bits.take_array()?;
    let number = bits.take_array::<NUMBER>()?;
    let (birth, expiry) = (bits.take_array()?, bits.take_array()?);
    let (code, nationality) = (bits.take_array()?, bits.take_array()?);
    let sex = *SEXES.get(bits.take(2)? as usize)?;
    let length = bits.take(5)? as usize;
    let data = bits.take_characters(length)?;
    let length = bits.take(6)? as usize;
    let name = bits.take_characters(length)?;
    let spare = bits.take(bits.count)?;
    let number = trimmed(&number).to_vec();
    let record = Record { form, code, state, number, nationality, birth, sex, expiry, name, data };
    (spare == 0 && is_house(house) && record.is_sound()).then_some((house, record, bits.used))
}

#[cfg(test)]
mod tests {
    use super::*;
    use crate::{specimens, text};

    fn t3() -> Record {
        text::read(specimens::T3.as_bytes()).unwrap()
    }

    #[test]
    fn t3_with_house_1() {
        let entry = write(1, &t3());
        assert_eq!(entry.len(), 43);
        assert_eq!(entry[..6], [0x00, 0x02, 0x9f, 0x79, 0x95, 0x48]);
        assert_eq!(read(&entry), Some((1, t3(), 43)));
    }

    /// The forms of an entry's bits, from the sixteenth on: 3 for MRV-A, 4 for MRV-B, and none for 5 to 7.
    #[test]
    fn the_forms_of_visas() {
        for (text, code) in [(specimens::ERIKSSON_MRV_A, 3), (specimens::ERIKSSON_MRV_B, 4)] {
            let record = text::read(text.as_bytes()).unwrap();
            let entry = write(1, &record);
            assert_eq!((entry[1] & 1, entry[2] >> 6), (code >> 2, code & 3));
            assert_eq!(entry.len(), (283 + 6 * (20 + record.data.len()) + 7) / 8);
            assert_eq!(read(&entry), Some((1, record.clone(), entry.len())));
            let long = Record { number: b"L8988901C4".to_vec(), ..record.clone() };
            assert!(read(&write(1, &long)).is_none());
            assert!(read(&write(1, &Record { code: *b"P<", ..record.clone() })).is_none());
            let longest = record.form.longest_name();
            let named = |length| read(&write(1, &Record { name: vec![b'N'; length], ..record.clone() }));
            assert!(named(longest).is_some() && named(longest + 1).is_none());
            for other in 5..8 {
                let octets = [(entry[1] & !1) | other >> 2, (entry[2] & 0x3f) | (other & 3) << 6];
                assert!(read(&[&entry[..1], &octets, &entry[3..]].concat()).is_none());
            }
        }
    }

    /// The shortest has a name of one character and no data, the longest MRV-A's 39 and 16.
    #[test]
    fn lengths() {
        let visa = text::read(specimens::ERIKSSON_MRV_A.as_bytes()).unwrap();
        let of = |name: usize, data: usize| Record { name: vec![b'N'; name], data: vec![b'0'; data], ..visa.clone() };
        let length = |name: usize, data: usize| write(1, &of(name, data)).len();
        assert_eq!((length(1, 0), length(39, 0), length(39, 16)), (37, 65, LONGEST));
        for (name, data) in (1..=39).flat_map(|name| (0..=16).map(move |data| (name, data))) {
            assert_eq!(length(name, data), (283 + 6 * (name + data) + 7) / 8);
            assert_eq!(read(&write(1, &of(name, data))), Some((1, of(name, data), length(name, data))));
        }
    }

    /// Behind the key, code, nationality and sex, 272 bits in all: 5 bits of length and then the data.
    #[test]
    fn the_data_before_the_name() {
        let record = Record { data: b"<Z".to_vec(), name: b"N".to_vec(), ..t3() };
        let entry = write(1, &record);
        // 00010, 000000, 100100; then 000001, 011000; and three bits to the next octet.
        assert_eq!(entry[34..], [0b00010_000, 0b000_10010, 0b0_000001_0, 0b11000_000]);
        assert_eq!(entry[..34], write(1, &Record { data: Vec::new(), ..record })[..34]);
    }

    /// "Old entries need no reading", and not every one of them is refused. This one, of T3 with the name BDFHJLNBLNPRTV and
    /// house 1, has 001110, 14, for its name's length; read now, that is 00111, 7, for the data's, and a first bit of the data.
    #[test]
    fn an_old_entry_that_reads_as_a_new_one() {
        let mut bits = Joined { octets: write(1, &t3())[..34].to_vec(), waiting: 0, count: 0 };
        bits.put(14, 6);
        bits.put_characters(b"BDFHJLNBLNPRTV");
        let old = bits.end();
        let (house, record, length) = read(&old).unwrap();
        assert_eq!((house, length), (1, 46));
        assert_eq!(record, Record { data: b"56789AB".to_vec(), name: b"ABCDEF".to_vec(), ..t3() });
    }

    #[test]
    fn no_second_octets_for_a_record() {
        let entry = write(1, &t3());
        for bit in 0..8 * entry.len() {
            let mut flipped = entry.clone();
            flipped[bit / 8] ^= 0x80 >> (bit % 8);
            if let Some((house, record, length)) = read(&flipped) {
                assert_eq!(write(house, &record), flipped[..length]);
                assert!((house, &record) != (1, &t3()));
            }
        }
    }

    #[test]
    fn what_is_no_entry() {
        let t3 = t3();
        assert!(read(&write(0, &t3)).is_none());
        assert!(read(&write(32_767, &t3)).is_some());
        assert!(read(&write(1, &Record { sex: b'X', ..t3.clone() })).is_none());
        assert!(read(&write(1, &Record { name: b"NORD<".to_vec(), ..t3.clone() })).is_none());
        assert!(read(&write(1, &Record { name: Vec::new(), ..t3.clone() })).is_none());
        assert!(read(&write(1, &Record { name: vec![b'N'; 40], ..t3.clone() })).is_none());
        assert!(read(&write(1, &Record { number: b"K777777777".to_vec(), ..t3.clone() })).is_none());
        assert!(read(&write(1, &Record { data: b"0<".to_vec(), ..t3.clone() })).is_none());
        assert!(read(&write(1, &Record { data: vec![b'0'; 15], ..t3.clone() })).is_none());
        let td1 = text::read(specimens::ERIKSSON_TD1.as_bytes()).unwrap();
        assert!(read(&write(1, &Record { number: b"K77777777<7".to_vec(), ..td1.clone() })).is_none());
        assert!(read(&write(1, &Record { number: b"K7777777<77".to_vec(), ..td1 })).is_some());
    }
}
