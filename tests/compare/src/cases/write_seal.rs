//! The cases of writing a seal.

use crate::border;
use crate::cases::headers::{self, cannot_carry, named, with_octet};
use crate::cases::reading::ROOM as ENTRY_ROOM;
use crate::cases::trials::{held, held_to, Call, Trials};
use crate::cases::{entries, octets};
use crate::guard::{Lent, Side};
use crate::report::{hex_shown, Tally};
use paper::answer::{Answer, Outcome, Stretch, NO_DIGIT};
use paper::day::Day;
use paper::form::Form;
use paper::record::Record;
use paper::refusal::{Refusal, LONGEST};
use paper::seal::answer::SealAnswer;
use paper::seal::in_c::HeaderInC;
use paper::seal::{printed, MARKER};
use paper::tlv::tlv;
use paper::{calls, entry, specimens, text};
use shared::records::{self, sound_of};
use shared::seals::{sound_of_kind, Sound};
use shared::seeds::Seeds;
use std::collections::HashMap;

/// Room for most seals: the longest reference takes 174 octets, and the text 50.
const ROOM: usize = 1_000;
/// Of signatures: empty, small, of the papers, and where another form of length begins.
const SIGNATURES: [usize; 9] = [0, 1, 64, 127, 128, 129, 255, 256, 300];

pub fn compare(seed: u64) -> Tally {
    let mut trials = Trials::<WriteSeal>::new(seed);
    trials.printed();
    trials.sound();
    trials.references();
    trials.countries();
    trials.days();
    trials.header_octets();
    trials.behind_the_reference();
    trials.signatures();
    trials.longest();
    trials.rooms();
    trials.refusals();
    trials.entries();
    trials.records();
    trials.houses();
    trials.none_alike();
    trials.fenced();
    trials.threads(alone);
    trials.tally
}

struct WriteSeal {
    entry: Lent,
    header: HeaderInC,
    signature: Lent,
    seal: Lent,
}

impl Call for WriteSeal {
    const NAME: &'static str = "write_seal";
    type Answer = Answer;

    fn expected(&self) -> Outcome {
        calls::write_seal(self.entry.content(), &self.header, self.signature.content(), self.seal.length())
    }

    fn made(&mut self) -> Answer {
        border::write_seal(&mut self.entry, self.header, &mut self.signature, &mut self.seal)
    }

    fn inputs(&self) -> Vec<&Lent> {
        vec![&self.entry, &self.signature]
    }

    fn output(&self) -> Option<&Lent> {
        Some(&self.seal)
    }

    fn about(&self) -> Vec<String> {
        let (entry, signature) = (self.entry.content_before(), self.signature.content_before());
        vec![
            format!("write_seal of {} and {} octets into {}", entry.len(), signature.len(), self.seal.length()),
            format!("entry:    {}", hex_shown(entry)),
            format!("header:   {}", self.header),
            format!("signature {}", hex_shown(signature)),
        ]
    }
}

/// What goes into a seal.
#[derive(Clone)]
struct Given {
    entry: Vec<u8>,
    header: HeaderInC,
    signature: Vec<u8>,
}

impl Given {
    fn of(sound: &Sound) -> Given {
        let header = HeaderInC::of(&sound.header);
        Given { entry: entry::write(1, &sound.record), header, signature: sound.signature.clone() }
    }

    /// With a reference of so many characters.
    fn with_reference(seeds: &mut Seeds, length: usize) -> Given {
        Given::of(&sound_of_kind(seeds, 0x03, length))
    }

    /// The papers' record and header, with a signature of 64 octets.
    fn printed() -> Given {
        let record = text::read(specimens::ERIKSSON_TD2.as_bytes()).expect("a text of the papers is accepted");
        Given { entry: entry::write(1, &record), header: headers::printed(), signature: vec![7; 64] }
    }

    fn written(&self) -> Vec<u8> {
        calls::write_seal(&self.entry, &self.header, &self.signature, LONGEST).written
    }
}

impl Trials<WriteSeal> {
    /// The papers' seal, which they print in another version: all but the reference is as they have it.
    fn printed(&mut self) {
        let front = [0xdc, 0x03, 0xd9, 0xc5, 0xd9, 0xad, 0x1f, 0xea, 0x79, 0xc7, 0x79, 0xb9];
        let octets = [&front, &printed::signed()[10..]].concat();
        self.told(&Given::printed(), ROOM, Outcome::written(octets, ROOM));
        // As it was read it is of version 02, which is not written.
        let header = HeaderInC { version: 0x02, ..headers::printed() };
        self.told(&Given { header, ..Given::printed() }, ROOM, Outcome::refused(Refusal::at(28, 0)));
    }

    fn sound(&mut self) {
        for _ in 0..2_000 {
            let length = self.seeds.below(256);
            let length = self.seeds.pick(&[0, 1, 2, 3, 4, 5, 9, 10, 15, 16, 254, 255, length, length]);
            let given = Given::with_reference(&mut self.seeds, length);
            self.case(&given);
        }
    }

    /// A reference of every length, with no signature and with one.
    fn references(&mut self) {
        for length in 0..=255 {
            let given = Given::with_reference(&mut self.seeds, length);
            self.together(|trials| {
                for signature in [vec![], vec![0xff; 64]] {
                    trials.plain(&Given { signature, ..given.clone() });
                }
            });
        }
    }

    /// Every one of one letter and of two, and of three every letter in every place.
    fn countries(&mut self) {
        let given = Given::printed();
        for first in b'A'..=b'Z' {
            let twos = (b'A'..=b'Z').map(|second| [first, second, b'<']);
            let threes = (0..3).map(|place| std::array::from_fn(|at| if at == place { first } else { b'M' }));
            self.together(|trials| {
                for country in [[first, b'<', b'<']].into_iter().chain(twos).chain(threes) {
                    trials.plain(&Given { header: HeaderInC { country, ..given.header }, ..given.clone() });
                }
            });
        }
    }

    /// Every month to 16 and day to 40 in years at the edges, and past what an octet or a number of eight digits has.
    fn days(&mut self) {
        let given = Given::printed();
        let years = [0, 1, 4, 100, 400, 1900, 1999, 2000, 2001, 2004, 2100, 9999, 10_000, 65_535];
        for (year, month) in years.into_iter().flat_map(|year| (0..=16).chain([255]).map(move |month| (year, month))) {
            self.together(|trials| {
                for day in (0..=40).chain([99, 100, 101, 128, 255]).map(|day| Day { year, month, day }) {
                    trials.plain(&Given { header: HeaderInC { issued: day, ..given.header }, ..given.clone() });
                    trials.plain(&Given { header: HeaderInC { signed_on: day, ..given.header }, ..given.clone() });
                }
            });
        }
    }

    /// Each octet of the struct with each value: all before the reference, of which the first places and the last.
    fn header_octets(&mut self) {
        for length in [0, 5, 255] {
            let given = Given::with_reference(&mut self.seeds, length);
            for place in (0..headers::REFERENCE + 8).chain(headers::SIZE - 3..headers::SIZE) {
                self.together(|trials| {
                    for octet in 0..=255 {
                        trials.plain(&Given { header: with_octet(&given.header, place, octet), ..given.clone() });
                    }
                });
            }
        }
    }

    /// A character behind the reference, in every place; and every length but the reference's own.
    fn behind_the_reference(&mut self) {
        let given = Given::printed();
        for place in 0..255 {
            self.together(|trials| {
                for character in *b"0AFGZ< \0" {
                    let header = with_octet(&given.header, headers::REFERENCE + place, character);
                    trials.plain(&Given { header, ..given.clone() });
                }
                let header = HeaderInC { reference_len: place as u8, ..given.header };
                trials.plain(&Given { header, ..given.clone() });
            });
        }
    }

    /// What is signed, all before FF, is written before there is a signature.
    fn signatures(&mut self) {
        for (length, signature) in [0, 5, 255].into_iter().flat_map(|length| SIGNATURES.map(|octets| (length, octets)))
        {
            let given = Given::with_reference(&mut self.seeds, length);
            let unsigned = Given { signature: vec![], ..given.clone() }.written();
            let signature = self.seeds.octets(signature);
            let octets = [&unsigned[..unsigned.len() - 2], &tlv(&[MARKER], &signature)].concat();
            self.told(&Given { signature, ..given }, ROOM, Outcome::written(octets, ROOM));
        }
    }

    /// Around 65,535 octets, of which 70, 74 and 240 are no signature's with references of 0, 5 and 255 characters.
    fn longest(&mut self) {
        for (reference, fits) in [(0, 65_465), (5, 65_461), (255, 65_295)] {
            let given = Given::with_reference(&mut self.seeds, reference);
            for length in [fits - 1, fits, fits + 1, LONGEST, LONGEST + 1, 100_000] {
                let given = Given { signature: vec![0xff; length], ..given.clone() };
                let size = LONGEST + length - fits;
                let answer = match length <= fits {
                    true => Answer::not_refused(size as u64),
                    false => Answer::refused(Refusal::at(28, 0)),
                };
                for room in [size.min(LONGEST), LONGEST, 70_000] {
                    let expected = Outcome { answer, written: given.written() };
                    self.told(&given, room, expected);
                }
                self.with_room(&given, size.min(LONGEST) - 1);
            }
        }
    }

    /// Every output length to one past the need, on what is written and on what is refused.
    fn rooms(&mut self) {
        for length in [0, 5, 12, 255] {
            let given = Given::with_reference(&mut self.seeds, length);
            let need = given.written().len();
            let wrong = Given { header: HeaderInC { category: 1, ..given.header }, ..given.clone() };
            self.together(|trials| (0..=need + 1).for_each(|room| trials.with_room(&given, room)));
            self.together(|trials| [0, need - 1, need].into_iter().for_each(|room| trials.with_room(&wrong, room)));
        }
    }

    /// Every way to be refused, alone and with every other: the first in the order is told, at 0, and nothing is written.
    fn refusals(&mut self) {
        let sound = Given::printed();
        let entries = [(0, sound.entry.clone())].into_iter().chain(self.refused_entries(&sound.entry));
        let headers: Vec<(u32, HeaderInC)> =
            [(0, sound.header)].into_iter().chain(cannot_carry(&sound.header).map(|header| (28, header))).collect();
        for (of_entry, entry) in entries {
            for (of_header, header) in &headers {
                self.together(|trials| {
                    for (of_signature, length) in [(0, 64), (28, 65_462), (28, LONGEST + 1)] {
                        for (of_room, room) in [(16, 0), (16, 135), (0, 136), (0, 137)] {
                            let given = Given { entry: entry.clone(), header: *header, signature: vec![7; length] };
                            let first = [of_entry, *of_header, of_signature, of_room].into_iter().find(|n| *n > 0);
                            let told = match first {
                                None => Outcome::written(given.written(), room),
                                Some(number) => Outcome::refused(Refusal::at(number, 0)),
                            };
                            trials.told(&given, room, told);
                        }
                    }
                });
            }
        }
    }

    /// What is no entry, or not one, or one of an unsound record, is 18; a sound one of another form 17.
    fn refused_entries(&mut self, sound: &[u8]) -> Vec<(u32, Vec<u8>)> {
        let (record, last) = (entry::read(sound).expect("an entry").1, sound.len() - 1);
        let unsound = entry::write(1, &Record { name: vec![], ..record.clone() });
        let none = [vec![], sound[..last].to_vec(), [sound, &[0]].concat(), [sound, sound].concat(), unsound];
        let no_house = entry::write(0, &record);
        let others = Form::ALL.into_iter().filter(|form| *form != Form::Td2);
        let others: Vec<Vec<u8>> = others.map(|form| entry::write(1, &sound_of(&mut self.seeds, form))).collect();
        let none = none.into_iter().chain([no_house]).map(|entry| (18, entry));
        none.chain(others.into_iter().map(|entry| (17, entry))).collect()
    }

    /// Each bit of an entry, each cut, entries drawn without regard to a rule, and those of the specimens.
    fn entries(&mut self) {
        let given = Given::printed();
        for _ in 0..6 {
            let sound = entry::write(1, &sound_of(&mut self.seeds, Form::Td2));
            self.together(|trials| {
                (0..8 * sound.len()).for_each(|bit| trials.with_entry(&given, &octets::flipped(&sound, bit)));
                (0..sound.len()).for_each(|length| trials.with_entry(&given, &sound[..length]));
            });
        }
        for _ in 0..2_000 {
            let entry = entries::careless(&mut self.seeds);
            self.with_entry(&given, &entry);
        }
        entries::of_specimens(1).iter().for_each(|entry| self.with_entry(&given, entry));
    }

    /// Numbers of every length, with data of every length that there is room for beside each, and without.
    fn records(&mut self) {
        let given = Given::printed();
        for length in 1..=Form::Td2.longest_number() {
            self.together(|trials| {
                for data in 0..=paper::data::longest(Form::Td2, length) {
                    let mut record = records::bare_of(&mut trials.seeds, Form::Td2);
                    record.number = b"D23145890734X9".iter().copied().cycle().take(length).collect();
                    record.data = records::data_of(&mut trials.seeds, data);
                    trials.with_entry(&given, &entry::write(1, &record));
                }
            });
        }
    }

    /// The house of an entry is no part of a seal.
    fn houses(&mut self) {
        let given = Given::printed();
        let (_, record, _) = entry::read(&given.entry).expect("an entry");
        let octets = given.written();
        for house in [1, 2, 258, 32_766, 32_767] {
            let given = Given { entry: entry::write(house, &record), ..given.clone() };
            self.told(&given, ROOM, Outcome::written(octets.clone(), ROOM));
        }
    }

    /// "Two different sets of inputs never give the same octets": what differs in one field, from many seals.
    fn none_alike(&mut self) {
        let mut seen: HashMap<Vec<u8>, Vec<u8>> = HashMap::new();
        for _ in 0..300 {
            let length = self.seeds.pick(&[0, 1, 2, 3, 4, 5, 6, 254]);
            let (one, other) =
                (Given::with_reference(&mut self.seeds, length), Given::with_reference(&mut self.seeds, length));
            for given in one.mixed(&other) {
                let inputs = [&named(&given.header)[..], &given.entry, &given.signature].concat();
                let before = seen.insert(given.made(), inputs.clone()).filter(|before| *before != inputs);
                let told =
                    |before: Vec<u8>| vec![format!("one seal of {} and {}", hex_shown(&before), hex_shown(&inputs))];
                self.count(before.map_or(vec![], told));
            }
        }
    }

    /// Nothing is read or written past either end of any range, nor the pointer of an empty one.
    fn fenced(&mut self) {
        let given = Given::printed();
        let need = given.written().len();
        for side in Side::BOTH {
            (0..=given.entry.len()).for_each(|length| self.fence(&given, length, 64, need, side));
            (0..=64).for_each(|length| self.fence(&given, given.entry.len(), length, need, side));
            (0..=need).for_each(|room| self.fence(&given, given.entry.len(), 64, room, side));
        }
        let (entry, signature) = (self.lent(&given.entry), self.lent(&given.signature));
        let (room, header) = (self.room(ROOM), given.header);
        self.watch(WriteSeal { entry: Lent::absent(), header, signature, seal: room });
        let room = self.room(ROOM);
        self.watch(WriteSeal { entry, header, signature: Lent::absent(), seal: room });
        let entry = self.lent(&given.entry);
        self.watch(WriteSeal { entry, header, signature: Lent::absent(), seal: Lent::absent() });
        self.watch(WriteSeal { entry: Lent::absent(), header, signature: Lent::absent(), seal: Lent::absent() });
    }

    fn fence(&mut self, given: &Given, entry: usize, signature: usize, room: usize, side: Side) {
        let seal = Lent::fenced(&self.seeds.octets(room), side);
        let entry = Lent::fenced(&given.entry[..entry], side);
        let signature = Lent::fenced(&given.signature[..signature], side);
        self.watch(WriteSeal { entry, header: given.header, signature, seal });
    }

    /// A room of the seed's choice.
    fn case(&mut self, given: &Given) {
        let need = given.written().len();
        let room = self.seeds.pick(&[need, need, need + 1, need - 1, 2 * need, ROOM, 0]);
        self.with_room(given, room);
    }

    fn plain(&mut self, given: &Given) {
        self.with_room(given, ROOM);
    }

    fn with_entry(&mut self, given: &Given, entry: &[u8]) {
        self.plain(&Given { entry: entry.to_vec(), ..given.clone() });
    }

    fn with_room(&mut self, given: &Given, room: usize) {
        let told = calls::write_seal(&given.entry, &given.header, &given.signature, room);
        self.told(given, room, told);
    }

    /// Held to an answer; and what is written is read back as what was given.
    fn told(&mut self, given: &Given, room: usize, told: Outcome) {
        let (entry, signature, seal) = (self.lent(&given.entry), self.lent(&given.signature), self.room(room));
        let mut lines = held_to(&told, WriteSeal { entry, header: given.header, signature, seal });
        if lines.is_empty() && told.answer.number == 0 {
            lines = given.read_back(&told.written);
        }
        self.count(lines);
    }
}

impl Given {
    /// The lines that tell where a seal is read otherwise than as this.
    fn read_back(&self, seal: &[u8]) -> Vec<String> {
        let (house, ..) = entry::read(&self.entry).expect("an entry");
        let (mut lent, mut room) = (Lent::new(seal, 0), Lent::new(&[0; ENTRY_ROOM], 0));
        let read = border::read_seal(house, &mut lent, &mut room);
        let start = seal.len() - self.signature.len();
        let (value, signature) = (self.entry.len() as u64, Stretch::from(start..seal.len()));
        let header = self.header;
        let same = SealAnswer {
            number: 0,
            expected: NO_DIGIT,
            value,
            signature,
            issued: header.issued,
            signed_on: header.signed_on,
            version: header.version,
            definition: header.definition,
            category: header.category,
            reference_len: header.reference_len,
            country: header.country,
            signer: header.signer,
            reference: header.reference,
        };
        let kept = room.content()[..self.entry.len()] == self.entry && seal[start..] == self.signature;
        if read == same && kept {
            return vec![];
        }
        vec![format!("seal:     {}", hex_shown(seal)), format!("read as:  {read}"), format!("given:    {same}")]
    }

    /// What is made of one or the other, field by field, both whole ones among them.
    fn mixed(&self, other: &Given) -> Vec<Given> {
        let headers = headers::mixed(&self.header, &other.header);
        let with_header = headers.into_iter().map(|header| Given { header, ..self.clone() });
        let with_entry = Given { entry: other.entry.clone(), ..self.clone() };
        let with_signature = Given { signature: other.signature.clone(), ..self.clone() };
        with_header.chain([with_entry, with_signature, self.clone(), other.clone()]).collect()
    }

    /// The octets that the archive writes.
    fn made(&self) -> Vec<u8> {
        let (mut entry, mut signature) = (Lent::new(&self.entry, 0), Lent::new(&self.signature, 0));
        let mut seal = Lent::new(&[0; ROOM], 0);
        let answer = border::write_seal(&mut entry, self.header, &mut signature, &mut seal);
        assert_eq!(answer.number, 0, "{answer} of {}", self.header);
        seal.content()[..answer.value as usize].to_vec()
    }
}

/// What one thread tries.
fn alone(seed: u64) -> Vec<Vec<String>> {
    let mut seeds = Seeds::new(seed);
    let case = |turn: usize| {
        let given = Given::with_reference(&mut seeds, turn);
        let (entry, signature) =
            (Lent::new(&given.entry, seeds.below(64)), Lent::new(&given.signature, seeds.below(64)));
        let seal = Lent::new(&seeds.octets(ROOM), seeds.below(64));
        held(WriteSeal { entry, header: given.header, signature, seal })
    };
    (0..150).map(case).collect()
}
