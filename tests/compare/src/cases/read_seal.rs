//! The cases of reading a seal to an entry.

use crate::border;
use crate::cases::digits;
use crate::cases::houses::HOUSES;
use crate::cases::octets;
use crate::cases::reading::{self, Reader, Reading, ROOM};
use crate::cases::seals::damage::{self, filled};
use crate::cases::seals::Pieces;
use crate::cases::trials::Trials;
use crate::cases::visas::{visa, Wrong};
use crate::guard::{Lent, Side};
use crate::report::Tally;
use paper::answer::Outcome;
use paper::day::Day;
use paper::form::Form;
use paper::refusal::LONGEST;
use paper::seal::answer::SealAnswer;
use paper::seal::{printed, Feature, MARKER, TEXT};
use paper::tlv::tlv;
use paper::{calls, day, specimens};
use shared::seals::{other, sound, sound_of_kind, Sound, VERSIONS};

pub fn compare(seed: u64) -> Tally {
    let mut trials = Trials::<ReadSeal>::new(seed);
    trials.printed();
    trials.sound();
    trials.references();
    trials.rooms_and_houses();
    trials.limit();
    trials.damage();
    trials.pairs();
    trials.cut();
    trials.one_octet();
    trials.bits();
    trials.countries();
    trials.days();
    trials.without_text();
    trials.many_features();
    trials.wrong_digits();
    trials.visas();
    trials.fenced();
    trials.drawn();
    trials.random();
    trials.threads(alone);
    trials.tally
}

struct Seals;
type ReadSeal = Reading<Seals>;

impl Reader for Seals {
    const NAME: &'static str = "read_seal";
    type Answer = SealAnswer;

    fn expected(house: u32, lent: &[u8], room: usize) -> Outcome<SealAnswer> {
        calls::read_seal(house, lent, room)
    }

    fn made(house: u32, lent: &mut Lent, entry: &mut Lent) -> SealAnswer {
        border::read_seal(house, lent, entry)
    }
}

impl Trials<ReadSeal> {
    /// Those of source document 002, in each version octet, with and without a signature.
    fn printed(&mut self) {
        for version in 0..=255 {
            for hex in [printed::EMERGENCY, printed::VISA] {
                let lent = printed::octets(hex, version);
                self.plain(&lent);
                self.plain(&[&lent[..], &printed::signed()[68..]].concat());
            }
        }
        HOUSES.iter().for_each(|house| self.with_room(*house, &printed::signed(), ROOM));
    }

    fn sound(&mut self) {
        for _ in 0..3_000 {
            let lent = sound(&mut self.seeds).octets();
            self.together(|trials| {
                trials.case(&lent);
                trials.plain(&lent);
            });
        }
    }

    /// References of every length, each seal cut off inside it too.
    fn references(&mut self) {
        for length in 0..=255 {
            let lent = sound_of_kind(&mut self.seeds, 0x03, length).octets();
            self.together(|trials| {
                trials.plain(&lent);
                (4..4 + 4 + 2 * ((length + 2) / 3)).for_each(|cut| trials.plain(&lent[..cut]));
            });
        }
    }

    /// Every output length to one past the need with every house, on sound seals and on such as are refused.
    fn rooms_and_houses(&mut self) {
        for made in [0; 6].map(|_: i32| sound(&mut self.seeds).octets()) {
            let need = calls::read_seal(1, &made, ROOM).written.len();
            for lent in [&made[..], &made[..made.len() - 1], &made[1..]] {
                self.together(|trials| {
                    for (room, house) in (0..=need + 1).flat_map(|room| HOUSES.map(|house| (room, house))) {
                        trials.with_room(house, lent, room);
                    }
                });
            }
        }
    }

    /// Around 65,535 octets, with a long signature, with a long feature, and with nothing that is a seal.
    fn limit(&mut self) {
        for size in [65_000, LONGEST - 1, LONGEST, LONGEST + 1, LONGEST + 2, LONGEST + 3] {
            for version in VERSIONS {
                let sample = damage::sample(&mut self.seeds, version);
                filled(&sample, size).iter().for_each(|lent| self.plain(lent));
            }
        }
        for (size, octet) in
            [LONGEST, LONGEST + 1, 100_000].into_iter().flat_map(|size| [0x00, 0xdc].map(|o| (size, o)))
        {
            self.case(&vec![octet; size]);
        }
    }

    /// Each kind of damage to each of its places, and each house with it.
    fn damage(&mut self) {
        for sample in VERSIONS.into_iter().flat_map(|version| [version; 20]) {
            let sample = damage::sample(&mut self.seeds, sample);
            let pieces = Pieces::of(&sample);
            for damage in damage::all(&sample) {
                let (lent, _) = damage.alone(&pieces);
                self.together(|trials| {
                    HOUSES.iter().for_each(|house| trials.with_room(*house, &lent, ROOM));
                    trials.with_room(0, &lent, 0);
                });
            }
        }
    }

    /// Any two of them. One with all those before it is one case.
    fn pairs(&mut self) {
        for version in VERSIONS {
            let sample = damage::sample(&mut self.seeds, version);
            let (pieces, all) = (Pieces::of(&sample), damage::all(&sample));
            for (at, one) in all.iter().enumerate() {
                let both = all[..at].iter().filter_map(|other| one.with(other, &pieces));
                self.together(|trials| both.for_each(|(lent, _)| trials.plain(&lent)));
            }
        }
    }

    fn cut(&mut self) {
        for version in VERSIONS {
            let lent = damage::sample(&mut self.seeds, version).octets();
            for length in 0..lent.len() {
                self.together(|trials| {
                    trials.case(&lent[..length]);
                    trials.plain(&lent[..length]);
                    // And its end alone.
                    trials.plain(&lent[length..]);
                });
            }
        }
    }

    /// Every octet of two seals with every value.
    fn one_octet(&mut self) {
        for lent in [printed::signed(), sound_of_kind(&mut self.seeds, 0x03, 10).octets()] {
            for place in 0..lent.len() {
                self.together(|trials| octets::with_each(&lent, place).iter().for_each(|lent| trials.plain(lent)));
            }
        }
    }

    fn bits(&mut self) {
        for _ in 0..10 {
            let lent = sound(&mut self.seeds).octets();
            self.together(|trials| (0..8 * lent.len()).for_each(|bit| trials.plain(&octets::flipped(&lent, bit))));
        }
    }

    /// Every two octets as a country; in the text, as its first pair and as its last.
    fn countries(&mut self) {
        for place in [2, 20, 66] {
            for high in 0..=255 {
                let mut lent = printed::signed();
                lent[place] = high;
                self.together(|trials| octets::with_each(&lent, place + 1).iter().for_each(|lent| trials.plain(lent)));
            }
        }
    }

    /// Every month to 16 and day to 40 in years at the edges, in both places, which each version has elsewhere.
    fn days(&mut self) {
        let later = sound_of_kind(&mut self.seeds, 0x03, 5).octets();
        let places = [(printed::signed(), 10), (printed::signed(), 13), (later.clone(), 12), (later, 15)];
        let years = [0, 1, 4, 100, 400, 1900, 1999, 2000, 2001, 2004, 2100, 9999];
        for (year, month) in years.into_iter().flat_map(|year| (0..=16).map(move |month| (year, month))) {
            self.together(|trials| {
                for (day, (sample, place)) in (0..=40).flat_map(|day| places.iter().map(move |place| (day, place))) {
                    let mut lent = sample.clone();
                    lent[*place..place + 3].copy_from_slice(&day::write(Day { year, month, day }));
                    trials.plain(&lent);
                }
            });
        }
    }

    /// No feature behind the header, or none with a text; before FF, before the end, and with FF cut off.
    fn without_text(&mut self) {
        for (version, count) in VERSIONS.into_iter().flat_map(|version| (0..4).map(move |count| (version, count))) {
            let mut made = damage::sample(&mut self.seeds, version);
            made.features = (0..count).map(|_| other(&mut self.seeds)).collect();
            let lent = made.octets();
            let zone = lent.len() - tlv(&[MARKER], &made.signature).len();
            self.together(|trials| (zone..=lent.len()).for_each(|length| trials.plain(&lent[..length])));
        }
    }

    /// Hundreds of features around the text's, and as many without it.
    fn many_features(&mut self) {
        for count in [10, 100, 300] {
            let mut made = sound(&mut self.seeds);
            made.features = (0..count).map(|_| other(&mut self.seeds)).collect();
            self.plain(&made.octets());
            let place = self.seeds.below(count);
            made.features[place] = Feature::of_text(specimens::LONG_TD2.as_bytes());
            self.plain(&made.octets());
        }
    }

    /// One or more wrong check digits in the text.
    fn wrong_digits(&mut self) {
        for _ in 0..2_000 {
            let made = sound(&mut self.seeds);
            let text = digits::spoilt(&mut self.seeds, &made.record);
            self.with_text(made, &text);
        }
    }

    /// Sound and damaged visas, where none may stand: 3 at the feature. Those of 88 characters have another length.
    fn visas(&mut self) {
        for wrong in Wrong::IN_SEALS.into_iter().flat_map(|wrong| [wrong; 400]) {
            for form in Form::VISAS {
                let made = sound(&mut self.seeds);
                let text = visa(&mut self.seeds, form, wrong);
                self.with_text(made, &text);
            }
        }
    }

    /// The seal with another text.
    fn with_text(&mut self, mut made: Sound, text: &[u8]) {
        let place = made.features.iter().position(|feature| feature.tag == TEXT).expect("the feature with the text");
        made.features[place] = Feature::of_text(text);
        self.case(&made.octets());
    }

    /// Nothing is read past either end, wherever a seal is cut, nor the pointer of an empty range.
    fn fenced(&mut self) {
        let samples = VERSIONS.map(|version| damage::sample(&mut self.seeds, version));
        let longest = filled(&samples[0], LONGEST);
        for side in Side::BOTH {
            for lent in samples.iter().map(|sample| sample.octets()) {
                (0..=lent.len()).for_each(|length| self.fence(&lent[..length], ROOM, side));
                (0..=ROOM).for_each(|room| self.fence(&lent, room, side));
            }
            longest.iter().for_each(|lent| self.fence(lent, ROOM, side));
        }
        self.absent(&printed::signed());
    }

    /// One to four octets changed, taken away or put in, anywhere.
    fn drawn(&mut self) {
        for turn in 0..20_000 {
            let mut lent = sound(&mut self.seeds).octets();
            for _ in 0..=turn % 4 {
                let (place, octet) = (self.seeds.below(lent.len()), self.seeds.number() as u8);
                let octet = self.seeds.pick(&[octet, octet, 0x02, 0x30, 0x80, 0x81, 0xfe, 0xff]);
                match self.seeds.below(4) {
                    0 => lent.insert(place, octet),
                    1 if lent.len() > 1 => drop(lent.remove(place)),
                    _ => lent[place] = octet,
                }
            }
            self.case(&lent);
        }
    }

    fn random(&mut self) {
        for length in (0..300).chain([1_000, 10_000]) {
            let octets = self.seeds.octets(length);
            self.case(&octets);
            // Behind a header, and behind the text's feature.
            self.case(&[&printed::signed()[..18], &octets].concat());
            self.case(&[&printed::signed()[..68], &octets].concat());
        }
    }
}

/// What one thread tries.
fn alone(seed: u64) -> Vec<Vec<String>> {
    reading::alone::<Seals>(seed, |seeds, _| sound(seeds).octets())
}
