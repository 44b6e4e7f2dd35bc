//! The cases of a run of entries.

use crate::border;
use crate::cases::trials::{Call, Trials};
use crate::cases::{data, entries, octets, old};
use crate::guard::{Lent, Side};
use crate::report::{hex, Tally};
use paper::answer::{Answer, Outcome};
use paper::{calls, entry};

pub fn compare(seed: u64) -> Tally {
    let mut trials = Trials::<NextEntry>::new(seed);
    trials.specimens();
    trials.empty();
    trials.every_offset();
    trials.careless();
    trials.lengths();
    trials.data();
    trials.old();
    trials.flipped();
    trials.octets();
    trials.cut();
    trials.fenced();
    trials.random();
    trials.tally
}

struct NextEntry {
    run: Lent,
    offset: u64,
}

impl Call for NextEntry {
    const NAME: &'static str = "next_entry";
    type Answer = Answer;

    fn expected(&self) -> Outcome {
        Outcome::of(calls::next_entry(self.run.content(), self.offset))
    }

    fn made(&mut self) -> Answer {
        border::next_entry(&mut self.run, self.offset)
    }

    fn inputs(&self) -> Vec<&Lent> {
        vec![&self.run]
    }

    fn output(&self) -> Option<&Lent> {
        None
    }

    fn about(&self) -> Vec<String> {
        let lent = self.run.content_before();
        let first = format!("next_entry of {} octets from {}", lent.len(), self.offset);
        vec![first, format!("run:      {}", hex(lent))]
    }
}

impl Trials<NextEntry> {
    /// One run of all the specimens, read from entry to entry; with no house, every one of them is refused.
    fn specimens(&mut self) {
        for house in [0, 1, 32_767] {
            let entries = entries::of_specimens(house);
            let run = entries.concat();
            let mut offset = 0;
            for entry in entries {
                self.at(&run, offset);
                offset += entry.len() as u64;
            }
            self.at(&run, offset);
        }
    }

    fn empty(&mut self) {
        for offset in far(0).into_iter().chain([0, 1]) {
            self.at(&[], offset);
            self.watch(NextEntry { run: Lent::absent(), offset });
        }
    }

    /// Runs of no entry to six, from every offset in them and from some past them.
    fn every_offset(&mut self) {
        for count in (0..=6).flat_map(|count| [count; 10]) {
            let run = self.joined(count);
            let length = run.len() as u64;
            self.together(|trials| (0..=length + 3).chain(far(length)).for_each(|offset| trials.at(&run, offset)));
        }
    }

    /// An entry between two others, one of its fields against its rule.
    fn careless(&mut self) {
        for _ in 0..3_000 {
            let (first, damaged) = (self.joined(1), entries::careless(&mut self.seeds));
            let run = [&first[..], &damaged, &first].concat();
            let starts = [0, first.len(), first.len() + damaged.len()];
            self.together(|trials| starts.iter().for_each(|start| trials.at(&run, *start as u64)));
        }
    }

    /// Numbers, names and data of every length that fits the bits, in every form.
    fn lengths(&mut self) {
        for entry in entries::of_every_length(&mut self.seeds) {
            let run = [entry, self.joined(1)].concat();
            self.at(&run, 0);
        }
    }

    /// Data of every length that there is room for, and another entry behind.
    fn data(&mut self) {
        for record in data::of_every_length(&mut self.seeds) {
            let run = [entry::write(1, &record), self.joined(1)].concat();
            self.at(&run, 0);
        }
    }

    /// Entries as they were before they had data, between such as have it.
    fn old(&mut self) {
        for old in old::entries(&mut self.seeds) {
            let (before, behind) = (self.joined(1), self.joined(1));
            let run = [&before[..], &old, &behind].concat();
            let starts = [0, before.len(), before.len() + old.len()];
            self.together(|trials| starts.iter().for_each(|start| trials.at(&run, *start as u64)));
        }
    }

    /// Each bit of an entry that another one follows.
    fn flipped(&mut self) {
        for sound in entries::some(&mut self.seeds) {
            let next = self.joined(1);
            self.together(|trials| {
                let runs = (0..8 * sound.len()).map(|bit| [&octets::flipped(&sound, bit)[..], &next].concat());
                runs.for_each(|run| trials.at(&run, 0));
            });
        }
    }

    /// Each octet of an entry, with each value.
    fn octets(&mut self) {
        for sound in entries::of_specimens(1) {
            let next = self.joined(1);
            (0..sound.len()).for_each(|at| {
                self.together(|trials| {
                    let runs = octets::with_each(&sound, at);
                    runs.iter().for_each(|run| trials.at(&[&run[..], &next].concat(), 0));
                });
            });
        }
    }

    fn cut(&mut self) {
        for last in entries::some(&mut self.seeds) {
            let first = self.joined(1);
            self.together(|trials| {
                let runs = (0..=last.len()).map(|length| [&first[..], &last[..length]].concat());
                runs.for_each(|run| trials.at(&run, first.len() as u64));
            });
        }
    }

    /// Nothing is read past either end of a run, from whatever offset.
    fn fenced(&mut self) {
        let whole = self.joined(2);
        for length in 0..=whole.len() {
            self.together(|trials| {
                for (side, offset) in (0..=length as u64 + 1).flat_map(|offset| Side::BOTH.map(|side| (side, offset))) {
                    trials.watch(NextEntry { run: Lent::fenced(&whole[..length], side), offset });
                }
            });
        }
    }

    fn random(&mut self) {
        for _ in 0..2_000 {
            let length = self.seeds.below(200);
            let octets = self.seeds.octets(length);
            let offset = self.seeds.below(length + 2) as u64;
            self.at(&octets, offset);
        }
    }

    fn joined(&mut self, count: usize) -> Vec<u8> {
        (0..count).flat_map(|_| entries::sound(&mut self.seeds)).collect()
    }

    fn at(&mut self, run: &[u8], offset: u64) {
        let run = self.lent(run);
        self.hold(NextEntry { run, offset });
    }
}

/// Offsets far past the end, where sums could wrap round: to the run's start and to its end among them.
fn far(length: u64) -> Vec<u64> {
    let half = 1 << 63;
    vec![
        1 << 32,
        (1 << 32) + length,
        half - 1,
        half,
        half + length,
        u64::MAX - 76,
        u64::MAX - 36,
        u64::MAX - 1,
        u64::MAX,
    ]
}
