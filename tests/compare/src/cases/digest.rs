//! The cases of the digest.

use crate::border;
use crate::cases::trials::{self, Call, Trials};
use crate::guard::{Lent, Side};
use crate::report::{hex, Tally};
use paper::answer::{Answer, Outcome};
use paper::{calls, published};
use shared::seeds::Seeds;

/// Around the longest input: its last block's edges, and the first lengths that are refused.
const LONG: [usize; 16] = [
    65_471, 65_472, 65_473, 65_526, 65_527, 65_528, 65_529, 65_534, 65_535, 65_536, 65_537, 65_599, 65_600, 100_000,
    131_072, 1_000_000,
];
const RANDOM: usize = 3_000;

/// Runs every case and gives the counts.
pub fn compare(seed: u64) -> Tally {
    let mut trials = Trials::<Digest>::new(seed);
    trials.published();
    trials.short_lengths();
    trials.block_edges();
    trials.long_lengths();
    trials.output_lengths();
    trials.starts();
    trials.empty_ranges();
    trials.fenced();
    trials.random();
    trials.threads(alone);
    trials.tally
}

struct Digest {
    input: Lent,
    output: Lent,
}

impl Call for Digest {
    const NAME: &'static str = "digest";
    type Answer = Answer;

    fn expected(&self) -> Outcome {
        calls::digest(self.input.content(), self.output.length())
    }

    fn made(&mut self) -> Answer {
        border::digest(&mut self.input, &mut self.output)
    }

    fn inputs(&self) -> Vec<&Lent> {
        vec![&self.input]
    }

    fn output(&self) -> Option<&Lent> {
        Some(&self.output)
    }

    fn about(&self) -> Vec<String> {
        let lent = self.input.content_before();
        let first = format!("digest of {} octets into {}", lent.len(), self.output.length());
        vec![first, format!("input:    {}", hex(lent))]
    }
}

impl Trials<Digest> {
    fn published(&mut self) {
        for (message, digest) in published::digests() {
            let answer = Answer::not_refused(32);
            let expected = Outcome { answer, written: digest.to_vec() };
            let output = Lent::new(&self.seeds.octets(32), 0);
            self.count(trials::held_to(&expected, Digest { input: Lent::new(&message, 0), output }));
        }
    }

    fn short_lengths(&mut self) {
        for length in 0..=300 {
            let input = self.seeds.octets(length);
            self.case(&input, 32);
            self.case(&input, 33);
        }
    }

    /// Where the padding needs one block or two, and where it begins one: with octets that a wrong pad could be taken for.
    fn block_edges(&mut self) {
        let blocks = (1..=40).chain([255, 256, 257, 511, 512, 513, 1022, 1023]);
        for length in blocks.flat_map(|block| [55, 56, 57, 63, 64, 65].map(|past| 64 * (block - 1) + past)) {
            let input = self.seeds.octets(length);
            self.case(&input, 32);
            for octet in [0x00, 0x80, 0xff] {
                self.case(&vec![octet; length], 32);
            }
        }
    }

    fn long_lengths(&mut self) {
        for length in LONG {
            let input = self.seeds.octets(length);
            for room in [0, 31, 32, 33, 64] {
                self.case(&input, room);
            }
        }
    }

    /// Each output length, with inputs that are and are not refused: 1 comes before 16.
    fn output_lengths(&mut self) {
        for room in (0..=40).chain([63, 64, 65, 127, 128, 1_000, 65_536]) {
            for length in [0, 3, 64, 1_000, 65_535, 65_536] {
                let input = self.seeds.octets(length);
                self.case(&input, room);
            }
        }
    }

    /// Every start of the input within a block, and of the output within a word.
    fn starts(&mut self) {
        for shift in 0..64 {
            for length in [0, 1, 55, 64, 119, 1_000] {
                let input = Lent::new(&self.seeds.octets(length), shift);
                let output = Lent::new(&self.seeds.octets(32), shift % 8);
                self.hold(Digest { input, output });
            }
        }
    }

    /// The pointer of an empty range is not read: it may be null.
    fn empty_ranges(&mut self) {
        for room in [0, 31, 32, 40] {
            let output = Lent::new(&self.seeds.octets(room), 0);
            self.watch(Digest { input: Lent::absent(), output });
        }
        for length in [0, 3, 65_535, 65_536] {
            let input = Lent::new(&self.seeds.octets(length), 0);
            self.watch(Digest { input, output: Lent::absent() });
        }
        self.watch(Digest { input: Lent::absent(), output: Lent::absent() });
    }

    /// Nothing is read past either end of the input, nor the pointer of an empty one.
    fn fenced(&mut self) {
        for length in (0..=130).chain([1_000, 4_096, 65_535, 65_536]) {
            for (side, room) in Side::BOTH.into_iter().flat_map(|side| [0, 31, 32, 33].map(|room| (side, room))) {
                let input = Lent::fenced(&self.seeds.octets(length), side);
                let output = Lent::fenced(&self.seeds.octets(room), side);
                self.watch(Digest { input, output });
            }
        }
    }

    fn random(&mut self) {
        for _ in 0..RANDOM {
            // Short ones most often, since that is where the edges lie close together.
            let bound = self.seeds.pick(&[200, 200, 2_000, 2_000, 20_000, 66_000]);
            let length = self.seeds.below(bound);
            let input = self.seeds.octets(length);
            let room = self.seeds.pick(&[32, 32, 32, 33, 31, 64, 0]);
            self.case(&input, room);
        }
    }

    /// One case, its ranges at starts of the seed's choice.
    fn case(&mut self, input: &[u8], room: usize) {
        let (input, output) = (self.lent(input), self.room(room));
        self.hold(Digest { input, output });
    }
}

/// What one thread tries.
fn alone(seed: u64) -> Vec<Vec<String>> {
    let mut seeds = Seeds::new(seed);
    let case = |_| {
        let length = seeds.below(2_000);
        let input = Lent::new(&seeds.octets(length), seeds.below(64));
        let output = Lent::new(&seeds.octets(32), seeds.below(64));
        trials::held(Digest { input, output })
    };
    (0..200).map(case).collect()
}
