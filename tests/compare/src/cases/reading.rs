//! What the comparisons of two calls share that read octets, a presentation or a seal, to an entry.

use crate::cases::houses::house;
use crate::cases::trials::{held, Call, Trials};
use crate::guard::{Lent, Side};
use crate::report::hex_shown;
use paper::answer::Outcome;
use paper::entry;
use shared::seeds::Seeds;
use std::fmt::Display;
use std::marker::PhantomData;

/// As long as the longest entry.
pub const ROOM: usize = entry::LONGEST;

/// Which of the two.
pub trait Reader {
    const NAME: &'static str;
    type Answer: PartialEq + Display;
    /// What the paper says.
    fn expected(house: u32, lent: &[u8], room: usize) -> Outcome<Self::Answer>;
    fn made(house: u32, lent: &mut Lent, entry: &mut Lent) -> Self::Answer;
}

pub struct Reading<R: Reader> {
    house: u32,
    lent: Lent,
    entry: Lent,
    reader: PhantomData<R>,
}

impl<R: Reader> Reading<R> {
    pub fn new(house: u32, lent: Lent, entry: Lent) -> Reading<R> {
        Reading { house, lent, entry, reader: PhantomData }
    }
}

impl<R: Reader> Call for Reading<R> {
    const NAME: &'static str = R::NAME;
    type Answer = R::Answer;

    fn expected(&self) -> Outcome<R::Answer> {
        R::expected(self.house, self.lent.content(), self.entry.length())
    }

    fn made(&mut self) -> R::Answer {
        R::made(self.house, &mut self.lent, &mut self.entry)
    }

    fn inputs(&self) -> Vec<&Lent> {
        vec![&self.lent]
    }

    fn output(&self) -> Option<&Lent> {
        Some(&self.entry)
    }

    fn about(&self) -> Vec<String> {
        let (lent, room) = (self.lent.content_before(), self.entry.length());
        let first = format!("{}, house {}, of {} octets into {room}", R::NAME, self.house, lent.len());
        vec![first, format!("lent:     {}", hex_shown(lent))]
    }
}

impl<R: Reader> Trials<Reading<R>> {
    /// A house and a room of the seed's choice.
    pub fn case(&mut self, lent: &[u8]) {
        let house = house(&mut self.seeds);
        let room = self.seeds.pick(&[ROOM, ROOM, ROOM, 200, 64, 43, 37, 36, 0]);
        self.with_room(house, lent, room);
    }

    /// House 1, and room for any entry.
    pub fn plain(&mut self, lent: &[u8]) {
        self.with_room(1, lent, ROOM);
    }

    pub fn with_room(&mut self, house: u32, lent: &[u8], room: usize) {
        let (lent, entry) = (self.lent(lent), self.room(room));
        self.hold(Reading::new(house, lent, entry));
    }

    pub fn fence(&mut self, lent: &[u8], room: usize, side: Side) {
        let entry = Lent::fenced(&self.seeds.octets(room), side);
        self.watch(Reading::new(1, Lent::fenced(lent, side), entry));
    }

    /// No pointer of an empty range is read, whichever of the two is one.
    pub fn absent(&mut self, sound: &[u8]) {
        let entry = self.room(ROOM);
        self.watch(Reading::new(1, Lent::absent(), entry));
        let lent = self.lent(sound);
        self.watch(Reading::new(1, lent, Lent::absent()));
        self.watch(Reading::new(0, Lent::absent(), Lent::absent()));
    }
}

/// What one thread tries: octets that are made from its seed, turn by turn.
pub fn alone<R: Reader>(seed: u64, made: impl Fn(&mut Seeds, usize) -> Vec<u8>) -> Vec<Vec<String>> {
    let mut seeds = Seeds::new(seed);
    let case = |turn: usize| {
        let lent = made(&mut seeds, turn);
        let lent = Lent::new(&lent, seeds.below(64));
        let entry = Lent::new(&seeds.octets(ROOM), seeds.below(64));
        held(Reading::<R>::new(1, lent, entry))
    };
    (0..150).map(case).collect()
}
