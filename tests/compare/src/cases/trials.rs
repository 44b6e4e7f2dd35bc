//! What the comparisons of all calls share: their counts, the numbers that their cases are made from, and the one way in
//! which a call is held to what the paper says of it.

use crate::fence;
use crate::guard::Lent;
use crate::judge::differences;
use crate::report::Tally;
use paper::answer::Outcome;
use shared::seeds::Seeds;
use std::fmt::Display;
use std::marker::PhantomData;

const THREADS: usize = 4;

/// A call with what it is lent, ready to be made.
pub trait Call {
    const NAME: &'static str;
    type Answer: PartialEq + Display;
    /// What the paper says that it answers and writes.
    fn expected(&self) -> Outcome<Self::Answer>;
    fn made(&mut self) -> Self::Answer;
    fn inputs(&self) -> Vec<&Lent>;
    fn output(&self) -> Option<&Lent>;
    /// All that is needed to make it again.
    fn about(&self) -> Vec<String>;
}

/// Makes a call and holds it to the paper: the lines that tell a difference, and none where there is no difference.
pub fn held(call: impl Call) -> Vec<String> {
    let expected = call.expected();
    held_to(&expected, call)
}

pub fn held_to<C: Call>(expected: &Outcome<C::Answer>, mut call: C) -> Vec<String> {
    let given = call.made();
    let mut lines = differences(expected, given, &call.inputs(), call.output());
    if !lines.is_empty() {
        lines.splice(0..0, call.about());
    }
    lines
}

/// The trials of one call. What is tried stands with the call, as further methods.
pub struct Trials<C: Call> {
    pub tally: Tally,
    pub seeds: Seeds,
    /// The differences so far of a case that is several calls.
    gathered: Option<Vec<String>>,
    call: PhantomData<C>,
}

impl<C: Call> Trials<C> {
    pub fn new(seed: u64) -> Trials<C> {
        Trials { tally: Tally::new(C::NAME, seed), seeds: Seeds::new(seed), gathered: None, call: PhantomData }
    }

    /// Content that starts where the seed says.
    pub fn lent(&mut self, content: &[u8]) -> Lent {
        Lent::new(content, self.seeds.below(64))
    }

    /// An output of so many octets, which hold anything at first.
    pub fn room(&mut self, octets: usize) -> Lent {
        let content = self.seeds.octets(octets);
        self.lent(&content)
    }

    pub fn hold(&mut self, call: C) {
        self.count(held(call));
    }

    /// As `hold`, for ranges at a fence or at no address at all: should the call touch it, the case is told.
    pub fn watch(&mut self, call: C) {
        let lines = fence::during(call.about(), || held(call));
        self.count(lines);
    }

    /// Many calls that try one thing, counted as one case: each bit of an entry, each length of an output.
    pub fn together(&mut self, calls: impl FnOnce(&mut Self)) {
        self.gathered = Some(Vec::new());
        calls(self);
        let lines = self.gathered.take().unwrap_or_default();
        self.tally.case(lines);
    }

    /// The calls share no state: several at once answer as each does alone. What one thread tries is made from its seed.
    pub fn threads(&mut self, alone: fn(u64) -> Vec<Vec<String>>) {
        let seeds: Vec<u64> = (0..THREADS).map(|_| self.seeds.number()).collect();
        let lines: Vec<Vec<String>> = std::thread::scope(|scope| {
            let threads: Vec<_> = seeds.iter().map(|seed| scope.spawn(|| alone(*seed))).collect();
            threads.into_iter().flat_map(|thread| thread.join().unwrap()).collect()
        });
        lines.into_iter().for_each(|lines| self.count(lines));
    }

    pub fn count(&mut self, lines: Vec<String>) {
        match &mut self.gathered {
            // The first that differs is enough to begin with.
            Some(gathered) if gathered.is_empty() => *gathered = lines,
            Some(_) => {}
            None => self.tally.case(lines),
        }
    }
}
