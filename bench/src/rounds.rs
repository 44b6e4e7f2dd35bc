//! Rounds in which every contender is measured once, one directly after another: what disturbs the machine disturbs all
//! alike. A ratio is taken within a round, and the median over the rounds is what is shown.

use crate::contender::Contender;
use crate::job::Job;
use crate::worker::Worker;

pub const ROUNDS: usize = 101;
/// How long one contender's part of a round takes.
const NANOSECONDS: u64 = 1_000_000;

/// What is shown of one contender at one job.
pub struct Median {
    /// Nanoseconds for doing it once.
    pub time: f64,
    /// This contender's time over the library's.
    pub ratio: f64,
}

/// A row for each job, in the contenders' order, the library being the first.
pub fn medians(contenders: &[Contender], jobs: &[Job]) -> Vec<Vec<Median>> {
    let mut workers: Vec<Worker> = contenders.iter().map(|contender| Worker::start(*contender)).collect();
    let rows = jobs.iter().map(|job| row(&mut workers, *job)).collect();
    workers.into_iter().for_each(Worker::end);
    rows
}

fn row(workers: &mut [Worker], job: Job) -> Vec<Median> {
    let counts: Vec<usize> = workers.iter_mut().map(|worker| enough(worker, job)).collect();
    let mut rounds: Vec<Vec<f64>> = Vec::new();
    for _ in 0..ROUNDS {
        let each = workers.iter_mut().zip(&counts);
        rounds.push(each.map(|(worker, times)| worker.nanoseconds(job, *times) as f64 / *times as f64).collect());
    }
    let shown = |at: usize| Median {
        time: median(rounds.iter().map(|round| round[at]).collect()),
        ratio: median(rounds.iter().map(|round| round[at] / round[0]).collect()),
    };
    (0..workers.len()).map(shown).collect()
}

/// So many times that they take about as long as a part of a round should.
pub fn enough(worker: &mut Worker, job: Job) -> usize {
    let mut times = 1;
    loop {
        let taken = worker.nanoseconds(job, times).max(1);
        if taken >= NANOSECONDS / 2 {
            return (times as u64 * NANOSECONDS / taken).max(1) as usize;
        }
        times *= 2;
    }
}

pub fn median(mut values: Vec<f64>) -> f64 {
    values.sort_by(f64::total_cmp);
    values[values.len() / 2]
}
