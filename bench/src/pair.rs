//! Two jobs of the library beside each other, and one figure from both.

use crate::contender::Contender;
use crate::counts;
use crate::job::Job;
use crate::rounds::{enough, median, ROUNDS};
use crate::table::NONE;
use crate::worker::Worker;

/// The figure from what each of the two takes.
pub type Figure = fn(f64, f64) -> f64;

/// From times. Both halves of a round come from one worker, one directly after the other: what disturbs the machine disturbs
/// both.
pub fn timed(worker: &mut Worker, jobs: [Job; 2], figure: Figure) -> f64 {
    let times = jobs.map(|job| enough(worker, job));
    let mut taken = |at: usize| worker.nanoseconds(jobs[at], times[at]) as f64 / times[at] as f64;
    median((0..ROUNDS).map(|_| figure(taken(0), taken(1))).collect())
}

/// From instructions. None where valgrind is not installed.
pub fn counted(jobs: [Job; 2], figure: Figure) -> Option<f64> {
    let count = |job| Some(counts::count(Contender::Library, job)? as f64);
    Some(figure(count(jobs[0])?, count(jobs[1])?))
}

/// The time of the one over that of the other, and its instructions likewise.
pub fn ratios(worker: &mut Worker, jobs: [Job; 2]) -> Vec<String> {
    let shown = |ratio: f64| format!("{ratio:.2}");
    vec![shown(timed(worker, jobs, over)), counted(jobs, over).map_or(NONE.into(), shown)]
}

fn over(one: f64, other: f64) -> f64 {
    one / other
}
