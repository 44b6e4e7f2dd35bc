//! How much of a presentation's reading is anything but the digest.

use crate::contender::Contender;
use crate::job::Job;
use crate::pair;
use crate::table::{Table, NONE};
use crate::worker::Worker;

/// The share is the time of reading a presentation, less the time of digesting its group files through the digest's own
/// call, over the time of reading. Instructions likewise.
pub fn table() -> Table {
    let mut library = Worker::start(Contender::Library);
    let row = |read: Job| {
        let jobs = [read, Job::DigestFiles(read.size())];
        let time = percent(pair::timed(&mut library, jobs, share));
        vec![read.title(), time, pair::counted(jobs, share).map_or(NONE.into(), percent)]
    };
    let rows = Job::PRESENTATIONS.map(row).to_vec();
    library.end();
    Table { titles: ["octets", "time", "instructions"].map(String::from).to_vec(), rows }
}

fn share(read: f64, digested: f64) -> f64 {
    (read - digested) / read
}

fn percent(share: f64) -> String {
    format!("{:.1} %", 100.0 * share)
}
