//! What reading a seal costs over reading its text, and writing one over reading it.

use crate::contender::Contender;
use crate::job::{Job, Way};
use crate::pair;
use crate::table::Table;
use crate::worker::Worker;

/// Reading the seal over reading its text, both to an entry.
pub fn table() -> Table {
    let mut library = Worker::start(Contender::Library);
    let ratios = pair::ratios(&mut library, Job::SEALS);
    library.end();
    let rows = vec![[vec!["a seal over its text".into()], ratios].concat()];
    Table { titles: ["ratio", "time", "instructions"].map(String::from).to_vec(), rows }
}

/// Writing a seal from an entry over reading it to that entry.
pub fn written() -> Table {
    let mut library = Worker::start(Contender::Library);
    let seals = Job::WRITTEN.into_iter().filter_map(|job| match job {
        Job::Seal(Way::Written, reference, signature) => Some((job, Job::Seal(Way::Read, reference, signature))),
        _ => None,
    });
    let row = |(written, read): (Job, Job)| {
        [vec![format!("{} over read", written.title())], pair::ratios(&mut library, [written, read])].concat()
    };
    let rows = seals.map(row).collect();
    library.end();
    Table { titles: ["ratio", "time", "instructions"].map(String::from).to_vec(), rows }
}
