//! What the presentations cost that give the most to do beside digests.

use crate::border;
use crate::contender::Contender;
use crate::job::{Job, Work};
use crate::pair;
use crate::table::Table;
use crate::worker::Worker;
use paper::entry::LONGEST;

/// No file has it: group 6 is reserved.
const NO_GROUP: u32 = 6;

/// The library's alone.
pub fn of(contender: Contender, job: Job) -> Option<Work> {
    match (contender, job) {
        (Contender::Library, Job::ReadWorst(worst)) => {
            let (lent, mut room) = (worst.octets(), [0; LONGEST]);
            Some(Box::new(move || assert_ne!(border::read_presentation(1, &lent, &mut room).number, 0)))
        }
        (Contender::Library, Job::FindInWorst(worst)) => {
            let lent = worst.octets();
            Some(Box::new(move || assert_eq!(border::group_file(&lent, NO_GROUP).length, 0)))
        }
        _ => None,
    }
}

/// Each over the digest of as many octets.
pub fn table() -> Table {
    let mut library = Worker::start(Contender::Library);
    let row = |job: Job| {
        let digest = Job::Digest(job.size());
        [vec![job.title()], pair::ratios(&mut library, [job, digest])].concat()
    };
    let rows = Job::WORST.map(row).to_vec();
    library.end();
    Table { titles: ["presentation", "time", "instructions"].map(String::from).to_vec(), rows }
}
