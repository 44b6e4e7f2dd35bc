//! The work on files of groups that are looked into, and what it costs over a digest.

use crate::border;
use crate::contender::Contender;
use crate::job::{Job, Work};
use crate::pair;
use crate::table::Table;
use crate::worker::Worker;
use paper::answer::Answer;
use paper::calls;
use shared::insides::Inside;

/// Each is answered as the papers say, so that no quicker way is taken for the work.
pub fn of(contender: Contender, inside: Inside) -> Option<Work> {
    let file = inside.octets();
    let expected = calls::look_inside(&file);
    let held = move |look: fn(&[u8]) -> Answer| -> Work { Box::new(move || assert_eq!(look(&file), expected)) };
    match contender {
        Contender::Library => Some(held(border::look_inside)),
        Contender::Rust => Some(held(calls::look_inside)),
        _ => None,
    }
}

/// Each over the digest of as many octets, or of as many as one takes.
pub fn table() -> Table {
    let mut library = Worker::start(Contender::Library);
    let row = |job: Job| [vec![job.title()], pair::ratios(&mut library, [job, job.beside()])].concat();
    let rows = Job::INSIDES.map(row).to_vec();
    library.end();
    Table { titles: ["file", "time", "instructions"].map(String::from).to_vec(), rows }
}
