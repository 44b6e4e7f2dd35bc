//! The work on files of group 11: a detail found, and the full name.

use crate::border;
use crate::contender::Contender;
use crate::job::{Job, NameIn, Work};
use paper::answer::{Detail, Name};
use paper::calls;
use paper::specimens::T3;
use shared::details::Details;

/// The profession, which stands last in the file.
const ASKED: u32 = 0x5f13;

/// Each is answered as the papers say, so that no quicker way is taken for the work.
pub fn of(contender: Contender, job: Job) -> Option<Work> {
    match (contender, job) {
        (Contender::Library, Job::ReadDetail(details)) => Some(read(details, border::read_detail)),
        (Contender::Rust, Job::ReadDetail(details)) => Some(read(details, calls::read_detail)),
        (Contender::Library, Job::FullName(name_in)) => Some(name(name_in, border::full_name)),
        (Contender::Rust, Job::FullName(name_in)) => Some(name(name_in, calls::full_name)),
        _ => None,
    }
}

fn read(details: Details, find: fn(&[u8], u32) -> Detail) -> Work {
    let file = details.octets();
    let expected = calls::read_detail(&file, ASKED);
    Box::new(move || assert_eq!(find(&file, ASKED), expected))
}

fn name(name_in: NameIn, find: fn(&[u8], &[u8]) -> Name) -> Work {
    let file = lent(name_in);
    let expected = calls::full_name(&file, T3.as_bytes());
    Box::new(move || assert_eq!(find(&file, T3.as_bytes()), expected))
}

/// The file that is lent beside the text: one with a full name, or one that names nothing.
pub fn lent(name_in: NameIn) -> Vec<u8> {
    match name_in {
        NameIn::File => Details::Printed.octets(),
        NameIn::Text => vec![0x6b, 0x02, 0x5c, 0x00],
    }
}
