//! Which work a contender does on a job.

use crate::contender::Contender;
use crate::job::{Job, Work};
use crate::{details, digests, insides, lists, passports, presentations, records, seals, worst};

/// None where the contender is not installed, or does not do such work.
pub fn of(contender: Contender, job: Job) -> Option<Work> {
    match job {
        Job::Digest(size) => digests::of(contender, size),
        Job::ReadText | Job::ReadForm(_) | Job::ReadMixed => records::of(contender, job),
        Job::NextEntry | Job::OpenEntry | Job::WriteText => records::of(contender, job),
        Job::Passport(call, data) => passports::of(contender, call, data),
        Job::ReadPresentation(..) | Job::DigestFiles(_) => presentations::of(contender, job),
        Job::ReadWorst(_) | Job::FindInWorst(_) => worst::of(contender, job),
        Job::LookInside(inside) => insides::of(contender, inside),
        Job::ReadDetail(_) | Job::FullName(_) => details::of(contender, job),
        Job::List(over) => lists::of(contender, over),
        Job::ReadSeal | Job::ReadSealText | Job::Seal(..) => seals::of(contender, job),
    }
}
