//! The work on presentations.

use crate::border;
use crate::contender::Contender;
use crate::job::{Job, Work};
use paper::calls;
use paper::entry::LONGEST;
use paper::lds::Lds;
use paper::presentation::{write, write_as, write_file};
use paper::sha256::sha256;
use shared::files::bare_group_1;
use shared::seeds::Seeds;

pub fn of(contender: Contender, job: Job) -> Option<Work> {
    let files = files(job.size());
    let lent = lent(job);
    let mut room = [0; LONGEST];
    match (contender, job) {
        (Contender::Library, Job::ReadPresentation(..)) => Some(Box::new(move || {
            // A refusal would be quicker than the work, so none may come.
            assert_eq!(border::read_presentation(1, &lent, &mut room).number, 0);
        })),
        (Contender::Rust, Job::ReadPresentation(..)) => Some(Box::new(move || {
            let outcome = calls::read_presentation(1, &lent, room.len());
            assert_eq!(outcome.answer.number, 0);
            room[..outcome.written.len()].copy_from_slice(&outcome.written);
        })),
        (Contender::Library, Job::DigestFiles(_)) => Some(over(files, |file, digest| {
            border::digest(file, digest);
        })),
        (Contender::Rust, Job::DigestFiles(_)) => Some(over(files, |file, digest| *digest = sha256(file))),
        _ => None,
    }
}

/// The presentation of a job.
pub fn lent(job: Job) -> Vec<u8> {
    let lds = if let Job::ReadPresentation(lds, _) = job { lds } else { Lds::V17 };
    write_as(lds, &files(job.size()))
}

/// Groups as a chip has them: the text, a face that takes what is left, details and security options.
fn files(size: usize) -> Vec<(u8, Vec<u8>)> {
    let mut seeds = Seeds::new(9303);
    let mut files =
        vec![(1, bare_group_1(&mut seeds)), (2, seeds.octets(300)), (11, seeds.octets(200)), (14, seeds.octets(150))];
    let face = size - (write(&files).len() - 300);
    files[1].1 = seeds.octets(face);
    files
}

/// The digest of each file, from its tag on. Each is looked at, so that none can be left out.
fn over(files: Vec<(u8, Vec<u8>)>, digest_of: impl Fn(&[u8], &mut [u8; 32]) + 'static) -> Work {
    let files: Vec<Vec<u8>> = files.iter().map(|(group, content)| write_file(*group, content)).collect();
    let first = sha256(&files[0]);
    Box::new(move || {
        let mut digests = [[0; 32]; 4];
        files.iter().zip(&mut digests).for_each(|(file, digest)| digest_of(file, digest));
        assert_eq!(digests[0], first);
        assert!(digests[1..].iter().all(|digest| *digest != first));
    })
}
