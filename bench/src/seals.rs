//! The work on seals: the one that the papers print, its text alone, and seals of version 03 read and written.

use crate::border;
use crate::contender::Contender;
use crate::job::{Job, Way, Work};
use crate::records;
use crate::whole::whole;
use paper::answer::Answer;
use paper::calls;
use paper::entry::LONGEST;
use paper::refusal;
use paper::seal::answer::SealAnswer;
use paper::seal::header::Header;
use paper::seal::in_c::HeaderInC;
use paper::seal::{self, printed};
use paper::specimens::ERIKSSON_TD2;

pub fn of(contender: Contender, job: Job) -> Option<Work> {
    match (contender, job) {
        (Contender::Library, Job::ReadSeal) => {
            Some(sealed(&printed::signed(), |seal, room| border::read_seal(1, seal, room)))
        }
        (Contender::Library, Job::ReadSealText) => Some(text(|text, room| border::read_text(1, text, room))),
        (Contender::Rust, Job::ReadSeal) => Some(sealed(&printed::signed(), read_in_rust)),
        (Contender::Rust, Job::ReadSealText) => Some(text(records::read_text)),
        (Contender::Library, Job::Seal(Way::Read, reference, signature)) => {
            Some(sealed(&Given::of(reference, signature).octets(), |seal, room| border::read_seal(1, seal, room)))
        }
        (Contender::Rust, Job::Seal(Way::Read, reference, signature)) => {
            Some(sealed(&Given::of(reference, signature).octets(), read_in_rust))
        }
        (Contender::Library, Job::Seal(Way::Written, reference, signature)) => {
            Some(written(Given::of(reference, signature), border::write_seal))
        }
        (Contender::Rust, Job::Seal(Way::Written, reference, signature)) => {
            Some(written(Given::of(reference, signature), write_in_rust))
        }
        _ => None,
    }
}

/// With every field of the answer, which the compiler must not leave out. A refusal would be quicker than the work, so none
/// may come.
fn sealed(seal: &[u8], call: impl Fn(&[u8], &mut [u8]) -> SealAnswer + 'static) -> Work {
    let (lent, mut room) = (seal.to_vec(), [0; LONGEST]);
    Box::new(move || {
        let answer = call(&lent, &mut room);
        whole(&answer);
        assert_eq!(answer.number, 0);
    })
}

/// As for the seal.
fn text(call: impl Fn(&[u8], &mut [u8]) -> Answer + 'static) -> Work {
    let mut room = [0; LONGEST];
    Box::new(move || {
        let answer = call(ERIKSSON_TD2.as_bytes(), &mut room);
        whole(&answer);
        assert_eq!(answer.number, 0);
    })
}

fn read_in_rust(seal: &[u8], room: &mut [u8]) -> SealAnswer {
    let outcome = calls::read_seal(1, seal, room.len());
    room[..outcome.written.len()].copy_from_slice(&outcome.written);
    outcome.answer
}

/// What goes into a seal: the papers' record and header, with a reference and a signature of the lengths that are wanted.
pub struct Given {
    pub entry: Vec<u8>,
    pub header: HeaderInC,
    pub signature: Vec<u8>,
}

impl Given {
    pub fn of(reference: usize, signature: usize) -> Given {
        let printed = seal::read(&printed::signed()).expect("the seal of the papers is accepted").header;
        let reference = b"0123456789ABCDEF".iter().copied().cycle().take(reference).collect();
        let header = HeaderInC::of(&Header { version: 0x03, reference, ..printed });
        let entry = calls::read_text(1, ERIKSSON_TD2.as_bytes(), LONGEST).written;
        Given { entry, header, signature: vec![7; signature] }
    }

    pub fn octets(&self) -> Vec<u8> {
        calls::write_seal(&self.entry, &self.header, &self.signature, refusal::LONGEST).written
    }
}

/// As for the seal.
fn written(given: Given, call: fn(&[u8], HeaderInC, &[u8], &mut [u8]) -> Answer) -> Work {
    let mut room = vec![0; given.octets().len()];
    Box::new(move || {
        let answer = call(&given.entry, given.header, &given.signature, &mut room);
        whole(&answer);
        assert_eq!(answer.number, 0);
    })
}

fn write_in_rust(entry: &[u8], header: HeaderInC, signature: &[u8], room: &mut [u8]) -> Answer {
    let outcome = calls::write_seal(entry, &header, signature, room.len());
    room[..outcome.written.len()].copy_from_slice(&outcome.written);
    outcome.answer
}
