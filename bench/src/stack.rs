//! How much stack a call of the library takes.

use crate::details;
use crate::job::{Job, NameIn};
use crate::lists;
use crate::painted::{Answered, Call};
use crate::presentations;
use crate::seals::Given;
use crate::table::Table;
use paper::answer::{Detail, Name};
use paper::calls;
use paper::details::FULL_NAME;
use paper::entry::LONGEST;
use paper::inside::DEEPEST;
use paper::list;
use paper::seal::answer::SealAnswer;
use paper::seal::in_c::HeaderInC;
use paper::specimens::T3;
use paper::tlv::tlv;
use shared::details::Details;
use shared::grouped::grouped;
use shared::header;
use shared::insides::Inside;

/// References and signatures of the seals that are read and written.
const SEALS: [(usize, usize); 3] = [(5, 64), (255, 64), (5, 65_461)];

/// The most that a call takes of all the inputs that it is timed on, and of a file that is refused at its ninth level.
pub fn table() -> Table {
    let row = |name: &str, octets: &[usize]| {
        let most = octets.iter().max().expect("an input");
        vec![name.into(), grouped(*most as u64)]
    };
    let list = lists::lent();
    let insides: Vec<usize> = Inside::ALL.iter().map(|inside| look_inside(&inside.octets())).collect();
    let rows = vec![
        row("lamphudet_digest", &Job::DIGESTS.map(digest)),
        row("lamphudet_read_presentation", &Job::PRESENTATIONS.map(read_presentation)),
        row("lamphudet_look_inside", &insides),
        row("lamphudet_look_inside, too deep", &[look_inside(&too_deep())]),
        row("lamphudet_read_detail", &Details::ALL.map(|details| read_detail(&details.octets()))),
        row("lamphudet_full_name", &[NameIn::File, NameIn::Text].map(name_found)),
        row("lamphudet_look_over", &[look_over(&list)]),
        row("lamphudet_house_entries", &[house_entries(&list)]),
        row("lamphudet_read_seal", &SEALS.map(read_seal)),
        row("lamphudet_write_seal", &SEALS.map(write_seal)),
    ];
    Table { titles: ["call", "octets of stack"].map(String::from).to_vec(), rows }
}

fn digest(job: Job) -> usize {
    let (input, mut room) = (vec![0x3c_u8; job.size()], [0_u8; 32]);
    let arguments = [input.as_ptr() as usize, input.len(), room.as_mut_ptr() as usize, room.len(), 0];
    // Each range is valid for its length, and they do not overlap.
    unsafe {
        Call { function: header::lamphudet_digest as *const (), arguments, number: 0, answer: Answered::InRegisters }
            .stack()
    }
}

fn read_presentation(job: Job) -> usize {
    let (lent, mut room) = (presentations::lent(job), [0_u8; LONGEST]);
    let arguments = [1, lent.as_ptr() as usize, lent.len(), room.as_mut_ptr() as usize, room.len()];
    // As for the digest.
    unsafe {
        Call {
            function: header::lamphudet_read_presentation as *const (),
            arguments,
            number: 0,
            answer: Answered::InRegisters,
        }
        .stack()
    }
}

fn look_inside(file: &[u8]) -> usize {
    let arguments = [file.as_ptr() as usize, file.len(), 0, 0, 0];
    let number = calls::look_inside(file).number;
    // The range is valid for its length.
    unsafe {
        Call { function: header::lamphudet_look_inside as *const (), arguments, number, answer: Answered::InRegisters }
            .stack()
    }
}

fn read_detail(file: &[u8]) -> usize {
    let tag = u32::from(FULL_NAME);
    let expected = calls::read_detail(file, tag);
    let mut answer = Detail::found(None);
    let address: *mut Detail = &mut answer;
    let arguments = [address as usize, file.as_ptr() as usize, file.len(), tag as usize, 0];
    let (number, answer) = (expected.answer.number, Answered::At(address.cast()));
    // The range is valid for its length, and the answer has room.
    unsafe { Call { function: header::lamphudet_read_detail as *const (), arguments, number, answer }.stack() }
}

fn name_found(name_in: NameIn) -> usize {
    let (file, text) = (details::lent(name_in), T3.as_bytes());
    let number = calls::full_name(&file, text).from;
    let mut answer = Name::NONE;
    let address: *mut Name = &mut answer;
    let arguments = [address as usize, file.as_ptr() as usize, file.len(), text.as_ptr() as usize, text.len()];
    let answer = Answered::At(address.cast());
    // Each range is valid for its length, and the answer has room.
    unsafe { Call { function: header::lamphudet_full_name as *const (), arguments, number, answer }.stack() }
}

fn look_over(list: &[u8]) -> usize {
    let arguments = [list.as_ptr() as usize, list.len(), 0, 0, 0];
    let (number, answer) = (calls::look_over(list).number, Answered::InRegisters);
    // The range is valid for its length.
    unsafe { Call { function: header::lamphudet_look_over as *const (), arguments, number, answer }.stack() }
}

fn house_entries(lent: &[u8]) -> usize {
    let arguments = [lent.as_ptr() as usize, lent.len(), lists::ASKED as usize, 0, 0];
    // In the place of a number the answer begins with the stretch's start.
    let (number, answer) = (list::house_entries(lent, lists::ASKED).start as u32, Answered::InRegisters);
    // The range is valid for its length.
    unsafe { Call { function: header::lamphudet_house_entries as *const (), arguments, number, answer }.stack() }
}

fn read_seal((reference, signature): (usize, usize)) -> usize {
    let (seal, mut room) = (Given::of(reference, signature).octets(), [0_u8; LONGEST]);
    let mut answer = calls::read_seal(1, &[], 0).answer;
    let address: *mut SealAnswer = &mut answer;
    let arguments = [address as usize, 1, seal.as_ptr() as usize, seal.len(), room.as_mut_ptr() as usize];
    let (function, answer) = (header::lamphudet_read_seal as *const (), Answered::At(address.cast()));
    // As for the digest, and the answer has room.
    unsafe { Call { function, arguments, number: 0, answer }.stack_beside(room.len(), &[]) }
}

fn write_seal((reference, signature): (usize, usize)) -> usize {
    let Given { entry, header, signature } = Given::of(reference, signature);
    let mut room = vec![0_u8; paper::refusal::LONGEST];
    let arguments = [
        entry.as_ptr() as usize,
        entry.len(),
        signature.as_ptr() as usize,
        signature.len(),
        room.as_mut_ptr() as usize,
    ];
    let (function, answer) = (header::lamphudet_write_seal as *const (), Answered::InRegisters);
    let address: *const HeaderInC = &header;
    // As for the digest; the header is numbers and characters without a gap.
    unsafe {
        let by_value = std::slice::from_raw_parts(address.cast::<u8>(), std::mem::size_of::<HeaderInC>());
        Call { function, arguments, number: 0, answer }.stack_beside(room.len(), by_value)
    }
}

/// Elements in each other, and the ninth is the first that may not stand there.
fn too_deep() -> Vec<u8> {
    let inner = (0..DEEPEST).fold(Vec::new(), |inner, _| tlv(&[0x30], &inner));
    tlv(&[0x61], &inner)
}
