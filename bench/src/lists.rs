//! The work on a list of a night: looked over, searched for a house, and gone along from entry to entry.

use crate::border;
use crate::contender::Contender;
use crate::job::{Over, Work};
use paper::answer::{Answer, Stretch};
use paper::{calls, list};
use shared::night::{self, HOUSES, LONG};
use shared::seeds::Seeds;

/// The house in the middle of the list.
pub const ASKED: u32 = HOUSES[2];

/// All of the list at each turn, answered as the papers say, so that no quicker way is taken for the work.
pub fn of(contender: Contender, over: Over) -> Option<Work> {
    match (contender, over) {
        (Contender::Library, Over::All) => Some(looking(border::look_over)),
        (Contender::Library, Over::House) => Some(finding(border::house_entries)),
        (Contender::Library, Over::Each) => Some(going(border::next_entry)),
        (Contender::Rust, Over::All) => Some(looking(calls::look_over)),
        (Contender::Rust, Over::House) => Some(finding(list::house_entries)),
        (Contender::Rust, Over::Each) => Some(going(calls::next_entry)),
        _ => None,
    }
}

pub fn lent() -> Vec<u8> {
    night::entries(&mut Seeds::new(9303), LONG).concat()
}

fn looking(look_over: fn(&[u8]) -> Answer) -> Work {
    let list = lent();
    Box::new(move || assert_eq!(look_over(&list), Answer::not_refused(LONG as u64)))
}

fn finding(find: fn(&[u8], u32) -> Stretch) -> Work {
    let list = lent();
    let expected = list::house_entries(&list, ASKED);
    Box::new(move || assert_eq!(find(&list, ASKED), expected))
}

fn going(next_entry: fn(&[u8], u64) -> Answer) -> Work {
    let list = lent();
    Box::new(move || {
        let (mut entries, mut answer) = (0, next_entry(&list, 0));
        while (answer.number, answer.value) != (0, 0) {
            assert_eq!(answer.number, 0);
            entries += 1;
            answer = next_entry(&list, answer.value);
        }
        assert_eq!(entries, LONG);
    })
}
