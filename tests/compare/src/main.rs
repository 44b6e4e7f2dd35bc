//! Holds the archives to the independent implementation, call by call.
//!
//!     compare [SEED]
//!
//! The last line is `N passed, M failed`, and the exit status is 0 only where nothing failed.

use compare::{cases, fence};
use std::process::ExitCode;

/// The seed where none is given: every run of the gate tries the same cases.
const SEED: u64 = 9303;

fn main() -> ExitCode {
    let seed = match std::env::args().nth(1).map(|word| word.parse()) {
        None => SEED,
        Some(Ok(seed)) => seed,
        Some(Err(_)) => {
            eprintln!("the seed is a number from 0 to {}", u64::MAX);
            return ExitCode::from(2);
        }
    };
    fence::watch();
    let counts = counts(seed);
    let passed: u64 = counts.iter().map(|(passed, _)| passed).sum();
    let failed: u64 = counts.iter().map(|(_, failed)| failed).sum();
    println!("{passed} passed, {failed} failed");
    ExitCode::from(u8::from(failed > 0))
}

/// Passed and failed, a pair a call.
fn counts(seed: u64) -> Vec<(u64, u64)> {
    vec![
        cases::digest::compare(seed).close(),
        cases::read_text::compare(seed).close(),
        cases::write_text::compare(seed).close(),
        cases::open_entry::compare(seed).close(),
        cases::next_entry::compare(seed).close(),
        cases::read_presentation::compare(seed).close(),
        cases::group_file::compare(seed).close(),
        cases::look_inside::compare(seed).close(),
        cases::read_detail::compare(seed).close(),
        cases::full_name::compare(seed).close(),
        cases::look_over::compare(seed).close(),
        cases::house_entries::compare(seed).close(),
        cases::read_seal::compare(seed).close(),
        cases::write_seal::compare(seed).close(),
        cases::version::compare(seed).close(),
    ]
}
