//! The page of figures: its words are kept in `page.md`, with a name in braces where each table goes.

use crate::contender::Contender;
use crate::figures::{Given, Kind, Unit};
use crate::insides;
use crate::job::Job;
use crate::ratio;
use crate::share;
use crate::stack;
use crate::table::Table;
use crate::worst;

const WORDS: &str = include_str!("page.md");
const BOTH: [Contender; 2] = [Contender::Library, Contender::Rust];
const KINDS: [(&str, Kind); 9] = [
    ("digest", DIGESTS),
    ("record", RECORDS),
    ("passport", PASSPORTS),
    ("presentation", PRESENTATIONS),
    ("inside", INSIDES),
    ("detail", DETAILS),
    ("list", LISTS),
    ("seal", SEALS),
    ("written seal", WRITTEN),
];
const DIGESTS: Kind =
    Kind { title: "octets", unit: Unit::Nanoseconds, contenders: &Contender::ALL, jobs: &Job::DIGESTS, given: None };
const RECORDS: Kind =
    Kind { title: "call", unit: Unit::ASecond, contenders: &BOTH, jobs: &Job::RECORDS, given: Some(PORTABLE_C) };
const PASSPORTS: Kind =
    Kind { title: "call", unit: Unit::ASecond, contenders: &BOTH, jobs: &Job::PASSPORTS, given: None };
const PRESENTATIONS: Kind =
    Kind { title: "octets", unit: Unit::ASecond, contenders: &BOTH, jobs: &Job::PRESENTATIONS, given: None };
const INSIDES: Kind = Kind { title: "file", unit: Unit::ASecond, contenders: &BOTH, jobs: &Job::INSIDES, given: None };
const DETAILS: Kind = Kind { title: "call", unit: Unit::ASecond, contenders: &BOTH, jobs: &Job::DETAILS, given: None };
const LISTS: Kind =
    Kind { title: "call", unit: Unit::EntriesASecond, contenders: &BOTH, jobs: &Job::LISTS, given: None };
const SEALS: Kind = Kind { title: "call", unit: Unit::ASecond, contenders: &BOTH, jobs: &Job::SEALS, given: None };
const WRITTEN: Kind = Kind { title: "call", unit: Unit::ASecond, contenders: &BOTH, jobs: &Job::WRITTEN, given: None };
const PORTABLE_C: Given =
    Given { title: "portable C", figures: &[(Job::ReadText, 809), (Job::NextEntry, 613), (Job::WriteText, 966)] };

/// Measures everything, which takes a while, so each table is told of when it is begun.
pub fn page() -> String {
    let mut page = WORDS.to_string();
    for (name, kind) in &KINDS {
        page = with(page, &format!("{name} times"), || kind.times());
        page = with(page, &format!("{name} instructions"), || kind.instructions());
    }
    page = with(page, "presentation share", share::table);
    page = with(page, "worst presentations", worst::table);
    page = with(page, "inside ratio", insides::table);
    page = with(page, "seal ratio", ratio::table);
    page = with(page, "written seal ratio", ratio::written);
    with(page, "stack", stack::table)
}

fn with(page: String, name: &str, table: impl Fn() -> Table) -> String {
    eprintln!("{name} ..");
    page.replace(&format!("{{{name}}}"), &table().to_string())
}

#[cfg(test)]
mod tests {
    use super::*;

    #[test]
    fn every_table_has_its_place() {
        let table = || Table { titles: vec!["call".into()], rows: Vec::new() };
        let mut page = WORDS.to_string();
        for (name, _) in &KINDS {
            page = with(page, &format!("{name} times"), table);
            page = with(page, &format!("{name} instructions"), table);
        }
        page = with(page, "presentation share", table);
        page = with(page, "worst presentations", table);
        page = with(page, "inside ratio", table);
        page = with(page, "seal ratio", table);
        page = with(page, "written seal ratio", table);
        page = with(page, "stack", table);
        assert!(!page.contains('{'));
        assert_eq!(page.matches("| call |").count(), 24);
    }
}
