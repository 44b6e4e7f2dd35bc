//! The cases of the versions: each archive tells the number that the header has.

use crate::border;
use crate::report::Tally;

const HEADER: &str = include_str!("../../../../include/lamphudet.h");

/// Runs the cases and gives the counts.
pub fn compare(seed: u64) -> Tally {
    let mut tally = Tally::new("version", seed);
    let expected = number_of(&defined("LAMPHUDET_VERSION"));
    tally.case(held("the header", expected, defined("LAMPHUDET_VERSION_NUMBER").parse().ok()));
    tally.case(held("the first archive", expected, Some(border::version())));
    tally.case(held("the archive for seals", expected, Some(border::seals_version())));
    tally
}

fn held(whose: &str, expected: Option<u32>, given: Option<u32>) -> Vec<String> {
    if expected.is_some() && expected == given {
        return Vec::new();
    }
    vec![format!("{whose}: {given:?}, and not {expected:?} of the header's words")]
}

/// What the header defines a name as, without the quotes of a string.
fn defined(name: &str) -> String {
    let line = HEADER.lines().find_map(|line| line.strip_prefix("#define ")?.strip_prefix(name)?.strip_prefix(' '));
    line.unwrap_or_default().trim_matches('"').to_string()
}

/// 10000 times the first of three numbers, 100 times the second, and the third.
fn number_of(words: &str) -> Option<u32> {
    let numbers = words.split('.').map(|word| word.parse().ok()).collect::<Option<Vec<u32>>>()?;
    match numbers[..] {
        [major, minor, patch] if minor < 100 && patch < 100 => Some(10_000 * major + 100 * minor + patch),
        _ => None,
    }
}

#[cfg(test)]
mod tests {
    use super::*;

    #[test]
    fn a_version_has_a_number() {
        assert_eq!(number_of("0.2.0"), Some(200));
        assert_eq!(number_of("12.3.45"), Some(120_345));
        assert_eq!(number_of("0.2"), None);
        assert_eq!(number_of("0.100.0"), None);
    }

    #[test]
    fn another_number_is_told() {
        assert!(held("it", Some(200), Some(200)).is_empty());
        assert!(!held("it", Some(200), Some(100)).is_empty());
        assert!(!held("it", None, None).is_empty());
    }
}
