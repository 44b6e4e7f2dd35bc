//! Refusal 25: features.

use crate::lines::{other, printed, text, zone, Element, Lines};
use crate::{sample, Sample};

pub fn all() -> Vec<Sample> {
    [coded(), counted()].into_iter().flatten().collect()
}

fn behind(elements: &[Element]) -> Lines {
    Lines::of(&printed(), elements)
}

/// The first so many octets of feature 02's value, or one octet more.
fn resized(length: usize) -> Element {
    let mut value = text().value;
    value.resize(length, 0x13);
    Element::new(0x02, &value)
}

fn coded() -> Vec<Sample> {
    vec![
        sample(
            "25-coded",
            "25 at 18: the first feature has 80 as its length, which ends nowhere.",
            behind(&[Element::coded(&[0x05, 0x80], &[7; 4]), text(), zone()]),
        ),
        sample(
            "25-coded-behind",
            "25 at 68: behind feature 02 a feature has its length in two octets, 81 04, where one would do.",
            behind(&[text(), Element::coded(&[0x05, 0x81, 0x04], &[7; 4]), zone()]),
        ),
        sample(
            "25-coded-02",
            "25 at 22: feature 02 itself has its length in two octets, 81 30, behind a feature of 4 octets: 18 + 4.",
            behind(&[other(), Element::coded(&[0x02, 0x81, 0x30], &text().value), zone()]),
        ),
        sample(
            "25-cut",
            "25 at 68: behind feature 02 a feature says 5 octets, and the seal has 4.",
            behind(&[text(), Element::coded(&[0x05, 0x05], &[7; 4])]),
        ),
        sample("25-cut-02", "25 at 18: feature 02 is cut off, its last octet is missing.", behind(&[text()]).cut(67)),
        sample(
            "25-cut-length",
            "25 at 68: behind feature 02 the seal ends with a tag that has no length.",
            behind(&[text(), Element::coded(&[0x05], &[])]),
        ),
    ]
}

fn counted() -> Vec<Sample> {
    vec![
        sample("25-47", "25 at 18: feature 02 has 47 octets and not 48.", behind(&[resized(47), zone()])),
        sample(
            "25-49",
            "25 at 22: feature 02 has 49 octets, behind a feature of 4: 18 + 4.",
            behind(&[other(), resized(49), zone()]),
        ),
        sample(
            "25-twice",
            "25 at 72: feature 02 a second time, behind one of 50 octets and another feature of 4: 18 + 50 + 4.",
            behind(&[text(), other(), text(), zone()]),
        ),
        sample(
            "25-absent",
            "25 at 22: there is no feature 02, and FF stands behind the one of 4 octets: 18 + 4.",
            behind(&[other(), zone()]),
        ),
        sample(
            "25-absent-end",
            "25 at 22: there is neither feature 02 nor FF, so that this is told at the end.",
            behind(&[other()]),
        ),
        sample(
            "25-none",
            "25 at 18: there is no feature at all, and FF stands where the first would.",
            behind(&[zone()]),
        ),
        sample("25-none-end", "25 at 18: there is a header and nothing behind it.", behind(&[])),
    ]
}
