//! Refusal 27: signature zones. The one that is missing is printed: it stands with what the papers have.

use crate::lines::{other, printed, text, Element, Lines};
use crate::{sample, Sample};

fn zoned(head: &[u8], value: &[u8]) -> Lines {
    Lines::of(&printed(), &[text(), Element::coded(head, value)])
}

pub fn all() -> Vec<Sample> {
    vec![
        sample(
            "27-missing",
            "27 at 72: there is no FF behind feature 02 and a feature of 4 octets: 18 + 50 + 4, which is the end.",
            Lines::of(&printed(), &[text(), other()]),
        ),
        sample("27-length", "27 at 68: behind FF there is no length.", zoned(&[0xff], &[])),
        sample("27-length-80", "27 at 68: the signature has 80 as its length.", zoned(&[0xff, 0x80], &[7; 4])),
        sample(
            "27-length-81",
            "27 at 68: the signature has its length in two octets, 81 04, where one would do.",
            zoned(&[0xff, 0x81, 0x04], &[7; 4]),
        ),
        sample("27-short", "27 at 68: the signature says four octets and has three.", zoned(&[0xff, 0x04], &[7; 3])),
        sample(
            "27-over",
            "27 at 68: an octet stands behind the signature. It is told at FF, and not where it stands.",
            zoned(&[0xff, 0x04], &[7, 7, 7, 7, 0x00]),
        ),
    ]
}
