//! Refusal 24: each field of a header, wrong and cut off.

use crate::lines::{header, printed, text, zone, Lines};
use crate::{sample, Sample};
use paper::day::Day;
use paper::seal::header::{fields, Header};
use paper::{c40, day};

/// The header with one field's octets replaced, and all that should follow.
fn replaced(header: &Header, field: usize, octets: &[u8]) -> Lines {
    let mut fields = fields(header);
    fields[field] = octets.to_vec();
    Lines::with(&fields, &[text(), zone()])
}

fn day(year: u16, month: u8, day: u8) -> [u8; 3] {
    day::write(Day { year, month, day })
}

/// With version octet 03; its reference has 8 octets.
fn later() -> Header {
    header(0x03, b"FFAFF")
}

pub fn wrong() -> Vec<Sample> {
    [first_fields(), references(), days(), last_fields()].into_iter().flatten().collect()
}

fn first_fields() -> Vec<Sample> {
    let earlier = printed();
    vec![
        sample("24-dc", "24 at 0: the first octet is DB and not DC.", replaced(&earlier, 0, &[0xdb])),
        sample("24-version", "24 at 1: a version octet is 02 or 03, and this is 04.", replaced(&earlier, 1, &[0x04])),
        sample(
            "24-country",
            "24 at 2: the country's C40 is UT0, and a state has letters, then fillers.",
            replaced(&earlier, 2, &c40::write(b"UT0")),
        ),
        sample(
            "24-country-c40",
            "24 at 2: the country's octets are FE and U, which is C40 of one character and not of three.",
            replaced(&earlier, 2, &c40::write(b"U")),
        ),
    ]
}

fn references() -> Vec<Sample> {
    let (earlier, later) = (printed(), later());
    vec![
        sample(
            "24-reference",
            "24 at 4: the reference is UT01FFAFG, and G is neither 0-9 nor A-F.",
            replaced(&earlier, 3, &c40::write(b"UT01FFAFG")),
        ),
        sample(
            "24-reference-signer",
            "24 at 4: the signer is U001, and it begins with two letters.",
            replaced(&earlier, 3, &c40::write(b"U001FFAFF")),
        ),
        sample(
            "24-reference-count",
            "24 at 4: version octet 03, and the reference's fifth and sixth character, G0, say no number.",
            replaced(&later, 3, &c40::write(b"UT01G0")),
        ),
        sample(
            "24-reference-fe",
            "24 at 4: version octet 03, and a reference of ten characters, UT01041234. But the one that is left\n\
             over by three, behind FE, stands in the third pair, and FE may stand in the last pair only.",
            replaced(&later, 3, &[c40::write(b"UT01041"), c40::write(b"234")].concat()),
        ),
    ]
}

fn days() -> Vec<Sample> {
    let (earlier, later) = (printed(), later());
    vec![
        sample(
            "24-issued",
            "24 at 10: issued on 29 February 1900, which was no leap year.",
            replaced(&earlier, 4, &day(1900, 2, 29)),
        ),
        sample(
            "24-issued-2100",
            "24 at 10: issued on 29 February 2100, which will be no leap year.",
            replaced(&earlier, 4, &day(2100, 2, 29)),
        ),
        sample(
            "24-issued-03",
            "24 at 12: issued on 1 January of year 0. The reference of version octet 03 has 8 octets here: 4 + 8.",
            replaced(&later, 4, &day(0, 1, 1)),
        ),
        sample("24-signed", "24 at 13: signed in month 13.", replaced(&earlier, 5, &day(2007, 13, 9))),
        sample("24-signed-03", "24 at 15: signed on day 0. 7 + 8.", replaced(&later, 5, &day(2007, 8, 0))),
    ]
}

fn last_fields() -> Vec<Sample> {
    let (earlier, later) = (printed(), later());
    vec![
        sample(
            "24-definition",
            "24 at 16: definition 5D, with which source document 002 marks visas. An emergency document has 5E.",
            replaced(&earlier, 6, &[0x5d]),
        ),
        sample("24-category", "24 at 17: category 01. An emergency document has 03.", replaced(&earlier, 7, &[0x01])),
        sample("24-definition-03", "24 at 18: definition 5F. 10 + 8.", replaced(&later, 6, &[0x5f])),
        sample("24-category-03", "24 at 19: category 02. 11 + 8.", replaced(&later, 7, &[0x02])),
    ]
}

pub fn cut() -> Vec<Sample> {
    let whole = |header: &Header| Lines::of(header, &[]);
    let earlier = |length| whole(&printed()).cut(length);
    let longest = whole(&header(0x03, &b"0123456789ABCDEF".repeat(16)[..255]));
    vec![
        sample("24-cut-dc", "24 at 0: no octet at all.", earlier(0)),
        sample("24-cut-version", "24 at 1: the seal ends behind DC.", earlier(1)),
        sample("24-cut-country", "24 at 2: the seal ends within the country.", earlier(3)),
        sample(
            "24-cut-reference",
            "24 at 4: the seal ends within the reference, of which one octet is missing.",
            earlier(9),
        ),
        sample(
            "24-cut-reference-03",
            "24 at 4: version octet 03, and 255 characters should follow in 170 octets, from 8 on. The last octet is\n\
             missing.",
            longest.cut(177),
        ),
        sample("24-cut-issued", "24 at 10: the seal ends within the issue date.", earlier(12)),
        sample("24-cut-signed", "24 at 13: the seal ends within the signature date.", earlier(14)),
        sample("24-cut-definition", "24 at 16: the seal ends behind the signature date.", earlier(16)),
        sample("24-cut-category", "24 at 17: the seal ends behind the definition.", earlier(17)),
    ]
}
