//! Seals that are accepted, and what source document 002 prints.

use crate::lines::{header, other, printed, text, text_of, zone, Element, Lines};
use crate::{sample, Sample};
use paper::day::Day;
use paper::form::Form;
use paper::seal::header::Header;
use paper::seal::MARKER;
use paper::specimens::{ERIKSSON_TD2, LONG_TD2};
use paper::text::composite;

pub fn all() -> Vec<Sample> {
    [papers(), versions(), rest()].into_iter().flatten().collect()
}

fn papers() -> Vec<Sample> {
    let signature = Element::new(MARKER, &[7; 64]);
    // Over the header of version octet 02, as section 8 has it.
    let mut fields = paper::seal::header::fields(&printed());
    fields[1] = vec![0x03];
    vec![
        sample(
            "seal",
            "Accepted: header and message that source document 002 prints in section 8, with version octet 02, and FF\n\
             40 and 64 octets behind them. 134 octets: feature 02 from 18, FF at 68, the signature from 70.",
            Lines::of(&printed(), &[text(), signature.clone()]),
        ),
        sample(
            "printed-03",
            "24 at 4: the same header and message exactly as they are printed, with version octet 03 over the header\n\
             of version octet 02. So the reference says with its fifth and sixth character, FF, that 255 follow.",
            Lines::with(&fields, &[text()]),
        ),
        sample(
            "printed-03-signed",
            "24 at 4: as they are printed, and the signature behind them. 255 characters still do not follow.",
            Lines::with(&fields, &[text(), signature]),
        ),
        sample(
            "printed-02",
            "27 at 68: as they are printed but for version octet 02. There is no FF, which is told at the end.",
            Lines::of(&printed(), &[text()]),
        ),
    ]
}

fn versions() -> Vec<Sample> {
    let hex = b"0123456789ABCDEF".repeat(16);
    vec![
        sample(
            "version-03",
            "Accepted: version octet 03. The reference is UT01, 05 and five characters, in 8 octets from 4 on.",
            Lines::of(&header(0x03, b"FFAFF"), &[text(), zone()]),
        ),
        sample(
            "reference-0",
            "Accepted: version octet 03, and a reference of no characters. UT0100 has 4 octets, and the issue date\n\
             stands at 8.",
            Lines::of(&header(0x03, b""), &[text(), zone()]),
        ),
        sample(
            "reference-255",
            "Accepted: version octet 03, and a reference of 255 characters, the most that FF says: 4 octets and 170.",
            Lines::of(&header(0x03, &hex[..255]), &[text(), zone()]),
        ),
    ]
}

/// A text of TD2 with these characters at a place, and the last digit that fits them.
fn with_data(text: &str, place: usize, data: &str) -> String {
    let mut other = [&text[..place], data, &text[place + data.len()..]].concat().into_bytes();
    other[71] = composite(Form::Td2.layout(), &other);
    String::from_utf8(other).expect("characters of the alphabet")
}

fn rest() -> Vec<Sample> {
    let (issued, signed_on) = (Day { year: 1, month: 1, day: 1 }, Day { year: 2000, month: 2, day: 29 });
    let early = Header { country: *b"D<<", issued, signed_on, ..printed() };
    let (empty, long, longer) =
        (Element::new(0x00, &[]), Element::new(0xdc, &[0x02; 0x80]), Element::new(0xfe, &[0xff; 0x100]));
    let around = [other(), empty.clone(), long.clone(), longer.clone(), text(), longer, long, empty, other(), zone()];
    vec![
        sample(
            "days",
            "Accepted: the first day of year 1, and 29 February of 2000, which is a leap year. The country is D with\n\
             two spaces, which are fillers. The document's number is longer than its field.",
            Lines::of(&early, &[text_of(LONG_TD2), zone()]),
        ),
        sample(
            "data",
            "Accepted: the document has optional data, which fills its seven places; the spaces in it are fillers.",
            Lines::of(&printed(), &[text_of(&with_data(ERIKSSON_TD2, 64, "<7A<B42")), zone()]),
        ),
        sample(
            "data-long-number",
            "Accepted: the document's number is longer than its field, and what follows the filler behind it is the data.",
            Lines::of(&printed(), &[text_of(&with_data(LONG_TD2, 69, "<B")), zone()]),
        ),
        sample(
            "features",
            "Accepted: before feature 02 and behind it features that are passed over: an unknown one, an empty one,\n\
             one with a length in two octets (81 80) and one in three (82 01 00). What is in them is not looked at.",
            Lines::of(&printed(), &around),
        ),
        sample(
            "signature-0",
            "Accepted: an empty signature is one. It stands behind FF 00, at 70, which is the end.",
            Lines::of(&printed(), &[text(), Element::new(MARKER, &[])]),
        ),
        sample(
            "signature-130",
            "Accepted: a signature of 130 octets, with its length in two (81 82), and so from 71 on.",
            Lines::of(&printed(), &[text(), Element::new(MARKER, &[7; 130])]),
        ),
    ]
}
