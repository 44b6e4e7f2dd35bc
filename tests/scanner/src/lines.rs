//! A seal as a sample lays it out: the header's fields in one line, then a line for the tag and the length of each feature
//! and of the signature, with the value below it.

use paper::c40;
use paper::day::Day;
use paper::seal::header::{self, Header, CATEGORY, DEFINITION};
use paper::seal::{Feature, MARKER};
use paper::specimens::ERIKSSON_TD2;
use std::fmt;

/// Octets in a line of a value.
const ROW: usize = 24;

/// The printed signer and days. In version octet 02 the reference has five characters.
pub fn header(version: u8, reference: &[u8]) -> Header {
    Header {
        version,
        country: *b"UTO",
        signer: *b"UT01",
        reference: reference.to_vec(),
        issued: Day { year: 2016, month: 8, day: 8 },
        signed_on: Day { year: 2007, month: 8, day: 9 },
        definition: DEFINITION,
        category: CATEGORY,
    }
}

/// The printed header, 18 octets.
pub fn printed() -> Header {
    header(0x02, b"FFAFF")
}

/// An element of a seal: a tag, a length, which may be wrong, and a value.
#[derive(Clone)]
pub struct Element {
    pub head: Vec<u8>,
    pub value: Vec<u8>,
}

impl Element {
    pub fn new(tag: u8, value: &[u8]) -> Element {
        let mut head = Feature { tag, value: value.to_vec() }.written();
        head.truncate(head.len() - value.len());
        Element { head, value: value.to_vec() }
    }

    /// With a length that is not the value's, or not coded as it should be.
    pub fn coded(head: &[u8], value: &[u8]) -> Element {
        Element { head: head.to_vec(), value: value.to_vec() }
    }
}

/// Feature 02 as it is printed: 50 octets.
pub fn text() -> Element {
    text_of(ERIKSSON_TD2)
}

/// Feature 02 with another text.
pub fn text_of(text: &str) -> Element {
    Element::new(0x02, &Feature::of_text(text.as_bytes()).value)
}

/// An unknown feature: 4 octets.
pub fn other() -> Element {
    Element::new(0x05, &c40::write(b"K7"))
}

/// A signature of four octets, and so a zone of six.
pub fn zone() -> Element {
    Element::new(MARKER, &[7; 4])
}

/// Lines of words of octets.
#[derive(Clone)]
pub struct Lines(Vec<Vec<Vec<u8>>>);

impl Lines {
    pub fn of(header: &Header, elements: &[Element]) -> Lines {
        Lines::with(&header::fields(header), elements)
    }

    /// The header as its fields, of which any may be wrong.
    pub fn with(fields: &[Vec<u8>; 8], elements: &[Element]) -> Lines {
        let elements = elements.iter().flat_map(|element| [vec![element.head.clone()], vec![element.value.clone()]]);
        Lines([fields.to_vec()].into_iter().chain(elements).collect())
    }

    /// The first so many octets.
    pub fn cut(mut self, length: usize) -> Lines {
        let mut left = length;
        for word in self.0.iter_mut().flatten() {
            word.truncate(left);
            left -= word.len();
        }
        self
    }

    #[cfg(test)]
    pub fn octets(&self) -> Vec<u8> {
        self.0.concat().concat()
    }
}

impl fmt::Display for Lines {
    fn fmt(&self, to: &mut fmt::Formatter) -> fmt::Result {
        for (at, line) in self.0.iter().enumerate() {
            // The header, and heads; the value of a head stands below it, further in.
            let indent = if at > 0 && at % 2 == 0 { "   " } else { "" };
            rows(line).iter().try_for_each(|row| writeln!(to, "{indent}{row}"))?;
        }
        Ok(())
    }
}

/// The words in one line. A long word has lines of its own.
fn rows(words: &[Vec<u8>]) -> Vec<String> {
    let mut rows: Vec<Vec<String>> = vec![Vec::new()];
    for word in words.iter().filter(|word| !word.is_empty()) {
        if word.len() <= ROW {
            rows.last_mut().expect("a row").push(hex(word));
            continue;
        }
        rows.extend(word.chunks(ROW).map(|part| vec![hex(part)]));
        rows.push(Vec::new());
    }
    rows.iter().filter(|row| !row.is_empty()).map(|row| row.join(" ")).collect()
}

fn hex(octets: &[u8]) -> String {
    octets.iter().map(|octet| format!("{octet:02x}")).collect()
}
