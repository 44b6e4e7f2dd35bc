//! What is printed: one line a call with its count, and for a difference all that is needed to make it again.

use shared::grouped::grouped;

/// How many differences of one call are printed whole. The others are counted.
const SHOWN: u64 = 5;
/// How many octets of a long input are printed. The seed and the case's number make it again.
const OCTETS: usize = 2_000;

/// The cases of one call.
pub struct Tally {
    call: &'static str,
    seed: u64,
    cases: u64,
    failed: u64,
}

impl Tally {
    pub fn new(call: &'static str, seed: u64) -> Tally {
        Tally { call, seed, cases: 0, failed: 0 }
    }

    /// Counts one case. The lines tell what was lent and what differs; there are none where nothing does.
    pub fn case(&mut self, lines: Vec<String>) {
        self.cases += 1;
        if lines.is_empty() {
            return;
        }
        self.failed += 1;
        if self.failed > SHOWN {
            return;
        }
        println!("{}: case {} of seed {} differs", self.call, grouped(self.cases), self.seed);
        for line in lines {
            println!("  {line}");
        }
    }

    /// Prints the call's line and gives how many cases passed and how many failed.
    pub fn close(self) -> (u64, u64) {
        let failed = match self.failed {
            0 => String::new(),
            failed => format!(", {} differ", grouped(failed)),
        };
        println!("{}: {} cases{failed}", self.call, grouped(self.cases));
        (self.cases - self.failed, self.failed)
    }
}

pub fn hex(octets: &[u8]) -> String {
    octets.iter().map(|octet| format!("{octet:02x}")).collect()
}

/// As hex, but of long octets only the first ones.
pub fn hex_shown(octets: &[u8]) -> String {
    match octets.get(..OCTETS) {
        Some(first) if octets.len() > OCTETS => format!("{} ..", hex(first)),
        _ => hex(octets),
    }
}

#[cfg(test)]
mod tests {
    use super::*;

    #[test]
    fn differences_are_counted() {
        let mut tally = Tally::new("test", 1);
        tally.case(Vec::new());
        tally.case(vec!["a test of the report itself".into()]);
        assert_eq!(tally.close(), (1, 1));
    }
}
