//! The samples of the scanner: seals in hex, each made by the independent encoder from sound pieces of which one is
//! spoilt, with a remark, written by hand, that says how it is answered and why.

mod features;
mod headers;
mod lines;
mod sound;
mod texts;
mod zones;

use lines::Lines;

/// One file.
pub struct Sample {
    name: &'static str,
    /// It begins with the number and the place, and the digit where one was expected; or says that the seal is accepted.
    remark: &'static str,
    lines: Lines,
}

impl Sample {
    pub fn file(&self) -> String {
        format!("{}.hex", self.name)
    }

    /// What the file holds.
    pub fn written(&self) -> String {
        let remark: String = self.remark.lines().map(|line| format!("# {line}\n")).collect();
        remark + &self.lines.to_string()
    }
}

fn sample(name: &'static str, remark: &'static str, lines: Lines) -> Sample {
    Sample { name, remark, lines }
}

/// All of them: accepted ones, then those of each refusal.
pub fn all() -> Vec<Sample> {
    let seals = [sound::all(), headers::wrong(), headers::cut(), features::all(), texts::c40(), zones::all()];
    seals.into_iter().chain([texts::fields(), texts::digits()]).flatten().collect()
}

#[cfg(test)]
mod tests;
