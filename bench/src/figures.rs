//! The tables of one kind of work: times beside each other, and instructions.

use crate::contender::Contender;
use crate::counts;
use crate::job::Job;
use crate::rounds;
use crate::table::{Table, NONE};
use crate::work;
use shared::grouped::grouped;

/// How a table gives the library's time.
#[derive(Clone, Copy)]
pub enum Unit {
    Nanoseconds,
    ASecond,
    EntriesASecond,
}

impl Unit {
    fn title(self) -> &'static str {
        match self {
            Unit::Nanoseconds => "nanoseconds",
            Unit::ASecond => "calls a second",
            Unit::EntriesASecond => "entries a second",
        }
    }

    fn of(self, nanoseconds: f64) -> f64 {
        match self {
            Unit::Nanoseconds => nanoseconds,
            Unit::ASecond | Unit::EntriesASecond => 1e9 / nanoseconds,
        }
    }
}

/// Jobs of one kind, and those whose work on them is measured, the library first.
pub struct Kind<'a> {
    pub title: &'static str,
    pub unit: Unit,
    pub contenders: &'a [Contender],
    pub jobs: &'a [Job],
    pub given: Option<Given>,
}

/// Instructions that were given, and are not measured here: whose, and of which jobs.
#[derive(Clone, Copy)]
pub struct Given {
    pub title: &'static str,
    pub figures: &'static [(Job, u64)],
}

impl Given {
    fn of(self, job: Job) -> String {
        let found = self.figures.iter().find(|(of, _)| *of == job);
        found.map_or(NONE.into(), |(_, figure)| grouped(*figure))
    }
}

impl Kind<'_> {
    /// The library's time, and the time of each other over it.
    pub fn times(&self) -> Table {
        let present: Vec<Contender> = self.contenders.iter().copied().filter(|one| self.is_present(*one)).collect();
        let medians = rounds::medians(&present, self.jobs);
        let others = &self.contenders[1..];
        let row = |(job, medians): (&Job, &Vec<rounds::Median>)| {
            let ratio = |contender: &Contender| {
                let found = present.iter().position(|one| one == contender);
                found.map_or(NONE.into(), |at| format!("{:.2}", medians[at].ratio))
            };
            let own = grouped(to_three_digits(self.unit.of(medians[0].time / job.entries() as f64)));
            [vec![job.title(), own], others.iter().map(ratio).collect()].concat()
        };
        let rows = self.jobs.iter().zip(&medians).map(row).collect();
        Table { titles: self.titles(self.unit.title(), others), rows }
    }

    /// The library's instructions, of a list those of one entry, and those of each other over them; behind these the ones that
    /// were given, as they are.
    pub fn instructions(&self) -> Table {
        let others: Vec<Contender> = self.contenders[1..].iter().copied().filter(|one| one.countable()).collect();
        let row = |job: &Job| {
            let own = self.count(Contender::Library, *job);
            let ratio = |contender: &Contender| match (self.count(*contender, *job), own) {
                (Some(count), Some(own)) => format!("{:.2}", count as f64 / own as f64),
                _ => NONE.into(),
            };
            let first = vec![job.title(), own.map_or(NONE.into(), |own| grouped(own / job.entries() as u64))];
            let last = self.given.map(|given| given.of(*job));
            [first, others.iter().map(ratio).collect(), last.into_iter().collect()].concat()
        };
        let mut titles = self.titles("instructions", &others);
        titles.extend(self.given.map(|given| given.title.into()));
        Table { titles, rows: self.jobs.iter().map(row).collect() }
    }

    fn is_present(&self, contender: Contender) -> bool {
        work::of(contender, self.jobs[0]).is_some()
    }

    fn count(&self, contender: Contender, job: Job) -> Option<u64> {
        if !self.is_present(contender) {
            return None;
        }
        counts::count(contender, job)
    }

    fn titles(&self, own: &str, others: &[Contender]) -> Vec<String> {
        let others = others.iter().map(|contender| contender.title());
        [self.title, own].into_iter().chain(others).map(String::from).collect()
    }
}

/// What is behind the third digit differs from run to run.
fn to_three_digits(figure: f64) -> u64 {
    let unit = 10f64.powf((figure.log10().floor() - 2.0).max(0.0));
    ((figure / unit).round() * unit) as u64
}

#[cfg(test)]
mod tests {
    use super::*;

    #[test]
    fn three_digits() {
        let rounded = [7.4, 64.6, 999.6, 12_345.0, 1_278_901.0].map(to_three_digits);
        assert_eq!(rounded, [7, 65, 1_000, 12_300, 1_280_000]);
    }
}
