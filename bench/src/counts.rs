//! Instructions of doing a job once, by valgrind's callgrind: the same on every run, however busy the machine is.

use crate::contender::Contender;
use crate::job::Job;
use crate::worker;
use std::process::Command;

/// None where valgrind is not installed.
pub fn count(contender: Contender, job: Job) -> Option<u64> {
    // The difference of two runs, so that starting up is not counted. All that is taken in turn is taken once.
    let more = job.turns() as u64;
    Some((collected(contender, job, 2 + more)? - collected(contender, job, 2)?) / more)
}

/// All that callgrind collects over one run of the program.
fn collected(contender: Contender, job: Job, times: u64) -> Option<u64> {
    let mut command = Command::new("valgrind");
    command.args(["--tool=callgrind", "--callgrind-out-file=/dev/null"]);
    worker::with_instructions(&mut command, contender);
    command.arg(worker::this_program());
    command.args(["once", contender.title(), &job.kind(), &job.size().to_string(), &times.to_string()]);
    let said = command.output().ok()?.stderr;
    let said = String::from_utf8_lossy(&said).into_owned();
    let (_, count) = said.lines().find_map(|line| line.split_once("Collected :"))?;
    count.trim().parse().ok()
}
