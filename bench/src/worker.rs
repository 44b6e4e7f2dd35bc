//! A process a contender: libcrypto reads OPENSSL_ia32cap when it is loaded and never again, so its two columns cannot
//! share one process, and then the others should have no better conditions. A worker does what it is asked and answers
//! with the time; while it is not asked, it waits.

use crate::contender::Contender;
use crate::job::{Job, Work};
use crate::work;
use std::io::{BufRead, BufReader, Write};
use std::path::PathBuf;
use std::process::{Child, ChildStdin, ChildStdout, Command, Stdio};
use std::time::Instant;

pub struct Worker {
    child: Child,
    asks: ChildStdin,
    answers: BufReader<ChildStdout>,
}

impl Worker {
    pub fn start(contender: Contender) -> Worker {
        let mut command = Command::new(this_program());
        with_instructions(&mut command, contender);
        command.args(["worker", contender.title()]).stdin(Stdio::piped()).stdout(Stdio::piped());
        let mut child = command.spawn().expect("this program can start itself");
        let asks = child.stdin.take().unwrap();
        let answers = BufReader::new(child.stdout.take().unwrap());
        Worker { child, asks, answers }
    }

    /// Nanoseconds for doing a job so many times.
    pub fn nanoseconds(&mut self, job: Job, times: usize) -> u64 {
        writeln!(self.asks, "{} {} {times}", job.kind(), job.size()).expect("a worker that reads");
        let mut line = String::new();
        self.answers.read_line(&mut line).expect("a worker that answers");
        line.trim().parse().expect("a worker that answers a number")
    }

    /// A worker ends when it is asked no more.
    pub fn end(self) {
        let Worker { mut child, asks, .. } = self;
        drop(asks);
        child.wait().expect("a worker that ends");
    }
}

pub fn this_program() -> PathBuf {
    std::env::current_exe().expect("the name of this program")
}

/// Lets libcrypto use the instructions that the contender may use.
pub fn with_instructions(command: &mut Command, contender: Contender) {
    match contender.ia32cap() {
        Some(mask) => command.env("OPENSSL_ia32cap", mask),
        None => command.env_remove("OPENSSL_ia32cap"),
    };
}

pub fn serve(contender: Contender) {
    let mut ready: Option<(Job, Work)> = None;
    for line in std::io::stdin().lock().lines() {
        let (job, times) = asked(&line.expect("a line"));
        let mut work = match ready.take() {
            Some((of, work)) if of == job => work,
            _ => work::of(contender, job).expect("a contender that was found before"),
        };
        let start = Instant::now();
        (0..times).for_each(|_| work());
        println!("{}", start.elapsed().as_nanos());
        ready = Some((job, work));
    }
}

fn asked(line: &str) -> (Job, usize) {
    match line.split(' ').collect::<Vec<_>>()[..] {
        [kind, size, times] => (Job::named(kind, size), times.parse().expect("a count")),
        _ => panic!("a worker is asked for a kind, a size and a count"),
    }
}
