//! Measures the library beside other implementations and writes a page of figures. Nothing here passes or fails.
//!
//!     bench FILE                          writes the page into the file, and prints it
//!     bench stack                         prints the table of stack alone
//!     bench worker CONTENDER              measures what is asked on standard input (the page starts one a contender)
//!     bench once CONTENDER JOB SIZE TIMES the work alone, for counting instructions

mod border;
mod contender;
mod counts;
mod details;
mod digests;
mod figures;
mod insides;
mod job;
mod libcrypto;
mod lists;
mod page;
mod painted;
mod pair;
mod passports;
mod presentations;
mod ratio;
mod records;
mod rounds;
mod seals;
mod share;
mod stack;
mod table;
mod whole;
mod work;
mod worker;
mod worst;

use contender::Contender;
use job::Job;
use std::process::ExitCode;

fn main() -> ExitCode {
    let words: Vec<String> = std::env::args().skip(1).collect();
    let words: Vec<&str> = words.iter().map(String::as_str).collect();
    match words[..] {
        ["stack"] => println!("{}", stack::table()),
        [file] => return write(file),
        ["worker", name] => worker::serve(Contender::named(name)),
        ["once", name, kind, size, times] => once(Contender::named(name), Job::named(kind, size), times),
        _ => {
            eprintln!("bench takes the name of the file that the page goes into");
            return ExitCode::from(2);
        }
    }
    ExitCode::SUCCESS
}

fn write(file: &str) -> ExitCode {
    let page = page::page();
    print!("{page}");
    match std::fs::write(file, page) {
        Ok(()) => ExitCode::SUCCESS,
        Err(error) => {
            eprintln!("{file}: {error}");
            ExitCode::FAILURE
        }
    }
}

fn once(contender: Contender, job: Job, times: &str) {
    let mut work = work::of(contender, job).expect("a contender that was found before");
    (0..times.parse().expect("a count")).for_each(|_: usize| work());
}
