//! The proved library, the second program and Rust written for speed alone on
//! the same logs: their times, and work for a counter of instructions.

mod jobs;
mod logs;
#[path = "../../host/examples/shared/mod.rs"]
mod shared;
mod timing;

use std::hint::black_box;
use std::io::{self, Write};
use std::process::ExitCode;

use jobs::{buffer, Work, JOBS, PROGRAMS};
use logs::{cases, double_cases};
use timing::time_all;

const USAGE: &str = "usage: bench [ROUNDS]
       bench logs                         names of the logs, with their entries
       bench double                       the same of the double line's logs
       bench log NAME                     writes that log
       bench count PROGRAM JOB LOG TIMES  does a job so many times on the log in a file";

fn main() -> ExitCode {
    let words: Vec<String> = std::env::args().skip(1).collect();
    let words: Vec<&str> = words.iter().map(String::as_str).collect();
    match called(&words) {
        Some(Ok(())) => ExitCode::SUCCESS,
        Some(Err(error)) => {
            eprintln!("bench: {error}");
            ExitCode::FAILURE
        }
        None => {
            eprintln!("{USAGE}");
            ExitCode::from(2)
        }
    }
}

/// What comes of a call; nothing of a bad one.
fn called(words: &[&str]) -> Option<io::Result<()>> {
    match *words {
        [] => time_all(31),
        ["logs"] => print_logs(),
        ["double"] => print_double_logs(),
        ["log", name] => {
            let mut all = cases().into_iter().chain(double_cases());
            let case = all.find(|case| case.name == name)?;
            return Some(io::stdout().write_all(&case.log));
        }
        ["count", program, job, file, times] => {
            let work = work_of(program, job)?;
            return Some(count(work, file, times.parse().ok()?));
        }
        [rounds] => time_all(rounds.parse().ok().filter(|&rounds| rounds > 0)?),
        _ => return None,
    }
    Some(Ok(()))
}

fn print_logs() {
    for case in cases() {
        println!("{} {}", case.name, quick::run(&case.log)[0]);
    }
}

fn print_double_logs() {
    for case in double_cases() {
        println!(
            "{} {}",
            case.name,
            second::double::Run::of(&case.log).count()
        );
    }
}

fn work_of(program: &str, job: &str) -> Option<Work> {
    let which = PROGRAMS.iter().position(|&name| name == program)?;
    JOBS.iter().find(|a_job| a_job.name == job)?.works[which]
}

fn count(work: Work, file: &str, times: u32) -> io::Result<()> {
    let log = std::fs::read(file)?;
    let mut out = buffer();
    for _ in 0..times {
        black_box(work(black_box(&log), &mut out));
    }
    Ok(())
}
