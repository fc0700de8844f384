//! Times of the programs in turns, in one process but for the listers.

use std::hint::black_box;
use std::time::{Duration, Instant};

use crate::jobs::{
    assert_agreed, assert_double_agreed, buffer, Job, Work, DOUBLE_LISTER, JOBS, PROGRAMS,
};
use crate::logs::{cases, double_cases, Case};

/// The fastest round, the median and the upper quartile of a program.
type Times = [Duration; 3];

/// Times every job on every log, and prints a line for each: medians, and the
/// proved program's ratio to the others.
pub fn time_all(rounds: usize) {
    println!(
        "medians of {rounds} rounds in microseconds (from the fastest round to the upper quartile); ratios of the medians and of the fastest rounds"
    );
    let [proved, second, quick] = PROGRAMS;
    print_row(
        ["log", "job"],
        [proved, second, quick].map(str::to_owned),
        [second, quick].map(|other| format!("{proved}/{other}")),
    );
    let mut out = buffer();
    for case in cases() {
        assert_agreed(&case.log, &mut out);
        for job in &JOBS {
            let times = measure(&case, job, rounds, &mut out);
            print_times([case.title, job.name], times);
        }
    }
    for case in double_cases() {
        assert_double_agreed(&case.log);
        let times = measure(&case, &DOUBLE_LISTER, rounds, &mut out);
        print_times([case.title, DOUBLE_LISTER.name], times);
    }
}

/// Times a job in turns, the first of a round changing from round to round.
fn measure(case: &Case, job: &Job, rounds: usize, out: &mut [u8]) -> [Option<Times>; 3] {
    let repeats = if job.starts { 1 } else { case.times };
    let mut times = [const { Vec::new() }; 3];
    for round in 0..rounds {
        for turn in 0..times.len() {
            let which = (round + turn) % times.len();
            if let Some(work) = job.works[which] {
                times[which].push(time(work, &case.log, out, repeats));
            }
        }
    }
    times.map(summary)
}

/// The time that it takes to do the work once.
fn time(work: Work, log: &[u8], out: &mut [u8], repeats: u32) -> Duration {
    let start = Instant::now();
    for _ in 0..repeats {
        black_box(work(black_box(log), out));
    }
    start.elapsed() / repeats
}

fn summary(mut times: Vec<Duration>) -> Option<Times> {
    times.sort();
    let last = times.len().checked_sub(1)?;
    Some([0, 2, 3].map(|quarter| times[quarter * last / 4]))
}

fn print_times(what: [&str; 2], times: [Option<Times>; 3]) {
    let [proved, others @ ..] = times;
    let ratios = others.map(|other| shown_ratio(proved, other));
    print_row(what, times.map(shown), ratios);
}

fn shown(times: Option<Times>) -> String {
    let Some(times) = times else {
        return String::new();
    };
    let [fastest, median, high] = times.map(|time| time.as_secs_f64() * 1e6);
    format!("{median:.1} ({fastest:.1}-{high:.1})")
}

/// The ratio of the medians, and that of the fastest rounds, which other work
/// on the machine disturbs least.
fn shown_ratio(times: Option<Times>, others: Option<Times>) -> String {
    let (Some(times), Some(others)) = (times, others) else {
        return String::new();
    };
    let [fastest, median] =
        [0, 1].map(|at: usize| times[at].as_secs_f64() / others[at].as_secs_f64());
    format!("{median:.2} {fastest:.2}")
}

fn print_row(what: [&str; 2], times: [String; 3], ratios: [String; 2]) {
    let [log, job] = what;
    let [proved, second, quick] = times;
    let [first, last] = ratios;
    let row =
        format!("{log:<20} {job:<8} {proved:>24} {second:>24} {quick:>22} {first:>14} {last:>14}");
    println!("{}", row.trim_end());
}
