//! The jobs, and the three programs that do them.

use std::io::Write;
use std::process::{Command, Stdio};

use lupinshift::{ANSWER, FIGURES, POSITION};
use second::{Run, Section};

use crate::shared::{figures_of, taken_of};

/// The programs, in the order of a job's works.
pub const PROGRAMS: [&str; 3] = ["proved", "second", "quick"];

/// Work on a log, with a buffer that is lent again and again and never cleared;
/// a number that depends on the whole of it.
pub type Work = fn(&[u8], &mut [u8]) -> u64;

/// One job in each program that does it.
pub struct Job {
    pub name: &'static str,
    pub works: [Option<Work>; 3],
    /// Whether each time a program is started.
    pub starts: bool,
}

pub const JOBS: [Job; 5] = [
    Job {
        name: "read",
        works: [
            Some(|log, _| lupinshift::taken(log) as u64),
            Some(|log, _| taken_of(log) as u64),
            Some(|log, _| quick::taken(log) as u64),
        ],
        starts: false,
    },
    Job {
        name: "run",
        works: [
            Some(|log, _| mixed(left(proved_figures(log)))),
            Some(|log, _| mixed(left_in(&Run::new(log).finish()))),
            Some(|log, _| mixed(left(quick::run(log)))),
        ],
        starts: false,
    },
    Job {
        name: "listing",
        works: [
            Some(|log, out| lupinshift::list_into(log, out).expect("room") as u64),
            Some(|log, _| second::list(log).len() as u64),
            Some(|log, out| quick::list(log, out).expect("room") as u64),
        ],
        starts: false,
    },
    Job {
        name: "step",
        works: [
            Some(|log, _| stepped(log, proved_step, lupinshift::entry_length).0),
            Some(|log, _| stepped(log, second::step_position, second::entry_length).0),
            None,
        ],
        starts: false,
    },
    Job {
        name: "lister",
        works: [
            Some(|log, _| written_by("crates/lister/out/lister", log).len() as u64),
            Some(|log, _| written_by("second/target/release/lister", log).len() as u64),
            None,
        ],
        starts: true,
    },
];

/// The listers of a double line, as programs: the one job on its logs.
pub const DOUBLE_LISTER: Job = Job {
    name: "lister",
    works: [
        Some(|log, _| written_by(PROVED_DOUBLE_LISTER, log).len() as u64),
        Some(|log, _| written_by(SECOND_DOUBLE_LISTER, log).len() as u64),
        None,
    ],
    starts: true,
};

const PROVED_DOUBLE_LISTER: &str = "crates/doublelister/out/doublelister";
const SECOND_DOUBLE_LISTER: &str = "second/target/release/doublelister";

/// The two listers of a double line write the same.
pub fn assert_double_agreed(log: &[u8]) {
    let listing = second::double::list(log);
    assert!(written_by(PROVED_DOUBLE_LISTER, log) == *listing.as_bytes());
    assert!(written_by(SECOND_DOUBLE_LISTER, log) == *listing.as_bytes());
}

/// A buffer with room for any listing by any program.
pub fn buffer() -> Vec<u8> {
    let proved = lupinshift::listing_room(lupinshift::LONGEST_LOG);
    vec![0; proved.max(quick::room(quick::LONGEST_LOG))]
}

/// The three programs agree on a log: entries taken, all figures, the listing;
/// and the two that step a position, in every answer and where they end.
pub fn assert_agreed(log: &[u8], out: &mut [u8]) {
    let taken = taken_of(log);
    assert_eq!(lupinshift::taken(log), taken);
    assert_eq!(quick::taken(log), taken);
    let figures = figures_of(log).in_order();
    assert_eq!(proved_figures(log), figures);
    assert_eq!(quick::run(log), figures);
    let listing = second::list(log);
    let len = lupinshift::list_into(log, out).expect("room");
    assert!(out[..len] == *listing.as_bytes());
    let len = quick::list(log, out).expect("room");
    assert!(out[..len] == *listing.as_bytes());
    let proved = stepped(log, proved_step, lupinshift::entry_length);
    assert!(proved == stepped(log, second::step_position, second::entry_length));
}

/// 0 or the number of the refusal, as the archive and the second program give
/// it.
fn proved_step(position: &mut [u8], entry: &[u8], answer: &mut [u32]) -> u32 {
    lupinshift::step(position, entry, answer).err().unwrap_or(0)
}

/// Steps a position with each entry of a log, from the fresh section, as a host
/// does that keeps it between entries; one number of all answers, and the
/// position at the end.
fn stepped(
    log: &[u8],
    step: impl Fn(&mut [u8], &[u8], &mut [u32]) -> u32,
    entry_length: impl Fn(u8) -> usize,
) -> (u64, [u8; POSITION]) {
    let mut position = [0; POSITION];
    let mut answer = [0; ANSWER];
    let mut rest = log;
    let mut sum = 0_u64;
    while let Some(&map) = rest.first() {
        let (entry, behind) = rest.split_at(entry_length(map).min(rest.len()));
        let refusal = step(&mut position, entry, &mut answer);
        for number in [refusal].into_iter().chain(answer) {
            sum = sum.wrapping_mul(65_537).wrapping_add(number.into());
        }
        rest = behind;
    }
    (sum, position)
}

fn proved_figures(log: &[u8]) -> [u64; FIGURES] {
    let mut figures = [0; FIGURES];
    lupinshift::figures_into(log, &mut figures).expect("a log that is not too long");
    figures
}

/// The figures but the numbers of entries and of those accepted, which the
/// second program does not give with the section at the end.
fn left(figures: [u64; FIGURES]) -> [u64; FIGURES - 2] {
    let [_, _, left @ ..] = figures;
    left
}

/// The same from the section at the end.
fn left_in(section: &Section) -> [u64; FIGURES - 2] {
    let [a, b] = &section.desks;
    [
        section.refused.for_a.into(),
        section.refused.for_b.into(),
        section.refused.of_none.into(),
        section.present as u64,
        a.holds.into(),
        a.owes.into(),
        b.holds.into(),
        b.owes.into(),
    ]
}

/// One number of all.
fn mixed(figures: [u64; FIGURES - 2]) -> u64 {
    let next = |sum: u64, figure| sum.wrapping_mul(65_537).wrapping_add(figure);
    figures.into_iter().fold(0, next)
}

/// A lister as a program: started, given the log, and waited for; what it
/// wrote.
fn written_by(program: &str, log: &[u8]) -> Vec<u8> {
    let mut lister = Command::new(program)
        .stdin(Stdio::piped())
        .stdout(Stdio::piped())
        .spawn()
        .expect("bench/run builds the lister");
    // The lister reads the whole log before it writes.
    let mut input = lister.stdin.take().expect("a pipe");
    input.write_all(log).expect("the lister reads");
    drop(input);
    let written = lister.wait_with_output().expect("the lister ends");
    written.stdout
}
