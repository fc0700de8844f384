//! What the generator reaches on a double line, and the generator as a program.

use std::collections::BTreeSet;
use std::process::{Command, Output};
use std::sync::LazyLock;

use second::double::generator::{log, Options};
use second::double::{list, Desk, Run, Section};
use second::{entry_length, Entry, Kind, Line, Station, LONGEST_LOG};

/// Logs of the lister's size: these six have to be enough for all claims.
static LOGS: LazyLock<Vec<Vec<u8>>> = LazyLock::new(|| {
    (0..6)
        .map(|seed| lister_sized(seed, Options::default()))
        .collect()
});

/// Every refusal that a log from the fresh section can meet: 18 it cannot, since
/// the clock ends before the form numbers.
const REACHED: [u8; 11] = [1, 2, 3, 4, 6, 7, 8, 9, 17, 19, 20];

fn lister_sized(seed: u64, options: Options) -> Vec<u8> {
    let options = Options {
        bytes: Some(LONGEST_LOG),
        ..options
    };
    log(seed, LONGEST_LOG, options)
}

fn for_each_line(log: &[u8], mut look: impl FnMut(&Section, &Line, &Section)) {
    let mut run = Run::of(log);
    let mut before = run.section().clone();
    while let Some(line) = run.next() {
        look(&before, &line, run.section());
        before = run.section().clone();
    }
}

fn refusals_in(log: &[u8]) -> BTreeSet<u8> {
    Run::of(log)
        .filter_map(|line| line.answer.err())
        .map(|refusal| refusal.number())
        .collect()
}

#[test]
fn every_refusal_but_18_is_reached_within_the_listers_size() {
    let mut seen = BTreeSet::new();
    for log in LOGS.iter() {
        assert_eq!(log.len(), LONGEST_LOG);
        seen.extend(refusals_in(log));
        let lines: Vec<Line> = Run::of(log).collect();
        let accepted = lines.iter().filter(|line| line.answer.is_ok()).count();
        let percent = 100 * accepted / lines.len();
        assert!((76..88).contains(&percent), "about four of five: {percent}");
    }
    assert_eq!(seen, REACHED.into());
}

#[test]
fn short_logs_mostly_reach_most_refusals() {
    let many = (1..=48)
        .filter(|&seed| refusals_in(&log(seed, 300, Options::default())).len() >= 8)
        .count();
    assert!(many > 36, "{many} of 48");
}

#[test]
fn full_lines_are_kept_full() {
    for accepted in [false, true] {
        let options = Options {
            accepted,
            full: true,
            ..Options::default()
        };
        let (mut full, mut states) = (0, 0);
        for_each_line(&lister_sized(1, options), |_, _, after| {
            states += 1;
            let near_twelve = |desk: &Desk| desk.present >= 11;
            full += u32::from(after.desks.iter().all(near_twelve));
        });
        assert!(2 * full > states, "{full} of {states}");
    }
}

/// What a good set of logs has come by, one name for each.
fn places_come_by(before: &Section, line: &Line, after: &Section) -> Vec<String> {
    let mut names = Vec::new();
    for station in Station::BOTH {
        let (desk, letter) = (after.desk(station), station.letter());
        let reached = [
            (desk.present == 12, "twelve on the line of"),
            (desk.clock == u16::MAX, "the last minute at"),
            (desk.last_form > 255, "forms over 255 of"),
            (
                desk.interval.is_some_and(|started| started > 65_505),
                "no more departures from",
            ),
        ];
        let reached = reached.into_iter().filter(|(reached, _)| *reached);
        names.extend(reached.map(|(_, what)| format!("{what} {letter}")));
    }
    if after.desks.iter().all(|desk| desk.present == 12) {
        names.push("both lines full".to_owned());
    }
    if let Some(entry) = line.entry {
        names.extend(name_of(&entry, line, before));
    }
    names
}

/// Whose an entry is, and how it was answered; of a receipt, whom it names.
fn name_of(entry: &Entry, line: &Line, before: &Section) -> Option<String> {
    let answer = line.answer.map_or_else(|refusal| refusal.number(), |_| 0);
    let kind = Kind::from_number(entry.kind)?;
    let Some(station) = line.station() else {
        return Some(format!("{kind:?} {answer}"));
    };
    let letter = station.letter();
    if (kind, answer) != (Kind::Receive, 20) {
        return Some(format!("{kind:?} at {letter} {answer}"));
    }
    let own = entry.sender == entry.station;
    let behind = before.desk(station.other()).line().iter().skip(1);
    let past_another = !own && behind.into_iter().any(|&form| form == entry.form);
    let named = match (own, past_another) {
        (true, _) => "its own",
        (_, true) => "one past another",
        _ => "none",
    };
    Some(format!("{letter} receives {named}"))
}

fn places_wished_for() -> BTreeSet<String> {
    let mut wished: BTreeSet<String> = [
        "both lines full",
        "Begin 0",
        "Begin 6",
        "Resume 0",
        "Resume 7",
        "Resume 8",
    ]
    .map(str::to_owned)
    .into();
    for letter in ["A", "B"] {
        wished.insert(format!("twelve on the line of {letter}"));
        wished.insert(format!("the last minute at {letter}"));
        wished.insert(format!("forms over 255 of {letter}"));
        wished.insert(format!("no more departures from {letter}"));
        for answer in [0, 7, 9, 17, 19] {
            wished.insert(format!("Train at {letter} {answer}"));
        }
        for answer in [0, 7, 9] {
            wished.insert(format!("Receive at {letter} {answer}"));
        }
        for named in ["its own", "one past another", "none"] {
            wished.insert(format!("{letter} receives {named}"));
        }
    }
    wished
}

#[test]
fn deep_states_are_reached() {
    let mut reached = BTreeSet::new();
    for log in LOGS.iter() {
        for_each_line(log, |before, line, after| {
            reached.extend(places_come_by(before, line, after));
        });
    }
    let wished = places_wished_for();
    let missed: Vec<_> = wished.difference(&reached).collect();
    let unforeseen: Vec<_> = reached.difference(&wished).collect();
    assert!(missed.is_empty(), "missed {missed:?}");
    assert!(unforeseen.is_empty(), "unforeseen {unforeseen:?}");
}

/// Kinds 2, 3, 4, 7 and 9, and a TRAIN with a view.
#[test]
fn entries_of_the_single_line_are_among_them() {
    let mut seen = BTreeSet::new();
    for log in LOGS.iter() {
        let mut rest = &log[..];
        for line in Run::of(log) {
            let (bytes, behind) = rest.split_at(entry_length(rest[0]).min(rest.len()));
            rest = behind;
            if let (Ok(entry), Err(refusal)) = (second::decode(bytes), line.answer) {
                seen.insert((refusal.number().min(5), entry.kind));
            }
        }
    }
    for kind in [2, 3, 4, 7, 9] {
        assert!(seen.contains(&(2, kind)), "{kind}: {seen:?}");
    }
    assert!(seen.contains(&(3, 5)), "{seen:?}");
}

#[test]
fn half_of_the_logs_end_inside_an_entry() {
    let cut = (0..200)
        .filter(|&seed| refusals_in(&log(seed, 40, Options::default())).contains(&1))
        .count();
    assert!((70..130).contains(&cut), "{cut} of 200");
}

#[test]
fn every_log_is_listed_line_by_line() {
    for log in LOGS.iter() {
        let listing = list(log);
        let end = listing.lines().last().unwrap();
        let figures: Vec<usize> = end
            .strip_prefix("end ")
            .unwrap()
            .split(' ')
            .map(|figure| figure.parse().unwrap())
            .collect();
        assert_eq!(listing.lines().count(), figures[0] + 1);
        assert_eq!(figures[0], figures[1..5].iter().sum::<usize>());
        let section = Run::of(log).finish();
        let present = section.desks.map(|desk| usize::from(desk.present));
        assert_eq!(figures[5..], [present[0] + present[1], 0, 0, 0, 0]);
        let speeds = listing.lines().filter(|line| line.ends_with(" 256 25/10"));
        assert!(speeds.count() > 3_000);
        // The room that hosts lend, as for a single line.
        assert!(listing.len() <= 25 * log.len() + 214);
    }
}

fn run_gen(arguments: &[&str]) -> Output {
    Command::new(env!("CARGO_BIN_EXE_gen"))
        .args(arguments)
        .output()
        .expect("the generator runs")
}

#[test]
fn the_program_writes_the_log_of_its_arguments() {
    let output = run_gen(&["7", "100", "--double"]);
    assert!(output.status.success());
    assert_eq!(output.stdout, log(7, 100, Options::default()));
    let arguments = ["7", "100", "--accepted", "--bytes", "300", "--full"];
    let output = run_gen(&[&arguments[..], &["--double"]].concat());
    let options = Options {
        accepted: true,
        full: true,
        bytes: Some(300),
    };
    assert_eq!(output.stdout, log(7, 100, options));
}
