//! The stored cases of the double line: what is among them, some worked out by
//! hand, and the program that writes them.

use std::collections::BTreeSet;
use std::process::{Command, Output};
use std::sync::LazyLock;

use second::double::cases::{all, expected, input, Case, LONGEST};
use second::double::figures::Figures;
use second::double::Section;

static CASES: LazyLock<Vec<Case>> = LazyLock::new(all);

/// The bytes that come of one form of the step.
const OUTCOME: usize = 8 + 77;

// Where the figures of a section start.
const FOR_A: usize = 1;
const DESK_A: usize = 13;
const DESK_B: usize = 45;

/// The figures of a section in force, of which all others are 0.
fn figures(runs: &[(usize, &[u8])]) -> Figures {
    let mut figures = [0; 77];
    figures[0] = 1;
    for &(start, run) in runs {
        figures[start..start + run.len()].copy_from_slice(run);
    }
    figures
}

/// Both forms of the step give this answer and leave these figures.
#[track_caller]
fn expect_step(before: &Figures, bytes: &[u8], answer: [u8; 8], after: &Figures) {
    let case = Case {
        section: Section::from_figures(before).expect("a section"),
        bytes: bytes.to_vec(),
    };
    let input = [&before[..], &[0, bytes.len() as u8], bytes].concat();
    assert_eq!(case.input(), input);
    let outcome = [&answer[..], after].concat();
    let ran = if bytes.is_empty() {
        [&[0; 8][..], before].concat()
    } else {
        outcome.clone()
    };
    assert_eq!(case.expected(), [&outcome[..], &outcome, &ran].concat());
}

#[test]
fn steps_by_hand() {
    // A at minute 300, forms up to 259, the last departure at 290, two on the line.
    let a = [1, 44, 1, 3, 1, 1, 34, 2, 1, 1, 1, 3];
    let before = figures(&[(DESK_A, &a)]);
    let a_after = [1, 64, 1, 4, 1, 1, 64, 3, 1, 1, 1, 3, 1, 4];
    // 290 and 30 are 320.
    expect_step(
        &before,
        &[0x07, 5, 1, 1, 64],
        [0, 1, 4, 1, 0, 4, 25, 10],
        &figures(&[(DESK_A, &a_after)]),
    );
    expect_step(
        &before,
        &[0x07, 5, 1, 1, 63],
        [19, 0, 0, 0, 0, 0, 0, 0],
        &figures(&[(FOR_A, &[0, 0, 0, 1]), (DESK_A, &a)]),
    );
    // B receives 257; its clock alone is altered, and A's line.
    let a_received = [1, 44, 1, 3, 1, 1, 34, 1, 1, 3];
    expect_step(
        &before,
        &[0x87, 6, 2, 0, 9, 1, 1, 1],
        [0; 8],
        &figures(&[(DESK_A, &a_received), (DESK_B, &[0, 9])]),
    );
    // 13 on the line are too many.
    let ill_made = figures(&[(DESK_B + 7, &[13])]);
    expect_step(&ill_made, &[], [5, 0, 0, 0, 0, 0, 0, 0], &ill_made);
    // BEGIN, and the counts stay.
    let mut idle = [0; 77];
    idle[4] = 9;
    let begun = figures(&[(FOR_A, &[0, 0, 0, 9])]);
    expect_step(&idle, &[0x01, 1], [0; 8], &begun);
}

/// Reads the input as the other program has to.
fn parsed(mut input: &[u8]) -> Vec<Case> {
    let mut cases = Vec::new();
    while !input.is_empty() {
        let (figures, rest) = input.split_first_chunk::<77>().unwrap();
        let (length, rest) = rest.split_first_chunk::<2>().unwrap();
        let length = usize::from(u16::from_be_bytes(*length));
        assert!(length <= LONGEST);
        let (bytes, rest) = rest.split_at(length);
        cases.push(Case {
            section: Section::from_figures(figures).unwrap(),
            bytes: bytes.to_vec(),
        });
        input = rest;
    }
    cases
}

#[test]
fn the_input_is_read_back() {
    let input = input(&CASES);
    assert_eq!(parsed(&input), *CASES);
    assert_eq!(all(), *CASES);
    assert!((2_300..2_700).contains(&CASES.len()), "{}", CASES.len());
    assert!(input.len() < 250_000, "{}", input.len());
}

#[test]
fn what_must_come_of_them_is_the_same_in_both_forms() {
    let expected = expected(&CASES);
    assert_eq!(expected.len(), CASES.len() * 3 * OUTCOME);
    assert!(expected.len() < 700_000, "{}", expected.len());
    for (case, outcomes) in CASES.iter().zip(expected.chunks(3 * OUTCOME)) {
        let (by_value, others) = outcomes.split_at(OUTCOME);
        let (in_place, ran) = others.split_at(OUTCOME);
        assert_eq!(by_value, in_place);
        if case.bytes.is_empty() {
            assert_eq!(ran[..8], [0; 8]);
            assert_eq!(ran[8..], case.section.figures());
        } else {
            assert_eq!(ran, by_value);
        }
        let refused_with_5 = by_value[0] == 5;
        assert_eq!(refused_with_5, !case.section.is_well_made());
        if refused_with_5 {
            assert_eq!(by_value[8..], case.section.figures());
        }
        if by_value[0] != 0 {
            assert_eq!(by_value[1..8], [0; 7]);
        }
    }
}

/// The refusal of each case, 0 where there is none.
fn answers(cases: &[Case]) -> Vec<u8> {
    cases.iter().map(|case| case.expected()[0]).collect()
}

#[test]
fn every_refusal_is_met_at_either_station_and_every_kind_is_accepted() {
    let mut met = BTreeSet::new();
    for (case, answer) in CASES.iter().zip(answers(&CASES)) {
        let station = match (answer, &case.bytes[..]) {
            (1..=5, _) => 0,
            (_, &[_, 5 | 6, station, ..]) => station,
            _ => 0,
        };
        let kind = if answer == 0 { case.bytes[1] } else { 0 };
        met.insert((answer, kind, station));
    }
    let mut wished: BTreeSet<(u8, u8, u8)> = [1, 2, 3, 4, 5, 6, 7, 8]
        .map(|refusal| (refusal, 0, 0))
        .into();
    wished.extend([(0, 1, 0), (0, 8, 0)]);
    for station in [1, 2] {
        wished.extend([(0, 5, station), (0, 6, station)]);
        wished.extend([7, 9, 17, 18, 19, 20].map(|refusal| (refusal, 0, station)));
    }
    assert_eq!(met, wished);
}

#[test]
fn many_are_accepted_and_many_are_ill_made() {
    let answers = answers(&CASES);
    let times = |number: u8| answers.iter().filter(|&&answer| answer == number).count();
    assert!(times(0) > 1_000, "{}", times(0));
    for number in [1, 2, 3, 4, 5, 9, 17, 18, 19, 20] {
        assert!(times(number) > 20, "{number}: {}", times(number));
    }
}

fn run_cases(argument: &str) -> Output {
    Command::new(env!("CARGO_BIN_EXE_cases"))
        .arg(argument)
        .output()
        .expect("the program runs")
}

#[test]
fn the_program_writes_both_files() {
    let output = run_cases("doubleinput");
    assert!(output.status.success());
    assert_eq!(output.stdout, input(&CASES));
    let output = run_cases("doubleexpected");
    assert!(output.status.success());
    assert_eq!(output.stdout, expected(&CASES));
    assert_eq!(output.stderr, b"");
}
