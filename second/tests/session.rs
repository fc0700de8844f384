//! The session of the document, byte for byte, with T-01's counts in its last line
//! and T-07's two figures in its eighth; and the lister as a program.

use std::io::Write;
use std::process::{Command, Output, Stdio};

use second::{list, Run, LONGEST_LOG};

const SESSION: [&[u8]; 8] = [
    &[0x01, 0x01],
    &[0x3F, 0x02, 0x01, 0x00, 0x0A, 0x01, 0x01, 0x02],
    &[0x87, 0x06, 0x02, 0x00, 0x46, 0x01, 0x00, 0x01],
    &[0x47, 0x04, 0x02, 0x00, 0x4B, 0x02],
    &[0x87, 0x06, 0x01, 0x00, 0x5F, 0x02, 0x00, 0x01],
    &[0x0F, 0x05, 0x01, 0x00, 0x60, 0x01],
    &[0x0F, 0x05, 0x01, 0x00, 0x7D, 0x01],
    &[0x0F, 0x05, 0x01, 0x00, 0x7E, 0x01],
];

const LISTING: &str = "\
1 1 - ok 0 0 -
2 2 A ok 1 7 15
3 6 B ok 0 0 -
4 4 B ok 1 180 B
5 6 A ok 0 0 -
6 5 A ok 2 168 B
7 5 A no 19
8 5 A ok 3 104 25/10
end 8 7 1 0 0 2 0 0 0 2
";

fn run_lister(arguments: &[&str], log: &[u8]) -> Output {
    let mut lister = Command::new(env!("CARGO_BIN_EXE_lister"))
        .args(arguments)
        .stdin(Stdio::piped())
        .stdout(Stdio::piped())
        .stderr(Stdio::piped())
        .spawn()
        .expect("the lister starts");
    // A lister that has seen enough closes its end; that is no failure.
    let _ = lister.stdin.take().expect("a pipe").write_all(log);
    lister.wait_with_output().expect("the lister ends")
}

#[track_caller]
fn expect_listing(log: &[u8], listing: &str) {
    let output = run_lister(&[], log);
    assert!(output.status.success());
    assert_eq!(String::from_utf8(output.stdout).unwrap(), listing);
    assert_eq!(output.stderr, b"");
}

#[test]
fn the_session_is_listed_byte_for_byte() {
    let log = SESSION.concat();
    assert_eq!(list(&log), LISTING);
    expect_listing(&log, LISTING);
}

#[test]
fn a_session_ended_early_is_listed_so_far() {
    // The end line differs at every length, so only the lines before it.
    let lines: Vec<&str> = LISTING.lines().collect();
    for entries in 0..SESSION.len() {
        let listing = list(&SESSION[..entries].concat());
        let so_far: Vec<&str> = listing.lines().collect();
        assert_eq!(so_far[..entries], lines[..entries]);
        assert_eq!(so_far.len(), entries + 1);
    }
}

#[test]
fn every_cut_of_the_session_is_refused_with_1() {
    let log = SESSION.concat();
    let mut ends = vec![0];
    for entry in SESSION {
        ends.push(ends[ends.len() - 1] + entry.len());
    }
    for length in 0..log.len() {
        let whole = ends.iter().filter(|&&end| end <= length).count() - 1;
        let lines: Vec<_> = Run::new(&log[..length]).collect();
        if ends.contains(&length) {
            assert_eq!(lines.len(), whole);
        } else {
            assert_eq!(lines.len(), whole + 1);
            let last = lines[whole];
            assert_eq!(last.answer.unwrap_err().number(), 1);
            assert_eq!((last.kind(), last.station()), (0, None));
        }
    }
}

#[test]
fn the_program_takes_the_longest_log_and_no_longer() {
    let log = vec![0; LONGEST_LOG + 1];
    expect_listing(&log[..LONGEST_LOG], &list(&log[..LONGEST_LOG]));
    expect_listing(&log, "long\n");
    expect_listing(&vec![0; 10 * LONGEST_LOG], "long\n");
    expect_listing(&[], "end 0 0 0 0 0 0 0 0 0 0\n");
}

#[test]
fn the_program_takes_no_arguments() {
    let output = run_lister(&["log"], &[]);
    assert!(!output.status.success());
    assert_eq!(output.stdout, b"");
    assert_eq!(output.stderr, b"usage: lister < LOG\n");
}
