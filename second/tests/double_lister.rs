//! A session on a double line, byte for byte, and its lister as a program.

use std::io::Write;
use std::process::{Command, Output, Stdio};

use second::double::list;
use second::LONGEST_LOG;

const SESSION: [&[u8]; 14] = [
    &[0x07, 5, 2, 0, 0],
    &[0x01, 1],
    &[0x07, 5, 1, 0, 10],
    &[0x07, 5, 1, 0, 39],
    &[0x07, 5, 1, 0, 40],
    &[0x07, 5, 2, 0xFF, 0xF0],
    &[0x87, 6, 2, 0xFF, 0xF0, 1, 0, 2],
    &[0x87, 6, 2, 0xFF, 0xF1, 1, 0, 1],
    &[0x07, 5, 2, 0xFF, 0xFF],
    &[0x0F, 5, 1, 0, 90, 1],
    &[0x0F, 9, 1, 0, 90, 1],
    &[0x87, 6, 1, 0, 90, 1, 0, 2],
    &[0x01, 8],
    &[0x87, 6, 1],
];

const LISTING: &str = "\
1 5 B no 7
2 1 - ok 0 0 -
3 5 A ok 1 256 25/10
4 5 A no 19
5 5 A ok 2 256 25/10
6 5 B ok 1 256 25/10
7 6 B no 20
8 6 B ok 0 0 -
9 5 B no 19
10 0 - no 3
11 0 - no 2
12 6 A no 20
13 8 - no 8
14 0 - no 1
end 14 5 2 3 4 2 0 0 0 0
";

fn run_lister(arguments: &[&str], log: &[u8]) -> Output {
    let mut lister = Command::new(env!("CARGO_BIN_EXE_doublelister"))
        .args(arguments)
        .stdin(Stdio::piped())
        .stdout(Stdio::piped())
        .stderr(Stdio::piped())
        .spawn()
        .expect("the lister starts");
    // A lister that has seen enough closes its end; that is no failure.
    let _ = lister.stdin.take().expect("a pipe").write_all(log);
    lister.wait_with_output().expect("the lister ends")
}

#[track_caller]
fn expect_listing(log: &[u8], listing: &str) {
    let output = run_lister(&[], log);
    assert!(output.status.success());
    assert_eq!(String::from_utf8(output.stdout).unwrap(), listing);
    assert_eq!(output.stderr, b"");
}

#[test]
fn a_session_is_listed_byte_for_byte() {
    let log = SESSION.concat();
    assert_eq!(list(&log), LISTING);
    expect_listing(&log, LISTING);
}

#[test]
fn no_bytes_give_the_last_line_alone() {
    assert_eq!(list(&[]), "end 0 0 0 0 0 0 0 0 0 0\n");
}

#[test]
fn those_on_both_lines_are_present() {
    let mut log = vec![0x01, 1];
    for minute in [0, 30, 60] {
        log.extend([0x07, 5, 1, 0, minute]);
        log.extend([0x07, 5, 2, 0, minute]);
    }
    log.extend([0x87, 6, 1, 0, 60, 2, 0, 1]);
    assert!(list(&log).ends_with("\nend 8 8 0 0 0 5 0 0 0 0\n"));
}

#[test]
fn the_program_takes_the_longest_log_and_no_longer() {
    let log = vec![0; LONGEST_LOG + 1];
    let listing = list(&log[..LONGEST_LOG]);
    assert!(listing.ends_with("\n65536 0 - no 2\nend 65536 0 0 0 65536 0 0 0 0 0\n"));
    expect_listing(&log[..LONGEST_LOG], &listing);
    expect_listing(&log, "long\n");
    expect_listing(&vec![0; 10 * LONGEST_LOG], "long\n");
}

#[test]
fn the_program_takes_no_arguments() {
    let output = run_lister(&["log"], &[]);
    assert_eq!(output.status.code(), Some(2));
    assert_eq!(output.stdout, b"");
    assert_eq!(output.stderr, b"usage: doublelister < LOG\n");
}
