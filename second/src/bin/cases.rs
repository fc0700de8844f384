//! Writes the stored cases, or what must come of them, to standard output.

use std::ffi::OsString;
use std::io::{self, Write};
use std::process::ExitCode;

use second::cases::{all, expected, input};
use second::double;

const USAGE: &str = "usage: cases input|expected|doubleinput|doubleexpected";

fn main() -> ExitCode {
    let words: Vec<OsString> = std::env::args_os().skip(1).collect();
    let Some(output) = read_call(&words) else {
        eprintln!("{USAGE}");
        return ExitCode::from(2);
    };
    match io::stdout().lock().write_all(&output) {
        Ok(()) => ExitCode::SUCCESS,
        Err(error) => {
            eprintln!("cases: {error}");
            ExitCode::FAILURE
        }
    }
}

/// What the call wishes to have written.
fn read_call(words: &[OsString]) -> Option<Vec<u8>> {
    let [word] = words else {
        return None;
    };
    match word.to_str()? {
        "input" => Some(input(&all())),
        "expected" => Some(expected(&all()).into_bytes()),
        "doubleinput" => Some(double::cases::input(&double::cases::all())),
        "doubleexpected" => Some(double::cases::expected(&double::cases::all())),
        _ => None,
    }
}
