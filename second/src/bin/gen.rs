//! Writes a random log to standard output.

use std::io::{self, Write};
use std::process::ExitCode;

use second::double;
use second::generator::{log, Options};

const USAGE: &str = "usage: gen SEED ENTRIES [--double] [--accepted] [--full] [--worn] [--bytes N]";

struct Call {
    seed: u64,
    entries: usize,
    double: bool,
    options: Options,
}

fn main() -> ExitCode {
    let Some(call) = read_call(std::env::args().skip(1)) else {
        eprintln!("{USAGE}");
        return ExitCode::from(2);
    };
    let log = make_log(&call);
    match io::stdout().lock().write_all(&log) {
        Ok(()) => ExitCode::SUCCESS,
        Err(error) => {
            eprintln!("gen: {error}");
            ExitCode::FAILURE
        }
    }
}

fn make_log(call: &Call) -> Vec<u8> {
    if !call.double {
        return log(call.seed, call.entries, call.options);
    }
    let options = double::generator::Options {
        accepted: call.options.accepted,
        full: call.options.full,
        bytes: call.options.bytes,
    };
    double::generator::log(call.seed, call.entries, options)
}

fn read_call(mut words: impl Iterator<Item = String>) -> Option<Call> {
    let seed = words.next()?.parse().ok()?;
    let entries = words.next()?.parse().ok()?;
    let mut double = false;
    let mut options = Options::default();
    while let Some(word) = words.next() {
        match word.as_str() {
            "--double" => double = true,
            "--accepted" => options.accepted = true,
            "--full" => options.full = true,
            "--worn" => options.worn = true,
            "--bytes" => options.bytes = Some(words.next()?.parse().ok()?),
            _ => return None,
        }
    }
    // On a double line no log uses up the form numbers: the clock ends before them.
    let made = !(double && options.worn);
    made.then_some(Call {
        seed,
        entries,
        double,
        options,
    })
}
