//! Writes random calls of the functions for hosts, or what must come of them, to
//! standard output.

use std::io::{self, BufWriter, Write};
use std::process::ExitCode;

use second::calls::{Call, Calls};

const USAGE: &str = "usage: calls SEED COUNT input|expected";

struct Words {
    seed: u64,
    count: usize,
    bytes_of: fn(&Call) -> Vec<u8>,
}

fn main() -> ExitCode {
    let words: Vec<String> = std::env::args().skip(1).collect();
    let Some(words) = read_words(&words) else {
        eprintln!("{USAGE}");
        return ExitCode::from(2);
    };
    match write_calls(&words) {
        Ok(()) => ExitCode::SUCCESS,
        Err(error) => {
            eprintln!("calls: {error}");
            ExitCode::FAILURE
        }
    }
}

/// Call by call, since many calls together are long.
fn write_calls(words: &Words) -> io::Result<()> {
    let mut out = BufWriter::new(io::stdout().lock());
    for call in Calls::new(words.seed).take(words.count) {
        out.write_all(&(words.bytes_of)(&call))?;
    }
    out.flush()
}

fn read_words(words: &[String]) -> Option<Words> {
    let [seed, count, which] = words else {
        return None;
    };
    Some(Words {
        seed: seed.parse().ok()?,
        count: count.parse().ok()?,
        bytes_of: match which.as_str() {
            "input" => Call::input,
            "expected" => Call::expected,
            _ => return None,
        },
    })
}
