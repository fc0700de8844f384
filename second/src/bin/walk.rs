//! Walks many steps and holds the claims about lists of steps against them.

use std::fmt::Display;
use std::process::ExitCode;

use second::walk::{walk, Failure};

const USAGE: &str = "usage: walk SEED STEPS [--double]";

struct Call {
    seed: u64,
    steps: u64,
    double: bool,
}

fn main() -> ExitCode {
    let words: Vec<String> = std::env::args().skip(1).collect();
    let Some(call) = read_call(&words) else {
        eprintln!("{USAGE}");
        return ExitCode::from(2);
    };
    if call.double {
        report(second::double::walk::walk(call.seed, call.steps))
    } else {
        report(walk(call.seed, call.steps))
    }
}

fn report(walked: Result<impl Display, Failure>) -> ExitCode {
    match walked {
        Ok(tally) => {
            println!("{tally}");
            ExitCode::SUCCESS
        }
        Err(failure) => {
            eprintln!("walk: a claim FAILED: {failure}");
            ExitCode::FAILURE
        }
    }
}

fn read_call(words: &[String]) -> Option<Call> {
    let (seed, steps, double) = match words {
        [seed, steps] => (seed, steps, false),
        [seed, steps, line] if line == "--double" => (seed, steps, true),
        _ => return None,
    };
    Some(Call {
        seed: seed.parse().ok()?,
        steps: steps.parse().ok()?,
        double,
    })
}
