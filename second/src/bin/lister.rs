//! Reads a single line's log from standard input and lists it.

use std::process::ExitCode;

use second::lister::list_standard_input;

fn main() -> ExitCode {
    list_standard_input("lister", second::list)
}
