// Holds: the program `model-statement`: a run file on standard input, its statement on standard output.
// Rests on: statement, filter.

use std::process::ExitCode;

fn main() -> ExitCode {
    text::filter::filter(|input| Ok(text::statement(input).into_bytes()))
}
