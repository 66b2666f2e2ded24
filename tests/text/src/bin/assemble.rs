// Holds: the program `assemble`: a text on standard input, its run file on standard output.
// Rests on: assemble, filter.

use std::process::ExitCode;

/// Bytes that are no text are taken for a sign that fits no word, so they may stand in comments alone.
fn main() -> ExitCode {
    text::filter::filter(|input| {
        let read = String::from_utf8_lossy(input);
        text::assemble(&read).map_err(|fault| fault.to_string())
    })
}
