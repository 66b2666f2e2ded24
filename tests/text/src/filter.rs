// Holds: a program that turns its standard input into its standard output, or says what is wrong with it.
// Rests on: std.

use std::io::{Read, Write};
use std::process::ExitCode;

/// What is wrong is written to standard error, and the exit status is then 1.
pub fn filter(work: impl FnOnce(&[u8]) -> Result<Vec<u8>, String>) -> ExitCode {
    let mut input = Vec::new();
    let read = std::io::stdin().lock().read_to_end(&mut input);
    let done = read
        .map_err(|error| error.to_string())
        .and_then(|_| work(&input))
        .and_then(|output| {
            let written = std::io::stdout().write_all(&output);
            written.map_err(|error| error.to_string())
        });
    match done {
        Ok(()) => ExitCode::SUCCESS,
        Err(cause) => {
            eprintln!("{cause}");
            ExitCode::FAILURE
        }
    }
}
