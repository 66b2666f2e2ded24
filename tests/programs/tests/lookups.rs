// Holds: the proved look-ups do what the model does, on the boards of files and on changed ones, and show what the books show.
// Rests on: programs, and with it the static library of the proved crate exports.
#![cfg(not(feature = "model-only"))]

use programs::enough::{line, missing};
use programs::lookups::compare_all;
use programs::proved::PROVED;
use std::io::Write;

const SEED: u64 = 1;

/// The line is written past the capture of output, so that a plain run shows it.
#[test]
fn look_ups() {
    let counts = compare_all(&PROVED, SEED).unwrap_or_else(|cause| panic!("{cause}"));
    let _ = writeln!(std::io::stdout(), "{}, agree", line(&counts));
    assert_eq!(missing(&counts), [""; 0]);
}
