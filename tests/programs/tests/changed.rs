// Holds: the proved call_changed does what the model does on changed boards, sound and unsound.
// Rests on: programs, and with it the static library of the proved crate exports.
#![cfg(not(feature = "model-only"))]

use programs::changed::compare_all;
use programs::proved::PROVED;
use std::io::Write;

const SEED: u64 = 1;

/// The line is written past the capture of output, so that a plain run shows it.
#[test]
fn changed_boards() {
    let counts = compare_all(&PROVED, SEED).unwrap_or_else(|cause| panic!("{cause}"));
    let _ = writeln!(std::io::stdout(), "{}, agree", counts.line());
    assert_eq!(counts.missing(), [""; 0]);
}
