// Holds: the proved programs agree with the model on all files, in text, drains and books.
// Rests on: programs, and with it the static library of the proved crate exports.
#![cfg(not(feature = "model-only"))]

use programs::compare::{compare_sort, Compared};
use programs::files::{Sort, SORTS};
use programs::proved::PROVED;
use std::io::Write;

const SEED: u64 = 1;

/// The line is written past the capture of output, so that a plain run shows it.
fn agree(sorts: &[Sort]) {
    for sort in sorts {
        let done = compare_sort(&PROVED, SEED, sort).unwrap_or_else(|cause| panic!("{cause}"));
        let Compared {
            files,
            events,
            drained,
        } = done;
        let name = sort.name;
        let line = format!("{name}: {files} files, {events} events, {drained} in drains, agree");
        let _ = writeln!(std::io::stdout(), "{line}");
    }
}

/// In two parts of about the same length, which run side by side.
#[test]
fn mixed_runs() {
    agree(&SORTS[..1]);
}

#[test]
fn all_others() {
    agree(&SORTS[1..]);
}
