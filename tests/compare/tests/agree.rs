// Holds: a test for each suite of comparisons, and one for the count of all.
// Rests on: compare, whose suites run once each, however many tests ask.

use compare::*;
use std::io::Write;
use tally::{Suite, Tally};

/// The suite agrees on all its inputs, which are many, and of which some thousand are answered either way.
fn agrees(suite: &Suite) {
    let tally = suite.tally();
    assert!(tally.inputs >= 20_000, "few inputs: {}", tally.inputs);
    assert!(tally.yes >= 1_000, "few yes: {}", tally.yes);
    assert!(
        tally.inputs - tally.yes >= 1_000,
        "few no: {}",
        tally.inputs - tally.yes
    );
}

#[test]
fn fields() {
    agrees(&FIELDS);
}

#[test]
fn matrices() {
    agrees(&MATRICES);
}

#[test]
fn conflicts() {
    agrees(&CONFLICTS);
}

#[test]
fn conflict_sets() {
    agrees(&CONFLICT_SETS);
}

#[test]
fn sizes_of_calls() {
    agrees(&CALLS);
}

#[test]
fn effects() {
    agrees(&EFFECTS);
}

#[test]
fn books_of_a_record() {
    agrees(&BOOKS);
}

#[test]
fn books_of_sites() {
    agrees(&BOOKS_OF_ALL);
}

#[test]
fn books_of_boards() {
    agrees(&BOOKS_OF_BOARDS);
}

/// Conflicts, effects and books. The line is written past the capture of output, so that a plain run shows it.
#[test]
fn at_least_a_hundred_thousand_inputs() {
    let total: u64 = COUNTED.iter().map(|suite| suite.tally().inputs).sum();
    let mut line = format!("conflicts, effects and books compared on {total} inputs");
    for suite in [&FIELDS, &MATRICES].into_iter().chain(COUNTED) {
        let Tally { inputs, yes } = suite.tally();
        line += &format!("; {}: {inputs}, {yes} yes", suite.name);
    }
    let _ = writeln!(std::io::stdout(), "{line}");
    assert!(total >= 100_000, "only {total} inputs");
}
