// Holds: by the proved programs' books, sites that hold the same postings touching an account show the same four numbers for it.
// Rests on: programs, and with it the static library of the proved crate exports.
#![cfg(not(feature = "model-only"))]

use programs::accounts::{ask_sort, Asked};
use programs::files::SORTS;
use programs::proved::PROVED;
use std::io::Write;

const SEED: u64 = 1;

/// The line is written past the capture of output, so that a plain run shows it.
#[test]
fn one_account_at_a_time() {
    let mut total = Asked::default();
    for sort in &SORTS {
        total += ask_sort(PROVED.run_drain, SEED, sort).unwrap_or_else(|cause| panic!("{cause}"));
    }
    let Asked {
        boards,
        in_flight,
        pairs,
        different,
        apart,
        down,
        questions,
        reordered,
        other_numbers,
    } = total;
    let on = format!("{boards} boards, {in_flight} of them with messages in flight");
    let two = format!("{pairs} pairs of sites, {different} of them with different records, {apart} with different postings, {down} with a site down");
    let of = format!("{questions} accounts with the same postings touching it, {reordered} of them in different orders");
    let line = format!("{on}; {two}; {of}: same numbers; {other_numbers} others differ");
    let _ = writeln!(std::io::stdout(), "{line}");
    assert!(boards >= 2_000 && in_flight >= 1_000, "{line}");
    assert!(
        different >= 5_000 && apart >= 2_000 && down >= 500,
        "{line}"
    );
    assert!(
        questions >= 50_000 && reordered >= 500 && other_numbers >= 5_000,
        "{line}"
    );
}
