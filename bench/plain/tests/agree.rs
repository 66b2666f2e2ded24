// Holds: the twin agrees with the model on random run files of every sort: text, drains, books, and refusal numbers.
// Rests on: the twin, common; the files and the comparison of tests/programs; the model.

mod common;

use common::{each_file, SEEDS};
use programs::compare::compare;
use programs::files::{numbers, Sort, SORTS};
use programs::programs::{Programs, MODEL};

const TWIN: Programs = Programs {
    run_file: plain::run_file,
    run_drain: plain::run_drain,
    run_events: plain::run_events,
    // The twin has no calls by value.
    ..MODEL
};

/// What stands in a lent slice beforehand.
const BYTE: u8 = 0xA5;

/// Compares on all files of one sort and seed; the counts of files and of their events, drained ones included.
fn agree(sort: &Sort, seed: u64) -> (u64, u64) {
    let mut events = 0;
    each_file(sort, seed, |file, rng| {
        let done = compare(&TWIN, file, rng)?;
        events += done.events + done.drained;
        Ok(())
    });
    (sort.count as u64, events)
}

fn agree_on(sorts: &[Sort]) {
    for sort in sorts {
        let done = SEEDS.map(|seed| agree(sort, seed));
        let files: u64 = done.iter().map(|(files, _)| files).sum();
        let events: u64 = done.iter().map(|(_, events)| events).sum();
        println!("{}: {files} files, {events} events, agree", sort.name);
    }
}

/// In two parts of about the same length, which run side by side.
#[test]
fn mixed_runs() {
    agree_on(&SORTS[..1]);
}

#[test]
fn all_others() {
    agree_on(&SORTS[1..]);
}

/// A text that does not fit leaves the slice as it is.
#[test]
fn no_room_writes_nothing() {
    let sort = &SORTS[0];
    for k in 0..100 {
        let file = sort.file(&mut numbers(7, sort, k), k);
        let room = model::run(&file).len() - 1;
        let mut out = vec![BYTE; room];
        assert_eq!(plain::run_file(&file, &mut out), plain::NONE);
        assert!(out.iter().all(|&byte| byte == BYTE));
    }
}
