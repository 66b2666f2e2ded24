// Holds: the records of real runs agree after every event, cut sites and crashed ones among them.
// Rests on: runs, proved; the run files of tests/programs, and the model that plays them.

use audit::answer::Answer;
use audit::handed::Lent;
use audit::proved::{audited, audited_with};
use audit::runs::{file, handed_over, play, sorts};
use model::POSTINGS;
use std::io::Write;

const SEED: u64 = 11;

/// What was audited.
#[derive(Default)]
struct Audits {
    files: u64,
    prefixes: u64,
    lines: u64,
    down: u64,
    different: u64,
}

fn audit_runs(skipped: usize) -> Audits {
    let mut audits = Audits::default();
    let mut lent = Lent::for_numbers(POSTINGS);
    for sort in sorts() {
        for k in (0..sort.count).skip(skipped).step_by(2) {
            audits.files += 1;
            play(&file(SEED, sort, k), |board| {
                let handed = handed_over(board);
                let answer = audited_with(&handed, &mut lent);
                assert_eq!(answer, Answer::default(), "{}, file {k}", sort.name);
                audits.prefixes += 1;
                audits.lines += handed.lines.len() as u64;
                audits.down += u64::from(board.down != 0);
                let own = |site| handed.record(site);
                let sites = 1..handed.ends.len();
                audits.different += u64::from(sites.clone().any(|site| own(site) != own(0)));
            });
        }
    }
    audits
}

fn show(audits: &Audits) {
    let Audits {
        files,
        prefixes,
        lines,
        down,
        different,
    } = audits;
    let of_them = format!("{down} with sites down, {different} with records that differ");
    let line = format!("{files} runs, {prefixes} prefixes agree, {lines} lines; {of_them}");
    let _ = writeln!(std::io::stdout(), "{line}");
    assert!(*files > 1_000 && *down > 10_000 && *different > 10_000);
}

/// In two parts of about the same length, which run side by side.
#[test]
fn every_prefix_of_even_files_agrees() {
    show(&audit_runs(0));
}

#[test]
fn every_prefix_of_odd_files_agrees() {
    show(&audit_runs(1));
}

/// Boards that are drained to quiet agree too.
#[test]
fn drained_boards_agree() {
    for sort in sorts() {
        for k in 0..sort.count.min(40) {
            let Some(mut board) = play(&file(SEED, sort, k), |_| ()) else {
                continue;
            };
            board
                .drain(200_000)
                .expect("a board that was played is sound");
            assert_eq!(audited(&handed_over(&board)), Answer::default());
        }
    }
}
