// Holds: faults put into the records of real runs: each is named, and what is said of it is confirmed on the records.
// Rests on: runs, harm, pairs, confirm, proved.

use audit::answer::{Answer, AGREED, APART, CROSSED, MISSING};
use audit::confirm::confirm;
use audit::handed::Handed;
use audit::harm::{Harm, HARMS};
use audit::pairs;
use audit::proved::audited;
use audit::runs::{file, handed_over, play, sorts};
use model::prng::Prng;
use std::io::Write;

const SEED: u64 = 12;

/// Of one sort of fault: answers by agreed, crossed, missing and apart.
type Counts = [u64; 4];

/// The last board of a run and some on the way to it, as records.
fn boards(rng: &mut Prng, file: &[u8]) -> Vec<Handed> {
    let mut kept = Vec::new();
    let last = play(file, |board| {
        if rng.below(150) == 0 && board.sites.iter().any(|site| !site.record.is_empty()) {
            kept.push(handed_over(board));
        }
    });
    kept.extend(last.iter().map(handed_over));
    kept
}

/// Puts a fault into records and compares; the code of the answer.
fn harmed(rng: &mut Prng, handed: &Handed, harm: &Harm) -> Option<u64> {
    let changed = (harm.put)(rng, handed)?;
    let answer = audited(&changed);
    assert_eq!(answer, pairs::audit(&changed), "{}: {changed:?}", harm.name);
    if pairs::agree(&changed) {
        assert_eq!(answer, Answer::default(), "{}: {changed:?}", harm.name);
    } else {
        let confirmed = confirm(&changed, &answer);
        confirmed.unwrap_or_else(|cause| panic!("{}: {cause} {changed:?}", harm.name));
    }
    Some(answer.code)
}

/// Puts faults of every sort into the records of some runs; a run with long records has fewer.
fn harm_runs(skipped: usize) -> [Counts; HARMS.len()] {
    let mut counts = [[0; 4]; HARMS.len()];
    let mut rng = Prng::new(SEED + skipped as u64);
    for sort in sorts() {
        for k in (0..sort.count).skip(skipped).step_by(2) {
            for handed in boards(&mut rng, &file(SEED, sort, k)) {
                let times = if handed.lines.len() < 400 { 3 } else { 1 };
                for (harm, counts) in HARMS.iter().zip(&mut counts) {
                    for _ in 0..times {
                        let Some(code) = harmed(&mut rng, &handed, harm) else {
                            continue;
                        };
                        let codes = [AGREED, CROSSED, MISSING, APART];
                        let at = codes.iter().position(|&known| known == code);
                        counts[at.expect("no refusal")] += 1;
                    }
                }
            }
        }
    }
    counts
}

fn show(counts: &[Counts; HARMS.len()]) {
    for (harm, [agree, crossed, missing, apart]) in HARMS.iter().zip(counts) {
        let faults = crossed + missing + apart;
        let named = format!("crossed {crossed}, missing {missing}, apart {apart}");
        let line = format!("{}: {faults} faults, {named}; {agree} agree", harm.name);
        let _ = writeln!(std::io::stdout(), "{line}");
        assert!(faults > 300, "few faults {}", harm.name);
    }
    for sort in 1..4 {
        assert!(counts.iter().map(|own| own[sort]).sum::<u64>() > 30);
    }
}

/// In two parts of about the same length, which run side by side.
#[test]
fn faults_in_even_files() {
    show(&harm_runs(0));
}

#[test]
fn faults_in_odd_files() {
    show(&harm_runs(1));
}
