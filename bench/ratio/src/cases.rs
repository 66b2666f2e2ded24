// Holds: the run files that are timed.
// Rests on: conflicts; the generators and programs of tests/programs, and the model.

use crate::conflicts;
use model::prng::Prng;
use model::{FIGURES, FIXED_PAIRS, SITES};
use programs::carried::{carried_file, offered_file};
use programs::programs::MODEL;
use text::statement::DRAIN;

const SEED: u64 = 1;
const SITE_COUNTS: [u8; 3] = [3, 5, 7];
const POSTING_COUNTS: [usize; 4] = [8, 32, 64, 256];
const ACCOUNTS: u64 = 16;

/// One board size with one number of postings.
pub struct Case {
    pub n: u8,
    pub postings: usize,
    /// With one account all postings conflict.
    pub accounts: u64,
    /// A run file that carries its postings to the records of all sites, and the count of its events.
    pub carried: Vec<u8>,
    pub events: u64,
    /// A run file of offers alone, and the count of these and of the drain after them.
    pub offered: Vec<u8>,
    pub drained: u64,
}

impl Case {
    fn new(n: u8, postings: usize, accounts: u64, carried: Vec<u8>, offered: Vec<u8>) -> Case {
        let count = (MODEL.run_drain)(&offered, DRAIN, &mut [0; FIGURES * SITES]);
        Case {
            n,
            postings,
            accounts,
            events: model::decode(&carried).map_or(0, |run| run.calls.len() as u64),
            carried,
            offered,
            drained: count + postings as u64,
        }
    }
}

/// A mix of the four kinds on all accounts.
fn mixed(rng: &mut Prng, n: u8, postings: usize) -> Case {
    let start = (n, (n - 1) / 2, FIXED_PAIRS);
    let carried = carried_file(rng, start, postings, ACCOUNTS);
    let offered = offered_file(rng, start, postings, ACCOUNTS);
    Case::new(n, postings, ACCOUNTS, carried, offered)
}

/// RATE and CALL of one account.
fn conflicting(rng: &mut Prng, n: u8, postings: usize) -> Case {
    let carried = conflicts::carried_file(rng, n, postings);
    let offered = conflicts::offered_file(rng, n, postings);
    Case::new(n, postings, 1, carried, offered)
}

/// The mixed ones, rising in size; then two in which all postings conflict.
pub fn cases() -> Vec<Case> {
    let mut rng = Prng::new(SEED);
    let mut cases = Vec::new();
    for n in SITE_COUNTS {
        for postings in POSTING_COUNTS {
            cases.push(mixed(&mut rng, n, postings));
        }
    }
    for postings in [64, 256] {
        cases.push(conflicting(&mut rng, 7, postings));
    }
    cases
}

/// The largest of the mixed ones.
pub fn largest(cases: &[Case]) -> &Case {
    let mixed = cases.iter().rfind(|case| case.accounts == ACCOUNTS);
    mixed.expect("there are mixed cases")
}
