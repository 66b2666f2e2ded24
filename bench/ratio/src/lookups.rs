// Holds: what looking up 256 balances costs on boards with full records, beyond the run of the file: by the twin, and proved.
// Rests on: main, clock, filled; the model, the boards of tests/programs, the plain twin, and the static library that programs links.

use crate::clock::{in_turns, Samples, Timed};
use crate::filled::{self, Mix};
use model::lookup::{LINE, PAIRS};
use model::prng::Prng;
use model::{ACCOUNTS, POSTINGS, SITES};
use programs::programs::{left_by, LooksUp};
use programs::proved::PROVED;
use std::hint::black_box;

const SEED: u64 = 1;

/// So many runs of a file take longer than a sample need take, so that each sample has the same number of them, with pairs
/// and without.
const RUNS: u64 = 256;

const MIXES: [Mix; 3] = [
    Mix {
        name: "64 CALLs",
        calls: 64,
        nets: 0,
        house_nets: 0,
    },
    Mix {
        name: "16 CALLs",
        calls: 16,
        nets: 0,
        house_nets: 0,
    },
    Mix {
        name: "16 CALLs, 32 NETs",
        calls: 16,
        nets: 24,
        house_nets: 8,
    },
];

const SIDES: [(&str, LooksUp); 2] = [("twin", plain::run_lookup), ("proved", PROVED.run_lookup)];

/// A board with full records, and what is looked up there.
struct Case {
    name: &'static str,
    file: Vec<u8>,
    sites: usize,
    pairs: Vec<u8>,
}

/// Pairs of any of the sites, or all of one site, with any accounts.
fn pairs(rng: &mut Prng, sites: usize) -> Vec<u8> {
    let first = rng.below((SITES - sites + 1) as u64);
    let pair = |_| {
        let site = first + rng.below(sites as u64);
        [site as u8, rng.below(ACCOUNTS as u64) as u8]
    };
    (0..PAIRS).flat_map(pair).collect()
}

fn cases() -> Vec<Case> {
    let mut rng = Prng::new(SEED);
    let mut cases = Vec::new();
    for mix in &MIXES {
        let file = filled::file(&mut rng, mix);
        for sites in [SITES, 1] {
            cases.push(Case {
                name: mix.name,
                file: file.clone(),
                sites,
                pairs: pairs(&mut rng, sites),
            });
        }
    }
    cases
}

/// The answer and the slice.
fn answer(side: LooksUp, file: &[u8], pairs: &[u8]) -> (u64, Vec<i64>) {
    let mut out = vec![-1; LINE * PAIRS];
    let places = side(file, pairs, &mut out);
    (places, out)
}

/// As the sides answer where nothing is refused.
fn model(file: &[u8], pairs: &[u8], out: &mut [i64]) -> u64 {
    let board = left_by(file).expect("the file runs");
    let places = board.look_up(pairs, out);
    places.expect("the pairs are those of a board") as u64
}

/// Ends the benchmark if a side does not answer as the model does, or if not all places of the sites are visited.
fn check(case: &Case) {
    for pairs in [case.pairs.as_slice(), &[]] {
        let wanted = answer(model, &case.file, pairs);
        for (name, side) in SIDES {
            let given = answer(side, &case.file, pairs);
            assert!(given == wanted, "{name}, {}", case.name);
        }
    }
    let (places, _) = answer(model, &case.file, &case.pairs);
    assert_eq!(places, (case.sites * POSTINGS) as u64, "{}", case.name);
}

/// Runs the file and looks the pairs up, so many times; each time is an event.
fn timed<'a>(side: LooksUp, file: &'a [u8], pairs: &'a [u8]) -> Timed<'a> {
    let mut out = vec![0; LINE * PAIRS];
    let work = move || {
        for _ in 0..RUNS {
            black_box(side(black_box(file), black_box(pairs), &mut out));
        }
    };
    (RUNS, Box::new(work))
}

/// What the pairs add to the call of each side: by the best, and turn by turn. The sides change from sample to sample,
/// since the first calls after the other side's are slower.
fn added(case: &Case) -> [(f64, Samples); 2] {
    let [twin, proved] = SIDES.map(|(_, side)| side);
    let with = |side| timed(side, &case.file, &case.pairs);
    let without = |side| timed(side, &case.file, &[]);
    let mut calls = [with(twin), with(proved), without(twin), without(proved)];
    let speeds = in_turns(&mut calls);
    [0, 1].map(|side| Samples::beyond(&speeds[side], &speeds[side + 2]))
}

/// One line for each mix and number of sites named: µs a look-up on each side, and the proved side against the twin.
pub fn table() {
    println!("Look-ups: {PAIRS} pairs on seven full records. µs that the pairs add to the run of a file.\n");
    print!("{:18}  sites  places", "records");
    SIDES.iter().for_each(|(name, _)| print!("  {name:>10}"));
    println!("  {:>12}    from      to", "proved/twin");
    for case in cases() {
        check(&case);
        let (name, sites) = (case.name, case.sites);
        print!("{name:18}  {sites:5}  {:6}", sites * POSTINGS);
        let [twin, proved] = added(&case);
        [&twin, &proved]
            .iter()
            .for_each(|(best, _)| print!("  {:10.2}", 1e6 * best));
        crate::show_ratio(twin.0 / proved.0, &Samples::ratio(&twin.1, &proved.1));
        println!();
    }
    println!();
}
