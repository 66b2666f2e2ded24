// Holds: run files of many sorts, each made anew from a seed, its sort and its number.
// Rests on: carried, damage, full; the model's generators.

use crate::carried::{carried_file, carried_run, offered_file};
use crate::damage;
use crate::full::{full_file, netted_file, trades_file};
use model::gen::{legal_matrix, mix_for, random_run, Mix};
use model::malform::{malformed_file, refused_file, FLAWS};
use model::prng::Prng;
use model::runfile::{encode, EVENT, HEADER, MAX_EVENTS};
use model::Call;

/// Every n and f that a start accepts.
pub const STARTS: [(u8, u8); 14] = [
    (3, 0),
    (3, 1),
    (4, 0),
    (4, 1),
    (5, 0),
    (5, 1),
    (5, 2),
    (6, 0),
    (6, 1),
    (6, 2),
    (7, 0),
    (7, 1),
    (7, 2),
    (7, 3),
];

pub struct Sort {
    pub name: &'static str,
    pub count: usize,
    make: fn(&mut Prng, usize) -> Vec<u8>,
}

pub(crate) const fn sort(
    name: &'static str,
    count: usize,
    make: fn(&mut Prng, usize) -> Vec<u8>,
) -> Sort {
    Sort { name, count, make }
}

pub static SORTS: [Sort; 18] = [
    sort("mixed runs", 14 * 120, mixed),
    sort("runs with faults", 14 * 60, faulty),
    sort("odd arguments", 14 * 40, odd),
    sort("carried to the end", 14 * 15, carried),
    sort("carried, some cut", 14 * 15, cut_late),
    sort("long runs", 14 * 3, long),
    sort("offers alone", 14 * COUNTS.len(), offers),
    sort("full records", 5, |_, k| full_file(3 + k as u8)),
    sort("netted at the end", 5, |_, k| netted_file(3 + k as u8)),
    sort("longest drains", 4, |_, f| trades_file(7, f as u8)),
    sort("refused starts", 400, refused),
    sort("malformed", 8 * 80, malformed),
    sort("every start", damage::STARTS, |_, k| damage::start(k)),
    sort("every matrix", damage::MATRICES, |_, k| damage::matrix(k)),
    sort("every byte", damage::BYTES, |_, k| damage::byte(k)),
    sort("every length", damage::LENGTHS, |_, k| damage::length(k)),
    sort("any fields", 400, |rng, _| damage::any_fields(rng)),
    sort("any bytes", 300, |rng, _| damage::any_bytes(rng)),
];

/// The generator of numbers for one file, from which a comparison may go on drawing.
pub fn numbers(seed: u64, sort: &Sort, k: usize) -> Prng {
    let name = sort.name.bytes();
    let mixed = name.fold(seed, |word, byte| Prng::new(word ^ u64::from(byte)).word());
    Prng::new(mixed ^ k as u64)
}

impl Sort {
    pub fn file(&self, rng: &mut Prng, k: usize) -> Vec<u8> {
        (self.make)(rng, k)
    }
}

/// The header of a file and some of its events, or all of them.
pub(crate) fn beginning<'a>(rng: &mut Prng, file: &'a [u8]) -> &'a [u8] {
    let events = file.len().saturating_sub(HEADER) / EVENT;
    let some = rng.below(events as u64 + 1) as usize;
    &file[..file.len().min(HEADER + EVENT * some)]
}

/// The kth start, with a matrix at random.
pub(crate) fn start(rng: &mut Prng, k: usize) -> (u8, u8, u16) {
    let (n, f) = STARTS[k % STARTS.len()];
    (n, f, legal_matrix(rng))
}

fn run(rng: &mut Prng, k: usize, events: usize, mix: &Mix) -> Vec<u8> {
    let start = start(rng, k);
    let run = random_run(rng, start, events, mix);
    encode(&run).expect("a mix that is not wide fits the file")
}

fn mixed(rng: &mut Prng, k: usize) -> Vec<u8> {
    let most = rng.pick(&[20, 80, 200, 200, 600]);
    let events = rng.below(most) as usize;
    let mix = mix_for(rng, events);
    run(rng, k, events, &mix)
}

/// Cuts and crashes as often as f allows them, and few calls that are refused.
fn faulty(rng: &mut Prng, k: usize) -> Vec<u8> {
    let events = rng.within(30, 250) as usize;
    let mix = Mix {
        crashes: rng.pick(&[0, 1, 2]),
        cuts: rng.pick(&[1, 2, 5]),
        odd: rng.pick(&[0, 0, 5]),
        ..mix_for(rng, events)
    };
    run(rng, k, events, &mix)
}

fn odd(rng: &mut Prng, k: usize) -> Vec<u8> {
    let events = rng.within(30, 150) as usize;
    let odd = rng.pick(&[50, 90]);
    let mix = Mix {
        odd,
        ..mix_for(rng, events)
    };
    run(rng, k, events, &mix)
}

fn carried(rng: &mut Prng, k: usize) -> Vec<u8> {
    let postings = rng.within(1, 20) as usize;
    let accounts = rng.pick(&[2, 4, 16]);
    let start = start(rng, k);
    carried_file(rng, start, postings, accounts)
}

/// A carried run with one cut more than f allows, half of them at reads; what comes after stays as it was.
fn cut_late(rng: &mut Prng, k: usize) -> Vec<u8> {
    let start = start(rng, k);
    let mut run = carried_run(rng, start, 12, 3);
    for _ in 0..=run.f {
        let reads_only = rng.percent(50);
        let from = rng.below(run.calls.len() as u64) as usize;
        let later = run.calls[from..].iter_mut().find_map(|call| match call {
            Call::Offer { cut, .. } | Call::Receive { cut, .. } if !reads_only => Some(cut),
            Call::Read { cut, .. } => Some(cut),
            _ => None,
        });
        if let Some(cut) = later {
            *cut = rng.pick(&[Some(0), Some(0), Some(1), Some(2), Some(4)]);
        }
    }
    encode(&run).expect("no call is larger than its fields")
}

fn long(rng: &mut Prng, k: usize) -> Vec<u8> {
    let fewer = rng.below(3) as usize;
    let events = MAX_EVENTS - fewer;
    let mix = mix_for(rng, events);
    run(rng, k, events, &mix)
}

/// Around the ends of a set's words, and one more than there is room for.
const COUNTS: [usize; 8] = [0, 1, 63, 64, 65, 255, 256, 257];

/// So many offers, for a drain to take to quiet.
fn offers(rng: &mut Prng, k: usize) -> Vec<u8> {
    let accounts = rng.pick(&[2, 4, 16]);
    let start = start(rng, k);
    offered_file(rng, start, COUNTS[k / STARTS.len()], accounts)
}

fn refused(rng: &mut Prng, _: usize) -> Vec<u8> {
    let events = rng.below(40) as usize;
    refused_file(rng, events)
}

fn malformed(rng: &mut Prng, k: usize) -> Vec<u8> {
    let events = rng.below(40) as usize;
    malformed_file(rng, events, FLAWS[k % FLAWS.len()])
}
