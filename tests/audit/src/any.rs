// Holds: arguments of all sorts at random, sound and not: fields, lengths, ends, numbers, and the slices lent.
// Rests on: handed, judge, large; the model's matrices and random numbers.

use crate::handed::{Handed, Lent};
use crate::judge::fields_fit;
use crate::large::posting;
use model::gen::{flipped_matrix, legal_matrix};
use model::prng::Prng;
use model::Posting;

/// A few postings with gaps between them, on few accounts.
fn table(rng: &mut Prng) -> Handed {
    let mut handed = Handed::new(legal_matrix(rng), &[]);
    for _ in 0..rng.pick(&[0, 1, 2, 3, 5, 9, 14]) {
        let mut p = posting(rng, [25, 25, 15, 10]);
        if p.a < 16 {
            (p.a, p.b) = (p.a % 3, p.b % 3);
        }
        if p.kind == 0 && p.a == p.b {
            p.b = (p.a + 1) % 3;
        }
        if rng.percent(10) {
            handed.skip();
        }
        handed.add(&p);
    }
    handed
}

/// A record of some of the postings, each once: in their order, or near to it, or in any order.
fn record(rng: &mut Prng, handed: &Handed) -> Vec<u16> {
    let known = (0..handed.numbers()).filter(|&x| handed.knows(x));
    let mut record: Vec<u16> = known.map(|x| x as u16).collect();
    let count = record.len();
    for _ in 0..rng.pick(&[0, 0, 1, 3, 20]) {
        if count > 1 {
            let i = rng.below(count as u64 - 1) as usize;
            record.swap(i, i + 1);
        }
    }
    if rng.percent(50) {
        record.truncate(rng.below(count as u64 + 1) as usize);
    }
    let left_out = rng.pick(&[0, 0, 0, 10, 50]);
    record.retain(|_| !rng.percent(left_out));
    record
}

fn nearly(rng: &mut Prng, length: usize) -> usize {
    rng.pick(&[length.saturating_sub(1), length + 1, 0])
}

/// One thing that may be wrong.
fn damage(rng: &mut Prng, handed: &mut Handed) {
    let any = |rng: &mut Prng, length: usize| rng.below(length.max(1) as u64) as usize;
    let (numbers, lines, sites) = (handed.numbers(), handed.lines.len(), handed.ends.len());
    match rng.below(8) {
        0 => handed.ends.resize(rng.pick(&[0, 7, 8, 9, 20]), lines),
        1 => handed.matrix = flipped_matrix(rng),
        2 => {
            let length = nearly(rng, numbers);
            match rng.below(4) {
                0 => handed.kinds.resize(length, 2),
                1 => handed.firsts.resize(length, 0),
                2 => handed.seconds.resize(length, 0),
                _ => handed.amounts.resize(length, 0),
            }
        }
        3 if sites > 0 => {
            let end = rng.below(lines as u64 + 3) as usize;
            let at = any(rng, sites);
            handed.ends[at] = rng.pick(&[end, end, usize::MAX, 0]);
        }
        4 => handed.lines.resize(nearly(rng, lines), 0),
        5 if numbers > 0 && fields_fit(handed) => odd_field(rng, handed),
        6 if lines > 0 => {
            let at = any(rng, lines);
            let past = numbers as u64 + rng.below(3);
            handed.lines[at] = rng.pick(&[past, u16::MAX.into(), rng.clone().below(8)]) as u16;
        }
        _ if lines > 0 => {
            let [from, to] = [any(rng, lines), any(rng, lines)];
            handed.lines[to] = handed.lines[from];
        }
        _ => {}
    }
}

/// A field with a value that may be of no row.
fn odd_field(rng: &mut Prng, handed: &mut Handed) {
    let x = rng.below(handed.numbers() as u64) as usize;
    let Posting {
        kind, a, amount, ..
    } = handed.posting(x);
    match rng.below(4) {
        0 => handed.kinds[x] = rng.pick(&[kind, 0, 3, 4, 254, 255]),
        1 => handed.firsts[x] = rng.pick(&[a, 15, 16, 254, 255]),
        2 => handed.seconds[x] = rng.pick(&[a, 15, 16, 254, 255]),
        _ => handed.amounts[x] = rng.pick(&[amount, 0, 1, 10_001, 1_000_000_001, u32::MAX]),
    }
}

/// What is handed over: half of it is sound.
pub fn handed(rng: &mut Prng) -> Handed {
    let mut handed = table(rng);
    for _ in 0..rng.pick(&[1, 2, 2, 3, 4, 7]) {
        let record = record(rng, &handed);
        handed.record_of(&record);
    }
    for _ in 0..rng.pick(&[0, 0, 1, 1, 2]) {
        damage(rng, &mut handed);
    }
    handed
}

/// Slices lent with anything in them, some too short.
pub fn lent(rng: &mut Prng, numbers: usize) -> Lent {
    let mut length = |need: usize| {
        let (short, long) = (need.saturating_sub(1), need + rng.below(9) as usize);
        rng.pick(&[need, need, need, need, need, need, need, long, long, short])
    };
    let [marks, places, ahead] = [numbers, numbers, 8 * numbers].map(&mut length);
    Lent {
        marks: (0..marks).map(|_| rng.word() as u8).collect(),
        places: (0..places).map(|_| rng.word() as u32).collect(),
        ahead: (0..ahead).map(|_| rng.word() as u32).collect(),
    }
}

/// Numbers to be filled in, mostly with room for so many.
pub fn room<T>(rng: &mut Prng, need: usize, number: fn(u64) -> T) -> Vec<T> {
    let any = rng.below(need as u64 + 6) as usize;
    let length = rng.pick(&[need, need, need, need, need + 1, need + 1, need - 1, any]);
    (0..length).map(|_| number(rng.word())).collect()
}
