// Holds: faults put into records that agree: lines exchanged, left out, moved to another site's end, replaced.
// Rests on: handed; the model's postings and random numbers.

use crate::handed::Handed;
use model::posting::{MAX_AMOUNT, RATE, TRADE};
use model::prng::Prng;
use model::{Posting, ACCOUNTS, HOUSE_NET};

/// A sort of fault: the records after it, or nothing where there is no place for it.
pub struct Harm {
    pub name: &'static str,
    pub put: fn(&mut Prng, &Handed) -> Option<Handed>,
}

pub static HARMS: [Harm; 5] = [
    Harm {
        name: "exchanged",
        put: exchanged,
    },
    Harm {
        name: "left out",
        put: left_out,
    },
    Harm {
        name: "moved to another end",
        put: moved,
    },
    Harm {
        name: "RATE replaced by one there is",
        put: replaced,
    },
    Harm {
        name: "RATE replaced by a new one",
        put: replaced_by_new,
    },
];

fn below(rng: &mut Prng, bound: usize) -> Option<usize> {
    (bound > 0).then(|| rng.below(bound as u64) as usize)
}

/// Two lines of a record, not always next to each other, whose postings conflict, and their site.
fn conflicting(rng: &mut Prng, handed: &Handed, records: &[Vec<u16>]) -> Option<[usize; 3]> {
    let site = below(rng, records.len())?;
    let record = &records[site];
    let i = below(rng, record.len())?;
    let conflict = |j: &usize| handed.conflict(record[i].into(), record[*j].into());
    let later: Vec<usize> = (i + 1..record.len()).filter(conflict).collect();
    let near = later
        .len()
        .min(if rng.percent(70) { 1 } else { later.len() });
    let j = later[below(rng, near)?];
    Some([site, i, j])
}

fn with(handed: &Handed, records: &[Vec<u16>]) -> Handed {
    let mut changed = handed.clone();
    changed.replace(records);
    changed
}

fn exchanged(rng: &mut Prng, handed: &Handed) -> Option<Handed> {
    let mut records = handed.records();
    let [site, i, j] = conflicting(rng, handed, &records)?;
    records[site].swap(i, j);
    Some(with(handed, &records))
}

/// One line that a later one needs.
fn left_out(rng: &mut Prng, handed: &Handed) -> Option<Handed> {
    let mut records = handed.records();
    let [site, i, _] = conflicting(rng, handed, &records)?;
    records[site].remove(i);
    Some(with(handed, &records))
}

/// One posting taken out of a record and put at the end of another, where it stands once.
fn moved(rng: &mut Prng, handed: &Handed) -> Option<Handed> {
    let mut records = handed.records();
    let from = below(rng, records.len())?;
    let line = below(rng, records[from].len())?;
    let x = records[from].remove(line);
    let to = (from + 1 + below(rng, records.len() - 1)?) % records.len();
    records[to].retain(|&y| y != x);
    records[to].push(x);
    Some(with(handed, &records))
}

/// A line with a RATE, and its site.
fn rate(rng: &mut Prng, handed: &Handed, records: &[Vec<u16>]) -> Option<(usize, usize)> {
    let site = below(rng, records.len())?;
    let is_rate = |line: &usize| handed.kinds[usize::from(records[site][*line])] == RATE;
    let rates: Vec<usize> = (0..records[site].len()).filter(is_rate).collect();
    Some((site, rates[below(rng, rates.len())?]))
}

/// By a posting that the record lacks.
fn replaced(rng: &mut Prng, handed: &Handed) -> Option<Handed> {
    let mut records = handed.records();
    let (site, line) = rate(rng, handed, &records)?;
    let lacking = (0..handed.numbers() as u16).filter(|x| !records[site].contains(x));
    let lacking: Vec<u16> = lacking.collect();
    records[site][line] = lacking[below(rng, lacking.len())?];
    Some(with(handed, &records))
}

/// By a posting of the same account that no other record has.
fn replaced_by_new(rng: &mut Prng, handed: &Handed) -> Option<Handed> {
    let mut records = handed.records();
    let (site, line) = rate(rng, handed, &records)?;
    let old = handed.posting(records[site][line].into());
    let mut new = Posting {
        kind: rng.below(4) as u8,
        amount: 0,
        ..old
    };
    match new.kind {
        TRADE => {
            new.b = (new.a + 1) % ACCOUNTS as u8;
            new.amount = rng.within(1, MAX_AMOUNT) as u32;
        }
        RATE => new.amount = (old.amount + 1) % 10_001,
        _ if rng.percent(10) => new = HOUSE_NET,
        _ => {}
    }
    records[site][line] = handed.numbers() as u16;
    let mut changed = with(handed, &records);
    changed.add(&new);
    Some(changed)
}
