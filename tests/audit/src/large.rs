// Holds: many postings with records that agree, and faults put into them whose answers are known from how they were put.
// Rests on: answer, handed; the model's postings and random numbers.

use crate::answer::{Answer, APART, CROSSED, MISSING};
use crate::handed::Handed;
use model::posting::{CALL, MAX_AMOUNT, NET, RATE, TRADE};
use model::prng::Prng;
use model::{Posting, ACCOUNTS, HOUSE_NET};

/// How far a site may run ahead of the lowest number that it has not booked.
const WINDOW: usize = 60;

/// A posting of any kind: of a hundred, so many are RATE, CALL, NET of one account and NET of all.
pub fn posting(rng: &mut Prng, [rates, calls, nets, nets_of_all]: [u64; 4]) -> Posting {
    let drawn = rng.below(100);
    let a = rng.below(ACCOUNTS as u64) as u8;
    let of = |kind, amount: u64| Posting {
        owner: 0,
        kind,
        a,
        b: a,
        amount: amount as u32,
    };
    let kinds = [rates, rates + calls, rates + calls + nets];
    match kinds.iter().position(|&end| drawn < end) {
        Some(0) => of(RATE, rng.below(10_001)),
        Some(1) => of(CALL, 0),
        Some(_) => of(NET, 0),
        None if drawn < kinds[2] + nets_of_all => HOUSE_NET,
        None => {
            let b = (a + rng.within(1, ACCOUNTS as u64 - 1) as u8) % ACCOUNTS as u8;
            Posting {
                b,
                ..of(TRADE, rng.within(1, MAX_AMOUNT))
            }
        }
    }
}

/// A record of so many lines that agrees with the order of the numbers: any posting of a window is next that conflicts
/// with none ahead of it there.
pub fn record(rng: &mut Prng, handed: &Handed, length: usize) -> Vec<u16> {
    let mut waiting: Vec<usize> = Vec::new();
    let mut numbers = 0..handed.numbers();
    let mut record = Vec::with_capacity(length);
    while record.len() < length {
        waiting.extend(numbers.by_ref().take(WINDOW - waiting.len()));
        let mut k = rng.below(waiting.len() as u64) as usize;
        while waiting[..k].iter().any(|&x| handed.conflict(x, waiting[k])) {
            k = rng.below(k as u64) as usize;
        }
        record.push(waiting.remove(k) as u16);
    }
    record
}

/// Seven records of all postings, the last of which is a tenth shorter.
pub fn seven(rng: &mut Prng, handed: &Handed) -> Vec<Vec<u16>> {
    let count = handed.numbers();
    let lengths = (0..7).map(|site| if site < 6 { count } else { count - count / 10 });
    lengths.map(|length| record(rng, handed, length)).collect()
}

/// Records with a fault, and the answer.
pub struct Planted {
    pub records: Vec<Vec<u16>>,
    pub wanted: Answer,
}

fn pair(code: u64, [first, second, here, there]: [u64; 4], departs: Answer) -> Planted {
    let wanted = Answer {
        code,
        first,
        second,
        here,
        there,
        ..departs
    };
    Planted {
        records: Vec::new(),
        wanted,
    }
}

/// The next line whose posting conflicts with that of line i.
fn next_conflict(handed: &Handed, record: &[u16], i: usize) -> Option<usize> {
    let x = usize::from(record[i]);
    (i + 1..record.len()).find(|&j| handed.conflict(x, record[j].into()))
}

/// Of a site after the first, the next line that conflicts with line i moved up to it. The first site has all, so it
/// has every posting between them ahead of the one moved, if they conflict.
pub fn moved_up(handed: &Handed, records: &[Vec<u16>], site: usize, i: usize) -> Option<Planted> {
    let j = next_conflict(handed, &records[site], i)?;
    let y = records[site][j];
    let between = records[site][i..j].iter();
    let lowest = between
        .filter(|&&x| handed.conflict(x.into(), y.into()))
        .min();
    let x = *lowest?;
    let departs = Answer::at(0, site, i, x.into());
    let mut planted = pair(CROSSED, [x.into(), y.into(), 0, site as u64], departs);
    planted.records = records.to_vec();
    planted.records[site].remove(j);
    planted.records[site].insert(i, y);
    Some(planted)
}

/// Of a site after the first, line i left out, which the next line that conflicts with it needs.
pub fn left_out(handed: &Handed, records: &[Vec<u16>], site: usize, i: usize) -> Option<Planted> {
    let j = next_conflict(handed, &records[site], i)?;
    let [x, y] = [i, j].map(|line| records[site][line]);
    let departs = Answer::at(0, site, j - 1, x.into());
    let mut planted = pair(MISSING, [x.into(), y.into(), site as u64, 0], departs);
    planted.records = records.to_vec();
    planted.records[site].remove(i);
    Some(planted)
}

/// Of the first site, a line i exchanged with the one below it, if they conflict: the second site, which has all, departs
/// at the posting of line i.
pub fn exchanged(handed: &Handed, records: &[Vec<u16>], i: usize) -> Option<Planted> {
    let [&x, &y] = [records[0].get(i)?, records[0].get(i + 1)?];
    if !handed.conflict(x.into(), y.into()) {
        return None;
    }
    let line = records[1].iter().position(|&z| z == x)?;
    let departs = Answer::at(0, 1, line, y.into());
    let mut planted = pair(CROSSED, [y.into(), x.into(), 0, 1], departs);
    planted.records = records.to_vec();
    planted.records[0].swap(i, i + 1);
    Some(planted)
}

/// Two RATEs of one account in place of the last two postings, and of the records that are whole the first and the last:
/// the first lacks the last posting, the last, which departs at its last line, the one before it.
pub fn apart(handed: &mut Handed, records: &[Vec<u16>]) -> Planted {
    let numbers = handed.numbers();
    let [x, y] = [numbers - 2, numbers - 1];
    for number in [x, y] {
        handed.kinds[number] = RATE;
        handed.firsts[number] = 3;
        handed.seconds[number] = 3;
        handed.amounts[number] = 1;
    }
    let mut records = records.to_vec();
    let last = records.len() - 2;
    for record in &mut records {
        record.retain(|&z| usize::from(z) < x);
    }
    records[0].push(x as u16);
    records[last].push(y as u16);
    let departs = Answer::at(0, last, records[last].len() - 1, x);
    let planted = pair(APART, [x as u64, y as u64, 0, last as u64], departs);
    Planted { records, ..planted }
}
