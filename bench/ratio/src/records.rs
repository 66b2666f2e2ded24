// Holds: many postings with the records of seven sites, as they are handed over for an audit.
// Rests on: the model's postings and random numbers, the plain twin's form of what is handed over.

use model::posting::{CALL, MAX_AMOUNT, MAX_RATE, NET, RATE, TRADE};
use model::prng::Prng;
use model::{conflict, Posting, ACCOUNTS, FIXED_PAIRS, HOUSE_NET};
use plain::audit::Handed;

/// How far a site may run ahead of the lowest number that it has not booked.
const WINDOW: usize = 60;
const SITES: usize = 7;

/// Postings, and the records of all sites, of which the last is a tenth shorter.
pub struct Records {
    pub postings: Vec<Posting>,
    kinds: Vec<u8>,
    firsts: Vec<u8>,
    seconds: Vec<u8>,
    amounts: Vec<u32>,
    pub lines: Vec<u16>,
    ends: Vec<usize>,
}

/// Of a hundred 90 are TRADE, 2 RATE, 7 CALL and 1 NET of one account.
fn posting(rng: &mut Prng) -> Posting {
    let a = rng.below(ACCOUNTS as u64) as u8;
    let of = |kind, b, amount: u64| Posting {
        owner: 0,
        kind,
        a,
        b,
        amount: amount as u32,
    };
    match rng.below(100) {
        0..=1 => of(RATE, a, rng.below(MAX_RATE + 1)),
        2..=8 => of(CALL, a, 0),
        9 => of(NET, a, 0),
        _ => {
            let b = (a + rng.within(1, ACCOUNTS as u64 - 1) as u8) % ACCOUNTS as u8;
            of(TRADE, b, rng.within(1, MAX_AMOUNT))
        }
    }
}

/// A record of so many lines: any posting of a window is next that conflicts with none ahead of it there.
fn record(rng: &mut Prng, postings: &[Posting], length: usize) -> Vec<u16> {
    let mut waiting: Vec<usize> = Vec::new();
    let mut numbers = 0..postings.len();
    let mut record = Vec::with_capacity(length);
    let conflicts = |x: usize, y: usize| conflict(FIXED_PAIRS, &postings[x], &postings[y]);
    while record.len() < length {
        waiting.extend(numbers.by_ref().take(WINDOW - waiting.len()));
        let mut k = rng.below(waiting.len() as u64) as usize;
        while waiting[..k].iter().any(|&x| conflicts(x, waiting[k])) {
            k = rng.below(k as u64) as usize;
        }
        record.push(waiting.remove(k) as u16);
    }
    record
}

impl Records {
    /// So many postings, of which each one with a number that is a multiple nets all accounts, if one is given.
    pub fn new(rng: &mut Prng, count: usize, nets_all: Option<usize>) -> Records {
        let postings = (0..count).map(|x| match nets_all {
            Some(every) if x % every == 0 => HOUSE_NET,
            _ => posting(rng),
        });
        let postings: Vec<Posting> = postings.collect();
        let mut records = Records {
            kinds: postings.iter().map(|p| p.kind).collect(),
            firsts: postings.iter().map(|p| p.a).collect(),
            seconds: postings.iter().map(|p| p.b).collect(),
            amounts: postings.iter().map(|p| p.amount).collect(),
            lines: Vec::new(),
            ends: Vec::new(),
            postings,
        };
        for site in 0..SITES {
            let short = if site + 1 < SITES { 0 } else { count / 10 };
            let lines = record(rng, &records.postings, count - short);
            records.lines.extend(lines);
            records.ends.push(records.lines.len());
        }
        records
    }

    /// With the last line moved up to just above the last one that conflicts with it.
    pub fn with_a_fault(mut self) -> Records {
        let last = self.lines.len() - 1;
        let of = |line: usize| &self.postings[usize::from(self.lines[line])];
        let above = (0..last).rfind(|&line| conflict(FIXED_PAIRS, of(line), of(last)));
        let above = above.expect("some posting conflicts with the last one");
        self.lines[above..].rotate_right(1);
        self
    }

    pub fn handed(&self) -> Handed<'_> {
        Handed {
            matrix: FIXED_PAIRS,
            kinds: &self.kinds,
            firsts: &self.firsts,
            seconds: &self.seconds,
            amounts: &self.amounts,
            lines: &self.lines,
            ends: &self.ends,
        }
    }
}
