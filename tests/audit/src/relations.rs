// Holds: tables of four postings for each of the 64 symmetric relations on four, with numbers that have gaps between them.
// Rests on: handed, order; the model's postings, matrices and random numbers.

use crate::handed::Handed;
use crate::order::Relation;
use model::gen::legal_matrix;
use model::posting::{MAX_AMOUNT, RATE, TRADE};
use model::prng::Prng;
use model::{nets_house, Posting, HOUSE_NET};

pub const RELATIONS: usize = 64;

/// Draws after which a relation without a table would have been found.
const DRAWS: usize = 2_000_000;

/// Four postings: which number each has, and what is handed over without records.
#[derive(Clone, Debug)]
pub struct Table {
    pub handed: Handed,
    pub numbers: [u16; 4],
    pub relation: Relation,
}

impl Table {
    /// The relation's own number: a bit for each pair.
    pub fn bits(&self) -> usize {
        let pairs = (0..4).flat_map(|y| (0..y).map(move |x| (x, y)));
        let pairs = pairs.enumerate();
        pairs.fold(0, |bits, (k, (x, y))| {
            bits | usize::from(self.relation[x][y]) << k
        })
    }

    /// Whether one of its postings nets every account.
    pub fn nets_all(&self) -> bool {
        let numbers = self.numbers.iter();
        let mut postings = numbers.map(|&x| self.handed.posting(x.into()));
        postings.any(|p| nets_house(&p))
    }
}

/// A posting of any kind on one of a few accounts.
fn posting(rng: &mut Prng) -> Posting {
    if rng.percent(15) {
        return HOUSE_NET;
    }
    let accounts = [0, 1, 2, 3, 15];
    let kind = rng.below(4) as u8;
    let a = rng.pick(&accounts);
    let mut b = a;
    while kind == TRADE && b == a {
        b = rng.pick(&accounts);
    }
    let amount = match kind {
        TRADE => rng.within(1, MAX_AMOUNT),
        RATE => rng.below(10_001),
        _ => 0,
    };
    Posting {
        owner: 0,
        kind,
        a,
        b,
        amount: amount as u32,
    }
}

fn table(rng: &mut Prng) -> Table {
    let mut handed = Handed::new(legal_matrix(rng), &[]);
    let mut numbers = [0; 4];
    for number in &mut numbers {
        if rng.percent(25) {
            handed.skip();
        }
        *number = handed.numbers() as u16;
        handed.add(&posting(rng));
    }
    let conflict = |x: u16, y: u16| handed.conflict(x.into(), y.into());
    let relation = numbers.map(|x| numbers.map(|y| conflict(x, y)));
    Table {
        handed,
        numbers,
        relation,
    }
}

/// So many tables for each relation.
pub fn tables(seed: u64, each: usize) -> Vec<Vec<Table>> {
    let mut rng = Prng::new(seed);
    let mut found: Vec<Vec<Table>> = vec![Vec::new(); RELATIONS];
    for _ in 0..DRAWS {
        let table = table(&mut rng);
        let own = &mut found[table.bits()];
        if own.len() < each {
            own.push(table);
        }
        if found.iter().all(|own| own.len() == each) {
            return found;
        }
    }
    panic!("a relation has too few tables");
}
