// Holds: what is handed to an audit, as its slices; and the slices lent to it.
// Rests on: the model's postings.

use model::{conflict, Posting};

/// In place of a kind: no posting has this number.
pub const NO_KIND: u8 = 255;

/// A posting's fields stand at its number; the records of all sites stand one behind the other.
#[derive(Clone, Debug, Default)]
pub struct Handed {
    pub matrix: u16,
    pub kinds: Vec<u8>,
    pub firsts: Vec<u8>,
    pub seconds: Vec<u8>,
    pub amounts: Vec<u32>,
    pub lines: Vec<u16>,
    pub ends: Vec<usize>,
}

impl Handed {
    /// Postings with the numbers from 0 on, and no record.
    pub fn new(matrix: u16, postings: &[Posting]) -> Handed {
        let mut handed = Handed {
            matrix,
            ..Handed::default()
        };
        postings.iter().for_each(|p| handed.add(p));
        handed
    }

    /// One more posting, with the next number.
    pub fn add(&mut self, p: &Posting) {
        self.kinds.push(p.kind);
        self.firsts.push(p.a);
        self.seconds.push(p.b);
        self.amounts.push(p.amount);
    }

    /// The next number has no posting; its other fields are of no row.
    pub fn skip(&mut self) {
        self.add(&Posting {
            owner: 0,
            kind: NO_KIND,
            a: 200,
            b: 7,
            amount: u32::MAX,
        });
    }

    /// One more record.
    pub fn record_of(&mut self, record: &[u16]) {
        self.lines.extend_from_slice(record);
        self.ends.push(self.lines.len());
    }

    /// These records in place of all others.
    pub fn replace(&mut self, records: &[Vec<u16>]) {
        self.lines.clear();
        self.ends.clear();
        records.iter().for_each(|record| self.record_of(record));
    }

    pub fn numbers(&self) -> usize {
        self.kinds.len()
    }

    pub fn posting(&self, x: usize) -> Posting {
        Posting {
            owner: 0,
            kind: self.kinds[x],
            a: self.firsts[x],
            b: self.seconds[x],
            amount: self.amounts[x],
        }
    }

    /// Whether a number has a posting.
    pub fn knows(&self, x: usize) -> bool {
        self.kinds.get(x).is_some_and(|&kind| kind != NO_KIND)
    }

    /// Whether x and y, which have postings or not, conflict.
    pub fn conflict(&self, x: usize, y: usize) -> bool {
        let known = x != y && self.knows(x) && self.knows(y);
        known && conflict(self.matrix, &self.posting(x), &self.posting(y))
    }

    /// The record of a site, if the ends rise up to the last line.
    pub fn record(&self, site: usize) -> &[u16] {
        let from = if site == 0 { 0 } else { self.ends[site - 1] };
        &self.lines[from..self.ends[site]]
    }

    pub fn records(&self) -> Vec<Vec<u16>> {
        let sites = 0..self.ends.len();
        sites.map(|site| self.record(site).to_vec()).collect()
    }
}

/// The slices lent, with anything in them.
#[derive(Clone, Debug)]
pub struct Lent {
    pub marks: Vec<u8>,
    pub places: Vec<u32>,
    pub ahead: Vec<u32>,
}

impl Lent {
    /// As long as so many numbers need, and no longer.
    pub fn for_numbers(numbers: usize) -> Lent {
        Lent {
            marks: vec![0xA5; numbers],
            places: vec![0xA5A5_A5A5; numbers],
            ahead: vec![u32::MAX; 8 * numbers],
        }
    }
}
