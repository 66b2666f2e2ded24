// Holds: the judge of what is handed over for an audit: the lowest refusal that applies, with its place.
// Rests on: audit.

use super::{nets_all, Answer, Handed, Lent, FILLED};

const NUMBERS: usize = 65_536;
const SITES: usize = 7;
const ACCOUNTS: u8 = 16;
const NO_KIND: u8 = 255;

/// The pairs 0-2, 0-3, 1-1, 1-2 and 2-3, both ways round; row i, column j at bit 4i + j.
pub(crate) const FIXED_PAIRS: u16 = 0x5B6C;

const MAX_AMOUNT: u32 = 1_000_000_000;
const MAX_RATE: u32 = 10_000;

const BAD_SITES: u64 = 1;
const BAD_MATRIX: u64 = 2;
const BAD_SIZES: u64 = 3;
const BAD_FIELDS: u64 = 5;
const UNKNOWN: u64 = 7;
const TWICE: u64 = 9;

fn refused(code: u64, site: usize, line: usize, posting: usize, above: usize) -> Answer {
    let mut named = [0; FILLED];
    for (name, number) in named.iter_mut().zip([site, line, posting, above]) {
        *name = number as u64;
    }
    Answer { code, named }
}

fn is_symmetric(matrix: u16) -> bool {
    let says = |i: usize, j: usize| matrix >> (4 * i + j) & 1;
    (0..4).all(|i| (0..i).all(|j| says(i, j) == says(j, i)))
}

pub(crate) fn matrix_ok(matrix: u16) -> bool {
    is_symmetric(matrix) && matrix & FIXED_PAIRS == FIXED_PAIRS
}

pub(crate) fn in_row(kind: u8, a: u8, b: u8, amount: u32) -> bool {
    let known = a.max(b) < ACCOUNTS || nets_all(kind, a, b);
    known
        && match kind {
            0 => a != b && (1..=MAX_AMOUNT).contains(&amount),
            1 => a == b && amount <= MAX_RATE,
            2 | 3 => a == b && amount == 0,
            _ => false,
        }
}

impl Handed<'_> {
    pub(super) fn judge(&self, lent: &mut Lent) -> Result<(), Answer> {
        let code = self.judge_sizes(lent);
        if code != 0 {
            return Err(refused(code, 0, 0, 0, 0));
        }
        self.judge_fields()?;
        self.judge_known()?;
        self.judge_once(lent.marks)
    }

    fn judge_sizes(&self, lent: &Lent) -> u64 {
        let count = self.kinds.len();
        let fields = [self.firsts.len(), self.seconds.len(), self.amounts.len()];
        let fields_fit = count <= NUMBERS && fields == [count; 3];
        let ends_fit = self.ends.is_sorted() && self.ends.last() == Some(&self.lines.len());
        let room = lent.marks.len() >= count && lent.places.len() >= count;
        if !(1..=SITES).contains(&self.ends.len()) {
            BAD_SITES
        } else if !matrix_ok(self.matrix) {
            BAD_MATRIX
        } else if !fields_fit || !ends_fit || !room || lent.ahead.len() < 8 * count {
            BAD_SIZES
        } else {
            0
        }
    }

    fn judge_fields(&self) -> Result<(), Answer> {
        let accounts = self.firsts.iter().zip(self.seconds);
        let fields = self.kinds.iter().zip(accounts).zip(self.amounts);
        for (x, ((&kind, (&a, &b)), &amount)) in fields.enumerate() {
            if kind != NO_KIND && !in_row(kind, a, b, amount) {
                return Err(refused(BAD_FIELDS, 0, 0, x, 0));
            }
        }
        Ok(())
    }

    fn judge_known(&self) -> Result<(), Answer> {
        let known = |x: usize| self.kinds.get(x).is_some_and(|&kind| kind != NO_KIND);
        for (site, record) in self.records().enumerate() {
            if let Some(line) = record.iter().position(|&x| !known(x.into())) {
                return Err(refused(UNKNOWN, site, line, record[line].into(), 0));
            }
        }
        Ok(())
    }

    /// A number is marked with the last site that names it, from 1 on.
    fn judge_once(&self, marks: &mut [u8]) -> Result<(), Answer> {
        marks.fill(0);
        for (site, record) in self.records().enumerate() {
            for (line, &x) in record.iter().enumerate() {
                let mark = &mut marks[usize::from(x)];
                if *mark == site as u8 + 1 {
                    let above = record[..line].iter().position(|&y| y == x);
                    return Err(refused(TWICE, site, line, x.into(), above.unwrap_or(line)));
                }
                *mark = site as u8 + 1;
            }
        }
        Ok(())
    }
}
