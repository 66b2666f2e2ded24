// Holds: the plain judge of what is handed over: the refusal that applies, or none.
// Rests on: answer, handed, rule; the model's field rule and its tests of a matrix.

use crate::answer::{Answer, BAD_FIELDS, BAD_MATRIX, BAD_SITES, BAD_SIZES, TWICE, UNKNOWN};
use crate::handed::{Handed, Lent};
use crate::rule;
use model::{fields_ok, matrix_has_fixed_pairs, matrix_symmetric};

pub const NUMBERS: usize = 65_536;
pub const SITES: usize = 7;

/// Whether the ends rise, to the last line.
fn ends_fit(handed: &Handed) -> bool {
    handed.ends.is_sorted() && handed.ends.last() == Some(&handed.lines.len())
}

/// Whether the four slices of fields have one length, which is not too large.
pub fn fields_fit(handed: &Handed) -> bool {
    let count = handed.kinds.len();
    let others = [
        handed.firsts.len(),
        handed.seconds.len(),
        handed.amounts.len(),
    ];
    count <= NUMBERS && others == [count; 3]
}

fn lent_fit(handed: &Handed, lent: &Lent) -> bool {
    let count = handed.kinds.len();
    lent.marks.len() >= count && lent.places.len() >= count && lent.ahead.len() / 8 >= count
}

/// The lowest number whose posting has fields outside their row.
pub fn outside(handed: &Handed) -> Option<usize> {
    (0..handed.numbers()).find(|&x| {
        let p = handed.posting(x);
        handed.knows(x) && !fields_ok(p.kind.into(), p.a.into(), p.b.into(), p.amount.into())
    })
}

/// The first line of all with a number that has no posting.
fn unknown(handed: &Handed) -> Option<Answer> {
    (0..handed.ends.len()).find_map(|site| {
        let record = handed.record(site);
        let line = record.iter().position(|&x| !handed.knows(x.into()))?;
        Some(Answer::at(UNKNOWN, site, line, record[line].into()))
    })
}

/// The first line of all whose number stands above it in its record.
fn twice(handed: &Handed) -> Option<Answer> {
    (0..handed.ends.len()).find_map(|site| {
        let record = handed.record(site);
        let first = |line: &usize| record.iter().position(|x| *x == record[*line]);
        let line = (0..record.len()).find(|line| first(line) < Some(*line))?;
        Some(Answer {
            above: first(&line)? as u64,
            ..Answer::at(TWICE, site, line, record[line].into())
        })
    })
}

/// The lowest refusal that applies.
pub fn refusal(handed: &Handed, lent: &Lent) -> Option<Answer> {
    if handed.ends.is_empty() || handed.ends.len() > SITES {
        return Some(Answer::only(BAD_SITES));
    }
    if !matrix_symmetric(handed.matrix) || !matrix_has_fixed_pairs(handed.matrix) {
        return Some(Answer::only(BAD_MATRIX));
    }
    if !fields_fit(handed) || !ends_fit(handed) || !lent_fit(handed, lent) {
        return Some(Answer::only(BAD_SIZES));
    }
    if let Some(x) = outside(handed) {
        return Some(Answer::at(BAD_FIELDS, 0, 0, x));
    }
    unknown(handed).or_else(|| twice(handed))
}

/// The answer by definition, whatever is handed over.
pub fn answer(handed: &Handed, lent: &Lent) -> Answer {
    refusal(handed, lent).unwrap_or_else(|| rule::audit(handed))
}
