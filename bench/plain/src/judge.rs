// Holds: the tests of a start and of an event, each with its refusal.
// Rests on: arrays, index, call, mask, set.

use crate::arrays::{cell, Board, ACCOUNTS, DOWN, FORMS};
use crate::call::{Answer, Cut, Fields, Refusal, Setup};
use crate::index::nets_all;
use crate::mask;
use crate::set::{POSTINGS, SITES};

/// The pairs 0-2, 0-3, 1-1, 1-2 and 2-3, both ways round; row i, column j at bit 4i + j.
const FIXED_PAIRS: u16 = 0x5B6C;

const MAX_AMOUNT: u32 = 1_000_000_000;
const MAX_RATE: u32 = 10_000;

fn unless(so: bool, refusal: Refusal) -> Answer {
    if so {
        Ok(())
    } else {
        Err(refusal)
    }
}

fn is_symmetric(matrix: u16) -> bool {
    let says = |i: usize, j: usize| matrix >> (4 * i + j) & 1;
    (0..4).all(|i| (0..i).all(|j| says(i, j) == says(j, i)))
}

pub fn judge_start(setup: &Setup) -> Answer {
    let Setup { n, f, matrix } = *setup;
    unless((3..=SITES).contains(&n.into()), Refusal::SiteCount)?;
    unless(2 * u16::from(f) < n.into(), Refusal::CrashCount)?;
    unless(is_symmetric(matrix), Refusal::NotSymmetric)?;
    unless(matrix & FIXED_PAIRS == FIXED_PAIRS, Refusal::LacksFixedPair)
}

/// Whether fields fit their row of the table of kinds.
pub fn judge_fields(fields: &Fields) -> Answer {
    let Fields { kind, a, b, amount } = *fields;
    let known = usize::from(a.max(b)) < ACCOUNTS || nets_all(kind, a, b);
    let in_row = match kind {
        0 => a != b && (1..=MAX_AMOUNT).contains(&amount),
        1 => a == b && amount <= MAX_RATE,
        2 | 3 => a == b && amount == 0,
        _ => false,
    };
    unless(known && in_row, Refusal::BadField)
}

impl Board {
    pub fn judge_site(&self, site: usize) -> Answer {
        unless(site < self.setup.n.into(), Refusal::NoSuchSite)
    }

    pub fn judge_up(&self, site: usize) -> Answer {
        unless(self.is_up(site), Refusal::SiteDown)
    }

    pub fn judge_in_flight(&self, form: usize, m: usize, from: usize, to: usize) -> Answer {
        let known = form < FORMS && m < POSTINGS;
        let in_flight = known && mask::has(self.masks[cell(form, m, from)], to);
        unless(in_flight, Refusal::NotInFlight)
    }

    /// One crash more must not exceed f.
    pub fn judge_crash(&self) -> Answer {
        let down = self.bytes[DOWN].count_ones();
        unless(down < self.setup.f.into(), Refusal::TooManyCrashes)
    }

    /// A cut, if there is one, is a crash, and names no more sends than the step has.
    pub fn judge_cut(&self, cut: Cut, sends: u8) -> Answer {
        let Some(j) = cut else { return Ok(()) };
        self.judge_crash()?;
        unless(j <= sends, Refusal::CutTooLong)
    }
}
