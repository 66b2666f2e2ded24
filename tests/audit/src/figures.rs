// Holds: the figures of one record by plain sums of 128 bits, and what is refused.
// Rests on: answer, handed, judge; the model's postings.

use crate::answer::{BAD_FIELDS, BAD_SIZES, UNKNOWN};
use crate::handed::Handed;
use crate::judge::{fields_fit, outside, NUMBERS};
use model::posting::{CALLED, POSITION, RATE_OF, SETTLED};
use model::{touches, Posting, ACCOUNTS, FIGURES};

/// What a CALL adds: nothing where the position is zero or below, else position × rate ÷ 10,000, rounded up.
fn called(position: i128, rate: i128) -> i128 {
    if position <= 0 {
        return 0;
    }
    (position * rate + 9_999) / 10_000
}

/// One posting with sound fields, on the four figures of an account that it touches.
fn post(p: &Posting, account: u8, figures: &mut [i128]) {
    let amount = i128::from(p.amount);
    match p.kind {
        0 if p.a == account => figures[POSITION] += amount,
        0 => figures[POSITION] -= amount,
        1 => figures[RATE_OF] = amount,
        2 => figures[CALLED] += called(figures[POSITION], figures[RATE_OF]),
        _ => {
            figures[SETTLED] += figures[POSITION];
            figures[POSITION] = 0;
        }
    }
}

/// The 64 numbers of the lines as one record, from zeros.
pub fn figures(handed: &Handed) -> [i64; FIGURES] {
    let mut figures = [0; FIGURES];
    for &x in &handed.lines {
        let p = handed.posting(x.into());
        for account in (0..ACCOUNTS as u8).filter(|&account| touches(&p, account)) {
            let from = 4 * usize::from(account);
            post(&p, account, &mut figures[from..from + 4]);
        }
    }
    figures.map(|figure| figure.try_into().expect("it fits into 64 bits"))
}

/// The lowest refusal that applies, with so many numbers of room.
pub fn refusal(handed: &Handed, room: usize) -> Option<u64> {
    if !fields_fit(handed) || handed.lines.len() > NUMBERS || room < FIGURES {
        return Some(BAD_SIZES);
    }
    if outside(handed).is_some() {
        return Some(BAD_FIELDS);
    }
    let known = |&x: &u16| handed.knows(x.into());
    (!handed.lines.iter().all(known)).then_some(UNKNOWN)
}

/// The answer, and what the slice holds after it.
pub fn answer(handed: &Handed, out: &[i64]) -> (u8, Vec<i64>) {
    let mut after = out.to_vec();
    let refused = refusal(handed, out.len());
    if refused.is_none() {
        after[..FIGURES].copy_from_slice(&figures(handed));
    }
    (refused.unwrap_or(0) as u8, after)
}
