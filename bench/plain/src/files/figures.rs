// Holds: the figures of a record, posted from zeros, and how an amount is shown.
// Rests on: lines; audit for what nets every account.

use super::lines::Fields;
use crate::audit::nets_all;

pub const ACCOUNTS: usize = 16;
pub const OF_ACCOUNT: usize = 4;

/// Where a figure stands among those of its account.
const POSITION: usize = 0;
pub const RATE: usize = 1;
const CALLED: usize = 2;
const SETTLED: usize = 3;

/// A rate is so many parts of this.
const WHOLE: u64 = 10_000;

pub type Figures = [[i64; OF_ACCOUNT]; ACCOUNTS];

fn net(account: &mut [i64; OF_ACCOUNT]) {
    account[SETTLED] += account[POSITION];
    account[POSITION] = 0;
}

fn call(account: &mut [i64; OF_ACCOUNT]) {
    if account[POSITION] > 0 {
        let parts = account[POSITION].unsigned_abs() * account[RATE].unsigned_abs();
        account[CALLED] += parts.div_ceil(WHOLE) as i64;
    }
}

/// The record's lines have postings, with fields in their rows.
pub fn figures(fields: &[Fields], record: &[u16]) -> Figures {
    let mut figures = [[0; OF_ACCOUNT]; ACCOUNTS];
    for &x in record {
        let Fields { amount, kind, a, b } = fields[usize::from(x)];
        let amount = i64::from(amount);
        match kind {
            0 => {
                figures[usize::from(a)][POSITION] += amount;
                figures[usize::from(b)][POSITION] -= amount;
            }
            1 => figures[usize::from(a)][RATE] = amount,
            2 => call(&mut figures[usize::from(a)]),
            _ if nets_all(kind, a, b) => figures.iter_mut().for_each(net),
            _ => net(&mut figures[usize::from(a)]),
        }
    }
    figures
}

pub fn cents(x: i64) -> String {
    let sign = if x < 0 { "-" } else { "" };
    let size = x.unsigned_abs();
    format!("{sign}{}.{:02}", size / 100, size % 100)
}
