// Holds: the pass through a site's record that posts it from zeros, and with it the books of all sites.
// Rests on: arrays, index.

use crate::arrays::{Board, A, ACCOUNTS, B, KIND};
use crate::index::nets_all;

/// The figures of an account, and of all accounts.
pub const OF_ACCOUNT: usize = 4;
pub const FIGURES: usize = OF_ACCOUNT * ACCOUNTS;

/// Where a figure stands among those of its account.
const POSITION: usize = 0;
const RATE: usize = 1;
const CALLED: usize = 2;
const SETTLED: usize = 3;

/// A rate is so many parts of this.
const WHOLE: u64 = 10_000;

/// How many powers of two a call is worked from: WHOLE times the next one is more than any product.
const POWERS: u32 = 50;

/// Settled rises by the position, which becomes 0.
fn net(figures: &mut [i64]) {
    figures[SETTLED] += figures[POSITION];
    figures[POSITION] = 0;
}

/// So many parts of a whole one in whole ones, rounded up, without a division: WHOLE times powers of two are taken away,
/// the largest first. Where there is less, the difference wraps and is the larger of the two.
fn rounded_up(parts: u64) -> u64 {
    let mut rest = parts;
    let mut taken = 0;
    for k in (0..POWERS).rev() {
        let left = rest.wrapping_sub(WHOLE << k);
        if left < rest {
            rest = left;
            taken += 1 << k;
        }
    }
    taken + u64::from(rest != 0)
}

/// What a call adds: of a position above zero, its product with the rate, rounded up.
pub fn called(position: i64, rate: i64) -> i64 {
    if position <= 0 {
        return 0;
    }
    rounded_up(position.unsigned_abs() * rate.unsigned_abs()) as i64
}

impl Board {
    /// Fills in the figures of all sites; the slice has room for them.
    pub fn books(&self, out: &mut [i64]) {
        let sites = 0..usize::from(self.setup.n);
        let (books, _) = out.as_chunks_mut();
        for (site, figures) in sites.zip(books) {
            figures.fill(0);
            self.pass(site, figures);
        }
    }

    /// Posts the record of a site on figures that are zeros; the count of places visited.
    pub fn pass(&self, site: usize, figures: &mut [i64; FIGURES]) -> usize {
        let record = self.record(site);
        for &m in record {
            self.post(m.into(), figures);
        }
        record.len()
    }

    fn post(&self, m: usize, figures: &mut [i64; FIGURES]) {
        let [kind, a, b] = [KIND, A, B].map(|column| self.bytes[column + m]);
        if nets_all(kind, a, b) {
            figures.chunks_exact_mut(OF_ACCOUNT).for_each(net);
            return;
        }
        let [a, b] = [a, b].map(|account| OF_ACCOUNT * usize::from(account));
        let amount = i64::from(self.amounts[m]);
        match kind {
            0 => {
                figures[a + POSITION] += amount;
                figures[b + POSITION] -= amount;
            }
            1 => figures[a + RATE] = amount,
            2 => figures[a + CALLED] += called(figures[a + POSITION], figures[a + RATE]),
            _ => net(&mut figures[a..]),
        }
    }
}
