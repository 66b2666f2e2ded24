// Holds: many balances looked up at once: four numbers for each pair of a site and an account (document 02, W3).
// Rests on: board, books, sound, posting, refusal.

use crate::board::Board;
use crate::posting::{ACCOUNTS, FIGURES};
use crate::refusal::Refusal;

/// The most pairs that one look-up takes.
pub const PAIRS: usize = 256;

/// Position, rate, called and settled: the numbers of one account, in the order that books give them.
pub const LINE: usize = 4;

impl Board {
    /// Fills the line of each pair, in the order given, and returns the count of record places visited. The pairs are
    /// bytes, site before account; an odd last byte is no pair.
    pub fn look_up(&self, pairs: &[u8], lent: &mut [i64]) -> Result<usize, Refusal> {
        self.judge_sound()?;
        let (pairs, _) = pairs.as_chunks();
        self.judge_pairs(pairs, lent.len())?;
        let (lines, _) = lent.as_chunks_mut();
        for (line, &[site, account]) in lines.iter_mut().zip(pairs) {
            *line = self.line(site.into(), account.into());
        }
        Ok(self.places_visited(pairs))
    }

    /// The refusals 7 and 18, on a sound board. All pairs are looked at for both.
    fn judge_pairs(&self, pairs: &[[u8; 2]], room: usize) -> Result<(), Refusal> {
        if pairs.iter().any(|&[site, _]| site >= self.n) {
            return Err(Refusal::NoSuchSite);
        }
        let too_many = pairs.len() > PAIRS;
        let no_account = pairs
            .iter()
            .any(|&[_, account]| usize::from(account) >= ACCOUNTS);
        let short = room < LINE * pairs.len();
        if too_many || no_account || short {
            return Err(Refusal::LookUp);
        }
        Ok(())
    }

    /// What books give for one account of one site.
    fn line(&self, site: usize, account: usize) -> [i64; LINE] {
        let mut figures = [0; FIGURES];
        self.fill(site, &mut figures);
        let (lines, _) = figures.as_chunks();
        lines[account]
    }

    /// The record lengths of the sites named, each once. This is the count that W3 asks for, not that of the work done
    /// above: there the books are filled anew for each pair, since "every line equals what books would give".
    fn places_visited(&self, pairs: &[[u8; 2]]) -> usize {
        let named = |s: usize| pairs.iter().any(|&[site, _]| usize::from(site) == s);
        let sites = (0..usize::from(self.n)).filter(|&s| named(s));
        sites.map(|s| self.sites[s].record.len()).sum()
    }
}
