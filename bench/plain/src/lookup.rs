// Holds: many balances looked up at once: the pairs tested, one pass through the record of each site named, and a line for each pair.
// Rests on: arrays, books, call, set.

use crate::arrays::{Board, ACCOUNTS};
use crate::books::{FIGURES, OF_ACCOUNT};
use crate::call::Refusal;
use crate::set::SITES;

/// The most pairs that a look-up takes.
const MOST: usize = 256;

/// A site and an account.
type Pair = [u8; 2];

/// The last bit of a mask of sites. It stands for the sites from its number on too, none of which a board has.
const LAST: u8 = 63;

impl Board {
    /// Fills in a line for each pair, in the order given; the count of record places visited. The pairs are bytes, site
    /// before account; an odd last byte is no pair.
    pub fn look_up(&self, pairs: &[u8], out: &mut [i64]) -> Result<usize, Refusal> {
        let (pairs, _) = pairs.as_chunks();
        let (lines, _) = out.as_chunks_mut::<OF_ACCOUNT>();
        let named = self.judge_pairs(pairs, lines.len())?;
        let mut books = [[0; FIGURES]; SITES];
        let mut places = 0;
        for (site, figures) in books.iter_mut().enumerate() {
            if named >> site & 1 == 1 {
                places += self.pass(site, figures);
            }
        }
        for (line, pair) in lines.iter_mut().zip(pairs) {
            let [site, account] = pair.map(usize::from);
            let (of_site, _) = books[site].as_chunks();
            *line = of_site[account];
        }
        Ok(places)
    }

    /// A mask of the sites named, given room for so many lines. All pairs are looked at, once: an account is 16 or more
    /// exactly if the bits of all accounts together are.
    fn judge_pairs(&self, pairs: &[Pair], lines: usize) -> Result<u64, Refusal> {
        let mut named = 0;
        let mut accounts = 0;
        for &[site, account] in pairs {
            named |= 1_u64 << site.min(LAST);
            accounts |= account;
        }
        if named >> self.setup.n != 0 {
            return Err(Refusal::NoSuchSite);
        }
        if pairs.len() > MOST.min(lines) || usize::from(accounts) >= ACCOUNTS {
            return Err(Refusal::LookUp);
        }
        Ok(named)
    }
}
