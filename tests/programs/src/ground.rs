// Holds: a board of which a number is to be changed, and the small draws that changes are made of.
// Rests on: the model's boards and rows.

use model::prng::Prng;
use model::set::{below, site as bit, WORDS};
use model::{Board, POSTINGS, SITES};

/// A place and the value to put there.
pub type Change = (usize, u64);

/// A board of which a number is to be changed, with its row.
pub struct Ground<'a> {
    pub rng: &'a mut Prng,
    pub board: &'a Board,
    pub row: &'a [u64],
}

impl Ground<'_> {
    /// A posting, most often one that was offered.
    pub fn posting(&mut self) -> usize {
        let offered = self.board.postings.len() as u64;
        if offered == 0 || self.rng.percent(15) {
            return self.rng.below(POSTINGS as u64) as usize;
        }
        self.rng.below(offered) as usize
    }

    /// A slot, most often that of a site.
    pub fn site(&mut self) -> usize {
        let slots = if self.rng.percent(10) {
            SITES as u8
        } else {
            self.board.n
        };
        self.rng.below(slots.into()) as usize
    }

    /// A set of sites, most often of those of the board.
    pub fn sites(&mut self) -> u64 {
        let any = self.rng.below(256);
        if self.rng.percent(10) {
            return any;
        }
        any & u64::from(self.board.everyone())
    }

    /// A posting put into the set whose first word stands at a place, or taken out of it.
    pub fn flipped(&self, first: usize, m: usize) -> Change {
        let bits = u64::BITS as usize;
        let place = first + m / bits;
        (place, self.row[place] ^ 1 << (m % bits))
    }

    /// A posting put into the set whose first word stands at a place, or taken out of it; else another word of
    /// postings that were offered.
    pub fn other_set(&mut self, first: usize) -> Change {
        let m = self.posting();
        let flipped = self.flipped(first, m);
        let w = self.rng.below(WORDS as u64) as usize;
        let offered = below(self.board.postings.len()).words[w];
        let other = (first + w, self.rng.word() & offered);
        self.rng.pick(&[flipped, flipped, flipped, other])
    }

    /// A site put into the set at a place, or taken out of it; else another set.
    pub fn other_sites(&mut self, place: usize) -> Change {
        let flipped = self.row[place] ^ u64::from(bit(self.site()));
        let spare = self.row[place] | 0x80;
        let sites = self.sites();
        let drawn = [flipped, flipped, flipped, sites, sites, spare];
        (place, self.rng.pick(&drawn))
    }
}
