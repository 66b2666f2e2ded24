// Holds: the index beside a board: C(m) from the postings by account and kind, and by kind, and delivery by what each record has.
// Rests on: arrays, set.

use crate::arrays::{
    Board, A, ACCOUNTS, B, DELIVERED, EVERY, EVERY_ACCOUNT, KIND, KINDS, NET, RECORD, RECORDED,
};
use crate::set::{Set, POSTINGS};

/// Whether a posting nets every account.
pub fn nets_all(kind: u8, a: u8, b: u8) -> bool {
    kind == NET && a == EVERY_ACCOUNT && b == EVERY_ACCOUNT
}

impl Board {
    /// Puts a posting into the rows of its accounts, or of all, and into that of its kind.
    pub fn enter(&mut self, m: usize, kind: u8, a: u8, b: u8) {
        let kind_at = usize::from(kind);
        self.index[EVERY + kind_at].insert(m);
        if nets_all(kind, a, b) {
            for account in 0..ACCOUNTS {
                self.index[account * KINDS + kind_at].insert(m);
            }
            return;
        }
        for account in [a, b] {
            self.index[usize::from(account) * KINDS + kind_at].insert(m);
        }
    }

    /// C(m): m with all that conflict with it.
    pub fn family(&self, m: usize) -> Set {
        let [kind, a, b] = [KIND, A, B].map(|column| self.bytes[column + m]);
        let kinds = self.setup.matrix >> (4 * kind);
        let rows = |account: u8| usize::from(account) * KINDS;
        let [a, b] = if nets_all(kind, a, b) {
            [EVERY, EVERY]
        } else {
            [rows(a), rows(b)]
        };
        let mut family = Set::only(m);
        for kind in 0..KINDS {
            if kinds >> kind & 1 == 1 {
                family = family.join(self.index[a + kind]).join(self.index[b + kind]);
            }
        }
        family
    }

    /// Delivers what the record lacks of a set, in rising number.
    pub fn deliver_all(&mut self, site: usize, set: Set) {
        let mut lacking = set.minus(self.index[RECORDED + site]);
        while let Some(m) = lacking.lowest() {
            lacking.remove(m);
            self.append(site, m);
        }
    }

    pub fn deliver(&mut self, site: usize, m: usize) {
        if !self.index[RECORDED + site].has(m) {
            self.append(site, m);
        }
    }

    fn append(&mut self, site: usize, m: usize) {
        let count = self.counts[DELIVERED + site];
        self.bytes[RECORD + site * POSTINGS + count] = m as u8;
        self.counts[DELIVERED + site] = count + 1;
        self.index[RECORDED + site].insert(m);
    }
}
