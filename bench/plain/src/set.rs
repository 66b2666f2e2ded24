// Holds: how many sites and postings a board can have, and sets of postings in words.
// Rests on: nothing.

pub const SITES: usize = 7;
pub const POSTINGS: usize = 256;

/// The words of a set; a word has 64 postings.
pub const WORDS: usize = 4;

/// Posting m is bit m % 64 of word m / 64.
#[derive(Clone, Copy, PartialEq, Eq)]
pub struct Set([u64; WORDS]);

impl Set {
    pub const EMPTY: Set = Set([0; WORDS]);

    pub fn only(m: usize) -> Set {
        let mut set = Set::EMPTY;
        set.insert(m);
        set
    }

    pub fn has(&self, m: usize) -> bool {
        self.0[m / 64] >> (m % 64) & 1 == 1
    }

    pub fn insert(&mut self, m: usize) {
        self.0[m / 64] |= 1 << (m % 64);
    }

    pub fn remove(&mut self, m: usize) {
        self.0[m / 64] &= !(1 << (m % 64));
    }

    /// What is in either.
    pub fn join(mut self, other: Set) -> Set {
        for k in 0..WORDS {
            self.0[k] |= other.0[k];
        }
        self
    }

    /// What is in both.
    pub fn meet(mut self, other: Set) -> Set {
        for k in 0..WORDS {
            self.0[k] &= other.0[k];
        }
        self
    }

    /// What is in this one alone.
    pub fn minus(mut self, other: Set) -> Set {
        for k in 0..WORDS {
            self.0[k] &= !other.0[k];
        }
        self
    }

    pub fn lowest(&self) -> Option<usize> {
        for k in 0..WORDS {
            if self.0[k] != 0 {
                return Some(64 * k + self.0[k].trailing_zeros() as usize);
            }
        }
        None
    }
}
