// Holds: sets of postings as words of 64 bits, and sets of sites as 8-bit masks.
// Rests on: nothing.

use std::array::from_fn;
use std::ops::{BitAnd, BitAndAssign, BitOr, BitOrAssign, BitXorAssign, Not};

/// Postings that a board can hold. A posting number fits a byte; a count of postings need not.
pub const POSTINGS: usize = 256;
/// Words of a set of postings.
pub const WORDS: usize = POSTINGS / WORD;
const WORD: usize = u64::BITS as usize;
/// Sites that a board can have; bit 7 of a mask is spare and always names a site of n or more.
pub const SITES: usize = 7;

// Posting numbers are kept as bytes and each byte is one, so a set has a bit for whatever a list names.
const _: () = assert!(POSTINGS - 1 == u8::MAX as usize && POSTINGS == WORDS * WORD);

/// A set of postings: posting m is bit m % 64 of word m / 64.
#[derive(Clone, Copy, Debug, Default, PartialEq, Eq)]
pub struct Set {
    pub words: [u64; WORDS],
}

impl Set {
    pub const EMPTY: Set = Set { words: [0; WORDS] };
    pub const ALL: Set = Set {
        words: [u64::MAX; WORDS],
    };

    pub fn is_empty(self) -> bool {
        self == Set::EMPTY
    }
}

impl BitOr for Set {
    type Output = Set;
    fn bitor(self, other: Set) -> Set {
        let words = from_fn(|w| self.words[w] | other.words[w]);
        Set { words }
    }
}

impl BitAnd for Set {
    type Output = Set;
    fn bitand(self, other: Set) -> Set {
        let words = from_fn(|w| self.words[w] & other.words[w]);
        Set { words }
    }
}

impl Not for Set {
    type Output = Set;
    fn not(self) -> Set {
        let words = self.words.map(|word| !word);
        Set { words }
    }
}

impl BitOrAssign for Set {
    fn bitor_assign(&mut self, other: Set) {
        *self = *self | other;
    }
}

impl BitAndAssign for Set {
    fn bitand_assign(&mut self, other: Set) {
        *self = *self & other;
    }
}

impl BitXorAssign for Set {
    fn bitxor_assign(&mut self, other: Set) {
        let words = from_fn(|w| self.words[w] ^ other.words[w]);
        *self = Set { words };
    }
}

pub fn one(posting: usize) -> Set {
    let mut set = Set::EMPTY;
    set.words[posting / WORD] = 1 << (posting % WORD);
    set
}

/// The set of the postings listed.
pub fn of(postings: impl IntoIterator<Item = usize>) -> Set {
    let all = postings.into_iter();
    all.fold(Set::EMPTY, |set, posting| set | one(posting))
}

pub fn has(set: Set, posting: usize) -> bool {
    set.words[posting / WORD] >> (posting % WORD) & 1 == 1
}

/// The postings below `count`, which may be anything.
pub fn below(count: usize) -> Set {
    let words = from_fn(|w| match count.saturating_sub(WORD * w) {
        here @ 0..WORD => (1 << here) - 1,
        _ => u64::MAX,
    });
    Set { words }
}

/// The members in rising number.
pub fn members(mut set: Set) -> impl Iterator<Item = usize> {
    let mut w = 0;
    std::iter::from_fn(move || {
        while *set.words.get(w)? == 0 {
            w += 1;
        }
        let word = &mut set.words[w];
        let lowest = word.trailing_zeros() as usize;
        *word &= *word - 1;
        Some(WORD * w + lowest)
    })
}

pub fn site(number: usize) -> u8 {
    1 << number
}

pub fn has_site(sites: u8, number: usize) -> bool {
    sites >> number & 1 == 1
}

/// The sites below n that a mask can name.
pub fn sites_below(n: u8) -> u8 {
    ((1u16 << n.min(8)) - 1) as u8
}

/// The sites that sends reach: all of them, or the lowest j when cut after j.
pub fn reached(sites: u8, cut: Option<u64>) -> u8 {
    let Some(j) = cut else { return sites };
    let mut left = sites;
    let mut taken = 0;
    while left != 0 && u64::from(u8::count_ones(taken)) < j {
        taken |= left & left.wrapping_neg();
        left &= left - 1;
    }
    taken
}
