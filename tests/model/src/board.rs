// Holds: the board, its start, and the small questions that the steps and the judges ask of it.
// Rests on: set, posting, site, flight, refusal.

use crate::flight::Flight;
use crate::posting::{conflict, matrix_has_fixed_pairs, matrix_symmetric, Posting};
use crate::refusal::Refusal;
use crate::set::{has_site, one, sites_below, Set, POSTINGS, SITES};
use crate::site::Site;

#[derive(Clone, Debug, PartialEq, Eq)]
pub struct Board {
    pub n: u8,
    pub f: u8,
    pub matrix: u16,
    /// The sites that are down.
    pub down: u8,
    pub postings: Vec<Posting>,
    /// The sites from n on are unused.
    pub sites: [Site; SITES],
    pub flight: Flight,
    pub pool: Set,
    /// For each posting in the pool or the log: the set that its entry carries.
    pub entries: [Set; POSTINGS],
    pub log: Vec<u8>,
}

/// The refusals 2 to 5.
pub fn judge_start(n: u64, f: u64, matrix: u16) -> Result<(), Refusal> {
    if !(3..=SITES as u64).contains(&n) {
        return Err(Refusal::SiteCount);
    }
    if f >= n.div_ceil(2) {
        return Err(Refusal::CrashCount);
    }
    if !matrix_symmetric(matrix) {
        return Err(Refusal::NotSymmetric);
    }
    if !matrix_has_fixed_pairs(matrix) {
        return Err(Refusal::LacksFixedPair);
    }
    Ok(())
}

impl Board {
    /// All zeros; what a refused start returns.
    pub fn blank() -> Board {
        Board {
            n: 0,
            f: 0,
            matrix: 0,
            down: 0,
            postings: Vec::new(),
            sites: [Site::BLANK; SITES],
            flight: Flight::EMPTY,
            pool: Set::EMPTY,
            entries: [Set::EMPTY; POSTINGS],
            log: Vec::new(),
        }
    }

    pub fn start(n: u64, f: u64, matrix: u16) -> (Board, Result<(), Refusal>) {
        let mut board = Board::blank();
        let answer = judge_start(n, f, matrix);
        if answer.is_ok() {
            board.n = n as u8;
            board.f = f as u8;
            board.matrix = matrix;
        }
        (board, answer)
    }

    pub fn everyone(&self) -> u8 {
        sites_below(self.n)
    }

    pub fn up(&self) -> u8 {
        self.everyone() & !self.down
    }

    pub fn is_up(&self, site: usize) -> bool {
        !has_site(self.down, site)
    }

    /// How many sites must be heard.
    pub fn quorum(&self) -> u32 {
        u32::from(self.n - self.f)
    }

    pub fn owner(&self, m: usize) -> usize {
        usize::from(self.postings[m].owner)
    }

    /// C(m): m with all that conflict with it.
    pub fn family(&self, m: usize) -> Set {
        let posting = &self.postings[m];
        let mut set = one(m);
        for (k, other) in self.postings.iter().enumerate() {
            if conflict(self.matrix, posting, other) {
                set |= one(k);
            }
        }
        set
    }
}
