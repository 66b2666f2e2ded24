// Holds: the board as flat arrays, where everything stands in them, and the smallest changes to them.
// Rests on: set, mask, call.

use crate::call::{Cut, Setup};
use crate::mask;
use crate::set::{Set, POSTINGS, SITES};

/// Accounts, kinds and forms of messages.
pub const ACCOUNTS: usize = 16;
pub const KINDS: usize = 4;
pub const NET: u8 = 3;

/// What stands in place of both accounts of a NET where every account is meant.
pub const EVERY_ACCOUNT: u8 = 255;

pub const FORMS: usize = 4;
pub const FIRST: usize = 0;
pub const SECOND: usize = 1;
pub const THIRD: usize = 2;
pub const DELIVER: usize = 3;

/// Slots of the sets: of each site, the pool, and of each posting the union of the sets that THIRDs carried.
pub const SEEN: usize = 0;
pub const HELD: usize = SEEN + SITES;
pub const STEPPED: usize = HELD + SITES;
pub const FINISHED: usize = STEPPED + SITES;
pub const GOT: usize = FINISHED + SITES;
pub const POOL: usize = GOT + SITES;
pub const UNION: usize = POOL + 1;
const SLOTS: usize = UNION + POSTINGS;

/// Counts: postings offered and entries of the log; of each site the entries read and the length of the record.
pub const OFFERED: usize = 0;
pub const LOGGED: usize = OFFERED + 1;
pub const PLACE: usize = LOGGED + 1;
pub const DELIVERED: usize = PLACE + SITES;
const COUNTS: usize = DELIVERED + SITES;

/// Bytes: the sites that are down; of each posting its owner, kind and accounts, the sites whose THIRD was heard and
/// those whose set had it; the log; of each site and posting the sites whose SECOND was heard and those that said
/// GOOD; the record of each site.
pub const DOWN: usize = 0;
pub const OWNER: usize = DOWN + 1;
pub const KIND: usize = OWNER + POSTINGS;
pub const A: usize = KIND + POSTINGS;
pub const B: usize = A + POSTINGS;
pub const TALLIED: usize = B + POSTINGS;
pub const HAS: usize = TALLIED + POSTINGS;
pub const LOG: usize = HAS + POSTINGS;
pub const HEARD: usize = LOG + POSTINGS;
pub const GOOD: usize = HEARD + SITES * POSTINGS;
pub const RECORD: usize = GOOD + SITES * POSTINGS;
const BYTES: usize = RECORD + SITES * POSTINGS;

/// Rows of the index: the postings of each account and kind, and of each kind; then what the record of each site has.
pub const EVERY: usize = ACCOUNTS * KINDS;
pub const RECORDED: usize = EVERY + KINDS;
const ROWS: usize = RECORDED + SITES;

/// Pairs of a posting and a sender; the cells of the masks are these for each form.
pub const PAIRS: usize = POSTINGS * SITES;
pub const CELLS: usize = FORMS * PAIRS;

pub struct Board {
    pub setup: Setup,
    pub sets: [Set; SLOTS],
    pub counts: [usize; COUNTS],
    pub bytes: [u8; BYTES],
    pub amounts: [u32; POSTINGS],
    /// By form, posting and sender: the sites that a message is in flight to.
    pub masks: [u8; CELLS],
    /// By posting and sender: those of the SECONDs that say GOOD, and the set that the THIRD carries.
    pub good: [u8; PAIRS],
    pub carried: [Set; PAIRS],
    pub index: [Set; ROWS],
}

pub fn pair(m: usize, from: usize) -> usize {
    m * SITES + from
}

pub fn cell(form: usize, m: usize, from: usize) -> usize {
    form * PAIRS + pair(m, from)
}

impl Board {
    /// The board of an accepted start.
    pub fn start(setup: Setup) -> Board {
        Board {
            setup,
            sets: [Set::EMPTY; SLOTS],
            counts: [0; COUNTS],
            bytes: [0; BYTES],
            amounts: [0; POSTINGS],
            masks: [0; CELLS],
            good: [0; PAIRS],
            carried: [Set::EMPTY; PAIRS],
            index: [Set::EMPTY; ROWS],
        }
    }

    pub fn everyone(&self) -> u8 {
        mask::below(self.setup.n)
    }

    pub fn up(&self) -> u8 {
        self.everyone() & !self.bytes[DOWN]
    }

    pub fn is_up(&self, site: usize) -> bool {
        !mask::has(self.bytes[DOWN], site)
    }

    pub fn owner(&self, m: usize) -> usize {
        self.bytes[OWNER + m].into()
    }

    /// Whether these are as many sites as must be heard.
    pub fn is_quorum(&self, sites: u8) -> bool {
        sites.count_ones() >= u32::from(self.setup.n - self.setup.f)
    }

    /// Whether these are more than n/2.
    pub fn is_majority(&self, sites: u8) -> bool {
        2 * sites.count_ones() > u32::from(self.setup.n)
    }

    pub fn send(&mut self, form: usize, m: usize, from: usize, to: u8) {
        self.masks[cell(form, m, from)] |= to;
    }

    pub fn take(&mut self, form: usize, m: usize, from: usize, to: usize) {
        self.masks[cell(form, m, from)] &= !mask::only(to);
    }

    /// A cut takes its site down.
    pub fn fall(&mut self, site: usize, cut: Cut) {
        if cut.is_some() {
            self.bytes[DOWN] |= mask::only(site);
        }
    }

    /// The lowest site that is up and has log left.
    pub fn reader(&self) -> Option<usize> {
        let sites = 0..usize::from(self.setup.n);
        let mut left = sites.filter(|site| self.counts[PLACE + site] < self.counts[LOGGED]);
        left.find(|&site| self.is_up(site))
    }

    pub fn is_quiet(&self) -> bool {
        let in_flight = self.masks.iter().fold(0, |all, to| all | to);
        in_flight & self.up() == 0 && self.sets[POOL] == Set::EMPTY && self.reader().is_none()
    }

    pub fn record(&self, site: usize) -> &[u8] {
        let start = RECORD + site * POSTINGS;
        &self.bytes[start..start + self.counts[DELIVERED + site]]
    }

    pub fn log(&self) -> &[u8] {
        &self.bytes[LOG..LOG + self.counts[LOGGED]]
    }
}

/// The sites that sends reach.
pub fn reached(sites: u8, cut: Cut) -> u8 {
    match cut {
        None => sites,
        Some(j) => mask::lowest(sites, j),
    }
}
