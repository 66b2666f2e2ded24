// Holds: the messages in flight, a set by form, posting, from and to.
// Rests on: set.

use crate::set::{has_site, site, Set, POSTINGS, SITES};

pub const FORMS: usize = 4;
pub const FIRST: usize = 0;
pub const SECOND: usize = 1;
pub const THIRD: usize = 2;
pub const DELIVER: usize = 3;

#[derive(Clone, Debug, PartialEq, Eq)]
pub struct Flight {
    /// For form, posting and from: the sites that a message is in flight to.
    pub to: [[[u8; SITES]; POSTINGS]; FORMS],
    /// For posting and from: those of the SECONDs in flight that say GOOD.
    pub good: [[u8; SITES]; POSTINGS],
    /// For posting and from: what the THIRD in flight carries. One is enough, as it goes to the owner.
    pub carried: [[Set; SITES]; POSTINGS],
}

#[derive(Clone, Copy, Debug, PartialEq, Eq, PartialOrd, Ord)]
pub struct Message {
    pub form: u8,
    pub posting: u8,
    pub from: u8,
    pub to: u8,
}

impl Flight {
    pub const EMPTY: Flight = Flight {
        to: [[[0; SITES]; POSTINGS]; FORMS],
        good: [[0; SITES]; POSTINGS],
        carried: [[Set::EMPTY; SITES]; POSTINGS],
    };

    /// Whether the message is in flight; any numbers may be asked.
    pub fn has(&self, form: u64, posting: u64, from: u64, to: u64) -> bool {
        let known = form < FORMS as u64
            && posting < POSTINGS as u64
            && from < SITES as u64
            && to < SITES as u64;
        known
            && has_site(
                self.to[form as usize][posting as usize][from as usize],
                to as usize,
            )
    }

    /// Sends a FIRST or a DELIVER to each of the sites.
    pub fn send(&mut self, form: usize, m: usize, from: usize, to: u8) {
        self.to[form][m][from] |= to;
    }

    /// Sends a SECOND to each of the sites; one in flight already is replaced.
    pub fn send_second(&mut self, m: usize, from: usize, to: u8, good: bool) {
        self.to[SECOND][m][from] |= to;
        self.good[m][from] &= !to;
        if good {
            self.good[m][from] |= to;
        }
    }

    pub fn send_third(&mut self, m: usize, from: usize, owner: usize, carried: Set) {
        self.to[THIRD][m][from] |= site(owner);
        self.carried[m][from] = carried;
    }

    pub fn take(&mut self, form: usize, m: usize, from: usize, to: usize) {
        self.to[form][m][from] &= !site(to);
    }

    /// Takes a SECOND out; whether it says GOOD.
    pub fn take_second(&mut self, m: usize, from: usize, to: usize) -> bool {
        let good = has_site(self.good[m][from], to);
        self.take(SECOND, m, from, to);
        self.good[m][from] &= !site(to);
        good
    }

    /// Takes a THIRD out, with the set it carries.
    pub fn take_third(&mut self, m: usize, from: usize, to: usize) -> Set {
        self.take(THIRD, m, from, to);
        std::mem::take(&mut self.carried[m][from])
    }

    /// All messages in flight to the sites named, in rising form, posting, from, to.
    pub fn messages(&self, to: u8) -> Vec<Message> {
        let mut list = Vec::new();
        for form in 0..FORMS {
            for posting in 0..POSTINGS {
                if self.to[form][posting] == [0; SITES] {
                    continue;
                }
                for from in 0..SITES {
                    let here = self.to[form][posting][from] & to;
                    if here == 0 {
                        continue;
                    }
                    for to in (0..8).filter(|&s| has_site(here, s)) {
                        list.push(Message {
                            form: form as u8,
                            posting: posting as u8,
                            from: from as u8,
                            to: to as u8,
                        });
                    }
                }
            }
        }
        list
    }
}
