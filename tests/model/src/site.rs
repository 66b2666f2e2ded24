// Holds: what one site keeps, and how it hears SECONDs and THIRDs and delivers.
// Rests on: set.

use crate::set::{has, has_site, one, site, Set, POSTINGS};

/// SECONDs received for one posting: the sites heard, and those that said GOOD.
#[derive(Clone, Copy, Debug, PartialEq, Eq)]
pub struct Seconds {
    pub heard: u8,
    pub good: u8,
}

/// THIRDs received for one posting: the sites heard, those whose set has the posting, and the union.
#[derive(Clone, Copy, Debug, PartialEq, Eq)]
pub struct Thirds {
    pub heard: u8,
    pub with: u8,
    pub union: Set,
}

#[derive(Clone, Debug, PartialEq, Eq)]
pub struct Site {
    pub seen: Set,
    pub held: Set,
    pub stepped: Set,
    pub finished: Set,
    /// Postings whose DELIVER has come.
    pub told: Set,
    pub seconds: [Seconds; POSTINGS],
    pub thirds: [Thirds; POSTINGS],
    /// Log entries read.
    pub place: usize,
    pub record: Vec<u8>,
}

impl Seconds {
    pub const NONE: Seconds = Seconds { heard: 0, good: 0 };
}

impl Thirds {
    pub const NONE: Thirds = Thirds {
        heard: 0,
        with: 0,
        union: Set::EMPTY,
    };

    /// These with one more heard.
    pub fn and(self, posting: usize, from: usize, carried: Set) -> Thirds {
        let with = if has(carried, posting) { site(from) } else { 0 };
        Thirds {
            heard: self.heard | site(from),
            with: self.with | with,
            union: self.union | carried,
        }
    }
}

/// Whether a message from `from` still counts towards the quorum.
fn counts(heard: u8, from: usize, quorum: u32) -> bool {
    !has_site(heard, from) && heard.count_ones() < quorum
}

impl Site {
    pub const BLANK: Site = Site {
        seen: Set::EMPTY,
        held: Set::EMPTY,
        stepped: Set::EMPTY,
        finished: Set::EMPTY,
        told: Set::EMPTY,
        seconds: [Seconds::NONE; POSTINGS],
        thirds: [Thirds::NONE; POSTINGS],
        place: 0,
        record: Vec::new(),
    };

    pub fn second_counts(&self, m: usize, from: usize, quorum: u32) -> bool {
        !has(self.stepped, m) && counts(self.seconds[m].heard, from, quorum)
    }

    pub fn third_counts(&self, m: usize, from: usize, quorum: u32) -> bool {
        !has(self.finished, m) && counts(self.thirds[m].heard, from, quorum)
    }

    /// FIRST m, with C(m) given: whether the SECOND to send is GOOD.
    pub fn first(&mut self, m: usize, family: Set) -> bool {
        self.seen |= one(m);
        self.seen & family == one(m)
    }

    /// Hears a SECOND that counts; whether it is the one that completes the quorum.
    pub fn hear_second(&mut self, m: usize, from: usize, good: bool, quorum: u32) -> bool {
        let seconds = &mut self.seconds[m];
        seconds.heard |= site(from);
        if good {
            seconds.good |= site(from);
        }
        seconds.heard.count_ones() == quorum
    }

    /// The SECOND step of m, with C(m) given: the set that THIRD carries. m joins seen here too, since
    /// SECONDs may overtake FIRST.
    pub fn step(&mut self, m: usize, family: Set, n: u8) -> Set {
        self.seen |= one(m);
        self.stepped |= one(m);
        let Seconds { heard, good } = self.seconds[m];
        if majority(heard & good, n) && self.seen & family == one(m) {
            self.held |= one(m);
        }
        self.held & family
    }

    /// Hears a THIRD that counts; whether it is the one that completes the quorum.
    pub fn hear_third(&mut self, m: usize, from: usize, carried: Set, quorum: u32) -> bool {
        self.thirds[m] = self.thirds[m].and(m, from, carried);
        self.thirds[m].heard.count_ones() == quorum
    }

    /// Delivers m if the record lacks it.
    pub fn deliver(&mut self, m: usize) {
        let m = m as u8;
        if !self.record.contains(&m) {
            self.record.push(m);
        }
    }
}

/// Whether these sites are more than n/2.
pub fn majority(sites: u8, n: u8) -> bool {
    2 * sites.count_ones() > u32::from(n)
}
