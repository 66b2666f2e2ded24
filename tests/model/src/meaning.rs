// Holds: which numbers of a board's row have a meaning, with them a board written into a row and held against one.
// Rests on: numbers, board, sound, site, flight, set.

use crate::board::Board;
use crate::flight::{Flight, FORMS, SECOND, THIRD};
use crate::numbers::*;
use crate::set::{members, POSTINGS, SITES, WORDS};
use crate::site::{Site, Thirds};

/// The first place where a row is not the sound board given. Bits without meaning are passed over.
pub fn differs(row: &[u64], board: &Board) -> Option<usize> {
    let mut first: Option<usize> = None;
    tell(board, |place, value, bits| {
        if (row[place] ^ value) & bits != 0 && first.is_none_or(|at| place < at) {
            first = Some(place);
        }
    });
    first
}

/// Writes a sound board into a row. What has no meaning stays.
pub fn write(board: &Board, row: &mut [u64]) {
    tell(board, |place, value, bits| {
        row[place] = row[place] & !bits | value;
    });
}

/// Tells of each place that has a meaning, once: the place, the value, and the bits that have it.
fn tell(board: &Board, told: impl FnMut(usize, u64, u64)) {
    Meaning(told).put_board(board);
}

struct Meaning<T>(T);

impl<T: FnMut(usize, u64, u64)> Meaning<T> {
    fn put_board(&mut self, board: &Board) {
        self.put(N, board.n);
        self.put(F, board.f);
        self.put(MATRIX, board.matrix);
        self.put(DOWN, board.down);
        self.put(OFFERED, board.postings.len() as u64);
        for (m, p) in board.postings.iter().enumerate() {
            self.put_all(posting(m, 0), [p.owner, p.kind, p.a, p.b]);
            self.put(posting(m, AMOUNT), p.amount);
        }
        for (s, site) in board.sites.iter().enumerate().take(board.n.into()) {
            self.put_site(s, site);
        }
        for m in 0..POSTINGS {
            let owned = board.postings.get(m).map(|p| usize::from(p.owner));
            let thirds = owned.map_or(Thirds::NONE, |owner| board.sites[owner].thirds[m]);
            let Thirds { heard, with, union } = thirds;
            self.put_all(third(m, 0), [heard, with]);
            self.put_all(third(m, UNION), union.words);
        }
        self.put_flight(&board.flight);
        self.put_oracle(board);
    }

    fn put(&mut self, place: usize, value: impl Into<u64>) {
        self.put_bits(place, value.into(), u64::MAX);
    }

    fn put_bits(&mut self, place: usize, value: u64, bits: u64) {
        (self.0)(place, value & bits, bits);
    }

    fn put_all(&mut self, first: usize, values: impl IntoIterator<Item = impl Into<u64>>) {
        for (place, value) in (first..).zip(values) {
            self.put(place, value);
        }
    }

    fn put_site(&mut self, s: usize, it: &Site) {
        let sets = [it.seen, it.held, it.stepped, it.finished, it.told];
        for (k, set) in sets.iter().enumerate() {
            self.put_all(site(s, WORDS * k), set.words);
        }
        self.put_all(site(s, HEARD), it.seconds.iter().map(|x| x.heard));
        self.put_all(site(s, HEARD_GOOD), it.seconds.iter().map(|x| x.good));
        self.put(site(s, READ), it.place as u64);
        self.put(site(s, DELIVERED), it.record.len() as u64);
        self.put_all(site(s, RECORD), it.record.iter().copied());
    }

    /// GOOD has a meaning only where a SECOND is in flight, a carried set only where a THIRD is.
    fn put_flight(&mut self, flight: &Flight) {
        for m in 0..POSTINGS {
            for from in 0..SITES {
                for form in 0..FORMS {
                    self.put(to(form, m, from), flight.to[form][m][from]);
                }
                let seconds = flight.to[SECOND][m][from];
                self.put_bits(good(m, from), flight.good[m][from].into(), seconds.into());
                if flight.to[THIRD][m][from] != 0 {
                    self.put_all(carried(m, from), flight.carried[m][from].words);
                }
            }
        }
    }

    fn put_oracle(&mut self, board: &Board) {
        self.put_all(POOL, board.pool.words);
        for m in members(board.entered()) {
            self.put_all(entry(m), board.entries[m].words);
        }
        self.put(LOGGED, board.log.len() as u64);
        self.put_all(log(0), board.log.iter().copied());
    }
}
