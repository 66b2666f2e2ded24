// Holds: drain: the lowest receipt, else the lowest order, else the lowest read, until the board is quiet.
// Rests on: arrays, events, set.

use crate::arrays::{cell, Board, CELLS, DELIVER, FORMS, OFFERED, PAIRS, POOL};
use crate::set::SITES;

impl Board {
    /// Does events until the board is quiet or the limit is used up; the count of those done. No cell below the
    /// floor has a message for a site that is up.
    pub fn drain(&mut self, limit: u64) -> u64 {
        let mut floor = 0;
        for done in 0..limit {
            if let Some(lowest) = self.next_cell(floor) {
                floor = self.receive_at(lowest);
                continue;
            }
            floor = CELLS;
            if !self.order_or_read() {
                return done;
            }
        }
        limit
    }

    /// The lowest cell from the floor on with a message for a site that is up.
    fn next_cell(&self, floor: usize) -> Option<usize> {
        let up = self.up();
        for form in floor / PAIRS..FORMS {
            let start = cell(form, 0, 0).max(floor);
            let end = cell(form, self.counts[OFFERED], 0).max(start);
            let cells = &self.masks[start..end];
            if let Some(k) = cells.iter().position(|to| to & up != 0) {
                return Some(start + k);
            }
        }
        None
    }

    /// Has the lowest site receive the message of a cell; the new floor. What a receipt sends is of a later form,
    /// but for the relays of a DELIVER, which are in the cell of its receiver.
    fn receive_at(&mut self, lowest: usize) -> usize {
        let (form, rest) = (lowest / PAIRS, lowest % PAIRS);
        let (m, from) = (rest / SITES, rest % SITES);
        let to = (self.masks[lowest] & self.up()).trailing_zeros() as usize;
        // Uncut, so not refused.
        let _ = self.take_in(form, m, from, to, None);
        if form == DELIVER {
            lowest.min(cell(DELIVER, m, to))
        } else {
            lowest
        }
    }

    /// Whether there was an order or a read to do.
    fn order_or_read(&mut self) -> bool {
        if let Some(m) = self.sets[POOL].lowest() {
            return self.order(m).is_ok();
        }
        match self.reader() {
            Some(site) => self.read(site, None).is_ok(),
            None => false,
        }
    }
}
