// Holds: one number of a board's row changed at random, in each part of the row about as often.
// Rests on: ground; the model's boards and rows.

use crate::ground::{Change, Ground};
use model::numbers::*;
use model::posting::{MAX_AMOUNT, MAX_RATE};
use model::set::{members, site as bit, Set, WORDS};
use model::{FORMS, POSTINGS, THIRD};

impl Ground<'_> {
    /// A change in any part, its value now and then too wide for its place.
    pub fn change(&mut self) -> Change {
        let (place, value) = match self.rng.below(22) {
            0 | 1 => self.start(),
            2 | 3 => self.offered(),
            4..=6 => self.posting_field(),
            7 | 8 => self.set_of_site(),
            9 => self.heard(),
            10 | 11 => self.log_place(),
            12 | 13 => self.record(),
            14 => self.third_round(),
            15 | 16 => self.flight(),
            17..=19 => self.pool(),
            20 => self.log(),
            _ => self.anywhere(),
        };
        let mut value = fitted(place, value);
        if self.rng.percent(25) && width(place) < 64 {
            value |= self.rng.word() << width(place);
        }
        (place, value)
    }

    fn start(&mut self) -> Change {
        let flipped = self.row[MATRIX] ^ 1 << self.rng.below(16);
        let pair = self.rng.pick(&[0x0001, 0x0012, 0x2080, 0x0400, 0x8000]);
        let matrix = self.rng.pick(&[flipped, self.row[MATRIX] ^ pair]);
        let n = self.rng.pick(&[0, 2, 3, 4, 5, 6, 7, 8, 255]);
        let f = self.rng.pick(&[0, 1, 2, 3, 4, 255]);
        let down = self.other_sites(DOWN);
        self.rng.pick(&[(N, n), (F, f), (MATRIX, matrix), down])
    }

    fn offered(&mut self) -> Change {
        let count = self.row[OFFERED];
        let all = POSTINGS as u64;
        let any = self.rng.below(all);
        let beyond = self
            .rng
            .pick(&[all + 1, all + 1, 1 << 32, 1 << 63, u64::MAX]);
        let near = self.rng.pick(&[count.wrapping_sub(1), count + 1]);
        let drawn = [near, near, 0, any, all - 1, all, beyond, beyond];
        (OFFERED, self.rng.pick(&drawn))
    }

    pub fn posting_field(&mut self) -> Change {
        let m = self.posting();
        let any = self.rng.below(FIELDS as u64) as usize;
        let field = self.rng.pick(&[any, any, OWNER]);
        let edges = [1, MAX_RATE, MAX_RATE + 1, MAX_AMOUNT, MAX_AMOUNT + 1];
        let edge = self.rng.pick(&edges);
        let any = self.rng.below(MAX_AMOUNT);
        let value = match field {
            OWNER => self.rng.pick(&[0, 1, 2, 3, 4, 5, 6, 7, 8, 255]),
            AMOUNT => self.rng.pick(&[0, edge, edge, any, any % 5000]),
            _ => self.rng.pick(&[0, 1, 2, 3, 4, 15, 16, 255]),
        };
        (posting(m, field), value)
    }

    /// A set of a site; often whether the owner has finished a posting that is in the pool or the log.
    fn set_of_site(&mut self) -> Change {
        let entered: Vec<usize> = members(self.board.entered()).collect();
        if !entered.is_empty() && self.rng.percent(50) {
            let m = self.rng.pick(&entered);
            let place = site(self.board.owner(m), FINISHED);
            return self.flipped(place, m);
        }
        let set = self.rng.below(SETS as u64) as usize;
        let place = site(self.site(), WORDS * set);
        self.other_set(place)
    }

    fn heard(&mut self) -> Change {
        let what = self.rng.pick(&[HEARD, HEARD_GOOD]);
        let place = site(self.site(), what + self.posting());
        self.other_sites(place)
    }

    fn log_place(&mut self) -> Change {
        let log = self.board.log.len() as u64;
        let inside = self.rng.below(log + 1);
        let all = POSTINGS as u64;
        let past = self.rng.pick(&[log + 1, all, all + 1, u64::MAX]);
        let place = site(self.site(), READ);
        (place, self.rng.pick(&[inside, inside, past]))
    }

    /// A count or a number of a list that has room for all postings. A full one most often gets a count beyond that.
    pub fn list(&mut self, count: usize, first: usize) -> Change {
        let all = POSTINGS as u64;
        let length = self.row[count].min(all);
        let full = length == all && self.rng.percent(70);
        let shorter = self.rng.below(length + 1);
        let longer = self
            .rng
            .pick(&[length + 1, length + 1, all, all + 1, u64::MAX]);
        if full || self.rng.percent(50) {
            let other = self.rng.pick(&[shorter, longer]);
            return (count, if full { longer } else { other });
        }
        let k = self.rng.below((length + 1).min(all));
        let any = self.rng.pick(&[64, 128, all - 1]);
        let m = self.posting() as u64;
        (first + k as usize, self.rng.pick(&[m, m, m, m, any]))
    }

    pub fn record(&mut self) -> Change {
        let s = self.site();
        self.list(site(s, DELIVERED), site(s, RECORD))
    }

    fn third_round(&mut self) -> Change {
        let m = self.posting();
        match self.rng.below(UNION as u64 + 1) as usize {
            UNION => self.other_set(third(m, UNION)),
            part => self.other_sites(third(m, part)),
        }
    }

    /// What is in flight, or what is kept beside it.
    fn flight(&mut self) -> Change {
        let (m, from) = (self.posting(), self.site());
        match self.rng.below(8) as usize {
            form if form < FORMS => self.other_sites(to(form, m, from)),
            4 => self.other_sites(good(m, from)),
            5 => self.other_set(carried(m, from)),
            _ => {
                let posting = self.board.postings.get(m);
                let owner = posting.map_or(0, |p| bit(p.owner.into()));
                (to(THIRD, m, from), owner.into())
            }
        }
    }

    /// The pool or what an entry carries; often a posting that is in the log, or that is finished.
    fn pool(&mut self) -> Change {
        let finished = self
            .board
            .sites
            .iter()
            .fold(Set::EMPTY, |set, s| set | s.finished);
        let mut known: Vec<usize> = members(finished | self.board.entered()).collect();
        if self.rng.percent(60) && !self.board.log.is_empty() {
            known = self.board.log.iter().map(|&m| m.into()).collect();
        }
        let m = match known.as_slice() {
            [] => self.posting(),
            _ if self.rng.percent(20) => self.posting(),
            known => self.rng.pick(known),
        };
        if self.rng.percent(25) {
            return self.other_set(entry(m));
        }
        self.flipped(POOL, m)
    }

    /// The log; often with a posting that is in the pool.
    pub fn log(&mut self) -> Change {
        let length = self.board.log.len() as u64;
        let pooled = members(self.board.pool).next();
        if let Some(m) = pooled.filter(|_| length > 0 && self.rng.percent(40)) {
            let k = self.rng.below(length) as usize;
            return (log(k), m as u64);
        }
        self.list(LOGGED, log(0))
    }

    fn anywhere(&mut self) -> Change {
        let place = self.rng.below(NUMBERS as u64) as usize;
        let word = self.rng.word();
        let flipped = self.row[place] ^ 1 << self.rng.below(width(place).into());
        (place, self.rng.pick(&[word, word % 8, flipped, flipped, 0]))
    }
}
