// Holds: the receipt of a FIRST, SECOND, THIRD or DELIVER at a site that is up; the refusals left are those of a cut.
// Rests on: arrays, index, judge, call, mask, set.

use crate::arrays::{
    pair, reached, Board, DELIVER, FINISHED, FIRST, GOOD, GOT, HAS, HEARD, HELD, POOL, SECOND,
    SEEN, STEPPED, TALLIED, THIRD, UNION,
};
use crate::call::{Answer, Cut};
use crate::mask;
use crate::set::{Set, POSTINGS};

impl Board {
    /// Puts m among what the site has seen; whether that meets C(m), which is given, in m alone.
    fn sees_alone(&mut self, site: usize, m: usize, family: Set) -> bool {
        let seen = &mut self.sets[SEEN + site];
        seen.insert(m);
        seen.meet(family) == Set::only(m)
    }

    pub fn first(&mut self, m: usize, from: usize, to: usize, cut: Cut) -> Answer {
        self.judge_cut(cut, self.setup.n)?;
        self.take(FIRST, m, from, to);
        let alone = self.sees_alone(to, m, self.family(m));
        let sent = reached(self.everyone(), cut);
        self.send(SECOND, m, to, sent);
        self.good[pair(m, to)] = if alone { sent } else { 0 };
        Ok(())
    }

    pub fn second(&mut self, m: usize, from: usize, to: usize, cut: Cut) -> Answer {
        let at = to * POSTINGS + m;
        let before = self.bytes[HEARD + at];
        let heard = before | mask::only(from);
        let counts = heard != before && !self.sets[STEPPED + to].has(m);
        let steps = counts && self.is_quorum(heard);
        self.judge_cut(cut, steps.into())?;
        self.take(SECOND, m, from, to);
        if counts {
            self.bytes[HEARD + at] = heard;
            if mask::has(self.good[pair(m, from)], to) {
                self.bytes[GOOD + at] |= mask::only(from);
            }
        }
        if steps {
            self.step(m, to, cut);
        }
        Ok(())
    }

    /// The SECOND step. m joins what was seen here too, since SECONDs may overtake FIRST.
    fn step(&mut self, m: usize, site: usize, cut: Cut) {
        let family = self.family(m);
        let alone = self.sees_alone(site, m, family);
        let goods = self.bytes[GOOD + site * POSTINGS + m];
        self.sets[STEPPED + site].insert(m);
        if alone && self.is_majority(goods) {
            self.sets[HELD + site].insert(m);
        }
        if cut != Some(0) {
            self.send(THIRD, m, site, mask::only(self.owner(m)));
            self.carried[pair(m, site)] = self.sets[HELD + site].meet(family);
        }
    }

    pub fn third(&mut self, m: usize, from: usize, to: usize, cut: Cut) -> Answer {
        let carried = self.carried[pair(m, from)];
        let before = self.bytes[TALLIED + m];
        let heard = before | mask::only(from);
        let counts = heard != before && !self.sets[FINISHED + to].has(m);
        let ends = counts && self.is_quorum(heard);
        let has = self.bytes[HAS + m] | (u8::from(carried.has(m)) << from);
        let direct = self.is_majority(has);
        let sends = match (ends, direct) {
            (false, _) => 0,
            (true, false) => 1,
            (true, true) => self.setup.n,
        };
        self.judge_cut(cut, sends)?;
        self.take(THIRD, m, from, to);
        if counts {
            self.bytes[TALLIED + m] = heard;
            self.bytes[HAS + m] = has;
            self.sets[UNION + m] = self.sets[UNION + m].join(carried);
        }
        if ends {
            self.finish(m, to, direct, cut);
        }
        Ok(())
    }

    /// The entry in the pool carries the union, which stays as it is from here on.
    fn finish(&mut self, m: usize, site: usize, direct: bool, cut: Cut) {
        self.sets[FINISHED + site].insert(m);
        if direct {
            self.send(DELIVER, m, site, reached(self.everyone(), cut));
        } else if cut != Some(0) {
            self.sets[POOL].insert(m);
        }
    }

    /// A DELIVER. The relays go out before the delivery, which a cut leaves out.
    pub fn told(&mut self, m: usize, from: usize, to: usize, cut: Cut) -> Answer {
        let first = !self.sets[GOT + to].has(m);
        let relays = if first && self.owner(m) != to {
            self.everyone() & !mask::only(to)
        } else {
            0
        };
        self.judge_cut(cut, relays.count_ones() as u8)?;
        self.take(DELIVER, m, from, to);
        if first {
            self.sets[GOT + to].insert(m);
            self.send(DELIVER, m, to, reached(relays, cut));
            if cut.is_none() {
                self.deliver(to, m);
            }
        }
        Ok(())
    }
}
