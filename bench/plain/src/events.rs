// Holds: offer, receive, order, read and crash on a board, each with its refusals in rising number.
// Rests on: arrays, index, judge, receipts, call, mask, set.

use crate::arrays::{
    reached, Board, A, B, DOWN, FIRST, KIND, LOG, LOGGED, OFFERED, OWNER, PLACE, POOL, SECOND,
    THIRD, UNION,
};
use crate::call::{Answer, Call, Cut, Fields, Message, Refusal};
use crate::judge::judge_fields;
use crate::mask;
use crate::set::POSTINGS;

impl Board {
    /// Inlined into the loop that decodes, so that a call is never laid out in memory.
    #[inline]
    pub fn perform(&mut self, call: Call) -> Answer {
        match call {
            Call::Offer { site, fields, cut } => self.offer(site, fields, cut),
            Call::Receive { message, cut } => self.receive(message, cut),
            Call::Order { posting } => self.order(posting),
            Call::Read { site, cut } => self.read(site, cut),
            Call::Crash { site } => self.crash(site),
        }
    }

    fn offer(&mut self, site: usize, fields: Fields, cut: Cut) -> Answer {
        self.judge_site(site)?;
        self.judge_up(site)?;
        judge_fields(&fields)?;
        let m = self.counts[OFFERED];
        if m == POSTINGS {
            return Err(Refusal::BoardFull);
        }
        self.judge_cut(cut, self.setup.n)?;
        self.counts[OFFERED] = m + 1;
        self.bytes[OWNER + m] = site as u8;
        self.bytes[KIND + m] = fields.kind;
        self.bytes[A + m] = fields.a;
        self.bytes[B + m] = fields.b;
        self.amounts[m] = fields.amount;
        self.enter(m, fields.kind, fields.a, fields.b);
        self.send(FIRST, m, site, reached(self.everyone(), cut));
        self.fall(site, cut);
        Ok(())
    }

    fn receive(&mut self, message: Message, cut: Cut) -> Answer {
        let Message {
            form,
            posting: m,
            from,
            to,
        } = message;
        self.judge_site(from)?;
        self.judge_site(to)?;
        self.judge_up(to)?;
        self.judge_in_flight(form, m, from, to)?;
        self.take_in(form, m, from, to, cut)
    }

    /// The receipt of a message that is in flight to a site that is up.
    pub fn take_in(&mut self, form: usize, m: usize, from: usize, to: usize, cut: Cut) -> Answer {
        match form {
            FIRST => self.first(m, from, to, cut)?,
            SECOND => self.second(m, from, to, cut)?,
            THIRD => self.third(m, from, to, cut)?,
            _ => self.told(m, from, to, cut)?,
        }
        self.fall(to, cut);
        Ok(())
    }

    pub fn order(&mut self, m: usize) -> Answer {
        if m >= POSTINGS || !self.sets[POOL].has(m) {
            return Err(Refusal::NotInPool);
        }
        let count = self.counts[LOGGED];
        self.sets[POOL].remove(m);
        self.bytes[LOG + count] = m as u8;
        self.counts[LOGGED] = count + 1;
        Ok(())
    }

    pub fn read(&mut self, site: usize, cut: Cut) -> Answer {
        self.judge_site(site)?;
        self.judge_up(site)?;
        let place = self.counts[PLACE + site];
        if place == self.counts[LOGGED] {
            return Err(Refusal::LogRead);
        }
        self.judge_cut(cut, 0)?;
        self.counts[PLACE + site] = place + 1;
        if cut.is_none() {
            let m = usize::from(self.bytes[LOG + place]);
            self.deliver_all(site, self.sets[UNION + m]);
            self.deliver(site, m);
        }
        self.fall(site, cut);
        Ok(())
    }

    fn crash(&mut self, site: usize) -> Answer {
        self.judge_site(site)?;
        self.judge_up(site)?;
        self.judge_crash()?;
        self.bytes[DOWN] |= mask::only(site);
        Ok(())
    }
}
