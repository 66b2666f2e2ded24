// Holds: offer, receive, order, read and crash, with their refusals in rising number.
// Rests on: board, sound, site, flight, posting, set, refusal.
//
// Each event stands twice: the plain name judges the board handed in (refusal 6); `..._on_sound` is for
// callers that know it to be sound, as a started board stays under all events.

use crate::board::Board;
use crate::flight::{DELIVER, FIRST, SECOND};
use crate::posting::{fields_ok, Posting};
use crate::refusal::Refusal;
use crate::set::{has, members, one, reached, site as bit, POSTINGS};
use crate::site::majority;

impl Board {
    fn judge_site(&self, site: u64) -> Result<(), Refusal> {
        if site < u64::from(self.n) {
            Ok(())
        } else {
            Err(Refusal::NoSuchSite)
        }
    }

    fn judge_up(&self, site: usize) -> Result<(), Refusal> {
        if self.is_up(site) {
            Ok(())
        } else {
            Err(Refusal::SiteDown)
        }
    }

    /// One crash more must not exceed f.
    fn judge_crash(&self) -> Result<(), Refusal> {
        if self.down.count_ones() < u32::from(self.f) {
            Ok(())
        } else {
            Err(Refusal::TooManyCrashes)
        }
    }

    fn judge_cut(&self, j: u64, sends: u32) -> Result<(), Refusal> {
        self.judge_crash()?;
        if j <= u64::from(sends) {
            Ok(())
        } else {
            Err(Refusal::CutTooLong)
        }
    }

    /// The number of the posting is handed back.
    pub fn offer(
        &mut self,
        site: u64,
        kind: u64,
        a: u64,
        b: u64,
        amount: u64,
        cut: Option<u64>,
    ) -> Result<u8, Refusal> {
        self.judge_sound()?;
        self.offer_on_sound(site, kind, a, b, amount, cut)
    }

    pub fn offer_on_sound(
        &mut self,
        site: u64,
        kind: u64,
        a: u64,
        b: u64,
        amount: u64,
        cut: Option<u64>,
    ) -> Result<u8, Refusal> {
        self.judge_site(site)?;
        let owner = site as usize;
        self.judge_up(owner)?;
        if !fields_ok(kind, a, b, amount) {
            return Err(Refusal::BadField);
        }
        let m = self.postings.len();
        if m == POSTINGS {
            return Err(Refusal::BoardFull);
        }
        if let Some(j) = cut {
            self.judge_cut(j, u32::from(self.n))?;
            self.down |= bit(owner);
        }
        self.postings.push(Posting {
            owner: site as u8,
            kind: kind as u8,
            a: a as u8,
            b: b as u8,
            amount: amount as u32,
        });
        let to = reached(self.everyone(), cut);
        self.flight.send(FIRST, m, owner, to);
        Ok(m as u8)
    }

    pub fn receive(
        &mut self,
        form: u64,
        posting: u64,
        from: u64,
        to: u64,
        cut: Option<u64>,
    ) -> Result<(), Refusal> {
        self.judge_sound()?;
        self.receive_on_sound(form, posting, from, to, cut)
    }

    pub fn receive_on_sound(
        &mut self,
        form: u64,
        posting: u64,
        from: u64,
        to: u64,
        cut: Option<u64>,
    ) -> Result<(), Refusal> {
        self.judge_site(from)?;
        self.judge_site(to)?;
        self.judge_up(to as usize)?;
        if !self.flight.has(form, posting, from, to) {
            return Err(Refusal::NotInFlight);
        }
        let (form, m, from, to) = (form as usize, posting as usize, from as usize, to as usize);
        if let Some(j) = cut {
            self.judge_cut(j, self.sends_on_receipt(form, m, from, to))?;
            self.down |= bit(to);
        }
        match form {
            FIRST => self.take_first(m, from, to, cut),
            SECOND => self.take_second(m, from, to, cut),
            DELIVER => self.take_deliver(m, from, to, cut),
            _ => self.take_third(m, from, to, cut),
        }
        Ok(())
    }

    /// How many sends the receipt of a message in flight has.
    pub fn sends_on_receipt(&self, form: usize, m: usize, from: usize, to: usize) -> u32 {
        let n = u32::from(self.n);
        let (site, last) = (&self.sites[to], self.quorum() - 1);
        match form {
            FIRST => n,
            SECOND => {
                let steps = site.second_counts(m, from, self.quorum())
                    && site.seconds[m].heard.count_ones() == last;
                u32::from(steps)
            }
            DELIVER if has(site.told, m) || self.owner(m) == to => 0,
            DELIVER => n - 1,
            _ => {
                let ends = site.third_counts(m, from, self.quorum())
                    && site.thirds[m].heard.count_ones() == last;
                if !ends {
                    return 0;
                }
                let all = site.thirds[m].and(m, from, self.flight.carried[m][from]);
                if majority(all.heard & all.with, self.n) {
                    n
                } else {
                    1
                }
            }
        }
    }

    fn take_first(&mut self, m: usize, from: usize, to: usize, cut: Option<u64>) {
        self.flight.take(FIRST, m, from, to);
        let family = self.family(m);
        let good = self.sites[to].first(m, family);
        let sends = reached(self.everyone(), cut);
        self.flight.send_second(m, to, sends, good);
    }

    fn take_second(&mut self, m: usize, from: usize, to: usize, cut: Option<u64>) {
        let good = self.flight.take_second(m, from, to);
        let quorum = self.quorum();
        let site = &mut self.sites[to];
        if !site.second_counts(m, from, quorum) || !site.hear_second(m, from, good, quorum) {
            return;
        }
        let family = self.family(m);
        let carried = self.sites[to].step(m, family, self.n);
        if cut != Some(0) {
            self.flight.send_third(m, to, self.owner(m), carried);
        }
    }

    fn take_third(&mut self, m: usize, from: usize, to: usize, cut: Option<u64>) {
        let carried = self.flight.take_third(m, from, to);
        let quorum = self.quorum();
        let site = &mut self.sites[to];
        if !site.third_counts(m, from, quorum) || !site.hear_third(m, from, carried, quorum) {
            return;
        }
        site.finished |= one(m);
        let thirds = site.thirds[m];
        if majority(thirds.heard & thirds.with, self.n) {
            let sends = reached(self.everyone(), cut);
            self.flight.send(DELIVER, m, to, sends);
        } else if cut != Some(0) {
            self.pool |= one(m);
            self.entries[m] = thirds.union;
        }
    }

    /// The relays go out before the delivery, so that a cut never strands a posting at one site.
    fn take_deliver(&mut self, m: usize, from: usize, to: usize, cut: Option<u64>) {
        self.flight.take(DELIVER, m, from, to);
        if has(self.sites[to].told, m) {
            return;
        }
        self.sites[to].told |= one(m);
        if self.owner(m) != to {
            let sends = reached(self.everyone() & !bit(to), cut);
            self.flight.send(DELIVER, m, to, sends);
        }
        if cut.is_none() {
            self.sites[to].deliver(m);
        }
    }

    pub fn order(&mut self, posting: u64) -> Result<(), Refusal> {
        self.judge_sound()?;
        self.order_on_sound(posting)
    }

    pub fn order_on_sound(&mut self, posting: u64) -> Result<(), Refusal> {
        if posting >= POSTINGS as u64 || !has(self.pool, posting as usize) {
            return Err(Refusal::NotInPool);
        }
        self.pool &= !one(posting as usize);
        self.log.push(posting as u8);
        Ok(())
    }

    pub fn read(&mut self, site: u64, cut: Option<u64>) -> Result<(), Refusal> {
        self.judge_sound()?;
        self.read_on_sound(site, cut)
    }

    pub fn read_on_sound(&mut self, site: u64, cut: Option<u64>) -> Result<(), Refusal> {
        self.judge_site(site)?;
        let s = site as usize;
        self.judge_up(s)?;
        let Some(&m) = self.log.get(self.sites[s].place) else {
            return Err(Refusal::LogRead);
        };
        if let Some(j) = cut {
            self.judge_cut(j, 0)?;
            self.down |= bit(s);
        }
        self.sites[s].place += 1;
        if cut.is_none() {
            let m = usize::from(m);
            for carried in members(self.entries[m]) {
                self.sites[s].deliver(carried);
            }
            self.sites[s].deliver(m);
        }
        Ok(())
    }

    pub fn crash(&mut self, site: u64) -> Result<(), Refusal> {
        self.judge_sound()?;
        self.crash_on_sound(site)
    }

    pub fn crash_on_sound(&mut self, site: u64) -> Result<(), Refusal> {
        self.judge_site(site)?;
        self.judge_up(site as usize)?;
        self.judge_crash()?;
        self.down |= bit(site as usize);
        Ok(())
    }
}
