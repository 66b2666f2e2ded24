// Holds: what makes a board unsound (refusal 6), cause by cause.
// Rests on: cause, board, posting, set, site, flight, refusal.

use crate::board::{judge_start, Board};
use crate::cause::{Cause, CAUSES};
use crate::flight::THIRD;
use crate::posting::{fields_ok, Posting};
use crate::refusal::Refusal;
use crate::set::{below, has, members, of, one, site as bit, Set, POSTINGS, SITES};
use crate::site::{Seconds, Site, Thirds};

/// The postings that a list names.
fn set_of(list: &[u8]) -> Set {
    of(list.iter().map(|&m| usize::from(m)))
}

fn names_twice(list: &[u8]) -> bool {
    let mut met = [false; POSTINGS];
    list.iter()
        .any(|&m| std::mem::replace(&mut met[usize::from(m)], true))
}

impl Board {
    pub fn judge_sound(&self) -> Result<(), Refusal> {
        if self.is_sound() {
            Ok(())
        } else {
            Err(Refusal::Unsound)
        }
    }

    pub fn is_sound(&self) -> bool {
        self.cause().is_none()
    }

    /// The first cause that applies, in the order of the list.
    pub fn cause(&self) -> Option<Cause> {
        CAUSES.into_iter().find(|&cause| self.has_cause(cause))
    }

    /// Whether one cause applies. It may be asked of any board, whatever others apply.
    pub fn has_cause(&self, cause: Cause) -> bool {
        match cause {
            Cause::Start => judge_start(self.n.into(), self.f.into(), self.matrix).is_err(),
            Cause::Owner => self.postings.iter().any(|p| p.owner >= self.n),
            Cause::Fields => !self
                .postings
                .iter()
                .all(|p| fields_ok(p.kind.into(), p.a.into(), p.b.into(), p.amount.into())),
            Cause::ThirdElsewhere => self.third_elsewhere(),
            Cause::TooMany => self.postings.len() > POSTINGS,
            Cause::NotOffered => self.names_not_offered(),
            Cause::NoSuchSite => self.sites_named() & !self.everyone() != 0,
            Cause::Twice => self.lists().any(names_twice),
            Cause::PastLog => self.present().iter().any(|s| s.place > self.log.len()),
            Cause::NotFinished => members(self.entered()).any(|m| self.unfinished(m)),
            Cause::PoolAndLog => !(self.pool & set_of(&self.log)).is_empty(),
        }
    }

    /// The slots that are sites of the board.
    fn present(&self) -> &[Site] {
        &self.sites[..SITES.min(self.n.into())]
    }

    /// The log and the records.
    fn lists(&self) -> impl Iterator<Item = &[u8]> {
        let records = self.present().iter().map(|site| site.record.as_slice());
        records.chain([self.log.as_slice()])
    }

    /// The postings whose entry is in the pool or the log.
    pub fn entered(&self) -> Set {
        self.pool | set_of(&self.log)
    }

    /// Form, posting, sender and receivers of what is in flight.
    fn under_way(&self) -> impl Iterator<Item = (usize, usize, usize, u8)> + '_ {
        let all = self.flight.to.as_flattened().as_flattened();
        let there = all.iter().enumerate().filter(|(_, &to)| to != 0);
        there.map(|(k, &to)| (k / SITES / POSTINGS, k / SITES % POSTINGS, k % SITES, to))
    }

    /// A THIRD of a posting not offered has no owner; that it names the posting is the cause then.
    fn third_elsewhere(&self) -> bool {
        self.under_way().any(|(form, m, _, to)| {
            let owner = self.postings.get(m).map(|p| usize::from(p.owner));
            form == THIRD && owner.is_some_and(|owner| owner >= SITES || to != bit(owner))
        })
    }

    fn names_not_offered(&self) -> bool {
        let offered = self.postings.len();
        let listed = self.lists().flatten().any(|&m| usize::from(m) >= offered);
        listed || !(self.postings_named() & !below(offered)).is_empty()
    }

    /// The postings that sets, messages, entries and what was received name.
    fn postings_named(&self) -> Set {
        let mut set = self.pool;
        for m in members(self.entered()) {
            set |= self.entries[m];
        }
        for site in self.present() {
            set |= site.seen | site.held | site.stepped | site.finished | site.told;
            for m in 0..POSTINGS {
                set |= site.thirds[m].union;
                if site.seconds[m] != Seconds::NONE || site.thirds[m] != Thirds::NONE {
                    set |= one(m);
                }
            }
        }
        for (form, m, from, _) in self.under_way() {
            set |= one(m);
            if form == THIRD {
                set |= self.flight.carried[m][from];
            }
        }
        set
    }

    /// The sites that are named as down, as heard, or as sender or receiver of what is in flight.
    fn sites_named(&self) -> u8 {
        let mut sites = self.down;
        for site in self.present() {
            for (seconds, thirds) in site.seconds.iter().zip(&site.thirds) {
                sites |= seconds.heard | seconds.good | thirds.heard | thirds.with;
            }
        }
        for (_, _, from, to) in self.under_way() {
            sites |= bit(from) | to;
        }
        sites
    }

    /// Whether a posting that was offered is not finished by its owner.
    fn unfinished(&self, m: usize) -> bool {
        let finished = |p: &Posting| {
            let owner = self.sites.get(usize::from(p.owner));
            owner.is_some_and(|site| has(site.finished, m))
        };
        self.postings.get(m).is_some_and(|p| !finished(p))
    }
}
