// Holds: a call that the board would take, with a change to a number that the call looks at.
// Rests on: ground, changes; the model's boards, calls and rows.

use crate::ground::{Change, Ground};
use model::numbers::*;
use model::set::{members, site as bit, WORDS};
use model::{Call, Message, FORMS, SECOND, THIRD};

impl Ground<'_> {
    /// None if there is nothing to do.
    pub fn aimed(&mut self) -> Option<(Change, Call)> {
        let oracle = match self.rng.below(10) {
            0 | 1 => self.aimed_order(),
            2..=4 => self.aimed_read(),
            _ => None,
        };
        oracle.or_else(|| self.aimed_receipt())
    }

    /// A cut, most often none.
    fn cut(&mut self) -> Option<u64> {
        let n = u64::from(self.board.n);
        let any = self.rng.below(n + 2);
        let some = self.rng.pick(&[0, 0, 1, any, any, n]);
        self.rng.percent(35).then_some(some)
    }

    /// A receipt, of each form about as often as far as there are any.
    fn aimed_receipt(&mut self) -> Option<(Change, Call)> {
        let all = self.board.flight.messages(self.board.up());
        let form = self.rng.below(FORMS as u64) as u8;
        let of_form: Vec<Message> = all.iter().copied().filter(|x| x.form == form).collect();
        let from = if of_form.is_empty() { &all } else { &of_form };
        if from.is_empty() {
            return None;
        }
        let drawn: Vec<Message> = (0..3).map(|_| self.rng.pick(from)).collect();
        let nearest = drawn
            .iter()
            .max_by_key(|message| self.heard_before(message));
        let message = *nearest.expect("three were drawn");
        let change = self.near_receipt(&message);
        let call = Call::Receive {
            form: message.form.into(),
            posting: message.posting.into(),
            from: message.from.into(),
            to: message.to.into(),
            cut: self.cut(),
        };
        Some((change, call))
    }

    /// How many sites were heard already, if this one still counts: near the last one wanted most can go wrong.
    fn heard_before(&self, message: &Message) -> u32 {
        let [form, m, from, at] =
            [message.form, message.posting, message.from, message.to].map(usize::from);
        let (site, quorum) = (&self.board.sites[at], self.board.quorum());
        match form {
            SECOND if site.second_counts(m, from, quorum) => site.seconds[m].heard.count_ones(),
            THIRD if site.third_counts(m, from, quorum) => site.thirds[m].heard.count_ones(),
            _ => 0,
        }
    }

    fn near_receipt(&mut self, message: &Message) -> Change {
        let [m, at] = [message.posting, message.to].map(usize::from);
        let set = site(at, WORDS * self.rng.below(SETS as u64) as usize);
        match self.rng.below(12) {
            0 => self.other_set(set),
            1 | 2 => self.flipped(set, m),
            3 => self.near_start(),
            4 => self.posting_field(),
            5 => self.sent_by(m, at),
            _ => self.near_form(message),
        }
    }

    /// What a receipt of that form looks at besides the sets.
    fn near_form(&mut self, message: &Message) -> Change {
        let [form, m, from, at] =
            [message.form, message.posting, message.from, message.to].map(usize::from);
        match (form, self.rng.below(6)) {
            (SECOND, 0) => self.other_sites(site(at, HEARD + m)),
            (SECOND, 1) => self.other_sites(site(at, HEARD_GOOD + m)),
            (SECOND, 2) => (site(at, HEARD_GOOD + m), self.board.everyone().into()),
            (SECOND, 3) => (good(m, from), self.row[good(m, from)] ^ u64::from(bit(at))),
            (SECOND, _) => (site(at, HEARD + m), self.all_but_one(from)),
            (THIRD, 0) => self.other_sites(third(m, 0)),
            (THIRD, 1) => self.other_sites(third(m, 1)),
            (THIRD, 2) => (third(m, 1), self.board.everyone().into()),
            (THIRD, 3) => self.other_set(third(m, UNION)),
            (THIRD, 4) => self.other_set(carried(m, from)),
            (THIRD, _) => (third(m, 0), self.all_but_one(from)),
            (_, 0 | 1) => self.other_set(site(at, TOLD)),
            (_, 2 | 3) => self.list(site(at, DELIVERED), site(at, RECORD)),
            _ => self.sent_by(m, at),
        }
    }

    /// Another f or another set of sites that are down.
    fn near_start(&mut self) -> Change {
        let f = self.rng.below(u64::from(self.board.n).div_ceil(2));
        let down = self.sites();
        self.rng.pick(&[(F, f), (DOWN, down)])
    }

    /// What the site that receives has in flight already, and what it sends may replace.
    fn sent_by(&mut self, m: usize, at: usize) -> Change {
        let place = to(self.rng.below(FORMS as u64) as usize, m, at);
        let other = self.other_sites(place);
        let set = self.other_set(carried(m, at));
        let word = self.other_sites(good(m, at));
        self.rng.pick(&[other, other, set, word])
    }

    /// So many sites heard that the one to come is the last one wanted, or the last but one.
    fn all_but_one(&mut self, from: usize) -> u64 {
        let wanted = self.board.quorum() - self.rng.pick(&[1, 1, 1, 2]);
        let mut heard = 0;
        while u8::count_ones(heard) < wanted {
            let other = self.rng.below(self.board.n.into()) as usize;
            heard |= bit(other) & !bit(from);
        }
        heard.into()
    }

    fn aimed_order(&mut self) -> Option<(Change, Call)> {
        let pool: Vec<usize> = members(self.board.pool).collect();
        if pool.is_empty() {
            return None;
        }
        let m = self.rng.pick(&pool);
        let entry = self.other_set(entry(m));
        let down = (DOWN, self.sites());
        let log = self.log();
        let change = self.rng.pick(&[entry, entry, down, log]);
        Some((change, Call::Order { posting: m as u64 }))
    }

    fn aimed_read(&mut self) -> Option<(Change, Call)> {
        let board = self.board;
        let log_left = |s: &usize| board.is_up(*s) && board.sites[*s].place < board.log.len();
        let readers: Vec<usize> = (0..usize::from(board.n)).filter(log_left).collect();
        if readers.is_empty() {
            return None;
        }
        let s = self.rng.pick(&readers);
        let m = usize::from(board.log[board.sites[s].place]);
        let length = board.sites[s].record.len() as u64;
        let change = match self.rng.below(7) {
            0..=2 => self.other_set(entry(m)),
            3 => (site(s, DELIVERED), self.rng.below(length + 2)),
            4 => (site(s, RECORD), self.posting() as u64),
            5 => (site(s, READ), self.rng.below(board.log.len() as u64 + 1)),
            _ => self.log(),
        };
        let call = Call::Read {
            site: s as u64,
            cut: self.cut(),
        };
        Some((change, call))
    }
}
