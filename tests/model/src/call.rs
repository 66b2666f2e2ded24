// Holds: the five events as values, and how a board takes one.
// Rests on: board, steps, sound, refusal.

use crate::board::Board;
use crate::refusal::Refusal;

#[derive(Clone, Copy, Debug, PartialEq, Eq)]
pub enum Call {
    Offer {
        site: u64,
        kind: u64,
        a: u64,
        b: u64,
        amount: u64,
        cut: Option<u64>,
    },
    Receive {
        form: u64,
        posting: u64,
        from: u64,
        to: u64,
        cut: Option<u64>,
    },
    Order {
        posting: u64,
    },
    Read {
        site: u64,
        cut: Option<u64>,
    },
    Crash {
        site: u64,
    },
}

#[derive(Clone, Copy, Debug, PartialEq, Eq)]
pub enum Answer {
    /// An accepted offer, with the number of its posting.
    Offered(u8),
    Done,
}

impl Board {
    pub fn apply(&mut self, call: &Call) -> Result<Answer, Refusal> {
        self.judge_sound()?;
        self.apply_on_sound(call)
    }

    /// For boards known to be sound.
    pub fn apply_on_sound(&mut self, call: &Call) -> Result<Answer, Refusal> {
        match *call {
            Call::Offer {
                site,
                kind,
                a,
                b,
                amount,
                cut,
            } => {
                return Ok(Answer::Offered(
                    self.offer_on_sound(site, kind, a, b, amount, cut)?,
                ))
            }
            Call::Receive {
                form,
                posting,
                from,
                to,
                cut,
            } => self.receive_on_sound(form, posting, from, to, cut)?,
            Call::Order { posting } => self.order_on_sound(posting)?,
            Call::Read { site, cut } => self.read_on_sound(site, cut)?,
            Call::Crash { site } => self.crash_on_sound(site)?,
        }
        Ok(Answer::Done)
    }
}
