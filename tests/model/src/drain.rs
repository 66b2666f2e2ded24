// Holds: quiet, the next event of a drain, and drain.
// Rests on: board, steps, call, set, flight, refusal.

use crate::board::Board;
use crate::call::Call;
use crate::flight::FORMS;
use crate::refusal::Refusal;
use crate::set::{members, SITES};

#[derive(Clone, Copy, Debug, PartialEq, Eq)]
pub enum Ending {
    Quiet,
    Spent,
}

impl Board {
    pub fn is_quiet(&self) -> bool {
        let up = self.up();
        let in_flight = self.flight.to.as_flattened().as_flattened();
        in_flight.iter().all(|to| to & up == 0)
            && self.pool.is_empty()
            && self.lowest_reader().is_none()
    }

    /// The lowest site that is up and has log left.
    fn lowest_reader(&self) -> Option<usize> {
        let n = SITES.min(self.n.into());
        (0..n).find(|&s| self.is_up(s) && self.sites[s].place < self.log.len())
    }

    /// The lowest receipt by form, posting, from, to at a site that is up.
    fn lowest_receipt(&self) -> Option<Call> {
        let up = self.up();
        for form in 0..FORMS {
            for posting in 0..self.postings.len() {
                for from in 0..usize::from(self.n) {
                    let to = self.flight.to[form][posting][from] & up;
                    if to != 0 {
                        return Some(Call::Receive {
                            form: form as u64,
                            posting: posting as u64,
                            from: from as u64,
                            to: to.trailing_zeros().into(),
                            cut: None,
                        });
                    }
                }
            }
        }
        None
    }

    /// What a drain does next on a sound board; none exactly when it is quiet.
    pub fn next_event(&self) -> Option<Call> {
        if let Some(call) = self.lowest_receipt() {
            return Some(call);
        }
        if let Some(lowest) = members(self.pool).next() {
            let posting = lowest as u64;
            return Some(Call::Order { posting });
        }
        let site = self.lowest_reader()? as u64;
        Some(Call::Read { site, cut: None })
    }

    /// The count of events done, and the ending.
    pub fn drain(&mut self, limit: u64) -> Result<(u64, Ending), Refusal> {
        self.judge_sound()?;
        let mut count = 0;
        loop {
            let Some(call) = self.next_event() else {
                return Ok((count, Ending::Quiet));
            };
            if count == limit {
                return Ok((count, Ending::Spent));
            }
            self.apply_on_sound(&call)?;
            count += 1;
        }
    }
}
