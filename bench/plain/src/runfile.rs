// Holds: run files decoded.
// Rests on: call, judge.

use crate::call::{Call, Cut, Fields, Message, Refusal, Setup};
use crate::judge::judge_start;

pub const MAX_EVENTS: usize = 4096;
const EVENT: usize = 10;

/// A run whose start is accepted; its events are well formed.
pub struct Run<'a> {
    pub setup: Setup,
    events: &'a [[u8; EVENT]],
}

impl Run<'_> {
    pub fn decode(input: &[u8]) -> Result<Run<'_>, Refusal> {
        let run = well_formed(input).ok_or(Refusal::Malformed)?;
        judge_start(&run.setup)?;
        Ok(run)
    }

    pub fn length(&self) -> usize {
        self.events.len()
    }

    pub fn calls(&self) -> impl Iterator<Item = Call> + '_ {
        self.events.iter().filter_map(call_of)
    }
}

fn well_formed(input: &[u8]) -> Option<Run<'_>> {
    let (header, rest) = input.split_first_chunk()?;
    let &[b'R', b'U', b'N', 0, 1, n, f, high, low] = header else {
        return None;
    };
    let (events, left) = rest.as_chunks();
    let sound = left.is_empty()
        && events.len() <= MAX_EVENTS
        && events.iter().all(|event| call_of(event).is_some());
    let matrix = u16::from_be_bytes([high, low]);
    let setup = Setup { n, f, matrix };
    sound.then_some(Run { setup, events })
}

fn cut_of(byte: u8) -> Cut {
    (byte != 255).then_some(byte)
}

/// The call of an event; none if it is malformed.
fn call_of(event: &[u8; EVENT]) -> Option<Call> {
    let [code, p, q, r, s, rest @ .., cut] = *event;
    let cut = cut_of(cut);
    let wide = u32::from_be_bytes(rest);
    let one_field = [q, r, s] == [0; 3] && wide == 0;
    match code {
        1 => {
            let fields = Fields {
                kind: q,
                a: r,
                b: s,
                amount: wide,
            };
            let site = p.into();
            Some(Call::Offer { site, fields, cut })
        }
        2 if wide == 0 => {
            let message = Message {
                form: p.into(),
                posting: q.into(),
                from: r.into(),
                to: s.into(),
            };
            Some(Call::Receive { message, cut })
        }
        3 if one_field && cut.is_none() => Some(Call::Order { posting: p.into() }),
        4 if one_field => Some(Call::Read {
            site: p.into(),
            cut,
        }),
        5 if one_field && cut.is_none() => Some(Call::Crash { site: p.into() }),
        _ => None,
    }
}
