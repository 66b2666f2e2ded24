// Holds: the run file, read and written; anything malformed is refusal 1.
// Rests on: call, refusal.

use crate::call::Call;
use crate::refusal::Refusal;

pub const MAX_EVENTS: usize = 4096;
pub const HEADER: usize = 9;
pub const EVENT: usize = 10;
pub const UNCUT: u8 = 255;

#[derive(Clone, Debug, PartialEq, Eq)]
pub struct Run {
    pub n: u8,
    pub f: u8,
    pub matrix: u16,
    pub calls: Vec<Call>,
}

pub fn decode(bytes: &[u8]) -> Result<Run, Refusal> {
    let Some((&[b'R', b'U', b'N', 0, 1, n, f, high, low], rest)) = bytes.split_first_chunk() else {
        return Err(Refusal::Malformed);
    };
    let (events, left) = rest.as_chunks::<EVENT>();
    if !left.is_empty() || events.len() > MAX_EVENTS {
        return Err(Refusal::Malformed);
    }
    let calls: Option<Vec<Call>> = events.iter().map(decode_event).collect();
    Ok(Run {
        n,
        f,
        matrix: u16::from_be_bytes([high, low]),
        calls: calls.ok_or(Refusal::Malformed)?,
    })
}

/// None if these bytes are no event.
pub fn decode_event(event: &[u8; EVENT]) -> Option<Call> {
    let cut = event[9];
    let (cut, uncut) = ((cut != UNCUT).then_some(cut.into()), cut == UNCUT);
    match *event {
        [1, site, kind, a, b, w, x, y, z, _] => Some(Call::Offer {
            site: site.into(),
            kind: kind.into(),
            a: a.into(),
            b: b.into(),
            amount: u32::from_be_bytes([w, x, y, z]).into(),
            cut,
        }),
        [2, form, posting, from, to, 0, 0, 0, 0, _] => Some(Call::Receive {
            form: form.into(),
            posting: posting.into(),
            from: from.into(),
            to: to.into(),
            cut,
        }),
        [3, posting, 0, 0, 0, 0, 0, 0, 0, _] if uncut => Some(Call::Order {
            posting: posting.into(),
        }),
        [4, site, 0, 0, 0, 0, 0, 0, 0, _] => Some(Call::Read {
            site: site.into(),
            cut,
        }),
        [5, site, 0, 0, 0, 0, 0, 0, 0, _] if uncut => Some(Call::Crash { site: site.into() }),
        _ => None,
    }
}

/// None if an argument has no room in its field, or there are too many events.
pub fn encode(run: &Run) -> Option<Vec<u8>> {
    if run.calls.len() > MAX_EVENTS {
        return None;
    }
    let mut bytes = Vec::with_capacity(HEADER + EVENT * run.calls.len());
    bytes.extend_from_slice(&[b'R', b'U', b'N', 0, 1, run.n, run.f]);
    bytes.extend_from_slice(&run.matrix.to_be_bytes());
    for call in &run.calls {
        bytes.extend_from_slice(&encode_event(call)?);
    }
    Some(bytes)
}

fn byte(value: u64) -> Option<u8> {
    value.try_into().ok()
}

fn cut_byte(cut: Option<u64>) -> Option<u8> {
    match cut {
        None => Some(UNCUT),
        Some(j) => byte(j).filter(|&j| j != UNCUT),
    }
}

pub fn encode_event(call: &Call) -> Option<[u8; EVENT]> {
    let mut event = [0; EVENT];
    event[9] = UNCUT;
    match *call {
        Call::Offer {
            site,
            kind,
            a,
            b,
            amount,
            cut,
        } => {
            let amount: u32 = amount.try_into().ok()?;
            event[..5].copy_from_slice(&[1, byte(site)?, byte(kind)?, byte(a)?, byte(b)?]);
            event[5..9].copy_from_slice(&amount.to_be_bytes());
            event[9] = cut_byte(cut)?;
        }
        Call::Receive {
            form,
            posting,
            from,
            to,
            cut,
        } => {
            event[..5].copy_from_slice(&[2, byte(form)?, byte(posting)?, byte(from)?, byte(to)?]);
            event[9] = cut_byte(cut)?;
        }
        Call::Order { posting } => event[..2].copy_from_slice(&[3, byte(posting)?]),
        Call::Read { site, cut } => {
            event[..2].copy_from_slice(&[4, byte(site)?]);
            event[9] = cut_byte(cut)?;
        }
        Call::Crash { site } => event[..2].copy_from_slice(&[5, byte(site)?]),
    }
    Some(event)
}
