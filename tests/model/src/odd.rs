// Holds: how the arguments of a call are changed at random, near the edges of what is allowed.
// Rests on: prng, board, call, posting.

use crate::board::Board;
use crate::call::Call;
use crate::posting::{ACCOUNTS, CALL, EVERY_ACCOUNT, MAX_AMOUNT, MAX_RATE, NET, RATE, TRADE};
use crate::prng::Prng;

/// Offers that misuse the mark of every account, in a hundred offers changed at random.
const MISUSES: u64 = 10;

/// A number near the edge of what a field allows; wide ones look sound in their low bits. Those that are not wide
/// fit a byte, and with 256 postings offered each of them is a posting.
fn odd_number(rng: &mut Prng, edge: u64, wide: bool) -> u64 {
    let inside = rng.below(edge);
    if wide && rng.percent(30) {
        return rng.pick(&[inside + 256, inside + (1 << 32), inside | 1 << 63, u64::MAX]);
    }
    let number = rng.pick(&[inside, inside, edge, edge - 1, edge + 1, 254, 255]);
    if wide {
        number
    } else {
        number.min(255)
    }
}

fn odd_amount(rng: &mut Prng, wide: bool) -> u64 {
    let any = rng.word() % (1 << 32);
    if wide && rng.percent(30) {
        return rng.pick(&[any | 1 << 32, (1 << 32) + 1, u64::MAX]);
    }
    let edges = [0, 1, MAX_RATE, MAX_RATE + 1, MAX_AMOUNT, MAX_AMOUNT + 1];
    let edge = rng.pick(&edges);
    rng.pick(&[edge, edge, any, (1 << 32) - 1])
}

/// Mostly too long: a cut that fits uses up a crash, and then every later one is 14. In a file 254 is the longest,
/// as 255 stands for uncut there.
fn odd_cut(rng: &mut Prng, n: u64, wide: bool) -> Option<u64> {
    let beyond = if wide { u64::MAX } else { 254 };
    let j = odd_number(rng, n + 1, wide).min(beyond);
    let long = Some(n + 1);
    rng.pick(&[None, Some(2), Some(j), long, long, long, Some(beyond)])
}

/// Kind, a, b and amount of an offer that misuses the mark of every account, or has a number between the accounts
/// and the mark: 9 each. Wide ones look like the NET of the whole house in their low bits.
fn misused_mark(rng: &mut Prng, wide: bool) -> (u8, u64, u64, u64) {
    let (every, accounts) = (u64::from(EVERY_ACCOUNT), ACCOUNTS as u64);
    let (k, amount) = (rng.below(accounts), rng.within(1, MAX_RATE));
    if wide && rng.percent(30) {
        let far = every + rng.pick(&[256, 1 << 32]);
        return rng.pick(&[(NET, far, far, 0), (NET, every, every, 1 << 32)]);
    }
    rng.pick(&[
        (NET, every, k, 0),
        (NET, k, every, 0),
        (NET, every, every, amount),
        (RATE, every, every, amount),
        (CALL, every, every, 0),
        (TRADE, every, k, amount),
        (TRADE, k, every, amount),
        (NET, every - 1, every - 1, 0),
        (NET, accounts, accounts, 0),
    ])
}

fn bend(rng: &mut Prng, value: &mut u64, edge: u64, wide: bool) {
    if rng.percent(25) {
        *value = odd_number(rng, edge, wide);
    }
}

/// Changes some of the arguments, so that the call is refused for one cause or several, or for none.
pub fn spoil(rng: &mut Prng, board: &Board, wide: bool, call: &mut Call) {
    let n = u64::from(board.n);
    let offered = board.postings.len() as u64 + 1;
    let accounts = ACCOUNTS as u64;
    let numbers: Vec<(&mut u64, u64)> = match call {
        Call::Offer {
            site, kind, a, b, ..
        } => vec![(site, n), (kind, 4), (a, accounts), (b, accounts)],
        Call::Receive {
            form,
            posting,
            from,
            to,
            ..
        } => vec![(form, 4), (posting, offered), (from, n), (to, n)],
        Call::Order { posting } => vec![(posting, offered)],
        Call::Read { site, .. } | Call::Crash { site } => vec![(site, n)],
    };
    for (value, edge) in numbers {
        bend(rng, value, edge, wide);
    }
    spoil_rest(rng, n, wide, call);
    spoil_fields(rng, wide, call);
}

/// The amount and the cut.
fn spoil_rest(rng: &mut Prng, n: u64, wide: bool, call: &mut Call) {
    if let Call::Offer { amount, .. } = call {
        if rng.percent(25) {
            *amount = odd_amount(rng, wide);
        }
    }
    if let Call::Offer { cut, .. } | Call::Receive { cut, .. } | Call::Read { cut, .. } = call {
        if rng.percent(40) {
            *cut = odd_cut(rng, n, wide);
        }
    }
}

/// In few offers all four fields, whatever was changed before; the site and the cut stay.
fn spoil_fields(rng: &mut Prng, wide: bool, call: &mut Call) {
    if let Call::Offer {
        kind, a, b, amount, ..
    } = call
    {
        if rng.percent(MISUSES) {
            let mark = misused_mark(rng, wide);
            (*kind, *a, *b, *amount) = (mark.0.into(), mark.1, mark.2, mark.3);
        }
    }
}
