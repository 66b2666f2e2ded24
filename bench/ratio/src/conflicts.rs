// Holds: run files in which all postings conflict: RATE and CALL of one account, with f at its largest.
// Rests on: the model. The runs are made as those of tests/programs' carried are, from other offers.

use model::posting::{CALL, MAX_RATE, RATE};
use model::prng::Prng;
use model::runfile::encode;
use model::set::{has, members};
use model::{Board, Call, Message, Run, DELIVER, FIRST, FIXED_PAIRS, MAX_EVENTS, SECOND};

/// The fixed pairs, and CALL with CALL.
const MATRIX: u16 = FIXED_PAIRS | 0x0400;

/// Postings under way at a time, as long as there are any left to offer.
const UNDER_WAY: usize = 4;

fn offer(rng: &mut Prng, n: u8) -> Call {
    let kind = rng.pick(&[RATE, CALL]);
    let rate = rng.within(0, MAX_RATE);
    Call::Offer {
        site: rng.below(n.into()),
        kind: kind.into(),
        a: 0,
        b: 0,
        amount: if kind == RATE { rate } else { 0 },
        cut: None,
    }
}

/// Whether the receipt of a message changes more than what is in flight.
fn useful(board: &Board, message: &Message) -> bool {
    let [m, from, to] = [message.posting, message.from, message.to].map(usize::from);
    let (site, quorum) = (&board.sites[to], board.quorum());
    match usize::from(message.form) {
        FIRST => true,
        SECOND => site.second_counts(m, from, quorum),
        DELIVER => !has(site.told, m),
        _ => site.third_counts(m, from, quorum),
    }
}

fn receipt(message: &Message) -> Call {
    Call::Receive {
        form: message.form.into(),
        posting: message.posting.into(),
        from: message.from.into(),
        to: message.to.into(),
        cut: None,
    }
}

/// Useful receipts, with orders and reads.
fn useful_calls(board: &Board) -> Vec<Call> {
    let messages = board.flight.messages(board.up());
    let wanted = messages.iter().filter(|message| useful(board, message));
    let orders = members(board.pool).map(|m| Call::Order { posting: m as u64 });
    let sites = 0..usize::from(board.n);
    let readers = sites.filter(|&s| board.sites[s].place < board.log.len());
    let reads = readers.map(|s| Call::Read {
        site: s as u64,
        cut: None,
    });
    wanted.map(receipt).chain(orders).chain(reads).collect()
}

/// A useful call, an offer, or at last any receipt; none once all is offered and the board is quiet.
fn next_call(rng: &mut Prng, board: &Board, postings: usize) -> Option<Call> {
    let useful = useful_calls(board);
    let busy = useful.len() >= UNDER_WAY * usize::from(board.n);
    if board.postings.len() < postings && (useful.is_empty() || !busy && rng.percent(20)) {
        return Some(offer(rng, board.n));
    }
    if useful.is_empty() {
        return board.next_event();
    }
    Some(rng.pick(&useful))
}

/// The run file of calls that are chosen one by one, at most so many.
fn file(n: u8, most: usize, mut next: impl FnMut(&Board, &[Call]) -> Option<Call>) -> Vec<u8> {
    let f = (n - 1) / 2;
    let (mut board, _) = Board::start(n.into(), f.into(), MATRIX);
    let mut calls = Vec::new();
    while calls.len() < most {
        let Some(call) = next(&board, &calls) else {
            break;
        };
        let _ = board.apply_on_sound(&call);
        calls.push(call);
    }
    let run = Run {
        n,
        f,
        matrix: MATRIX,
        calls,
    };
    encode(&run).expect("no call is larger than its fields")
}

/// Ends quiet or at the most events there may be, receipts without effect last. Two events in a hundred repeat a
/// receipt and are refused.
pub fn carried_file(rng: &mut Prng, n: u8, postings: usize) -> Vec<u8> {
    file(n, MAX_EVENTS, |board, calls| match calls.last() {
        Some(last @ Call::Receive { .. }) if rng.percent(2) => Some(*last),
        _ => next_call(rng, board, postings),
    })
}

/// The offers alone.
pub fn offered_file(rng: &mut Prng, n: u8, postings: usize) -> Vec<u8> {
    file(n, postings, |_, _| Some(offer(rng, n)))
}
