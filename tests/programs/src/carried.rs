// Holds: random runs without faults that carry their postings to the records of all sites.
// Rests on: the model and its generator.

use model::gen::{next_call, Mix, LEADS, TASTES};
use model::prng::Prng;
use model::runfile::{encode, MAX_EVENTS};
use model::set::{has, members};
use model::{Board, Call, Message, Run, DELIVER, FIRST, POSTINGS, SECOND};

/// Numbers for an accepted start: n, f and the matrix.
pub type Start = (u8, u8, u16);

/// Postings under way at a time, as long as there are any left to offer.
const UNDER_WAY: usize = 4;

/// An offer on the accounts below a number, by any site; the board has room for it.
pub(crate) fn offer(rng: &mut Prng, board: &Board, accounts: u64) -> Call {
    let mix = Mix {
        accounts,
        offers: 100,
        crashes: 0,
        cuts: 0,
        odd: 0,
        wide: false,
        // the longest lead: it offers whatever is under way
        taste: TASTES + LEADS - 1,
    };
    next_call(rng, board, &mix)
}

/// Whether the receipt of a message changes more than what is in flight.
fn useful(board: &Board, message: &Message) -> bool {
    let [m, from, to] = [message.posting, message.from, message.to].map(usize::from);
    let (site, quorum) = (&board.sites[to], board.quorum());
    match usize::from(message.form) {
        FIRST => true,
        SECOND => site.second_counts(m, from, quorum),
        DELIVER => !has(site.told, m),
        _ => site.third_counts(m, from, quorum),
    }
}

fn receipt(message: &Message) -> Call {
    Call::Receive {
        form: message.form.into(),
        posting: message.posting.into(),
        from: message.from.into(),
        to: message.to.into(),
        cut: None,
    }
}

/// Useful receipts, with orders and reads.
pub(crate) fn useful_calls(board: &Board) -> Vec<Call> {
    let messages = board.flight.messages(board.up());
    let wanted = messages.iter().filter(|message| useful(board, message));
    let mut calls: Vec<Call> = wanted.map(receipt).collect();
    calls.extend(members(board.pool).map(|m| Call::Order { posting: m as u64 }));
    let sites = 0..usize::from(board.n);
    let readers = sites.filter(|&s| board.sites[s].place < board.log.len());
    calls.extend(readers.map(|s| Call::Read {
        site: s as u64,
        cut: None,
    }));
    calls
}

/// A useful call, an offer, or at last any receipt; none once all is offered and the board is quiet.
fn call(rng: &mut Prng, board: &Board, postings: usize, accounts: u64) -> Option<Call> {
    let useful = useful_calls(board);
    let busy = useful.len() >= UNDER_WAY * usize::from(board.n);
    if board.postings.len() < postings && (useful.is_empty() || !busy && rng.percent(20)) {
        return Some(offer(rng, board, accounts));
    }
    if useful.is_empty() {
        return board.next_event();
    }
    Some(rng.pick(&useful))
}

/// A run that ends quiet or at the most events there may be. Receipts without effect come last, so that with f at
/// its largest 64 postings are in all records by then, even of seven sites. Two events in a hundred repeat a receipt
/// and are refused.
pub fn carried_run(rng: &mut Prng, start: Start, postings: usize, accounts: u64) -> Run {
    let (n, f, matrix) = start;
    let (mut board, _) = Board::start(n.into(), f.into(), matrix);
    let mut calls: Vec<Call> = Vec::new();
    while calls.len() < MAX_EVENTS {
        let again = match calls.last() {
            Some(last @ Call::Receive { .. }) if rng.percent(2) => Some(*last),
            _ => None,
        };
        let Some(call) = again.or_else(|| call(rng, &board, postings, accounts)) else {
            break;
        };
        let _ = board.apply_on_sound(&call);
        calls.push(call);
    }
    Run {
        n,
        f,
        matrix,
        calls,
    }
}

/// The run file of such a run.
pub fn carried_file(rng: &mut Prng, start: Start, postings: usize, accounts: u64) -> Vec<u8> {
    let run = carried_run(rng, start, postings, accounts);
    encode(&run).expect("no call is larger than its fields")
}

/// A run file that offers so many postings and leaves the rest to a drain. Past the last that the board has room for,
/// the same is offered again, and refused.
pub fn offered_file(rng: &mut Prng, start: Start, postings: usize, accounts: u64) -> Vec<u8> {
    let (n, f, matrix) = start;
    let (mut board, _) = Board::start(n.into(), f.into(), matrix);
    let mut calls = Vec::new();
    for k in 0..postings {
        let call = match calls.last() {
            Some(last) if k >= POSTINGS => *last,
            _ => offer(rng, &board, accounts),
        };
        let _ = board.apply_on_sound(&call);
        calls.push(call);
    }
    let run = Run {
        n,
        f,
        matrix,
        calls,
    };
    encode(&run).expect("no call is larger than its fields")
}
