// Holds: run files with all the postings that a board holds: in the record of every site at their end, or left to the longest drain there is.
// Rests on: the model.

use model::posting::{CALL, EVERY_ACCOUNT, NET, RATE, TRADE};
use model::runfile::{encode, MAX_EVENTS};
use model::{Board, Call, Run, FIRST, FIXED_PAIRS, POSTINGS, SECOND, THIRD};

/// The account that all postings share, so that the last, a CALL of it, conflicts with all others.
const SHARED: u64 = 1;

/// The last posting of a full board.
const LAST: u64 = POSTINGS as u64 - 1;

fn offer(kind: u8, a: u64, b: u64, amount: u64) -> Call {
    Call::Offer {
        site: 0,
        kind: kind.into(),
        a,
        b,
        amount,
        cut: None,
    }
}

/// A RATE, TRADEs with all other accounts in turn, and last a CALL.
fn shared(m: u64) -> Call {
    match m {
        0 => offer(RATE, SHARED, SHARED, 250),
        LAST => offer(CALL, SHARED, SHARED, 0),
        _ => offer(TRADE, SHARED, 2 + m % 14, 100 * m),
    }
}

/// TRADEs of all accounts, and last a NET of the whole house.
fn netted(m: u64) -> Call {
    let every = EVERY_ACCOUNT.into();
    match m {
        LAST => offer(NET, every, every, 0),
        _ => offer(TRADE, m % 16, (m + 5) % 16, 100 + m),
    }
}

fn receipt(form: usize, posting: u64, from: u64, to: u64) -> Call {
    Call::Receive {
        form: form as u64,
        posting,
        from,
        to,
        cut: None,
    }
}

/// The first n − f sites receive the FIRST of a posting, and the first `steps` of them the SECONDs of all of those.
fn voted(m: u64, quorum: u64, steps: u64) -> Vec<Call> {
    let firsts = (0..quorum).map(|to| receipt(FIRST, m, 0, to));
    let seconds = (0..steps).flat_map(|to| (0..quorum).map(move |from| (from, to)));
    let seconds = seconds.map(|(from, to)| receipt(SECOND, m, from, to));
    firsts.chain(seconds).collect()
}

/// Site 0 steps every posting before the last is offered, and so holds them: the entry of the last carries all others,
/// and whoever reads it delivers all there are.
fn carried_by_last(n: u8, f: u8, posting: fn(u64) -> Call) -> Vec<Call> {
    let quorum = u64::from(n - f);
    let mut calls = Vec::new();
    for m in 0..LAST {
        calls.push(posting(m));
        calls.extend(voted(m, quorum, 1));
    }
    calls.push(posting(LAST));
    calls.extend(voted(LAST, quorum, quorum));
    calls.extend((0..quorum).map(|from| receipt(THIRD, LAST, from, 0)));
    calls.push(Call::Order { posting: LAST });
    calls.extend((0..n.into()).map(|site| Call::Read { site, cut: None }));
    calls
}

/// The file; what follows the last read is refused, and printed with the longest lines.
fn of_postings(n: u8, posting: fn(u64) -> Call) -> Vec<u8> {
    let f = (n - 1) / 2;
    let (mut board, _) = Board::start(n.into(), f.into(), FIXED_PAIRS);
    let mut calls = carried_by_last(n, f, posting);
    for call in &calls {
        assert!(board.apply_on_sound(call).is_ok(), "{call:?}");
    }
    let full = |site: &model::Site| site.record.len() == POSTINGS;
    assert!(board.sites[..usize::from(n)].iter().all(full));
    calls.resize(MAX_EVENTS, posting(LAST));
    file(n, f, calls)
}

/// A CALL's entry carries all others.
pub fn full_file(n: u8) -> Vec<u8> {
    of_postings(n, shared)
}

/// The entry of a NET of the whole house carries all others: TRADEs, two of which need not have an account in common.
pub fn netted_file(n: u8) -> Vec<u8> {
    of_postings(n, netted)
}

/// Offers of TRADEs alone, by each site in turn: none conflict, so that each takes as many events as a posting can, and
/// with seven sites no drain is longer.
pub fn trades_file(n: u8, f: u8) -> Vec<u8> {
    let trade = |m| Call::Offer {
        site: m % u64::from(n),
        kind: TRADE.into(),
        a: m % 16,
        b: (m + 1) % 16,
        amount: 1 + m,
        cut: None,
    };
    file(n, f, (0..POSTINGS as u64).map(trade).collect())
}

fn file(n: u8, f: u8, calls: Vec<Call>) -> Vec<u8> {
    let run = Run {
        n,
        f,
        matrix: FIXED_PAIRS,
        calls,
    };
    encode(&run).expect("no call is larger than its fields")
}
