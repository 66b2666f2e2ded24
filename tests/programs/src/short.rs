// Holds: short run files, made by seed, whose boards are worth changing.
// Rests on: files, carried; the model's generators.

use crate::carried::{offer, offered_file, useful_calls};
use crate::files::{sort, start, Sort};
use model::gen::{legal_matrix, random_mix, random_run};
use model::prng::Prng;
use model::runfile::{encode, MAX_EVENTS};
use model::{Board, Call, Run, DELIVER, POSTINGS};

/// Short, since every change of a board plays its file anew; but for a few whose log and records are full.
pub static SHORT: [Sort; 4] = [
    sort("short runs", 14 * 44, mixed),
    sort("hurried runs", 14 * 180, hurried),
    sort("offers alone", 14 * 16, offers),
    sort("full logs", 12, full_log),
];

fn mixed(rng: &mut Prng, k: usize) -> Vec<u8> {
    let start = start(rng, k);
    let events = rng.below(50) as usize;
    let mix = random_mix(rng);
    let run = random_run(rng, start, events, &mix);
    encode(&run).expect("a mix that is not wide fits the file")
}

/// Two or three postings on two accounts. Most often the lower forms are received before the higher ones: so the
/// postings conflict, and soon some are in the pool, in the log and in records.
fn hurried(rng: &mut Prng, k: usize) -> Vec<u8> {
    let cheap = rng.pick(&[0, 1, 3, 6]);
    let (n, f, matrix) = start(rng, [k / 2, cheap][k % 2]);
    let (mut board, _) = Board::start(n.into(), f.into(), matrix);
    let postings = rng.pick(&[2, 2, 3]);
    let high = rng.percent(20);
    let orders = rng.percent(75);
    let events = way(rng, n.into(), (n - f).into(), postings as u64) as usize;
    let mut calls = Vec::new();
    while calls.len() < events {
        let mut useful = useful_calls(&board);
        useful.retain(|call| orders || !matches!(call, Call::Order { .. }));
        let call = if board.postings.len() < postings || useful.is_empty() {
            clashing_offer(rng, &board)
        } else {
            let drawn: Vec<Call> = (0..4).map(|_| rng.pick(&useful)).collect();
            let best = drawn.iter().max_by_key(|call| liking(call, high));
            *best.expect("four were drawn")
        };
        let _ = board.apply_on_sound(&call);
        calls.push(call);
    }
    if rng.percent(20) {
        let site = rng.below(n.into());
        calls.push(Call::Crash { site });
    }
    let run = Run {
        n,
        f,
        matrix,
        calls,
    };
    encode(&run).expect("no call is larger than its fields")
}

/// A RATE or a CALL of one account, or else anything on two.
fn clashing_offer(rng: &mut Prng, board: &Board) -> Call {
    let mut call = offer(rng, board, 2);
    if let Call::Offer {
        kind, a, b, amount, ..
    } = &mut call
    {
        if rng.percent(70) {
            (*a, *b) = (1, 1);
            (*kind, *amount) = rng.pick(&[(1, 250), (2, 0)]);
        }
    }
    call
}

/// About how many useful events take so many postings to the pool or to DELIVER, or a little fewer, or more.
fn way(rng: &mut Prng, n: u64, quorum: u64, postings: u64) -> u64 {
    let each = 1 + n + n * quorum + quorum;
    let whole = postings * each;
    rng.within(whole * 3 / 4, (whole * 5 / 4).max(64))
}

/// How gladly a call is taken; orders and reads come before DELIVERs or after them.
fn liking(call: &Call, high: bool) -> u64 {
    match *call {
        Call::Receive { form, .. } if high => 2 * form,
        Call::Receive { form, .. } => 2 * (3 - form),
        _ => 1,
    }
}

/// All the postings that there may be, or not quite.
fn offers(rng: &mut Prng, k: usize) -> Vec<u8> {
    let start = start(rng, k);
    let all = POSTINGS;
    let postings = rng.pick(&[all, all, all, all - 1]);
    offered_file(rng, start, postings, 16)
}

/// Postings that all conflict, offered before any is received: all but the first go through the log. At the end, or
/// soon before it, log and records are as long as they can be.
fn full_log(rng: &mut Prng, _: usize) -> Vec<u8> {
    let (n, f, matrix) = (3, 1, legal_matrix(rng));
    let (mut board, _) = Board::start(n.into(), f.into(), matrix);
    let mut calls = Vec::new();
    while let Some(call) = rate(rng, &board).or_else(|| voted_by_two(&board)) {
        let _ = board.apply_on_sound(&call);
        calls.push(call);
    }
    assert!(calls.len() <= MAX_EVENTS);
    calls.truncate(calls.len() - rng.pick(&[0, 0, 1, 40]));
    let run = Run {
        n,
        f,
        matrix,
        calls,
    };
    encode(&run).expect("no call is larger than its fields")
}

/// The next useful call where FIRSTs, SECONDs and THIRDs reach sites 0 and 1 alone: with three sites these two are
/// enough, and a full board takes fewer events so than a file may have.
fn voted_by_two(board: &Board) -> Option<Call> {
    let voting = |call: &Call| match *call {
        Call::Receive { form, to, .. } => form == DELIVER as u64 || to < 2,
        _ => true,
    };
    useful_calls(board).into_iter().find(voting)
}

/// A RATE of one account by site 0 or 1, as long as there is room for it.
fn rate(rng: &mut Prng, board: &Board) -> Option<Call> {
    let room = board.postings.len() < POSTINGS;
    room.then(|| Call::Offer {
        site: rng.below(2),
        kind: 1,
        a: 4,
        b: 4,
        amount: rng.below(10_000),
        cut: None,
    })
}
