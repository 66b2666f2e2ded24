// Holds: short ways to start, offer, receive and complete a schedule, shared by the tests.
// Rests on: the model.
#![allow(dead_code)]

pub mod naive;
pub mod tally;

use model::prng::Prng;
use model::set::{members, one};
use model::{Board, Call, Message, Refusal, Set, FIRST, FIXED_PAIRS, SECOND, THIRD};

/// The limit of a drain that surely ends quiet.
pub const DRAIN: u64 = 27_136;

/// Kind, a, b and amount of postings with 255 where it is not allowed, or with a number close to it or to the last
/// account. All fit a board and a run file.
pub const MISUSES: [(u8, u8, u8, u32); 16] = [
    (3, 255, 5, 0),
    (3, 5, 255, 0),
    (3, 255, 254, 0),
    (3, 255, 255, 1),
    (3, 255, 255, u32::MAX),
    (1, 255, 255, 0),
    (1, 255, 255, 250),
    (2, 255, 255, 0),
    (0, 255, 1, 9),
    (0, 1, 255, 9),
    (0, 255, 255, 9),
    (4, 255, 255, 0),
    (255, 255, 255, 0),
    (3, 254, 254, 0),
    (3, 16, 16, 0),
    (3, 128, 128, 0),
];

/// The set of postings below 64 that a word is.
pub fn low(word: u64) -> Set {
    let mut set = Set::EMPTY;
    set.words[0] = word;
    set
}

pub fn start(n: u64, f: u64) -> Board {
    let (board, answer) = Board::start(n, f, FIXED_PAIRS);
    assert_eq!(answer, Ok(()));
    board
}

/// The number of a refusal, or 0.
pub fn no<T>(answer: Result<T, Refusal>) -> u8 {
    answer.err().map_or(0, Refusal::number)
}

pub fn receive(board: &mut Board, form: usize, posting: u64, from: u64, to: u64) {
    let answer = board.receive(form as u64, posting, from, to, None);
    assert_eq!(answer, Ok(()), "{form} {posting} {from} {to}");
}

/// Three postings on three of seven slots: 0 delivered, 1 in the log, 2 in the pool, THIRDs in flight.
pub fn rich() -> Board {
    let mut board = start(3, 1);
    board.offer(0, 0, 1, 2, 9, None).unwrap();
    board.drain(DRAIN).unwrap();
    board.offer(0, 1, 4, 4, 250, None).unwrap();
    board.offer(1, 2, 4, 4, 0, None).unwrap();
    for (posting, to) in [(1, 0), (2, 1), (1, 2), (2, 0), (1, 1), (2, 2)] {
        receive(&mut board, FIRST, posting, posting - 1, to);
    }
    for posting in [1, 2] {
        for from in 0..2 {
            (0..3).for_each(|s| receive(&mut board, SECOND, posting, from, s));
        }
        receive(&mut board, THIRD, posting, 2, posting - 1);
        receive(&mut board, THIRD, posting, 1, posting - 1);
    }
    board.order(1).unwrap();
    board.read(0, None).unwrap();
    assert!(board.is_sound());
    assert_eq!((board.log.as_slice(), board.pool), ([1].as_slice(), one(2)));
    assert_eq!(board.flight.to[THIRD][1][0], 0b001);
    board
}

pub fn receipt(message: &Message, cut: Option<u64>) -> Call {
    Call::Receive {
        form: message.form.into(),
        posting: message.posting.into(),
        from: message.from.into(),
        to: message.to.into(),
        cut,
    }
}

/// Receipts, orders and reads that would be accepted uncut, receipts only if allowed.
pub fn choices(board: &Board, allowed: impl Fn(&Board, &Message) -> bool) -> Vec<Call> {
    let mut list: Vec<Call> = board
        .flight
        .messages(board.up())
        .iter()
        .filter(|m| allowed(board, m))
        .map(|m| receipt(m, None))
        .collect();
    list.extend(members(board.pool).map(|m| Call::Order { posting: m as u64 }));
    for s in 0..usize::from(board.n) {
        if board.is_up(s) && board.sites[s].place < board.log.len() {
            let site = s as u64;
            list.push(Call::Read { site, cut: None });
        }
    }
    list
}

/// Does allowed events at random until none is left.
pub fn complete(board: &mut Board, rng: &mut Prng, allowed: impl Fn(&Board, &Message) -> bool) {
    loop {
        let list = choices(board, &allowed);
        if list.is_empty() {
            return;
        }
        let call = rng.pick(&list);
        assert!(board.apply(&call).is_ok(), "{call:?}");
    }
}
