// Holds: the marked cases M1 to M10, M9 and M10 also with many completions of their schedules.
// Rests on: the model, common.

mod common;

use common::{complete, low, no, receive, start, DRAIN};
use model::posting::{CALL, CALLED, NET, POSITION, RATE, RATE_OF, TRADE};
use model::prng::Prng;
use model::set::has;
use model::*;

fn posting(kind: u8, a: u8, b: u8, amount: u32) -> Posting {
    Posting {
        owner: 0,
        kind,
        a,
        b,
        amount,
    }
}

#[test]
fn m1_m2_starts() {
    assert_eq!(no(Board::start(2, 1, FIXED_PAIRS).1), 2);
    assert_eq!(no(Board::start(7, 3, FIXED_PAIRS).1), 0);
    assert_eq!(no(Board::start(8, 1, FIXED_PAIRS).1), 2);
    assert_eq!(no(Board::start(4, 2, FIXED_PAIRS).1), 3);
}

#[test]
fn m3_m4_conflicts() {
    let both = |p: Posting, q: Posting| {
        let answer = conflict(FIXED_PAIRS, &p, &q);
        assert_eq!(answer, conflict(FIXED_PAIRS, &q, &p));
        answer
    };
    let trade = posting(TRADE, 1, 2, 5);
    assert!(both(trade, posting(CALL, 2, 2, 0)));
    assert!(!both(trade, posting(CALL, 3, 3, 0)));
    assert!(!both(trade, posting(TRADE, 1, 2, 7)));
    assert!(both(posting(RATE, 4, 4, 1), posting(RATE, 4, 4, 2)));
    assert!(!both(posting(NET, 4, 4, 0), posting(NET, 4, 4, 0)));
    assert!(both(posting(NET, 255, 255, 0), posting(CALL, 7, 7, 0)));
}

/// −1001 is called 0 by document 02, W5.
#[test]
fn m5_calls_round_up_what_is_owed() {
    for (position, called) in [(1000, 25), (1001, 26), (-1001, 0), (0, 0)] {
        let mut figures = [0; FIGURES];
        figures[4 * 3 + POSITION] = position;
        figures[4 * 3 + RATE_OF] = 250;
        effect(&posting(CALL, 3, 3, 0), &mut figures);
        assert_eq!(figures[4 * 3 + CALLED], called);
        assert_eq!(figures[4 * 3 + POSITION], position);
    }
}

#[test]
fn m6_whole_case() {
    let mut board = start(3, 1);
    assert_eq!(board.offer(0, 0, 1, 2, 1000, None), Ok(0));
    assert_eq!(no(board.receive(0, 0, 0, 0, None)), 0);
    assert_eq!(no(board.receive(0, 0, 0, 0, None)), 11);
    assert!(!board.is_quiet());
}

#[test]
fn m7_m8_drain_of_one_trade() {
    for limit in [22, 23, DRAIN, u64::MAX] {
        let mut board = start(3, 1);
        board.offer(0, 0, 1, 2, 1000, None).unwrap();
        assert_eq!(board.drain(limit), Ok((22, Ending::Quiet)));
        assert!(board.is_quiet());
        assert!(board.sites[..3].iter().all(|s| s.record == [0]));
    }
    let mut board = start(3, 1);
    board.offer(0, 0, 1, 2, 1000, None).unwrap();
    assert_eq!(board.drain(21), Ok((21, Ending::Spent)));
    assert!(!board.is_quiet());
    assert_eq!(board.drain(0), Ok((0, Ending::Spent)));
    assert_eq!(board.drain(1), Ok((1, Ending::Quiet)));
    assert_eq!(board.drain(0), Ok((0, Ending::Quiet)));
}

/// RATE 0 by site 0 and CALL 1 by site 1, one account.
fn two_offers() -> Board {
    let mut board = start(3, 1);
    assert_eq!(board.offer(0, 1, 4, 4, 250, None), Ok(0));
    assert_eq!(board.offer(1, 2, 4, 4, 0, None), Ok(1));
    board
}

#[test]
fn m9_as_written() {
    let mut board = two_offers();
    for (posting, to) in [(0, 0), (1, 1), (0, 2), (1, 0), (0, 1), (1, 2)] {
        receive(&mut board, FIRST, posting, posting, to);
    }
    while board.next_event().is_some_and(|e| {
        let receipt = matches!(e, Call::Receive { .. });
        receipt && board.apply(&e).is_ok()
    }) {}
    assert_eq!(board.pool, low(0b11));
    assert_eq!(board.entries[..2], [Set::EMPTY; 2]);
    assert!(board.sites[..3].iter().all(|s| s.record.is_empty()));
}

fn m9_allows(board: &Board, m: &Message) -> bool {
    let firsts = board.flight.to[FIRST].as_flattened();
    if usize::from(m.form) != FIRST {
        return firsts.iter().all(|&to| to == 0);
    }
    let seen = board.sites[usize::from(m.to)].seen;
    let wanted = if m.to == 1 { 1 } else { 0 };
    m.posting == wanted || has(seen, usize::from(wanted))
}

#[test]
fn m9_every_completion_pools_both() {
    let mut rng = Prng::new(9);
    for _ in 0..2000 {
        let mut board = two_offers();
        complete(&mut board, &mut rng, m9_allows);
        assert!(board.is_quiet());
        assert_eq!(board.entries[..2], [Set::EMPTY; 2]);
        assert_eq!(board.log.len(), 2);
        for site in &board.sites[..3] {
            assert_eq!(site.record, board.log);
            assert_eq!(site.held, Set::EMPTY);
        }
    }
}

fn m10_start() -> Board {
    let mut board = two_offers();
    receive(&mut board, FIRST, 0, 0, 0);
    receive(&mut board, FIRST, 1, 1, 1);
    receive(&mut board, FIRST, 0, 0, 2);
    for to in [0, 2] {
        receive(&mut board, SECOND, 0, 0, to);
        receive(&mut board, SECOND, 0, 2, to);
    }
    board
}

fn m10_ends(board: &Board) {
    assert!(board.is_quiet());
    assert_eq!(board.log, [1]);
    assert_eq!(board.entries[1], low(0b01));
    for site in &board.sites[..3] {
        assert!(has(site.told, 0) && !has(site.told, 1));
        assert_eq!(site.record, [0, 1]);
    }
}

#[test]
fn m10_as_written() {
    let mut board = m10_start();
    receive(&mut board, THIRD, 0, 0, 0);
    receive(&mut board, THIRD, 0, 2, 0);
    assert_eq!(board.flight.to[DELIVER][0][0], 0b111);
    assert_eq!(board.drain(DRAIN).unwrap().1, Ending::Quiet);
    m10_ends(&board);
}

fn m10_allows(board: &Board, m: &Message) -> bool {
    let stepped = |s: usize| has(board.sites[s].stepped, 0);
    let to = usize::from(m.to);
    match (usize::from(m.form), m.posting, m.from) {
        (FIRST, 0, _) if to == 1 => has(board.sites[1].seen, 1),
        (FIRST, 1, _) if to != 1 => stepped(0) && stepped(2),
        (SECOND, 0, 1) if to != 1 => stepped(to),
        (THIRD, 0, 0 | 2) => true,
        (THIRD, _, _) => board.sites[0].thirds[0].heard & 0b101 == 0b101,
        _ => true,
    }
}

#[test]
fn m10_every_completion_ends_alike() {
    let mut rng = Prng::new(10);
    for round in 0..2000 {
        let mut board = if round % 2 == 0 {
            two_offers()
        } else {
            m10_start()
        };
        complete(&mut board, &mut rng, m10_allows);
        m10_ends(&board);
    }
}
