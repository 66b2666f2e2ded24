// Holds: each refusal of each call, the lowest number first, and cuts after every j.
// Rests on: the model, common.

mod common;

use common::{low, no, receive, start, MISUSES};
use model::*;

#[test]
fn starts() {
    for n in (0..12).chain([255, 256 + 3, u64::MAX]) {
        for f in (0..6).chain([1 << 63, (1 << 63) + 1, u64::MAX]) {
            for matrix in [FIXED_PAIRS, 0xFFFF, 0x5B6E, 0x7B6C, 0, 0x5B4C, 0x1] {
                let (board, answer) = Board::start(n, f, matrix);
                let symmetric = matrix != 0x5B6E && matrix != 0x7B6C;
                let number = match () {
                    _ if !(3..=7).contains(&n) => 2,
                    _ if u128::from(f) * 2 >= u128::from(n) => 3,
                    _ if !symmetric => 4,
                    _ if matrix == 0 || matrix == 0x5B4C || matrix == 1 => 5,
                    _ => 0,
                };
                assert_eq!(no(answer), number);
                assert_eq!(board.is_sound(), number == 0);
                assert_eq!(board == Board::blank(), number != 0);
            }
        }
    }
}

#[test]
fn every_matrix() {
    let pairs = [(0, 2), (0, 3), (1, 1), (1, 2), (2, 3)];
    for matrix in 0..=u16::MAX {
        let bit = |i: u32, j: u32| matrix >> (4 * i + j) & 1 == 1;
        let symmetric = (0..4).all(|i| (0..4).all(|j| bit(i, j) == bit(j, i)));
        let fixed = pairs.iter().all(|&(i, j)| bit(i, j) && bit(j, i));
        assert_eq!(matrix_symmetric(matrix), symmetric);
        assert_eq!(matrix_has_fixed_pairs(matrix), fixed);
    }
}

#[test]
fn fields() {
    let good = [
        (0, 0, 15, 1),
        (0, 15, 0, 1_000_000_000),
        (1, 3, 3, 0),
        (1, 3, 3, 10_000),
        (2, 15, 15, 0),
        (3, 0, 0, 0),
    ];
    let bad = [
        (0, 1, 1, 5),
        (0, 1, 2, 0),
        (0, 1, 2, 1_000_000_001),
        (0, 16, 2, 1),
        (0, 1, 16, 1),
        (0, 1, 1 << 32, 1),
        (0, 1, 2, (1 << 32) + 1),
        (1, 3, 4, 5),
        (1, 3, 3, 10_001),
        (1, 16, 16, 5),
        (2, 3, 3, 1),
        (2, 3, 4, 0),
        (3, 3, 3, 1),
        (3, 3, 4, 0),
        (4, 3, 3, 0),
        (u64::MAX, 1, 2, 1),
        (256, 1, 2, 1),
    ];
    for (list, number) in [(good.as_slice(), 0), (bad.as_slice(), 9)] {
        for &(kind, a, b, amount) in list {
            assert_eq!(fields_ok(kind, a, b, amount), number == 0);
            let mut board = start(3, 1);
            assert_eq!(no(board.offer(2, kind, a, b, amount, None)), number);
        }
    }
}

/// 255 is allowed in both accounts of a NET with amount 0 and nowhere else; no wider number is taken for it.
#[test]
fn the_mark_of_every_account() {
    let mut board = start(3, 1);
    assert!(fields_ok(3, 255, 255, 0));
    assert_eq!(board.offer(2, 3, 255, 255, 0, None), Ok(0));
    assert_eq!(
        board.postings,
        [Posting {
            owner: 2,
            ..HOUSE_NET
        }]
    );
    assert!(board.is_sound());
    let before = board.clone();
    let narrow =
        MISUSES.map(|(kind, a, b, amount)| (kind.into(), a.into(), b.into(), amount.into()));
    let wide = [
        (3, 511, 511, 0),
        (3, 255, 511, 0),
        (3, 255 + (1 << 32), 255 + (1 << 32), 0),
        (3, u64::MAX, u64::MAX, 0),
        (3, 255, 255, 1 << 32),
        (259, 255, 255, 0),
    ];
    for (kind, a, b, amount) in narrow.into_iter().chain(wide) {
        assert!(!fields_ok(kind, a, b, amount), "{kind} {a} {b} {amount}");
        assert_eq!(no(board.offer(0, kind, a, b, amount, None)), 9);
        assert_eq!(no(board.offer(0, kind, a, b, amount, Some(9))), 9);
        assert_eq!(no(board.offer(3, kind, a, b, amount, None)), 7);
    }
    assert_eq!(board, before);
}

/// Every pair of bytes as accounts, for each kind.
#[test]
fn all_accounts() {
    for k in 0..4 << 16 {
        let (kind, a, b) = (k >> 16, k >> 8 & 255, k & 255);
        let inside = a < 16 && b < 16 && (a == b) == (kind != 0);
        let house = (kind, a, b) == (3, 255, 255);
        let amount = u64::from(kind == 0);
        assert_eq!(
            fields_ok(kind, a, b, amount),
            inside || house,
            "{kind} {a} {b}"
        );
    }
}

#[test]
fn offers_in_rising_number() {
    let mut board = start(3, 1);
    for m in 0..256 {
        assert_eq!(board.offer(m % 3, 0, 1, 2, 9, None), Ok(m as u8));
    }
    let full = board.clone();
    assert_eq!(no(board.offer(3, 9, 1, 2, 9, Some(9))), 7);
    assert_eq!(no(board.offer(0, 9, 1, 2, 9, Some(9))), 9);
    assert_eq!(no(board.offer(0, 0, 1, 2, 9, Some(9))), 10);
    assert_eq!(board, full);
    assert_eq!(no(board.crash(0)), 0);
    assert_eq!(no(board.offer(0, 9, 1, 2, 9, Some(9))), 8);
    let mut board = start(3, 1);
    assert_eq!(no(board.offer(0, 0, 1, 2, 9, Some(4))), 15);
    assert_eq!(no(board.offer(0, 0, 1, 2, 9, Some(u64::MAX))), 15);
    assert_eq!(board.offer(0, 0, 1, 2, 9, Some(3)), Ok(0));
    assert_eq!(no(board.offer(1, 0, 1, 2, 9, Some(0))), 14);
    assert_eq!(no(board.offer(1, 0, 1, 2, 9, Some(4))), 14);
    let mut still = start(3, 0);
    assert_eq!(no(still.offer(0, 0, 1, 2, 9, Some(0))), 14);
    assert_eq!(no(still.crash(0)), 14);
    assert_eq!(no(still.crash(3)), 7);
}

#[test]
fn receipts_in_rising_number() {
    let mut board = start(3, 1);
    board.offer(0, 0, 1, 2, 9, None).unwrap();
    assert_eq!(no(board.receive(9, 99, 3, 0, Some(9))), 7);
    assert_eq!(no(board.receive(9, 99, 0, 3, Some(9))), 7);
    for (form, posting, from, to) in [
        (4, 0, 0, 0),
        (256, 0, 0, 0),
        (0, 1, 0, 0),
        (0, 64, 0, 0),
        (0, 255, 0, 0),
        (0, 256, 0, 0),
        (0, 1 << 32, 0, 0),
        (0, 0, 1, 0),
        (3, 0, 0, 0),
    ] {
        assert_eq!(no(board.receive(form, posting, from, to, Some(9))), 11);
    }
    assert_eq!(no(board.receive(0, 0, 0, 0, Some(4))), 15);
    assert_eq!(no(board.crash(1)), 0);
    assert_eq!(no(board.receive(9, 99, 0, 1, Some(9))), 8);
    assert_eq!(no(board.receive(0, 0, 0, 1, None)), 8);
    assert_eq!(no(board.receive(0, 0, 0, 0, Some(4))), 14);
    assert_eq!(no(board.crash(1)), 8);
    assert_eq!(no(board.crash(2)), 14);
    assert_eq!(no(board.crash(3)), 7);
}

/// A RATE and a CALL, both in the pool.
fn pooled() -> Board {
    let mut board = start(3, 1);
    board.offer(0, 1, 4, 4, 250, None).unwrap();
    board.offer(1, 2, 4, 4, 0, None).unwrap();
    for (posting, to) in [(0, 0), (1, 1), (0, 2), (1, 0), (0, 1), (1, 2)] {
        receive(&mut board, FIRST, posting, posting, to);
    }
    while let Some(call @ Call::Receive { .. }) = board.next_event() {
        board.apply(&call).unwrap();
    }
    board
}

#[test]
fn orders_and_reads_in_rising_number() {
    let mut board = pooled();
    for posting in [2, 63, 64, 255, 256, 257, u64::MAX] {
        assert_eq!(no(board.order(posting)), 12);
    }
    assert_eq!(no(board.read(3, Some(9))), 7);
    assert_eq!(no(board.read(0, Some(9))), 13);
    assert_eq!(no(board.order(1)), 0);
    assert_eq!(no(board.order(1)), 12);
    assert_eq!(no(board.read(0, Some(1))), 15);
    assert_eq!(no(board.read(0, None)), 0);
    assert_eq!(no(board.read(0, None)), 13);
    assert_eq!(board.sites[0].record, [1]);
    assert_eq!(no(board.read(1, Some(0))), 0);
    assert_eq!((board.sites[1].place, board.down), (1, 0b10));
    assert!(board.sites[1].record.is_empty());
    assert_eq!(no(board.read(1, Some(0))), 8);
    assert_eq!(no(board.read(2, Some(1))), 14);
    assert_eq!(no(board.order(0)), 0, "an order needs no owner");
}

#[test]
fn cut_offer_and_cut_first() {
    for j in 0..=3 {
        let mut board = start(3, 1);
        assert_eq!(board.offer(1, 0, 1, 2, 9, Some(j)), Ok(0));
        assert_eq!(board.flight.to[FIRST][0][1], [0, 1, 3, 7][j as usize]);
        assert_eq!((board.postings.len(), board.down), (1, 2));
        let mut board = start(3, 1);
        board.offer(1, 0, 1, 2, 9, None).unwrap();
        board.receive(0, 0, 1, 0, Some(j)).unwrap();
        assert_eq!(board.flight.to[SECOND][0][0], [0, 1, 3, 7][j as usize]);
        assert_eq!((board.sites[0].seen, board.down), (low(1), 1));
    }
}

/// Whether the message is at hand, and what its cuts do, for SECOND, THIRD and DELIVER.
#[test]
fn cut_second_third_deliver() {
    let mut board = start(3, 1);
    board.offer(0, 0, 1, 2, 9, None).unwrap();
    (0..3).for_each(|s| receive(&mut board, FIRST, 0, 0, s));
    let mut early = board.clone();
    assert_eq!(no(early.receive(1, 0, 0, 1, Some(1))), 15);
    assert_eq!(no(early.receive(1, 0, 0, 1, Some(0))), 0);
    (0..3).for_each(|s| receive(&mut board, SECOND, 0, 0, s));
    for j in 0..=1 {
        let mut cut = board.clone();
        assert_eq!(no(cut.receive(1, 0, 1, 1, Some(2))), 15);
        assert_eq!(no(cut.receive(1, 0, 1, 1, Some(j))), 0);
        assert_eq!(u64::from(cut.flight.to[THIRD][0][1]), j);
        assert_eq!((cut.sites[1].stepped, cut.sites[1].held), (low(1), low(1)));
    }
    (0..3).for_each(|s| receive(&mut board, SECOND, 0, 1, s));
    receive(&mut board, THIRD, 0, 2, 0);
    for j in 0..=3 {
        let mut cut = board.clone();
        assert_eq!(no(cut.receive(2, 0, 1, 0, Some(4))), 15);
        assert_eq!(no(cut.receive(2, 0, 1, 0, Some(j))), 0);
        assert_eq!(cut.flight.to[DELIVER][0][0], [0, 1, 3, 7][j as usize]);
        assert_eq!((cut.sites[0].finished, cut.pool), (low(1), Set::EMPTY));
    }
    receive(&mut board, THIRD, 0, 1, 0);
    for j in 0..=2 {
        let mut cut = board.clone();
        assert_eq!(no(cut.receive(3, 0, 0, 1, Some(3))), 15);
        assert_eq!(no(cut.receive(3, 0, 0, 1, Some(j))), 0);
        assert_eq!(cut.flight.to[DELIVER][0][1], [0, 1, 5][j as usize]);
        assert!(cut.sites[1].record.is_empty());
    }
    assert_eq!(no(board.clone().receive(3, 0, 0, 0, Some(1))), 15);
    assert_eq!(no(board.clone().receive(3, 0, 0, 0, Some(0))), 0);
    receive(&mut board, DELIVER, 0, 0, 0);
    assert_eq!(board.flight.to[DELIVER][0][0], 0b110);
    assert_eq!(board.sites[0].record, [0]);
}

#[test]
fn cut_third_with_a_pool_entry() {
    let mut board = start(3, 1);
    board.offer(0, 1, 4, 4, 250, None).unwrap();
    board.offer(1, 2, 4, 4, 0, None).unwrap();
    for (posting, to) in [(0, 0), (1, 1), (0, 2), (1, 0), (0, 1), (1, 2)] {
        receive(&mut board, FIRST, posting, posting, to);
    }
    for from in 0..2 {
        (0..3).for_each(|s| receive(&mut board, SECOND, 0, from, s));
    }
    receive(&mut board, THIRD, 0, 2, 0);
    for j in 0..=1 {
        let mut cut = board.clone();
        assert_eq!(no(cut.receive(2, 0, 0, 0, Some(2))), 15);
        assert_eq!(no(cut.receive(2, 0, 0, 0, Some(j))), 0);
        assert_eq!((cut.pool, cut.sites[0].finished), (low(j), low(1)));
        assert!(cut.is_sound());
    }
}
