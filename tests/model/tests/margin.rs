// Holds: whom a CALL adds to and how much (document 02, W5), by postings offered and the books they give.
// Rests on: the model, common.

mod common;

use common::tally::{check_agreement, check_quiet};
use common::{complete, start, DRAIN};
use model::posting::{says, CALLED, POSITION, RATE_OF};
use model::prng::Prng;
use model::*;

/// Kind, a, b and amount.
type Offer = (u64, u64, u64, u64);

const fn trade(buyer: u64, seller: u64, amount: u64) -> Offer {
    (0, buyer, seller, amount)
}

const fn rate(account: u64, amount: u64) -> Offer {
    (1, account, account, amount)
}

const fn call(account: u64) -> Offer {
    (2, account, account, 0)
}

const fn net(account: u64) -> Offer {
    (3, account, account, 0)
}

/// Offers one posting, the sites in turn, and waits until all sites have delivered it.
fn post(board: &mut Board, (kind, a, b, amount): Offer) {
    let site = board.postings.len() as u64 % 3;
    board.offer(site, kind, a, b, amount, None).unwrap();
    assert_eq!(board.drain(DRAIN).unwrap().1, Ending::Quiet);
}

/// The books, which must be the same at all three sites.
fn books(board: &Board) -> [i64; FIGURES] {
    let mut lent = [8; 3 * FIGURES];
    board.books_of_all(&mut lent).unwrap();
    let mut one = [8; FIGURES];
    board.books(1, &mut one).unwrap();
    assert!(lent.chunks(FIGURES).all(|site| site == one));
    one
}

/// The books after these postings, in this order.
fn books_after(offers: &[Offer]) -> [i64; FIGURES] {
    let mut board = start(3, 1);
    offers.iter().for_each(|&offer| post(&mut board, offer));
    books(&board)
}

/// The postings that bring account 3 from zero to a position, account 5 being the other side.
fn to_position(position: i64) -> Vec<Offer> {
    let size = position.unsigned_abs();
    match position {
        1.. => vec![trade(3, 5, size)],
        0 => vec![],
        _ => vec![trade(5, 3, size)],
    }
}

const RATES: [u64; 4] = [0, 1, 250, 10_000];
/// A position, and what it is called at each of the rates.
const CALLS: [(i64, [i64; 4]); 6] = [
    (1000, [0, 1, 25, 1000]),
    (1001, [0, 1, 26, 1001]),
    (-1001, [0, 0, 0, 0]),
    (0, [0, 0, 0, 0]),
    (1, [0, 1, 1, 1]),
    (-1, [0, 0, 0, 0]),
];

/// M5 at other rates too, the RATE coming before the TRADE or after it; all other figures are as without the CALL.
#[test]
fn positions_by_rates() {
    for (position, called) in CALLS {
        for (amount, called) in RATES.into_iter().zip(called) {
            let mut wanted = [0; FIGURES];
            wanted[4 * 3 + POSITION] = position;
            wanted[4 * 5 + POSITION] = -position;
            wanted[4 * 3 + RATE_OF] = amount as i64;
            wanted[4 * 3 + CALLED] = called;
            let trades = to_position(position);
            let late = [trades.clone(), vec![rate(3, amount), call(3)]].concat();
            let early = [vec![rate(3, amount)], trades, vec![call(3)]].concat();
            assert_eq!(books_after(&late), wanted, "{position} at {amount}");
            assert_eq!(books_after(&early), wanted, "{position} at {amount}");
        }
    }
}

/// However a position came to zero, a CALL adds nothing to it.
#[test]
fn ways_to_zero() {
    let ways: [&[Offer]; 6] = [
        &[],
        &[trade(3, 5, 1001), trade(5, 3, 1001)],
        &[trade(5, 3, 1001), trade(3, 6, 1000), trade(3, 7, 1)],
        &[trade(3, 5, 1001), net(3)],
        &[trade(5, 3, 1001), net(3)],
        &[trade(3, 5, 1001), net(255)],
    ];
    for way in ways {
        let figures = books_after(&[way, &[rate(3, 10_000), call(3)]].concat());
        assert_eq!(figures[4 * 3 + POSITION], 0, "{way:?}");
        assert_eq!(figures[4 * 3 + CALLED], 0, "{way:?}");
    }
}

/// Posts each, and after it account 3 must show this position and this called.
fn follow(steps: &[(Offer, i64, i64)]) -> [i64; FIGURES] {
    let mut board = start(3, 1);
    for (k, &(offer, position, called)) in steps.iter().enumerate() {
        post(&mut board, offer);
        let figures = books(&board);
        let shown = (figures[4 * 3 + POSITION], figures[4 * 3 + CALLED]);
        assert_eq!(shown, (position, called), "step {k}: {offer:?}");
    }
    books(&board)
}

#[test]
fn a_seller_turns_buyer() {
    follow(&[
        (rate(3, 250), 0, 0),
        (trade(5, 3, 1001), -1001, 0),
        (call(3), -1001, 0),
        (trade(3, 5, 2002), 1001, 0),
        (call(3), 1001, 26),
    ]);
}

/// What was called as a buyer stays.
#[test]
fn a_buyer_turns_seller() {
    follow(&[
        (rate(3, 250), 0, 0),
        (trade(3, 5, 1001), 1001, 0),
        (call(3), 1001, 26),
        (trade(5, 3, 2002), -1001, 26),
        (call(3), -1001, 26),
    ]);
}

/// Cent by cent through zero and back, then netted; the NET settles what is below zero as before.
#[test]
fn through_zero_and_back() {
    let figures = follow(&[
        (rate(3, 250), 0, 0),
        (trade(3, 5, 1), 1, 0),
        (call(3), 1, 1),
        (trade(5, 3, 1), 0, 1),
        (call(3), 0, 1),
        (trade(5, 3, 1), -1, 1),
        (call(3), -1, 1),
        (trade(3, 5, 1), 0, 1),
        (call(3), 0, 1),
        (trade(3, 5, 1), 1, 1),
        (call(3), 1, 2),
        (call(3), 1, 3),
        (trade(5, 3, 1002), -1001, 3),
        (net(3), 0, 3),
        (call(3), 0, 3),
    ]);
    assert_eq!(figures[4 * 3..4 * 4], [0, 250, 3, -1001]);
    assert_eq!(figures[4 * 5..4 * 6], [1001, 0, 0, 0]);
}

/// The buyer of a TRADE is called by the formula and the seller 0, whoever is called first.
#[test]
fn both_sides_of_a_trade() {
    for (buyer, seller) in [(3, 5), (5, 3), (0, 15), (15, 0)] {
        let before = [
            rate(buyer, 250),
            rate(seller, 250),
            trade(buyer, seller, 1001),
        ];
        let mut wanted = [0; FIGURES];
        let (a, b) = (4 * buyer as usize, 4 * seller as usize);
        wanted[a..a + 4].copy_from_slice(&[1001, 250, 26, 0]);
        wanted[b..b + 4].copy_from_slice(&[-1001, 250, 0, 0]);
        for calls in [[buyer, seller], [seller, buyer]] {
            let offers = [before.as_slice(), &calls.map(call)].concat();
            assert_eq!(books_after(&offers), wanted, "{calls:?}");
        }
    }
}

/// The pairs of kinds that do not commute on a shared account are still the fixed pairs: above zero a CALL depends on
/// position and rate as before.
#[test]
fn the_fixed_pairs_stay() {
    let of_kind: [&[Offer]; 4] = [
        &[trade(3, 5, 1000), trade(5, 3, 1000), trade(3, 6, 2002)],
        &[rate(3, 0), rate(3, 500), rate(3, 10_000)],
        &[call(3)],
        &[net(3), net(255)],
    ];
    let befores = [-1001, 0, 1001].map(|p| [to_position(p), vec![rate(3, 250)]].concat());
    for (i, first) in of_kind.iter().enumerate() {
        for (j, second) in of_kind.iter().enumerate() {
            let mut commute = true;
            for before in &befores {
                for &p in first.iter() {
                    for &q in second.iter() {
                        let one = books_after(&[before.as_slice(), &[p, q]].concat());
                        let other = books_after(&[before.as_slice(), &[q, p]].concat());
                        commute &= one == other;
                    }
                }
            }
            assert_eq!(commute, !says(FIXED_PAIRS, i as u8, j as u8), "{i}-{j}");
        }
    }
}

/// All offered at once and received in any order: the sites agree, the seller is called 0, and the buyer 26 if its
/// CALL comes after its RATE and the TRADE.
#[test]
fn every_completion_agrees() {
    let mut rng = Prng::new(61);
    let mut times = [0; 2];
    for _ in 0..1000 {
        let mut board = start(3, 1);
        let offers = [
            trade(3, 5, 1001),
            rate(3, 250),
            call(3),
            rate(5, 250),
            call(5),
        ];
        for (m, (kind, a, b, amount)) in (0..).zip(offers) {
            assert_eq!(
                board.offer(u64::from(m) % 3, kind, a, b, amount, None),
                Ok(m)
            );
        }
        complete(&mut board, &mut rng, |_, _| true);
        check_quiet(&board);
        check_agreement(&board);
        let place = |m: u8| board.sites[0].record.iter().position(|&k| k == m).unwrap();
        let owes = place(2) > place(0) && place(2) > place(1);
        let figures = books(&board);
        let called = if owes { 26 } else { 0 };
        assert_eq!(figures[4 * 3..4 * 4], [1001, 250, called, 0]);
        assert_eq!(figures[4 * 5..4 * 6], [-1001, 250, 0, 0]);
        times[usize::from(owes)] += 1;
    }
    assert!(times.iter().all(|&count| count > 50), "{times:?}");
}
