// Holds: the NET of the whole house: whom it conflicts with, what it does to the books, and runs with it.
// Rests on: the model, common.

mod common;

use common::tally::{check_agreement, check_quiet};
use common::{complete, low, no, receive, start, DRAIN};
use model::posting::{CALL, CALLED, NET, POSITION, RATE, RATE_OF, SETTLED, TRADE};
use model::prng::Prng;
use model::set::has;
use model::*;

const EVERY_PAIR: u16 = 0xFFFF;

fn posting(kind: u8, a: u8, b: u8, amount: u32) -> Posting {
    Posting {
        owner: 0,
        kind,
        a,
        b,
        amount,
    }
}

/// All postings with sound fields, one amount for each kind.
fn every_posting() -> Vec<Posting> {
    let mut list = vec![posting(NET, 255, 255, 0)];
    for a in 0..16 {
        list.extend((0..16).filter(|&b| b != a).map(|b| posting(TRADE, a, b, 7)));
        list.push(posting(RATE, a, a, 250));
        list.push(posting(CALL, a, a, 0));
        list.push(posting(NET, a, a, 0));
    }
    assert!(list.iter().all(|p| {
        let [kind, a, b] = [p.kind, p.a, p.b].map(u64::from);
        fields_ok(kind, a, b, p.amount.into())
    }));
    list
}

#[test]
fn conflicts() {
    let house = posting(NET, 255, 255, 0);
    assert_eq!(house, HOUSE_NET);
    // The other posting, and whether they conflict with the fixed pairs alone. With every pair all do.
    let others = [
        (posting(TRADE, 1, 2, 5), true),
        (posting(TRADE, 15, 0, 5), true),
        (posting(RATE, 4, 4, 250), false),
        (posting(CALL, 7, 7, 0), true),
        (posting(NET, 4, 4, 0), false),
        (house, false),
    ];
    for (other, fixed) in others {
        for (p, q) in [(&house, &other), (&other, &house)] {
            assert!(share(p, q), "{other:?}");
            assert_eq!(conflict(FIXED_PAIRS, p, q), fixed, "{other:?}");
            assert!(conflict(EVERY_PAIR, p, q), "{other:?}");
        }
    }
    assert!(conflict(FIXED_PAIRS | 0x8000, &house, &house), "3-3");
    assert!(conflict(
        FIXED_PAIRS | 0x8000,
        &house,
        &posting(NET, 4, 4, 0)
    ));
}

/// To share an account is to touch one and the same; 255 is none.
#[test]
fn accounts_touched() {
    let list = every_posting();
    for p in &list {
        let touched: Vec<u8> = (0..=255).filter(|&k| touches(p, k)).collect();
        let wanted = match (p.a, p.b) {
            (255, 255) => (0..16).collect(),
            (a, b) if a == b => vec![a],
            (a, b) => vec![a.min(b), a.max(b)],
        };
        assert_eq!(touched, wanted, "{p:?}");
        assert_eq!(nets_house(p), *p == HOUSE_NET);
        for q in &list {
            let both = (0..=255).any(|k| touches(p, k) && touches(q, k));
            assert_eq!(share(p, q), both, "{p:?} {q:?}");
        }
    }
}

#[test]
fn families() {
    let offers = [
        (0, 1, 2, 5),
        (1, 4, 4, 250),
        (2, 7, 7, 0),
        (3, 9, 9, 0),
        (3, 255, 255, 0),
        (0, 1, 3, 5),
        (3, 255, 255, 0),
    ];
    for (matrix, of_house, of_trade, of_rate) in [
        (FIXED_PAIRS, 0b0110101, 0b1010001, 0b0000010),
        (EVERY_PAIR, 0b1111111, 0b1110001, 0b1010010),
    ] {
        let mut board = Board::start(3, 1, matrix).0;
        for (kind, a, b, amount) in offers {
            board.offer(0, kind, a, b, amount, None).unwrap();
        }
        assert_eq!(board.family(4), low(of_house));
        assert_eq!(board.family(0), low(of_trade));
        assert_eq!(board.family(1), low(of_rate));
        assert!(has(board.family(6), 6));
    }
}

/// Figures with a position, a rate, a call and a settled sum on every account, the sums coming to 0.
fn any_figures(rng: &mut Prng) -> [i64; FIGURES] {
    let mut figures = [0; FIGURES];
    for _ in 0..60 {
        let (a, step) = (rng.below(16), rng.within(1, 15));
        let (a, b) = (a as u8, ((a + step) % 16) as u8);
        let amount = rng.within(1, 5000) as u32;
        let any = [
            posting(TRADE, a, b, amount),
            posting(TRADE, b, a, amount),
            posting(RATE, a, a, amount),
            posting(CALL, a, a, 0),
            posting(NET, a, a, 0),
        ];
        effect(&rng.pick(&any), &mut figures);
    }
    figures
}

fn after(figures: &[i64; FIGURES], postings: &[Posting]) -> [i64; FIGURES] {
    let mut figures = *figures;
    postings.iter().for_each(|p| effect(p, &mut figures));
    figures
}

fn sum(figures: &[i64; FIGURES]) -> i64 {
    let parts = figures.as_chunks::<4>().0;
    parts.iter().map(|k| k[POSITION] + k[SETTLED]).sum()
}

/// One NET instead of sixteen, in whatever order those come; a second one changes nothing more.
#[test]
fn nets_every_account() {
    let mut rng = Prng::new(51);
    for _ in 0..500 {
        let before = any_figures(&mut rng);
        let netted = after(&before, &[HOUSE_NET]);
        for (k, was) in netted.as_chunks::<4>().0.iter().zip(before.as_chunks().0) {
            let [position, rate, called, settled] = *was;
            assert_eq!(*k, [0, rate, called, settled + position]);
        }
        let mut sixteen: Vec<Posting> = (0..16).map(|k| posting(NET, k, k, 0)).collect();
        sixteen.rotate_left(rng.below(16) as usize);
        assert_eq!(netted, after(&before, &sixteen));
        assert_eq!(netted, after(&netted, &[HOUSE_NET]));
        assert_eq!((sum(&before), sum(&netted)), (0, 0));
    }
    assert_eq!(after(&[0; FIGURES], &[HOUSE_NET]), [0; FIGURES]);
}

/// The five fixed pairs stay: with these alone, what does not conflict with the NET of the whole house commutes with
/// it, and what conflicts does not on some figures.
#[test]
fn what_commutes() {
    let mut rng = Prng::new(52);
    let figures: Vec<[i64; FIGURES]> = (0..40).map(|_| any_figures(&mut rng)).collect();
    for p in every_posting() {
        let commutes = figures
            .iter()
            .all(|before| after(before, &[p, HOUSE_NET]) == after(before, &[HOUSE_NET, p]));
        assert_eq!(commutes, !conflict(FIXED_PAIRS, &p, &HOUSE_NET), "{p:?}");
    }
}

#[test]
fn the_books_of_a_board() {
    let mut board = start(3, 1);
    let offers = [
        (0, 15, 0, 1000),
        (0, 3, 0, 250),
        (1, 15, 15, 250),
        (2, 15, 15, 0),
        (3, 255, 255, 0),
    ];
    for (kind, a, b, amount) in offers {
        board.offer(1, kind, a, b, amount, None).unwrap();
        board.drain(DRAIN).unwrap();
    }
    let mut wanted = [0; FIGURES];
    wanted[SETTLED] = -1250;
    wanted[4 * 3 + SETTLED] = 250;
    wanted[4 * 15 + SETTLED] = 1000;
    wanted[4 * 15 + RATE_OF] = 250;
    wanted[4 * 15 + CALLED] = 25;
    for round in 0..2 {
        let mut all = [8; 3 * FIGURES];
        assert_eq!(no(board.books_of_all(&mut all)), 0);
        assert!(all.chunks(FIGURES).all(|site| site == wanted), "{round}");
        assert_eq!(board.offer(2, 3, 255, 255, 0, None), Ok(5 + round));
        board.drain(DRAIN).unwrap();
    }
    assert_eq!(sum(&wanted), 0);
    board.offer(0, 0, 15, 7, 40, None).unwrap();
    board.drain(DRAIN).unwrap();
    wanted[4 * 15 + POSITION] = 40;
    wanted[4 * 7 + POSITION] = -40;
    let mut lent = [8; FIGURES];
    board.books(2, &mut lent).unwrap();
    assert_eq!(lent, wanted, "a TRADE after it");
    check_agreement(&board);
}

/// TRADEs by sites 0 and 1 on accounts apart, and by site 2 the NET of the whole house.
fn year_end() -> Board {
    let mut board = start(3, 1);
    assert_eq!(board.offer(0, 0, 1, 2, 1000, None), Ok(0));
    assert_eq!(board.offer(1, 0, 3, 4, 50, None), Ok(1));
    assert_eq!(board.offer(2, 3, 255, 255, 0, None), Ok(2));
    board
}

/// Site 0 holds one TRADE and site 1 the other as the NET comes: its entry carries both, each from another THIRD.
#[test]
fn the_entry_carries_both_trades() {
    let mut board = year_end();
    for trade in 0..2 {
        (0..2).for_each(|s| receive(&mut board, FIRST, trade, trade, s));
        (0..2).for_each(|from| receive(&mut board, SECOND, trade, from, trade));
    }
    (0..3).for_each(|s| receive(&mut board, FIRST, 2, 2, s));
    let goods: Vec<u8> = board.flight.good[2][..3].to_vec();
    assert_eq!(goods, [0, 0, 0b111], "site 2 alone has seen no TRADE");
    for s in 0..2 {
        (0..2).for_each(|from| receive(&mut board, SECOND, 2, from, s));
        assert_eq!(board.flight.carried[2][s as usize], low(1 << s));
    }
    (0..2).for_each(|from| receive(&mut board, THIRD, 2, from, 2));
    assert_eq!((board.pool, board.entries[2]), (low(0b100), low(0b011)));
    board.order(2).unwrap();
    for s in 0..3 {
        board.read(s, None).unwrap();
        assert_eq!(board.sites[s as usize].record, [0, 1, 2]);
        let mut lent = [8; FIGURES];
        board.books(s, &mut lent).unwrap();
        let settled = lent.as_chunks::<4>().0.iter().map(|k| k[SETTLED]);
        assert!(settled.take(5).eq([0, 1000, -1000, 50, -50]));
        assert!(lent.as_chunks::<4>().0.iter().all(|k| k[POSITION] == 0));
    }
    assert_eq!(board.drain(DRAIN).unwrap().1, Ending::Quiet);
    check_quiet(&board);
    check_agreement(&board);
}

/// However such a run goes, all sites keep one order; the NET goes by DELIVER in some, by the log in others.
#[test]
fn every_completion_keeps_one_order() {
    let mut rng = Prng::new(53);
    let (mut logged, mut told, mut last) = (0, 0, 0);
    for _ in 0..2000 {
        let mut board = year_end();
        complete(&mut board, &mut rng, |_, _| true);
        check_quiet(&board);
        check_agreement(&board);
        logged += usize::from(board.log.contains(&2));
        told += usize::from(has(board.sites[0].told, 2));
        last += usize::from(board.sites[0].record[2] == 2);
        let net = |s: usize| board.sites[s].record.iter().position(|&m| m == 2);
        assert!(net(0) == net(1) && net(1) == net(2));
    }
    assert!(
        logged > 50 && told > 0 && last > 50,
        "{logged} {told} {last}"
    );
}

/// RATEs of accounts apart, NETs, and two NETs of the whole house do not conflict: the log is never used.
#[test]
fn without_conflict_the_log_is_never_used() {
    let mut board = start(3, 1);
    for (site, kind, a, amount) in [
        (0, 3, 255, 0),
        (1, 1, 4, 250),
        (2, 3, 4, 0),
        (0, 1, 5, 9),
        (1, 3, 255, 0),
    ] {
        board.offer(site, kind, a, a, amount, None).unwrap();
    }
    assert_eq!(board.drain(DRAIN), Ok((22 * 5, Ending::Quiet)));
    assert!(board.log.is_empty());
    assert!(board.sites[..3].iter().all(|s| s.record == [0, 1, 2, 3, 4]));
}
