// Holds: the books: their arithmetic against exact wide numbers, slices, refusals, sums to zero.
// Rests on: the model, common.

mod common;

use common::{no, start, DRAIN};
use model::posting::{CALLED, MAX_AMOUNT, NET, POSITION, RATE_OF, SETTLED};
use model::prng::Prng;
use model::*;

/// The table's effects in 128-bit numbers, rounding by quotient and rest.
fn wide_effect(p: &Posting, figures: &mut [[i128; 4]; ACCOUNTS]) {
    let (a, b, amount) = (p.a as usize, p.b as usize, i128::from(p.amount));
    match p.kind {
        0 => {
            figures[a][0] += amount;
            figures[b][0] -= amount;
        }
        1 => figures[a][1] = amount,
        2 => {
            let product = figures[a][0].max(0) * figures[a][1];
            let rest = i128::from(product % 10_000 != 0);
            figures[a][2] += product / 10_000 + rest;
        }
        _ => {
            for (k, figures) in figures.iter_mut().enumerate() {
                if k == a || (p.a, p.b) == (255, 255) {
                    figures[3] += figures[0];
                    figures[0] = 0;
                }
            }
        }
    }
}

/// One of twenty is a NET of the whole house.
fn any_posting(rng: &mut Prng, accounts: u64) -> Posting {
    if rng.percent(5) {
        return HOUSE_NET;
    }
    let kind = rng.below(4) as u8;
    let a = rng.below(accounts) as u8;
    let b = (u64::from(a) + rng.within(1, accounts - 1)) % accounts;
    let amount = match kind {
        0 => {
            let any = rng.within(1, MAX_AMOUNT);
            rng.pick(&[any, 1, MAX_AMOUNT, any % 20_000 + 1])
        }
        1 => rng.within(0, 10_000),
        _ => 0,
    };
    Posting {
        owner: 0,
        kind,
        a,
        b: if kind == 0 { b as u8 } else { a },
        amount: amount as u32,
    }
}

fn sum_to_zero(figures: &[i64]) -> bool {
    let parts = figures.as_chunks::<4>().0;
    parts.iter().map(|k| k[POSITION] + k[SETTLED]).sum::<i64>() == 0
}

#[test]
fn effects_are_exact() {
    let mut rng = Prng::new(5);
    for _ in 0..3000 {
        let mut figures = [0; FIGURES];
        let mut wide = [[0; 4]; ACCOUNTS];
        let accounts = rng.pick(&[2, 3, 16]);
        for _ in 0..POSTINGS {
            let p = any_posting(&mut rng, accounts);
            effect(&p, &mut figures);
            wide_effect(&p, &mut wide);
            assert!(sum_to_zero(&figures));
            assert!(figures
                .iter()
                .map(|&x| i128::from(x))
                .eq(wide.into_iter().flatten()));
        }
    }
}

/// The largest figures a board can give: all the postings pile up on one account, that of the buyer or the seller.
#[test]
fn the_largest_books() {
    for (account, called) in [(3, 254_000_000_000), (7, 0)] {
        let mut board = start(3, 0);
        for _ in 0..254 {
            board.offer(0, 0, 3, 7, MAX_AMOUNT, None).unwrap();
        }
        board.drain(DRAIN).unwrap();
        board.offer(1, 1, account, account, 10_000, None).unwrap();
        board.drain(DRAIN).unwrap();
        board.offer(2, 2, account, account, 0, None).unwrap();
        board.drain(DRAIN).unwrap();
        let mut wanted = [0; 64];
        wanted[4 * 3 + POSITION] = 254_000_000_000;
        wanted[4 * 7 + POSITION] = -254_000_000_000;
        wanted[4 * account as usize + RATE_OF] = 10_000;
        wanted[4 * account as usize + CALLED] = called;
        let mut lent = [5; 64];
        board.books(2, &mut lent).unwrap();
        assert_eq!(lent, wanted, "{account}");
        assert!(sum_to_zero(&lent));
    }
}

#[test]
fn where_the_figures_stand() {
    let mut board = start(3, 1);
    let offers = [(0, 9, 4, 1001), (1, 9, 9, 250), (2, 9, 9, 0), (3, 9, 9, 0)];
    for (kind, a, b, amount) in offers {
        board.offer(1, kind, a, b, amount, None).unwrap();
        board.drain(DRAIN).unwrap();
    }
    let mut wanted = [0; 64];
    wanted[4 * 4 + POSITION] = -1001;
    wanted[4 * 9 + RATE_OF] = 250;
    wanted[4 * 9 + CALLED] = 26;
    wanted[4 * 9 + SETTLED] = 1001;
    let mut lent = [8; 70];
    assert_eq!(no(board.books(0, &mut lent)), 0);
    assert_eq!(lent[..64], wanted);
    assert_eq!(lent[64..], [8; 6]);
    assert_eq!(no(board.books(0, &mut lent[..64])), 0);
    let mut all = [8; 64 * 4];
    board.crash(2).unwrap();
    assert_eq!(no(board.books_of_all(&mut all)), 0);
    assert!((0..3).all(|s| all[64 * s..64 * (s + 1)] == wanted));
    assert_eq!(all[64 * 3..], [8; 64]);
    assert_eq!(board.postings[3].kind, NET);
}

#[test]
fn refusals_leave_the_slice() {
    let board = start(3, 1);
    let mut lent = [8; 64 * 3 - 1];
    assert_eq!(no(board.books(3, &mut lent)), 7);
    assert_eq!(no(board.books(3, &mut lent[..63])), 7);
    assert_eq!(no(board.books(u64::MAX, &mut lent)), 7);
    assert_eq!(no(board.books(2, &mut lent[..63])), 16);
    assert_eq!(no(board.books(2, &mut [])), 16);
    assert_eq!(no(board.books_of_all(&mut lent)), 16);
    assert_eq!(no(board.books_of_all(&mut lent[..64])), 16);
    assert_eq!(lent, [8; 64 * 3 - 1]);
    assert_eq!(no(board.books(2, &mut lent)), 0);
    assert_eq!(lent[..64], [0; 64]);
    assert_eq!(lent[64..], [8; 127]);
}
