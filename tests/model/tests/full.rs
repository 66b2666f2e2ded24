// Holds: boards up to the last posting: tables, records and logs of every size near an edge, and posting 255.
// Rests on: the model, common.

mod common;

use common::tally::{check_agreement, check_quiet};
use common::{no, receive, start, DRAIN};
use model::meaning::{differs, write};
use model::numbers::{site, DELIVERED, LOGGED, NUMBERS, OFFERED, READ};
use model::posting::{MAX_AMOUNT, POSITION};
use model::row::read_sound;
use model::set::{below, has, of, one};
use model::*;

const SIZES: [usize; 7] = [0, 1, 63, 64, 65, 255, 256];
/// Two postings in one word and in each two words.
const PAIRS: [(u64, u64); 12] = [
    (0, 1),
    (62, 63),
    (63, 64),
    (0, 64),
    (127, 128),
    (1, 129),
    (64, 191),
    (191, 192),
    (0, 192),
    (128, 255),
    (0, 255),
    (254, 255),
];

/// So many TRADEs, which do not conflict; the sites offer in turn.
fn trades(n: u64, f: u64, count: usize) -> Board {
    let mut board = start(n, f);
    for m in 0..count as u64 {
        let offered = board.offer(m % n, 0, 1, 2, MAX_AMOUNT, None);
        assert_eq!(offered.map(u64::from), Ok(m));
    }
    board
}

fn numbers(count: usize) -> Vec<u8> {
    (0..count).map(|m| m as u8).collect()
}

fn row_of(board: &Board) -> Vec<u64> {
    let mut row = vec![0; NUMBERS];
    write(board, &mut row);
    assert_eq!(differs(&row, board), None);
    assert_eq!(read_sound(&row).as_ref(), Ok(board));
    row
}

#[test]
fn tables_and_records() {
    for count in SIZES {
        let mut board = trades(3, 1, count);
        assert!(board.is_sound());
        assert_eq!(row_of(&board)[OFFERED], count as u64);
        let wanted = (22 * count as u64, Ending::Quiet);
        assert_eq!(board.drain(DRAIN), Ok(wanted));
        assert_eq!((board.postings.len(), board.log.len()), (count, 0));
        for site in &board.sites[..3] {
            assert_eq!(site.record, numbers(count));
            for set in [site.seen, site.held, site.stepped, site.told] {
                assert_eq!(set, below(count));
            }
        }
        assert_eq!(row_of(&board)[site(2, DELIVERED)], count as u64);
        let mut lent = [5; FIGURES];
        board.books(1, &mut lent).unwrap();
        assert_eq!(lent[4 + POSITION], 1_000_000_000 * count as i64);
        check_quiet(&board);
        check_agreement(&board);
    }
}

#[test]
fn the_257th_offer_is_refused() {
    for count in SIZES {
        let board = trades(3, 1, count);
        let number = if count == 256 { 10 } else { 0 };
        for (s, cut) in [(0, None), (1, None), (2, Some(0)), (2, Some(3))] {
            let mut next = board.clone();
            assert_eq!(no(next.offer(s, 3, 7, 7, 0, cut)), number);
            assert_eq!(next == board, number == 10);
            assert!(next.is_sound());
        }
        let mut next = board.clone();
        let other = if count == 256 { 10 } else { 15 };
        assert_eq!(no(next.offer(0, 0, 1, 2, 9, Some(4))), other);
        assert_eq!(next, board);
    }
    let mut board = trades(3, 0, 256);
    assert_eq!(no(board.offer(0, 0, 1, 2, 9, Some(0))), 10);
    board.drain(DRAIN).unwrap();
    assert_eq!(no(board.offer(0, 0, 1, 2, 9, None)), 10);
}

/// All 106 events of each of 256 postings, and not one fewer.
#[test]
fn the_longest_drain() {
    assert_eq!(DRAIN, POSTINGS as u64 * (2 * 7 * 7 + 7 + 1));
    for f in [0, 3] {
        let mut board = trades(7, f, 256);
        assert_eq!(board.drain(DRAIN - 1), Ok((DRAIN - 1, Ending::Spent)));
        assert!(!board.is_quiet());
        assert_eq!(board.drain(DRAIN), Ok((1, Ending::Quiet)));
        assert!(board.sites.iter().all(|s| s.record == numbers(256)));
        check_quiet(&board);
    }
}

/// TRADEs up to y, but x is a RATE by site 0 and y a CALL by site 1, of one account.
fn pair(x: u64, y: u64) -> Board {
    let mut board = start(3, 1);
    for m in 0..=y {
        let offered = match m {
            _ if m == x => board.offer(0, 1, 4, 4, 250, None),
            _ if m == y => board.offer(1, 2, 4, 4, 0, None),
            _ => board.offer(2, 0, 1, 2, 9, None),
        };
        assert_eq!(offered, Ok(m as u8));
    }
    board
}

/// Receives all that is in flight of two postings.
fn finish(board: &mut Board, x: u64, y: u64) {
    loop {
        let messages = board.flight.messages(board.up());
        let mut of_pair = messages
            .iter()
            .filter(|m| [x, y].contains(&m.posting.into()));
        let Some(&m) = of_pair.next() else { return };
        let (form, posting) = (usize::from(m.form), m.posting.into());
        receive(board, form, posting, m.from.into(), m.to.into());
    }
}

/// The case M9 with other numbers: both postings are ordered and read, the higher one first.
#[test]
fn ordered_and_read() {
    for (x, y) in PAIRS {
        let mut board = pair(x, y);
        for (m, owner, to) in [
            (x, 0, 0),
            (y, 1, 1),
            (x, 0, 2),
            (y, 1, 0),
            (x, 0, 1),
            (y, 1, 2),
        ] {
            receive(&mut board, FIRST, m, owner, to);
        }
        finish(&mut board, x, y);
        assert_eq!(board.pool, of([x as usize, y as usize]));
        for m in [y, x] {
            assert_eq!(board.entries[m as usize], Set::EMPTY);
            assert_eq!(no(board.order(m)), 0);
            assert_eq!(no(board.order(m)), 12);
        }
        for s in 0..3 {
            (0..2).for_each(|_| assert_eq!(no(board.read(s, None)), 0));
            assert_eq!(no(board.read(s, None)), 13);
            assert_eq!(board.sites[s as usize].record, [y as u8, x as u8]);
        }
        row_of(&board);
        assert_eq!(board.drain(DRAIN).unwrap().1, Ending::Quiet);
        check_quiet(&board);
    }
}

/// The case M10 with other numbers: x goes by DELIVER, and the entry of y carries it.
#[test]
fn delivered_and_carried() {
    for (x, y) in PAIRS {
        let mut board = pair(x, y);
        let (low, high) = (x as usize, y as usize);
        assert_eq!(board.family(high), of([low, high]));
        receive(&mut board, FIRST, x, 0, 0);
        receive(&mut board, FIRST, y, 1, 1);
        receive(&mut board, FIRST, x, 0, 2);
        for to in [0, 2] {
            receive(&mut board, SECOND, x, 0, to);
            receive(&mut board, SECOND, x, 2, to);
        }
        receive(&mut board, THIRD, x, 0, 0);
        receive(&mut board, THIRD, x, 2, 0);
        assert_eq!(board.flight.to[DELIVER][low][0], 0b111);
        receive(&mut board, FIRST, y, 1, 0);
        assert_eq!(board.flight.good[high][0], 0, "x was seen before y");
        finish(&mut board, x, y);
        assert_eq!(board.entries[high], one(low));
        assert_eq!(no(board.order(y)), 0);
        for s in 0..3 {
            assert_eq!(no(board.read(s, None)), 0);
            let at = &board.sites[s as usize];
            assert_eq!(at.record, [x as u8, y as u8]);
            assert!(has(at.told, low) && !has(at.told, high));
        }
        row_of(&board);
    }
}

/// RATEs of one account, all seen before any is stepped: every one goes by the log, so that counts and places in it
/// reach 256.
#[test]
fn a_log_of_all_postings() {
    let mut board = start(3, 1);
    for m in 0..256 {
        let offered = board.offer(m % 3, 1, 4, 4, m, None);
        assert_eq!(offered, Ok(m as u8));
    }
    while let Some(call @ Call::Receive { .. }) = board.next_event() {
        board.apply_on_sound(&call).unwrap();
    }
    assert_eq!(board.pool, Set::ALL);
    row_of(&board);
    (0..256).for_each(|m| assert_eq!(no(board.order(255 - m)), 0));
    assert_eq!(board.drain(DRAIN), Ok((3 * 256, Ending::Quiet)));
    let rising = numbers(256);
    assert!(board.log.iter().rev().eq(&rising));
    for s in 0..3 {
        assert_eq!(
            (board.sites[s].place, board.sites[s].record.len()),
            (256, 256)
        );
        assert_eq!(no(board.read(s as u64, None)), 13);
    }
    let row = row_of(&board);
    assert_eq!(
        [row[LOGGED], row[site(0, READ)], row[site(2, READ)]],
        [256; 3]
    );
    check_quiet(&board);
    board.sites[0].place = 257;
    assert_eq!(board.cause(), Some(Cause::PastLog));
}

/// Sets with members in each of the four words, joined from three THIRDs and read in rising number.
#[test]
fn a_carried_set_over_all_words() {
    let mut board = trades(3, 0, 256);
    let sets = [of([200, 0, 64]), of([63, 127, 192, 0]), of([128, 254, 191])];
    for (from, set) in sets.into_iter().enumerate() {
        board.flight.send_third(255, from, 0, set);
    }
    assert!(board.is_sound());
    row_of(&board);
    (0..3).for_each(|from| receive(&mut board, THIRD, 255, from, 0));
    assert_eq!(board.pool, one(255));
    assert_eq!(board.entries[255], sets[0] | sets[1] | sets[2]);
    row_of(&board);
    board.sites[1].record = vec![192, 3];
    board.order(255).unwrap();
    (0..2).for_each(|s| board.read(s, None).unwrap());
    let rising = [0, 63, 64, 127, 128, 191, 192, 200, 254, 255];
    assert_eq!(board.sites[0].record, rising);
    let wanted = [192, 3, 0, 63, 64, 127, 128, 191, 200, 254, 255];
    assert_eq!(board.sites[1].record, wanted);
}
