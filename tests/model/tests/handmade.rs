// Holds: steps on sound boards that no run reaches, where only the plain words of the rules decide.
// Rests on: the model, common.

mod common;

use common::{low, no, receive, start};
use model::set::one;
use model::*;

/// A RATE by site 0 and a CALL by site 1 on one account; their FIRSTs are in flight.
fn two() -> Board {
    let mut board = start(3, 1);
    board.offer(0, 1, 4, 4, 250, None).unwrap();
    board.offer(1, 2, 4, 4, 0, None).unwrap();
    board
}

#[test]
fn a_second_sent_again_replaces_its_like() {
    let mut board = two();
    receive(&mut board, FIRST, 0, 0, 2);
    assert_eq!(board.flight.good[0][2], 0b111);
    receive(&mut board, SECOND, 0, 2, 1);
    receive(&mut board, FIRST, 1, 1, 2);
    board.flight.send(FIRST, 0, 1, 0b100);
    receive(&mut board, FIRST, 0, 1, 2);
    assert_eq!(board.flight.to[SECOND][0][2], 0b111);
    assert_eq!(board.flight.good[0][2], 0);
}

#[test]
fn a_cut_resend_replaces_only_what_went_out() {
    let mut board = two();
    receive(&mut board, FIRST, 0, 0, 2);
    receive(&mut board, FIRST, 1, 1, 2);
    board.flight.send(FIRST, 0, 1, 0b100);
    assert_eq!(no(board.receive(0, 0, 1, 2, Some(2))), 0);
    assert_eq!(board.flight.to[SECOND][0][2], 0b111);
    assert_eq!(board.flight.good[0][2], 0b100);
}

#[test]
fn a_third_sent_again_replaces_its_like() {
    let mut board = two();
    (0..3).for_each(|s| receive(&mut board, FIRST, 0, 0, s));
    board.flight.send_third(0, 1, 0, low(0b10));
    receive(&mut board, SECOND, 0, 0, 1);
    receive(&mut board, SECOND, 0, 2, 1);
    assert_eq!(board.flight.to[THIRD][0][1], 0b001);
    assert_eq!(board.flight.carried[0][1], low(0b01));
}

#[test]
fn later_seconds_and_thirds_have_no_effect() {
    let mut board = two();
    (0..3).for_each(|s| receive(&mut board, FIRST, 0, 0, s));
    board.sites[1].seconds[0].heard = 0b110;
    board.sites[2].stepped = one(0);
    board.flight.send_third(0, 2, 0, low(0b1));
    board.sites[0].thirds[0].heard = 0b011;
    let before = board.sites.clone();
    receive(&mut board, SECOND, 0, 0, 1);
    receive(&mut board, SECOND, 0, 0, 2);
    receive(&mut board, SECOND, 0, 1, 1);
    receive(&mut board, THIRD, 0, 2, 0);
    assert_eq!(board.sites, before);
    assert_eq!(board.pool, Set::EMPTY);
}

#[test]
fn goods_of_sites_not_heard_do_not_count() {
    let mut board = two();
    (0..3).for_each(|s| receive(&mut board, FIRST, 0, 0, s));
    board.sites[1].seen = Set::EMPTY;
    board.sites[1].seconds[0].good = 0b100;
    board.flight.send_second(0, 1, 0b010, false);
    receive(&mut board, SECOND, 0, 0, 1);
    receive(&mut board, SECOND, 0, 1, 1);
    assert_eq!(board.sites[1].seen, low(1));
    assert_eq!(board.sites[1].held, Set::EMPTY);
    assert_eq!(board.flight.carried[0][1], Set::EMPTY);
    assert_eq!(board.flight.to[THIRD][0][1], 0b001);
}

#[test]
fn only_the_first_deliver_acts() {
    let mut board = two();
    board.flight.send(DELIVER, 0, 0, 0b110);
    board.sites[1].told = one(0);
    receive(&mut board, DELIVER, 0, 0, 1);
    assert!(board.sites[1].record.is_empty());
    assert_eq!(board.flight.to[DELIVER][0][1], 0);
    board.sites[2].record = vec![1, 0];
    receive(&mut board, DELIVER, 0, 0, 2);
    assert_eq!(board.sites[2].record, [1, 0]);
    assert_eq!(board.flight.to[DELIVER][0][2], 0b011);
}

#[test]
fn a_set_with_its_own_posting_keeps_rising_number() {
    let mut board = two();
    board.offer(2, 3, 4, 4, 0, None).unwrap();
    board.sites[1].finished = one(1);
    board.pool = one(1);
    board.entries[1] = low(0b110);
    board.sites[2].record = vec![2];
    board.order(1).unwrap();
    board.read(0, None).unwrap();
    board.read(2, None).unwrap();
    assert_eq!(board.sites[0].record, [1, 2]);
    assert_eq!(board.sites[2].record, [2, 1]);
}

#[test]
fn more_down_than_f_is_sound_and_stays() {
    let mut board = two();
    board.down = 0b110;
    assert_eq!(no(board.crash(0)), 14);
    assert_eq!(no(board.crash(1)), 8);
    assert_eq!(no(board.receive(0, 0, 0, 0, Some(0))), 14);
    board.down = 0b111;
    board.sites[1].finished = one(1);
    board.pool = one(1);
    assert_eq!(board.drain(9), Ok((1, Ending::Quiet)));
    assert_eq!(board.log, [1]);
}
